//! A change of a load on the handheld is a fresh plan of the edited site, for every small site; and the desk examples.

mod common;

use common::{p1, site, small_site, table};
use second::answer::{refuse, Outcome};
use second::handheld::change_load;
use second::planner::plan;
use second::site::Site;

/// The plan of a site, or bytes of 9 where it has none.
fn planned(site: &Site) -> Vec<u8> {
    let mut table = vec![9; site.table_len()];
    match plan(site, &mut table) {
        Ok(()) => table,
        Err(_) => vec![9; site.table_len()],
    }
}

/// What a change answers, and the record and the table that it leaves.
fn changed(site: &Site, cell: usize, load: u16, table: &[u8]) -> (Outcome<()>, Site, Vec<u8>) {
    let (mut record, mut left) = (*site, table.to_vec());
    let said = change_load(&mut record, cell, load, &mut left);
    (said, record, left)
}

#[test]
fn the_desk_examples() {
    let p1 = p1(&[5, 1, 4]);
    let (said, record, left) = changed(&p1, 2, 0, &planned(&p1));
    assert_eq!((said, record.loads[1], left), (Ok(()), 0, table("111110 222220 111100")));
    let (said, record, left) = changed(&p1, 2, 2, &planned(&p1));
    assert_eq!((said, record.loads[1], left), (refuse(5, &[2, 1]), 2, vec![0; 18]));
    let p6 = site(2, 1, &[1, 1, 1, 1, 1], &[(1, 4), (2, 3), (3, 5), (4, 5)]);
    assert_eq!(changed(&p6, 2, 0, &planned(&p6)).0, refuse(5, &[5, 1]));
}

/// Every change of every site of four cells on two positions, and a second change after it.
#[test]
fn a_fresh_plan_of_the_edited_site() {
    for clashes in 0..64 {
        for loads in 0..81 {
            let before = small_site(4, 2, clashes, loads);
            let table = planned(&before);
            let has_plan = plan(&before, &mut vec![0; 8]).is_ok();
            for cell in 1..=4 {
                for load in 0..3 {
                    let (said, record, left) = changed(&before, cell, load, &table);
                    if !has_plan {
                        assert_eq!((said, record, left), (refuse(26, &[]), before, table.clone()));
                        continue;
                    }
                    let edited = before.with_load(cell, load).unwrap();
                    let mut fresh = vec![7; 8];
                    assert_eq!((said, record), (plan(&edited, &mut fresh), edited));
                    assert_eq!(left, fresh);
                    if said.is_ok() {
                        assert_eq!(left[..2 * (cell - 1)], table[..2 * (cell - 1)]);
                    }
                    let next = changed(&record, 5 - cell, 1, &left).0;
                    assert_eq!(next == refuse(26, &[]), said.is_err());
                }
            }
        }
    }
}

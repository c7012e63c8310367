//! The tables of the desk examples, mended.

mod common;

use common::{p1, p4, table};
use second::answer::{refuse, Outcome};
use second::checker::check;
use second::mender::mend;
use second::site::Site;

/// The mended table and the list of changes.
fn mended(site: &Site, rows: &str) -> Outcome<(Vec<u8>, Vec<u16>)> {
    let (was, mut list) = (table(rows), vec![0; 4 * site.table_len()]);
    let mut now = was.clone();
    match mend(site, &mut now, &mut list) {
        Ok(count) => {
            assert_eq!(check(site, &now), Ok(()), "a mended table is valid");
            list.truncate(4 * count);
            Ok((now, list))
        }
        Err(refusal) => {
            assert!(now == was && list.iter().all(|&number| number == 0), "a refusal writes nothing");
            Err(refusal)
        }
    }
}

#[test]
fn valid_tables_stay() {
    for (site, rows) in [
        (p1(&[5, 1, 4]), "111110 222221 111102"),
        (p1(&[5, 1, 4]), "111110 000001 111100"),
        (p1(&[5, 1, 4]), "011111 100000 011110"),
        (p4(), "10 01 01 10"),
    ] {
        assert_eq!(mended(&site, rows), Ok((table(rows), vec![])));
    }
}

#[test]
fn p8_has_one_reservation_too_many() {
    let mended = mended(&p1(&[5, 1, 4]), "111110 000001 111110");
    assert_eq!(mended, Ok((table("111110 000001 111100"), vec![3, 4, 1, 0])));
}

#[test]
fn p9_has_a_clash() {
    let mended = mended(&p1(&[5, 1, 4]), "111110 000001 001111");
    assert_eq!(mended, Ok((table("111110 000001 101110"), vec![3, 0, 0, 1, 3, 5, 1, 0])));
}

#[test]
fn marks_of_another_planner_stay() {
    let mended = mended(&p1(&[5, 1, 4]), "111122 222222 333222");
    let list = vec![1, 4, 0, 1, 2, 5, 0, 1, 3, 0, 0, 1, 3, 1, 0, 1, 3, 2, 0, 1, 3, 3, 0, 1];
    assert_eq!(mended, Ok((table("111112 222221 111122"), list)));
}

#[test]
fn p2_and_p4_have_no_room() {
    assert_eq!(mended(&p1(&[5, 2, 4]), "111110 000001 111110"), refuse(5, &[2, 1]));
    assert_eq!(mended(&p4(), "00 00 00 00"), refuse(5, &[4, 1]));
}

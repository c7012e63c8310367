//! The desk examples, searched, with their tries; and the search's limits.

mod common;

use common::{p1, p4, site, small_site, table};
use second::answer::{refuse, Outcome};
use second::checker::check;
use second::planner::plan;
use second::search::{search, End};
use second::site::Site;

/// The end, the tries, and the table.
fn sought(site: &Site, limit: u64) -> Outcome<(End, u64, Vec<u8>)> {
    let mut table = vec![9; site.table_len()];
    search(site, limit, &mut table).map(|(end, tries)| (end, tries, table))
}

#[test]
fn where_greedy_plans() {
    assert_eq!(sought(&p1(&[5, 1, 4]), 15), Ok((End::Plan, 15, table("111110 000001 111100"))));
}

#[test]
fn where_greedy_gives_up() {
    assert_eq!(sought(&p4(), 10), Ok((End::Plan, 10, table("10 01 01 10"))));
    let p7 = site(2, 1, &[1, 0, 1, 1, 1], &[(1, 4), (2, 3), (3, 5), (4, 5)]);
    assert_eq!(sought(&p7, 10), Ok((End::Plan, 10, table("10 00 01 01 10"))));
}

#[test]
fn none_exists() {
    assert_eq!(sought(&p1(&[5, 2, 4]), u64::MAX), Ok((End::NoneExists, 113, vec![0; 18])));
    let three = site(2, 1, &[1, 1, 1], &[(1, 2), (2, 3), (1, 3)]);
    assert_eq!(sought(&three, 10), Ok((End::NoneExists, 10, vec![0; 6])));
}

#[test]
fn the_limit_is_met_one_try_below() {
    for limit in 0..10 {
        assert_eq!(sought(&p4(), limit), Ok((End::LimitMet, limit, vec![0; 8])));
    }
}

#[test]
fn no_fragments_no_tries() {
    assert_eq!(sought(&p1(&[0, 0, 0]), 0), Ok((End::Plan, 0, vec![0; 18])));
}

#[test]
fn blocked_positions_cost_no_try() {
    let mut site = site(4, 1, &[2, 1], &[(1, 2)]);
    site.blocked[0] = 1 << 1;
    assert_eq!(sought(&site, 5), Ok((End::Plan, 5, table("1010 0001"))));
    site.blocked[0] = 15;
    assert_eq!(sought(&site, 0), Ok((End::NoneExists, 0, vec![0; 8])));
}

#[test]
fn too_many() {
    for (loads, slots, fits) in [([24, 0], 64, true), ([12, 13], 64, false), ([1, 1], 65, false)] {
        let site = site(slots, 1, &loads, &[]);
        assert_eq!(sought(&site, 0).is_ok(), fits);
        if !fits {
            let mut table = vec![9; site.table_len()];
            assert_eq!(search(&site, 7, &mut table), refuse(25, &[]));
            assert!(table.iter().all(|&byte| byte == 9), "nothing is written");
            assert_eq!(search(&site, 7, &mut table[1..]), refuse(4, &[]));
        }
    }
}

/// A plan is valid, greedy's own where greedy plans; and "none exists" is right, by the search's own limit and by greedy.
#[test]
fn small_sites() {
    for clashes in 0..64 {
        for loads in 0..81 {
            let site = small_site(4, 3, clashes, loads);
            let mut greedy = vec![0; site.table_len()];
            let planned = plan(&site, &mut greedy).is_ok();
            let (end, tries, table) = sought(&site, u64::MAX).unwrap();
            assert_eq!(end == End::Plan, check(&site, &table).is_ok());
            if planned {
                assert!(greedy.iter().zip(&table).all(|(&g, &s)| (g == 1) == (s == 1)));
            }
            assert_eq!(sought(&site, tries), Ok((end, tries, table)));
            if tries > 0 {
                assert_eq!(sought(&site, tries - 1).unwrap().0, End::LimitMet);
            }
        }
    }
}

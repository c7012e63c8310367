//! The desk examples of docs/RULES.md, each with the verdicts and the plan or check given there.

mod common;

use common::{p1, p4, site, table};
use second::answer::{refuse, Outcome};
use second::checker::check;
use second::judge::{chain, load_test};
use second::planner::plan;
use second::site::{set_of, Site};

fn planned(site: &Site) -> Outcome<Vec<u8>> {
    let mut table = vec![9; site.table_len()];
    match plan(site, &mut table) {
        Ok(()) => Ok(table),
        Err(refusal) => {
            assert!(table.iter().all(|&byte| byte == 0), "refusal 5 leaves the first IN bytes 0");
            Err(refusal)
        }
    }
}

fn p6(loads: &[u16]) -> Site {
    site(2, 1, loads, &[(1, 4), (2, 3), (3, 5), (4, 5)])
}

fn alone(load: u16) -> Site {
    site(1, 1, &[load], &[])
}

#[test]
fn p1_is_planned() {
    let site = p1(&[5, 1, 4]);
    assert_eq!(planned(&site), Ok(table("111110 222221 111102")));
    assert_eq!(check(&site, &table("111110 222221 111102")), Ok(()));
    assert_eq!(load_test(&site), Ok(None));
    assert_eq!(chain(&site), Ok(None));
}

#[test]
fn p1_with_a_spare_cell_is_as_p1() {
    let site = site(3, 2, &[5, 1, 4, 0], &[(2, 1), (2, 3), (1, 4)]);
    assert_eq!(planned(&site), Ok(table("111110 222221 111102 222220")));
    assert_eq!(load_test(&site), Ok(None));
    assert_eq!(chain(&site), Ok(None));
}

#[test]
fn a_spare_cell_is_never_over() {
    let site = site(2, 1, &[2, 1, 0], &[(1, 3), (2, 3)]);
    assert_eq!(planned(&site), Ok(table("11 10 22")));
    assert_eq!(load_test(&site), Ok(None));
    assert_eq!(chain(&site), Ok(None));
}

#[test]
fn a_spare_cell_is_no_part_of_a_triple() {
    let clashes = [(1, 3), (2, 3)];
    assert_eq!(chain(&site(2, 1, &[1, 1, 1], &clashes)), Ok(Some((1, 2, 3))));
    for loads in [[0, 1, 1], [1, 0, 1], [1, 1, 0], [0, 0, 0]] {
        assert_eq!(chain(&site(2, 1, &loads, &clashes)), Ok(None));
    }
    assert_eq!(chain(&p6(&[1, 0, 1, 1, 1])), Ok(Some((1, 3, 4))));
}

#[test]
fn p2_is_over() {
    let site = p1(&[5, 2, 4]);
    assert_eq!(load_test(&site), Ok(Some((2, 1))));
    assert_eq!(planned(&site), refuse(5, &[2, 1]));
}

/// P1 has 6 positions; without position 0 cell 1 takes the other 5, and cell 2, which clashes with it, has none left.
#[test]
fn p1_with_position_0_blocked_is_over() {
    let site = Site { blocked: set_of(0..1), ..p1(&[5, 1, 4]) };
    assert_eq!(load_test(&site), Ok(Some((2, 1))));
    assert_eq!(chain(&site), Ok(None));
    assert_eq!(planned(&site), refuse(5, &[2, 1]));
    // With one fragment less in cell 1 there is room: cell 2 takes position 5, and cell 3 takes 1 to 4.
    let less = site.with_load(1, 4).unwrap();
    assert_eq!(load_test(&less), Ok(None));
    assert_eq!(planned(&less), Ok(table("011110 022221 011112")));
    assert_eq!(check(&less, &table("011110 022221 011112")), Ok(()));
}

#[test]
fn p3_is_planned_though_over_and_not_chained() {
    let site = site(2, 1, &[1, 1, 1], &[(1, 3), (2, 3)]);
    assert_eq!(planned(&site), Ok(table("10 10 21")));
    assert_eq!(load_test(&site), Ok(Some((3, 1))));
    assert_eq!(chain(&site), Ok(Some((1, 2, 3))));
}

#[test]
fn p4_and_p5_greedy_fails_where_a_table_exists() {
    assert_eq!(planned(&p4()), refuse(5, &[4, 1]));
    assert_eq!(check(&p4(), &table("10 01 01 10")), Ok(()));
}

#[test]
fn p6_and_p7_less_load_does_not_help() {
    let rows = planned(&p6(&[1, 1, 1, 1, 1])).unwrap();
    assert_eq!(rows[8..], [1, 2]);
    assert_eq!(planned(&p6(&[1, 0, 1, 1, 1])), refuse(5, &[5, 1]));
}

#[test]
fn p8_and_p9_are_refused_by_the_checker() {
    let site = p1(&[5, 1, 4]);
    assert_eq!(check(&site, &table("111110 000001 111110")), refuse(7, &[3, 5]));
    assert_eq!(check(&site, &table("111110 000001 001111")), refuse(6, &[5, 2, 3]));
}

#[test]
fn p10_to_p12_one_cell() {
    assert_eq!(planned(&alone(0)), Ok(table("0")));
    assert_eq!(planned(&alone(1)), Ok(table("1")));
    assert_eq!(planned(&alone(2)), refuse(5, &[1, 1]));
}

#[test]
fn tables_at_the_limit() {
    let largest = Site::sized(32, 128, 16);
    let mut table = vec![7; 65_537];
    assert_eq!(plan(&largest, &mut table[..65_535]), refuse(4, &[]));
    assert!(table.iter().all(|&byte| byte == 7));
    assert_eq!(plan(&largest, &mut table), Ok(()));
    assert_eq!(table[65_535..], [0, 7]);
    assert_eq!(check(&largest, &table[..65_535]), refuse(4, &[]));
    assert_eq!(check(&largest, &table[..65_536]), Ok(()));
}

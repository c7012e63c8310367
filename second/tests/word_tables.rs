//! The desk examples in the second table form, one word for each position.

mod common;

use common::{p1, p4, table};
use second::answer::refuse;
use second::checker::check;
use second::planner::plan;
use second::site::Site;
use second::words::{check_words, plan_words, to_bytes, to_words};

/// The words of a table, from the form's own sentence.
fn words(site: &Site, table: &[u8]) -> Vec<u32> {
    let n = site.positions();
    (0..n).map(|k| (0..site.count()).map(|i| ((table[i * n + k] == 1) as u32) << i).sum()).collect()
}

#[test]
fn p1_is_planned() {
    let site = p1(&[5, 1, 4]);
    let mut planned = [77; 7];
    assert_eq!(plan_words(&site, &mut planned), Ok(()));
    assert_eq!(planned, [0b101, 0b101, 0b101, 0b101, 0b001, 0b010, 77]);
    assert_eq!(check_words(&site, &planned), Ok(()));
}

#[test]
fn p2_and_p4_have_no_room() {
    for (site, cell) in [(p1(&[5, 2, 4]), 2), (p4(), 4)] {
        let mut planned = [77; 7];
        assert_eq!(plan_words(&site, &mut planned), refuse(5, &[cell, 1]));
        assert!(planned[..site.positions()].iter().all(|&word| word == 0));
        assert!(planned[site.positions()..].iter().all(|&word| word == 77));
    }
}

#[test]
fn p5_p8_and_p9_are_checked_alike() {
    for (site, rows) in [
        (p4(), "10 01 01 10"),
        (p1(&[5, 1, 4]), "111110 000001 111110"),
        (p1(&[5, 1, 4]), "111110 000001 001111"),
        (p1(&[5, 1, 4]), "111110 222221 111102"),
    ] {
        let table = table(rows);
        assert_eq!(check_words(&site, &words(&site, &table)), check(&site, &table));
    }
    assert_eq!(check_words(&p4(), &[0b1001, 0b0110]), Ok(()));
}

#[test]
fn there_and_back() {
    let site = p1(&[5, 1, 4]);
    let mut planned = vec![9; 18];
    plan(&site, &mut planned).unwrap();
    let (mut form, mut back) = ([77; 6], vec![9; 19]);
    assert_eq!(to_words(&site, &planned, &mut form), Ok(()));
    assert_eq!(form.to_vec(), words(&site, &planned));
    assert_eq!(to_bytes(&site, &form, &mut back), Ok(()));
    assert_eq!(back[..18], table("111110 000001 111100"));
    assert_eq!(back[18], 9);
}

//! The two rules for the air: who clashes under each, the laws between them, what every call makes of the clashes, the
//! record of kind 5 byte by byte, and what a reader of before the rules answers.

mod common;

use common::{p1, site, table};
use second::admit::{admit, Flow};
use second::answer::refuse;
use second::checker::check;
use second::files::{read_plan, read_site, write_plan, write_site};
use second::heaviest::heaviest;
use second::judge::{chain, least, load_test};
use second::listing::listing;
use second::mender::mend;
use second::old_reader::{read_before_blocked, read_before_rules};
use second::planner::plan;
use second::site::{set_of, Site};
use second::words::{check_words, plan_words};
use std::path::Path;

fn samples() -> Vec<(String, Vec<u8>)> {
    let dir = Path::new(env!("CARGO_MANIFEST_DIR")).join("../samples");
    let paths = std::fs::read_dir(dir).unwrap().map(|entry| entry.unwrap().path());
    let house = paths.filter(|path| path.extension().is_some_and(|end| end == "site" || end == "plan"));
    house.map(|path| (path.file_name().unwrap().to_str().unwrap().into(), std::fs::read(path).unwrap())).collect()
}

fn sample(name: &str) -> Vec<u8> {
    samples().into_iter().find(|(sample, _)| sample == name).unwrap().1
}

fn under(rule: u16, site: Site) -> Site {
    Site { rule, ..site }
}

/// The site of docs/RULES.md that stands there under both rules.
fn edge(rule: u16) -> Site {
    under(rule, site(4, 2, &[4, 3, 0, 3, 2], &[(1, 2), (2, 4), (5, 4)]))
}

fn clashes(site: &Site) -> Vec<(usize, usize)> {
    let pairs = (1..=site.count()).flat_map(|a| (a + 1..=site.count()).map(move |b| (a, b)));
    pairs.filter(|&(a, b)| site.clash(a, b)).collect()
}

#[test]
fn the_clashes_of_the_page() {
    let both_reach_2 = site(2, 1, &[1, 1, 1], &[(1, 2), (3, 2)]);
    assert_eq!(clashes(&both_reach_2), [(1, 2), (2, 3)]);
    assert_eq!(clashes(&under(2, both_reach_2)), [(1, 2), (1, 3), (2, 3)]);
    // That one cell reaches two others is no clash of the two.
    for rule in [1, 2] {
        assert_eq!(clashes(&under(rule, p1(&[5, 1, 4]))), [(1, 2), (2, 3)]);
    }
    assert_eq!(clashes(&edge(1)), [(1, 2), (2, 4), (4, 5)]);
    assert_eq!(clashes(&edge(2)), [(1, 2), (2, 4), (2, 5), (4, 5)]);
    assert_eq!(edge(2).third(2, 5), Some(4));
}

#[test]
fn the_site_under_both_rules() {
    let rows = ["11110000 22221110 00000000 11102220 22211000", "11110000 22221110 00000000 11102220 22212221"];
    for (rule, rows) in [1, 2].into_iter().zip(rows) {
        let mut planned = vec![9; 41];
        assert_eq!(plan(&edge(rule), &mut planned), Ok(()));
        assert_eq!(planned[..40], table(rows));
        assert_eq!((chain(&edge(rule)), load_test(&edge(rule))), (Ok(None), Ok(None)));
        assert_eq!(check(&edge(rule), &table(rows)), Ok(()));
    }
    assert_eq!(check(&edge(2), &table(rows[0])), refuse(6, &[4, 2, 5]));
    assert_eq!(check(&edge(1), &table(rows[1])), Ok(()));
    let more = edge(2).with_load(5, 3).unwrap();
    assert_eq!(load_test(&more), Ok(Some((5, 1))));
    assert_eq!(plan(&more, &mut [0; 40]), refuse(5, &[5, 1]));
    assert_eq!(load_test(&under(1, more)), Ok(None));
}

/// Every reach of a few cells, without loads.
fn every_reach(cells: usize) -> impl Iterator<Item = Site> {
    let pairs = (0..cells).flat_map(move |a| (0..cells).filter(move |&b| a != b).map(move |b| (a, b)));
    let pairs: Vec<(usize, usize)> = pairs.collect();
    (0..1u32 << pairs.len()).map(move |bits| {
        let mut site = Site::sized(cells, 2, 1);
        for (k, &(a, b)) in pairs.iter().enumerate() {
            site.reach[a] |= (bits >> k & 1) << b;
        }
        site
    })
}

#[test]
fn laws_between_the_rules() {
    for one in (1..=4).flat_map(every_reach) {
        let (two, cells) = (under(2, one), one.count());
        let alone = (1..=cells).all(|c| (1..=cells).filter(|&a| one.reaches(a, c)).count() < 2);
        for a in 0..=cells + 1 {
            assert!(!two.clash(a, a), "{two:?}");
            for b in 0..=cells + 1 {
                assert!(!one.clash(a, b) || two.clash(a, b), "{one:?} {a} {b}");
                assert_eq!(two.clash(a, b), two.clash(b, a), "{two:?} {a} {b}");
                if alone {
                    assert_eq!(one.clash(a, b), two.clash(a, b), "{one:?} {a} {b}");
                }
            }
        }
    }
}

#[test]
fn rule_2_by_the_columns() {
    // Said from the third cell: all who reach it clash with one another, and it with them.
    for site in every_reach(4).map(|site| under(2, site)) {
        let mut expected = [[false; 4]; 4];
        for third in 0..4 {
            let around: Vec<usize> = (0..4).filter(|&a| a == third || site.reach[a] >> third & 1 == 1).collect();
            for &a in &around {
                around.iter().filter(|&&b| b != a).for_each(|&b| expected[a][b] = true);
            }
        }
        for a in 0..4 {
            (0..4).for_each(|b| assert_eq!(site.clash(a + 1, b + 1), expected[a][b], "{site:?} {a} {b}"));
        }
    }
}

/// The rule 1 site in which each cell reaches those that it clashes with.
fn plainly(site: &Site) -> Site {
    let mut plain = under(1, *site);
    for a in 1..=site.count() {
        plain.reach[a - 1] = (1..=site.count()).filter(|&b| site.clash(a, b)).map(|b| 1 << (b - 1)).sum();
    }
    plain
}

/// All that the calls say of a site: they go by the clashes, whichever rule gave them.
fn said(site: &Site) -> String {
    let (mut planned, mut words) = (vec![9; site.table_len()], vec![9; site.positions()]);
    let mut mended: Vec<u8> = (0..site.table_len()).map(|k| (k % 3 != 1) as u8).collect();
    let mut list = vec![0; 4 * site.table_len()];
    let flows = [(1, 1), (2, 2), (3, 1)].map(|(cell, burst)| Flow { cell, burst, period: 2, repeats: 1, value: cell });
    let verdicts = (load_test(site), chain(site), least(site), heaviest(site), admit(site, &flows));
    let tables = (plan(site, &mut planned), plan_words(site, &mut words), mend(site, &mut mended, &mut list));
    let checks = (check(site, &planned), check(site, &mended), check_words(site, &words));
    format!("{verdicts:?} {tables:?} {planned:?} {words:?} {mended:?} {list:?} {checks:?}")
}

#[test]
fn every_call_goes_by_the_clashes() {
    for site in every_reach(4).step_by(7) {
        let mut two = under(2, site);
        let loads = two.reach[0] + 3 * two.reach[1] + 5 * two.reach[2];
        (0..4).for_each(|i| two.loads[i] = (loads >> i) as u16 % 3);
        two.blocked[0] = (loads % 5 == 0) as u64;
        assert_eq!(said(&two), said(&plainly(&two)), "{two:?}");
    }
    assert_eq!(said(&edge(2)), said(&plainly(&edge(2))));
}

/// Is there a valid table for a site of three cells and two positions, every table tried?
fn has_plan(site: &Site) -> bool {
    (0..64u8).any(|bits| check(site, &(0..6).map(|k| bits >> k & 1).collect::<Vec<u8>>()) == Ok(()))
}

#[test]
fn the_load_test_decides_on_chained_sites() {
    for reach in every_reach(3) {
        for loads in 0..27 {
            let mut site = under(2, reach);
            site.loads[..3].copy_from_slice(&[loads % 3, loads / 3 % 3, loads / 9]);
            let (holds, plans) = (load_test(&site) == Ok(None), plan(&site, &mut [0; 6]).is_ok());
            assert!(plans || !holds, "{site:?}");
            if chain(&site) == Ok(None) {
                assert_eq!(holds, plans || has_plan(&site), "{site:?}");
            }
        }
    }
}

#[test]
fn kind_5_there_and_back() {
    let file = sample("edge2.site");
    assert_eq!(read_site(&file), Ok(edge(2)));
    assert_eq!(read_site(&sample("edge1.site")), Ok(edge(1)));
    let mut out = [9; 40];
    assert_eq!(write_site(&edge(2), &mut out), Ok(36));
    assert_eq!((&out[..36], &out[36..]), (&file[..], &[9; 4][..]));
    assert_eq!(write_site(&edge(2), &mut out[..35]), refuse(13, &[36]));
    assert_eq!(write_site(&edge(1), &mut out), Ok(34));
    assert_eq!(out[..34], sample("edge1.site"));
    let blocked = Site { blocked: set_of([0, 7].into_iter()), ..edge(2) };
    let mut out = [9; 41];
    assert_eq!(write_site(&blocked, &mut out), Ok(41));
    assert_eq!(out[36..], [3, 0, 6, 0, 0x81]);
    assert_eq!(read_site(&out), Ok(blocked));
    assert!(listing(&file).ends_with("plan done\n1 1.1 1.2 2.1 2.2\n2 3.1 3.2 4.1\n3\n4 1.1 1.2 2.1\n5 2.2 4.2\n"));
}

#[test]
fn plan_files_keep_kind_1() {
    for (rule, name) in [(1, "edge1.plan"), (2, "edge2.plan")] {
        let (mut planned, mut out) = ([0; 40], [0; 19]);
        plan(&edge(rule), &mut planned).unwrap();
        assert_eq!(write_plan(&edge(rule), &planned, &mut out), Ok(19));
        assert_eq!(out[..], sample(name));
        let mut read = [9; 40];
        assert!(read_plan(&out, &mut read).is_ok());
        assert_eq!(read.map(|byte| byte == 1), planned.map(|byte| byte == 1));
        let ruled = [&[10, 0, 5, 0], &out[4..10], &[2, 0], &out[10..]].concat();
        assert_eq!(read_plan(&ruled, &mut read), refuse(9, &[0]));
        assert_eq!(read_site(&ruled), refuse(9, &[12]));
    }
}

#[test]
fn kind_5_is_judged_as_every_record() {
    let file = sample("edge2.site");
    let changed = |changes: &[(usize, u8)]| {
        let mut file = file.clone();
        changes.iter().for_each(|&(at, byte)| file[at] = byte);
        read_site(&file)
    };
    for (changes, number) in [
        (&[(2, 1)][..], 10),
        (&[(0, 8)], 10),
        (&[(0, 12)], 10),
        (&[(1, 1)], 10),
        (&[(2, 4)], 9),
        (&[(2, 6)], 9),
        (&[(3, 1)], 9),
        (&[(3, 5), (2, 0)], 9),
        (&[(4, 0)], 1),
        (&[(4, 33)], 1),
        (&[(6, 129)], 1),
        (&[(8, 17)], 1),
        (&[(8, 0), (10, 1)], 1),
        (&[(10, 0)], 24),
        (&[(10, 1)], 24),
        (&[(10, 3)], 24),
        (&[(11, 1)], 24),
        (&[(10, 255), (11, 255)], 24),
        (&[(10, 1), (12, 0)], 24),
    ] {
        assert_eq!(changed(changes), refuse(number, &[0]), "{changes:?}");
    }
    for cut in 0..file.len() {
        let at = [0, 12, 26].into_iter().filter(|&at| at <= cut).max().unwrap();
        assert_eq!(read_site(&file[..cut]), refuse(8, &[at as u64]), "cut at {cut}");
    }
    assert_eq!(read_site(&[&file[..], &[0]].concat()), refuse(8, &[36]));
    // Kind 1 takes no rule: as its length says, the rule would be the next record.
    assert_eq!(changed(&[(2, 1), (0, 8)]), refuse(9, &[10]));
}

#[test]
fn an_old_reader_answers_9() {
    let mut new = 0;
    for (name, file) in samples().into_iter().filter(|(name, _)| name.ends_with(".site")) {
        let now = read_site(&file).unwrap();
        if now.rule == 2 {
            new += 1;
            assert_eq!(read_before_rules(&file), refuse(9, &[0]), "{name}");
            assert_eq!(read_before_blocked(&file), refuse(9, &[0]), "{name}");
        } else {
            assert_eq!(read_before_rules(&file), Ok(now), "{name}");
        }
    }
    assert_eq!(new, 1);
}

#[test]
fn what_the_old_reader_took_is_taken_as_before() {
    for (_, file) in samples().into_iter().filter(|(name, _)| name.ends_with(".site")) {
        for at in 0..file.len() {
            for value in [0, 1, 2, 3, 5, 6, 7, 8, 10, 33, 255] {
                let mut changed = file.clone();
                changed[at] = value;
                let (old, now) = (read_before_rules(&changed), read_site(&changed));
                if changed.get(2..4) != Some(&[5, 0]) {
                    assert_eq!(old, now);
                }
                if let Ok(site) = old {
                    let mut out = vec![0; changed.len()];
                    assert_eq!(write_site(&site, &mut out), Ok(changed.len()));
                    assert_eq!(out, changed);
                }
            }
        }
    }
}

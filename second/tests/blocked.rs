//! Blocked positions: what the planner, the judges, the checkers, the mender and the admission make of them, the record of
//! kind 6 byte by byte, and what a reader of before them answers.

mod common;

use common::{p1, p4, small_site, table};
use second::admit::{admit, Flow};
use second::answer::{refuse, Outcome};
use second::checker::check;
use second::files::{read_site, write_site};
use second::heaviest::heaviest;
use second::judge::{least, load_test, nested};
use second::mender::mend;
use second::old_reader::read_before_blocked;
use second::planner::plan;
use second::site::{set_of, Site};
use second::words::{check_words, plan_words, to_words};
use std::path::Path;

fn samples() -> Vec<(String, Vec<u8>)> {
    let dir = Path::new(env!("CARGO_MANIFEST_DIR")).join("../samples");
    let paths = std::fs::read_dir(dir).unwrap().map(|entry| entry.unwrap().path());
    let sites = paths.filter(|path| path.extension().is_some_and(|end| end == "site"));
    sites.map(|path| (path.file_name().unwrap().to_str().unwrap().into(), std::fs::read(path).unwrap())).collect()
}

fn sample(name: &str) -> Vec<u8> {
    samples().into_iter().find(|(sample, _)| sample == name).unwrap().1
}

fn blocked(site: Site, positions: &[usize]) -> Site {
    Site { blocked: set_of(positions.iter().copied()), ..site }
}

#[test]
fn nothing_is_marked_where_it_is_blocked() {
    // Two cells that clash and one that clashes with neither; positions 1 and 2 are blocked.
    let mut site = blocked(Site::sized(3, 5, 1).with_reach(1, 2, true).unwrap(), &[1, 2]);
    site.loads[..3].copy_from_slice(&[2, 1, 3]);
    let mut planned = vec![9; 16];
    assert_eq!(plan(&site, &mut planned), Ok(()));
    assert_eq!(planned[..15], table("10010 20021 10011"));
    assert_eq!(planned[15], 9);
    let mut words = [7; 6];
    assert_eq!(plan_words(&site, &mut words), Ok(()));
    assert_eq!(words, [0b101, 0, 0, 0b101, 0b110, 7]);
    assert_eq!(load_test(&site), Ok(None));
    assert_eq!(load_test(&site.with_load(2, 2).unwrap()), Ok(Some((2, 1))));
    assert_eq!(least(&site).unwrap().channel_slots, 3);
}

#[test]
fn everything_blocked() {
    let all = blocked(p1(&[0, 0, 0]), &[0, 1, 2, 3, 4, 5]);
    let mut planned = [9; 18];
    assert_eq!(plan(&all, &mut planned), Ok(()));
    assert_eq!(planned, [0; 18]);
    assert_eq!((check(&all, &planned), load_test(&all)), (Ok(()), Ok(None)));
    let one = all.with_load(3, 1).unwrap();
    assert_eq!((plan(&one, &mut planned), load_test(&one)), (refuse(5, &[3, 1]), Ok(Some((3, 1)))));
    // Refusal 4 still counts all positions.
    assert_eq!(plan(&all, &mut planned[..17]), refuse(4, &[]));
    assert_eq!(plan_words(&all, &mut [0; 5]), refuse(4, &[]));
}

#[test]
fn the_checkers_22_comes_first() {
    let both = |site: &Site, rows: &str| {
        let bytes = table(rows);
        let mut words = vec![!0; site.positions()];
        to_words(site, &bytes, &mut words).unwrap();
        let answer = check(site, &bytes);
        assert_eq!(check_words(site, &words), answer);
        answer
    };
    let site = p1(&[5, 1, 4]);
    // Clashes at positions 0 and 5, a wrong count in cell 1, and reservations of cells 2 and 3 at 3 and 4.
    let rows = "100001 111111 100111";
    assert_eq!(both(&site, rows), refuse(6, &[0, 1, 2]));
    for (positions, position, cell) in
        [(&[5][..], 5, 1), (&[3], 3, 2), (&[4, 3], 3, 2), (&[4, 5], 4, 2), (&[0, 5], 0, 1), (&[2], 2, 2)]
    {
        assert_eq!(both(&blocked(site, positions), rows), refuse(22, &[position, cell]));
    }
    // The lowest position comes before the lowest cell.
    assert_eq!(both(&blocked(site, &[1, 5]), "000001 000000 010000"), refuse(22, &[1, 3]));
    // Silence is fine, whatever its byte is.
    assert_eq!(both(&blocked(site, &[5]), "100002 100003 000000"), refuse(6, &[0, 1, 2]));
    assert_eq!(both(&blocked(site, &[5]), "111112 222220 111102"), refuse(7, &[2, 0]));
    // Bits above the last cell are silence there too.
    assert_eq!(check_words(&blocked(p4(), &[0]), &[!0 << 4, 0]), refuse(7, &[1, 0]));
}

#[test]
fn the_mender_leaves_blocked_positions() {
    let site = blocked(p1(&[4, 1, 4]), &[0]);
    let mut was = table("111100 000001 211110");
    let mut list = [0; 20];
    assert_eq!(mend(&site, &mut was, &mut list), Ok(2));
    assert_eq!(list[..8], [1, 0, 1, 0, 1, 4, 0, 1]);
    assert_eq!(was, table("011110 000001 211110"));
    let full = blocked(p1(&[5, 1, 4]), &[0]);
    assert_eq!(mend(&full, &mut was, &mut list), refuse(5, &[2, 1]));
}

#[test]
fn flows_are_admitted_to_open_positions() {
    let flow = Flow { cell: 1, burst: 1, period: 1, repeats: 1, value: 1 };
    let site = Site::sized(1, 2, 2);
    assert_eq!(admit(&blocked(site, &[3]), &[flow, flow]), Ok(0b01));
    assert_eq!(admit(&blocked(site, &[0, 3]), &[flow]), Ok(0b1));
    assert_eq!(admit(&blocked(site, &[0, 1, 3]), &[flow]), Ok(0));
    assert_eq!(admit(&blocked(site, &[4]), &[flow; 17]), refuse(20, &[4]));
}

/// Every table of a site of three cells and three positions.
fn every_table() -> Vec<Vec<u8>> {
    (0..1 << 9).map(|bits: u16| (0..9).map(|k| (bits >> k & 1) as u8).collect()).collect()
}

/// Is the table valid, said in another way: by the whole table at once?
fn valid(site: &Site, table: &[u8]) -> bool {
    let sends = |cell: usize, position: usize| table[(cell - 1) * 3 + position] == 1;
    let pairs = (1..=3).flat_map(|a| (1..=3).map(move |b| (a, b)));
    let loads = (1..=3).all(|cell| (0..3).filter(|&k| sends(cell, k)).count() as u64 == site.load(cell));
    loads
        && (0..3).all(|k| site.blocked[0] >> k & 1 == 0 || (1..=3).all(|cell| !sends(cell, k)))
        && (0..3).all(|k| pairs.clone().all(|(a, b)| !(site.clash(a, b) && sends(a, k) && sends(b, k))))
}

/// A small site with a set of blocked positions: the load test decides where it should, and the plan is valid.
fn decided(site: &Site, tables: &[Vec<u8>]) {
    let holds = load_test(site) == Ok(None);
    assert_eq!(holds, least(site).unwrap().channel_slots <= site.room(), "{site:?}");
    let mut planned = vec![9; 9];
    let plans = plan(site, &mut planned).is_ok();
    assert!(plans || !holds, "{site:?}");
    assert!((0..3).all(|k| site.is_open(k) || [0, 3, 6].iter().all(|row| planned[row + k] == 0)), "{site:?}");
    let mut words = [9; 3];
    assert_eq!(plan_words(site, &mut words).is_ok(), plans);
    let mut same = [8; 3];
    to_words(site, &planned, &mut same).unwrap();
    assert_eq!(words, same);
    if plans {
        assert!(valid(site, &planned) && check(site, &planned) == Ok(()), "{site:?}");
    }
    let full = heaviest(site).unwrap().load > site.room();
    if full || nested(site) == Ok(None) && !holds {
        assert!(!plans && tables.iter().all(|table| !valid(site, table)), "{site:?}");
    }
}

#[test]
fn the_load_test_by_open_positions_decides() {
    let tables = every_table();
    for clashes in 0..8 {
        for loads in 0..27 {
            for blocked in 0..8 {
                let mut site = small_site(3, 3, clashes, loads);
                site.blocked[0] = blocked;
                decided(&site, &tables);
            }
        }
    }
}

#[test]
fn every_table_checked_and_mended() {
    let tables = every_table();
    for (clashes, loads) in [(0, 13), (3, 14), (5, 4), (7, 13), (6, 22)] {
        for blocked in 0..8 {
            let mut site = small_site(3, 3, clashes, loads);
            site.blocked[0] = blocked;
            let holds = load_test(&site) == Ok(None);
            for table in &tables {
                assert_eq!(check(&site, table) == Ok(()), valid(&site, table), "{site:?} {table:?}");
                let (mut mended, mut list) = (table.clone(), [0; 36]);
                match mend(&site, &mut mended, &mut list) {
                    Ok(changes) => assert!(valid(&site, &mended) && (changes > 0 || mended == *table)),
                    Err(no) => assert!(no.number == 5 && !holds && mended == *table, "{site:?} {table:?}"),
                }
            }
        }
    }
}

#[test]
fn kind_6_there_and_back() {
    for positions in [&[0][..], &[5], &[1, 4], &[0, 1, 2, 3, 4, 5]] {
        let site = blocked(p1(&[5, 1, 4]), positions);
        let mut out = [9; 35];
        assert_eq!(write_site(&site, &mut out), Ok(33));
        let byte = positions.iter().map(|k| 1 << k).sum();
        assert_eq!((&out[..28], &out[28..]), (&sample("p1.site")[..], &[3, 0, 6, 0, byte, 9, 9][..]));
        assert_eq!(read_site(&out[..33]), Ok(site));
        assert_eq!(write_site(&site, &mut out[..32]), refuse(13, &[33]));
    }
    let largest = blocked(Site::sized(32, 128, 16), &[2047, 8]);
    let mut out = vec![9; 400];
    assert_eq!(write_site(&largest, &mut out), Ok(342));
    assert_eq!(out[82..88], [2, 1, 6, 0, 0, 1]);
    assert_eq!(out[341], 128);
    assert_eq!(read_site(&out[..342]), Ok(largest));
}

#[test]
fn kind_6_is_judged_as_every_record() {
    let file = |more: &[u8]| [&sample("p1.site")[..], more].concat();
    let refused = |more: &[u8]| read_site(&file(more)).unwrap_err();
    let no = |number: u64, at: u64| refuse::<()>(number, &[at]).unwrap_err();
    for (more, answer) in [
        (&[0][..], no(8, 28)),
        (&[3, 0], no(8, 28)),
        (&[3, 0, 6], no(8, 28)),
        (&[3, 0, 6, 0], no(8, 28)),
        (&[3, 0, 5, 0, 1], no(9, 28)),
        (&[2, 0, 3, 0], no(9, 28)),
        (&[3, 0, 6, 1, 1], no(9, 28)),
        (&[2, 0, 6, 0], no(10, 28)),
        (&[4, 0, 6, 0, 1, 0], no(10, 28)),
        (&[3, 0, 6, 0, 0x40], no(14, 28)),
        (&[3, 0, 6, 0, 0x81], no(14, 28)),
        (&[3, 0, 6, 0, 0x80, 9], no(14, 28)),
        (&[3, 0, 6, 0, 0], no(21, 28)),
        (&[3, 0, 6, 0, 0, 9], no(21, 28)),
        (&[3, 0, 6, 0, 1, 0], no(12, 33)),
        (&[3, 0, 6, 0, 1, 3, 0, 6, 0, 1], no(12, 33)),
    ] {
        assert_eq!(refused(more), answer, "{more:?}");
    }
    assert_eq!(read_site(&file(&[])), Ok(p1(&[5, 1, 4])));
    // The pairs come before kind 6, and a plan file is none of this.
    let mut own = file(&[3, 0, 6, 0, 0x40]);
    own[25] = 2;
    assert_eq!(read_site(&own), refuse(3, &[20]));
}

#[test]
fn every_cut_of_the_samples() {
    for (name, at) in [("p1blocked.site", 28), ("wifi.site", 38)] {
        let file = sample(name);
        assert!(read_site(&file).unwrap().has_blocked());
        for cut in 0..file.len() {
            let answer = read_site(&file[..cut]);
            if cut == at {
                assert!(!answer.unwrap().has_blocked(), "a file that ends at kind 3 is whole");
            } else {
                assert_eq!(answer.unwrap_err().number, 8, "{name} cut at {cut}");
            }
        }
    }
}

/// Where the record after the reach begins.
fn end_of_reach(file: &[u8]) -> usize {
    let end = |at: usize| at + 2 + u16::from_le_bytes([file[at], file[at + 1]]) as usize;
    end(end(end(0)))
}

#[test]
fn an_old_reader_answers_12() {
    let mut new = 0;
    for (name, file) in samples() {
        let (old, now): (Outcome<Site>, _) = (read_before_blocked(&file), read_site(&file));
        if now.unwrap().rule == 2 {
            assert_eq!(old, refuse(9, &[0]), "{name}");
        } else if now.unwrap().has_blocked() {
            assert_eq!(old, refuse(12, &[end_of_reach(&file) as u64]), "{name}");
            new += 1;
        } else {
            assert_eq!(old, now, "{name}");
        }
    }
    assert_eq!(new, 2);
    assert_eq!(read_before_blocked(&sample("p1blocked.site")), refuse(12, &[28]));
    assert_eq!(read_before_blocked(&sample("wifi.site")), refuse(12, &[38]));
}

#[test]
fn what_the_old_reader_took_is_taken_as_before() {
    for (_, file) in samples() {
        for at in 0..file.len() {
            for value in [0, 1, 2, 3, 5, 6, 7, 8, 33, 255] {
                let mut changed = file.clone();
                changed[at] = value;
                if let Ok(site) = read_before_blocked(&changed) {
                    assert_eq!(read_site(&changed), Ok(site));
                    let mut out = vec![0; changed.len()];
                    assert_eq!(write_site(&site, &mut out), Ok(changed.len()));
                    assert_eq!(out, changed);
                }
            }
        }
    }
}

//! Changes of a load at their limits: every size around the largest site, its first and its last cell; tables one byte short
//! and one byte long; cells that are not there; the desk examples P6 and P7; each byte of a plan changed to every value; and
//! every change of every site of three cells on two positions.

use crate::boundary::{every_tunnel, small_site, tunnel, wrong_sites};
use crate::case::{Call, Case};
use crate::run::Run;
use second::planner::plan;
use second::site::{set_of, Site};

pub fn compare(run: &mut Run) {
    every_tunnel(|site| every_length(run, site));
    desk(run);
    faults(run);
    every_byte(run);
}

fn change(run: &mut Run, site: &Site, cell: u16, load: u16, table: &[u8]) -> u64 {
    let mark = 2015 * load as u64 + cell as u64;
    run.compare(&Case::of(Call::ChangeLoad, *site).numbers([cell, load]).output(table, mark).record(mark)).answer.number
}

/// The plan of a site that may have faults, or bytes of 7.
fn planned(site: &Site) -> Vec<u8> {
    let mut table = vec![7; site.table_len().min(65_538)];
    let _ = plan(site, &mut table);
    table
}

/// Tables of IN bytes, one less and one more and none, and a last byte that is not the plan's.
fn every_length(run: &mut Run, site: &Site) {
    let table = planned(site);
    let (own, last) = (site.loads[0], site.cells);
    for (cell, load) in
        [(1, own), (1, own.wrapping_sub(1)), (last, 0), (last, 65_535), (0, 1), (last.wrapping_add(1), 1)]
    {
        change(run, site, cell, load, &table);
        change(run, site, cell, load, &table[..table.len().saturating_sub(1)]);
        change(run, site, cell, load, &[&table[..], &[9]].concat());
    }
    change(run, site, last, 1, &[]);
    if let Some((end, rest)) = table.split_last() {
        change(run, site, last, 0, &[rest, &[end ^ 2]].concat());
    }
}

/// Five cells on two positions, with and without a position blocked.
fn desk(run: &mut Run) {
    for blocked in 0..3 {
        for loads in 0..243 {
            let mut site = Site { blocked: set_of((1..3).filter(|&k| k == blocked)), ..Site::sized(5, 3, 1) };
            for (from, to) in [(1, 4), (2, 3), (3, 5), (4, 5)] {
                site.reach[from - 1] |= 1 << (to - 1);
            }
            for cell in 0..5 {
                site.loads[cell] = loads / 3u16.pow(cell as u32) % 3;
            }
            let table = planned(&site);
            for cell in 1..=5 {
                for load in 0..4 {
                    change(run, &site, cell, load, &table);
                }
            }
        }
    }
}

/// The record's faults, then the edit's 2, then 4, then 26.
fn faults(run: &mut Run) {
    let fine = tunnel(3, 3, 2);
    for site in [fine].into_iter().chain(wrong_sites(fine)) {
        for cell in [0, 1, 3, 4, 32, 33, 65_535] {
            for len in [0, 17, 18, 19] {
                change(run, &site, cell, 1, &vec![1; len]);
            }
        }
    }
}

/// One byte of a plan that is another is 26, and a byte past the plan is not looked at.
fn every_byte(run: &mut Run) {
    let mut site = tunnel(3, 2, 2);
    site.blocked = set_of(2..3);
    site.loads[..3].copy_from_slice(&[1, 2, 1]);
    let table = [planned(&site), vec![7; 2]].concat();
    for at in 0..table.len() {
        for byte in 0..=255 {
            let mut other = table.clone();
            other[at] = byte;
            let number = change(run, &site, 2, 1, &other);
            assert_eq!(number == 26, at < 12 && byte != table[at], "26 exactly when the table is not the plan");
        }
    }
}

/// Each site under either rule, with its own plan: 26 exactly where it has none.
pub fn every_small_site(run: &mut Run) {
    for rule in [1, 2] {
        for clashes in 0..8 {
            for loads in 0..27 {
                let site = Site { rule, ..small_site(3, 2, clashes, loads) };
                let table = planned(&site);
                for cell in 1..=3 {
                    for load in 0..4 {
                        let number = change(run, &site, cell, load, &table);
                        assert_eq!(number == 26, plan(&site, &mut [0; 6]).is_err(), "a plan is the plan");
                    }
                }
            }
        }
    }
}

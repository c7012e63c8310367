//! Tables to mend at their limits: every size around the largest site; tables that are idle, full, forbidden or of the byte
//! 255; lists with room for no change, for all changes and for one less; loads above N; the tables of the desk
//! examples; and every table of small sites.

use crate::boundary::{every_tunnel, tunnel, wrong_sites};
use crate::case::{Call, Case};
use crate::run::Run;
use second::site::Site;

pub fn compare(run: &mut Run) {
    every_tunnel(|site| every_length(run, site));
    desk(run);
    faults(run);
}

fn mend(run: &mut Run, site: Site, table: &[u8], numbers: usize) -> (u64, usize) {
    let case = Case::of(Call::Mend, site).output(table, numbers as u64).list(&vec![0x7A7A; numbers], 3);
    let answer = run.compare(&case).answer;
    (answer.number, answer.value[0] as usize)
}

/// Mends with a list that is too short by all, and then, as the answer says how many changes there are, with room for just
/// those, for one number less, and for more.
fn every_list(run: &mut Run, site: Site, table: &[u8]) {
    let (number, changes) = mend(run, site, table, 0);
    if number == 13 {
        for numbers in [4 * changes - 4, 4 * changes - 1, 4 * changes, 4 * changes + 1, 4 * changes + 9] {
            mend(run, site, table, numbers);
        }
    } else {
        mend(run, site, table, 9);
    }
}

/// Tables of IN bytes, one more and one less and none, of one byte throughout.
fn every_length(run: &mut Run, site: &Site) {
    let len = site.table_len().min(65_538);
    for byte in [0, 1, 2, 255] {
        every_list(run, *site, &vec![byte; len]);
    }
    for bytes in [len.saturating_sub(1), len + 1, 0] {
        mend(run, *site, &vec![1; bytes], 4 * len);
    }
    let mut idle = *site;
    idle.loads = [0; 32];
    every_list(run, idle, &vec![1; len]);
    for load in [site.positions() as u16, (site.positions() as u16).wrapping_add(1), 65_535] {
        let mut full = *site;
        full.loads[0] = load;
        every_list(run, full, &vec![1; len]);
    }
}

fn site(slots: usize, channels: usize, loads: &[u16], reach: &[u32]) -> Site {
    let mut site = Site::sized(loads.len(), slots, channels);
    site.loads[..loads.len()].copy_from_slice(loads);
    site.reach[..reach.len()].copy_from_slice(reach);
    site
}

fn desk(run: &mut Run) {
    let p1 = |load| site(3, 2, &[5, load, 4], &[0, 5]);
    let p4 = site(2, 1, &[1, 1, 1, 1], &[4, 8, 8]);
    for (site, rows) in [
        (p1(1), "111110222221111102"),
        (p1(1), "111110000001111110"),
        (p1(1), "111110000001001111"),
        (p1(2), "111110000001111110"),
        (p4, "10010110"),
        (p4, "00000000"),
    ] {
        let table: Vec<u8> = rows.bytes().map(|digit| digit - b'0').collect();
        every_list(run, site, &table);
    }
    for load in 0..3 {
        for byte in 0..=255 {
            every_list(run, site(1, 1, &[load], &[]), &[byte]);
        }
    }
}

/// The record's faults, then 4, then 5, then 13.
fn faults(run: &mut Run) {
    let fine = tunnel(3, 3, 2);
    let mut full = fine;
    full.loads[2] = 7;
    for site in [fine, full].into_iter().chain(wrong_sites(fine)) {
        for len in [0, 17, 18, 19] {
            for numbers in [0, 3, 4, 71, 72, 73] {
                mend(run, site, &vec![1; len], numbers);
                mend(run, site, &vec![0; len], numbers);
            }
        }
    }
}

/// Every table of the bytes 0, 1 and 2 on two cells and two positions, and of 0 and 1 on three, with any loads and clashes.
pub fn every_small_table(run: &mut Run) {
    for clashes in 0..2 {
        for loads in 0..16 {
            for table in 0..81 {
                let site = site(2, 1, &[loads & 3, loads >> 2], &[clashes << 1]);
                every_list(run, site, &digits(table, 3, 4));
            }
        }
    }
    for clashes in 0..8 {
        for loads in 0..27 {
            for table in 0..64 {
                let loads = [loads % 3, loads / 3 % 3, loads / 9];
                let site = site(2, 1, &loads, &[(clashes & 3) << 1, clashes >> 2 << 2]);
                every_list(run, site, &digits(table, 2, 6));
            }
        }
    }
}

/// The digits of a number to a base, the lowest first.
fn digits(mut number: usize, base: usize, count: usize) -> Vec<u8> {
    let mut digits = Vec::new();
    for _ in 0..count {
        digits.push((number % base) as u8);
        number /= base;
    }
    digits
}

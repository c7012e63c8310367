//! Blocked positions at their limits: none, the first, the last, half, all but one, all, and positions that the site does
//! not have, on sites around the words of the set and of the largest size, through every call; each fault of the record
//! before 20; the record of kind 6 with every byte, cut, longer and twice; and every table of small sites with every set of
//! blocked positions.

use crate::admit_limits::small_flows;
use crate::boundary::{tunnel, wrong_sites};
use crate::case::{Call, Case};
use crate::run::Run;
use crate::sheets::lines;
use second::site::{set_of, Positions, Site, MOST_POSITIONS};

/// Cells, slots and channels: about one word, two words and all 32 of them.
const SIZES: [(u16, u16, u16); 12] = [
    (1, 1, 1),
    (3, 3, 2),
    (2, 63, 1),
    (2, 4, 16),
    (3, 13, 5),
    (2, 127, 1),
    (5, 8, 16),
    (2, 43, 3),
    (4, 128, 15),
    (32, 127, 16),
    (31, 128, 16),
    (32, 128, 16),
];

pub fn compare(run: &mut Run) {
    for (cells, slots, channels) in SIZES {
        let site = tunnel(cells, slots, channels);
        for blocked in sets(site.positions()) {
            let full = Site { blocked, ..site };
            every_call(run, &full);
            every_call(run, &fitting(&full));
        }
    }
    orders(run);
    for (slots, channels) in [(1, 1), (3, 2), (7, 1), (4, 2), (3, 3), (15, 1), (4, 4), (17, 1)] {
        files(run, slots, channels);
    }
}

/// Sets within a site of so many positions, and sets that go past it.
fn sets(n: usize) -> Vec<Positions> {
    let mut sets = vec![
        [0; 32],
        set_of(0..1),
        set_of(n - 1..n),
        set_of(n / 2..n / 2 + 1),
        set_of((0..n).step_by(2)),
        set_of((1..n).step_by(2)),
        set_of(1..n),
        set_of(0..n - 1),
        set_of(0..n),
    ];
    if n < MOST_POSITIONS {
        sets.extend([
            set_of(n..n + 1),
            set_of(MOST_POSITIONS - 1..MOST_POSITIONS),
            set_of(n..MOST_POSITIONS),
            set_of([0, n].into_iter()),
            set_of((n..MOST_POSITIONS).step_by(63)),
            [!0; 32],
        ]);
    }
    sets
}

/// The site with loads that fit into its open positions, those of two neighbours together. A cell in four is spare.
fn fitting(site: &Site) -> Site {
    let mut fitting = *site;
    let open = (0..site.positions()).filter(|&position| site.is_open(position)).count();
    for cell in 0..site.count() {
        fitting.loads[cell] = [open / 3, open - open / 3, open / 2, 0][cell % 4] as u16;
    }
    fitting
}

/// Every call that takes a site, and its file and its sheet.
pub fn every_call(run: &mut Run, site: &Site) {
    for call in [Call::Fault, Call::LoadTest, Call::Chain, Call::Class, Call::Least, Call::Heaviest] {
        run.compare(&Case::of(call, *site));
    }
    for call in [Call::Clash, Call::SetLoad, Call::SetReach, Call::ClearReach] {
        for (x, y) in [(1, 2), (2, 1), (0, 1), (33, 1), (1, 1)] {
            run.compare(&Case::of(call, *site).numbers([x, y]));
        }
    }
    for count in [1, 3, 16, 17] {
        run.compare(&Case::of(Call::Admit, *site).flows(&small_flows(count), count as u64));
        run.compare(&Case::of(Call::AdmitBeside, *site).flows(&small_flows(count), count as u64));
    }
    tables(run, site);
    let (bits, pairs) = (site.positions().div_ceil(8), 4 + 4 * site.count());
    for len in [0, 17, 18, 82, 144, 144 + bits, pairs + bits + 16, pairs + bits + 18, 4096] {
        run.compare(&Case::of(Call::WriteSite, *site).output(&vec![7; len], len as u64));
    }
    let sheet = lines(site).concat();
    run.compare(&Case::of(Call::WriteSheet, *site).output(&vec![7; sheet.len()], 3));
    run.read_sheet(sheet.as_bytes(), site, 4);
}

/// Plans in both forms, and the checks of its plan, of a plan that knows of nothing blocked, of a table of 1 throughout and
/// of one with a single reservation; and all of them mended.
fn tables(run: &mut Run, site: &Site) {
    let (n, len) = (site.positions(), site.table_len());
    for room in [len, len - 1, len + 2] {
        run.compare(&Case::of(Call::Plan, *site).output(&vec![7; room], room as u64));
    }
    for room in [n, n - 1, n + 2] {
        run.compare(&Case::of(Call::PlanWords, *site).words(&vec![7; room], room as u64));
    }
    let planned = |run: &mut Run, blocked: Positions| {
        let case = Case::of(Call::Plan, Site { blocked, ..*site }).output(&vec![7; len], 1);
        run.compare(&case).output.part().to_vec()
    };
    let (own, other) = (planned(run, site.blocked), planned(run, [0; 32]));
    let (mut first, mut last) = (vec![0; len], own.clone());
    first[0] = 1;
    last[len - 1] = 1;
    for table in [own, other, vec![1; len], first, last] {
        run.compare(&Case::of(Call::Check, *site).input(&table, 2));
        let words = run.compare(&Case::of(Call::ToWords, *site).input(&table, 3).words(&vec![9; n], 4)).words;
        run.compare(&Case::of(Call::CheckWords, *site).words(words.part(), 5));
        run.compare(&Case::of(Call::ToBytes, *site).words(words.part(), 6).output(&vec![7; len], 7));
        run.compare(&Case::of(Call::WritePlan, *site).input(&table, 8).output(&vec![7; 14 + len.div_ceil(8)], 9));
        run.compare(&Case::of(Call::Mend, *site).output(&table, 10).list(&vec![9; 4 * len + 3], 11));
        run.compare(&Case::of(Call::Mend, *site).output(&table, 12).list(&[9; 7], 13));
    }
}

/// Every fault of a record with a position past the site as well: 1, 2 and 3 come before 20, and 20 before an edit's own.
fn orders(run: &mut Run) {
    let site = tunnel(3, 3, 2);
    for wrong in wrong_sites(site).into_iter().chain([site]) {
        for blocked in sets(6) {
            every_order(run, &Site { blocked, ..wrong });
        }
    }
}

/// Every call, with lent parts that are too short and long enough, and with numbers that an edit refuses.
pub fn every_order(run: &mut Run, site: &Site) {
    for call in [Call::Fault, Call::LoadTest, Call::Chain, Call::Class, Call::Least, Call::Heaviest] {
        run.compare(&Case::of(call, *site));
    }
    for call in [Call::Clash, Call::SetLoad, Call::SetReach, Call::ClearReach] {
        run.compare(&Case::of(call, *site).numbers([9, 9]));
    }
    run.compare(&Case::of(Call::Admit, *site).flows(&small_flows(17), 1));
    for len in [0, 18] {
        run.compare(&Case::of(Call::Plan, *site).output(&vec![7; len], 2));
        run.compare(&Case::of(Call::Check, *site).input(&vec![1; len], 3));
        run.compare(&Case::of(Call::PlanWords, *site).words(&vec![7; len], 4));
        run.compare(&Case::of(Call::CheckWords, *site).words(&vec![7; len], 5));
        run.compare(&Case::of(Call::ToWords, *site).input(&vec![1; len], 6).words(&vec![7; len], 7));
        run.compare(&Case::of(Call::ToBytes, *site).words(&vec![7; len], 8).output(&vec![7; len], 9));
        run.compare(&Case::of(Call::Mend, *site).output(&vec![1; len], 10).list(&vec![7; 4 * len], 11));
        run.compare(&Case::of(Call::WriteSite, *site).output(&vec![7; len], 12));
        run.compare(&Case::of(Call::WriteSheet, *site).output(&vec![7; len], 13));
        run.compare(&Case::of(Call::WritePlan, *site).input(&vec![1; len], 14).output(&vec![7; len], 15));
    }
}

/// Site files of two cells with a record of kind 6.
fn files(run: &mut Run, slots: u8, channels: u8) {
    let reach = [8, 0, 1, 0, 2, 0, slots, 0, channels, 0, 6, 0, 2, 0, 1, 0, 1, 0, 4, 0, 3, 0, 2, 1];
    let bytes = (slots * channels).div_ceil(8);
    let record = |last: u8, first: u8| {
        let mut record = vec![2 + bytes, 0, 6, 0];
        record.resize(4 + bytes as usize, first);
        record[3 + bytes as usize] = last;
        record
    };
    let mut read = |more: &[u8], mark: u64| run.read_site(&[&reach[..], more].concat(), mark);
    for last in 0..=255 {
        for first in [0, 1, 255] {
            let one = record(last, first);
            (0..=one.len()).for_each(|cut| read(&one[..cut], cut as u64));
            read(&[&one[..], &[0]].concat(), 1);
            read(&[&one[..], &one[..]].concat(), 2);
        }
        for at in 0..4 {
            let mut changed = record(1, 1);
            changed[at] = last;
            read(&changed, 3);
        }
        for length in 1..4 {
            read(&vec![last; length], 4);
        }
    }
}

/// Every table of 0 and 1 on two cells and three positions, whatever is blocked, clashes and is loaded: planned, checked in
/// both forms, and mended.
pub fn every_small_table(run: &mut Run) {
    for rest in 0..2 * 8 * 16 {
        let (clashes, blocked, loads) = (rest % 2, rest / 2 % 8, rest / 16);
        let mut site = Site::sized(2, 3, 1);
        site.reach[0] = clashes << 1;
        site.blocked[0] = blocked as u64;
        site.loads[..2].copy_from_slice(&[loads as u16 % 4, loads as u16 / 4]);
        run.compare(&Case::of(Call::Plan, site).output(&[7; 7], 1));
        run.compare(&Case::of(Call::PlanWords, site).words(&[7; 4], 2));
        run.compare(&Case::of(Call::LoadTest, site));
        for bits in 0..64u32 {
            let table: Vec<u8> = (0..6).map(|k| (bits >> k & 1) as u8).collect();
            let words: Vec<u32> = (0..3).map(|k| bits >> k & 1 | (bits >> (k + 3) & 1) << 1).collect();
            run.compare(&Case::of(Call::Check, site).input(&table, 3));
            run.compare(&Case::of(Call::CheckWords, site).words(&words, 4));
            run.compare(&Case::of(Call::Mend, site).output(&table, 5).list(&[9; 24], 6));
        }
    }
}

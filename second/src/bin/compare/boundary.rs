//! The limits of a site: 32 and 33 cells, 128 and 129 slots, 16 and 17 channels, a table of 65,536 bytes and of one
//! byte less, each with its neighbours and through every call; flows at their limits with every number of
//! repeats, and the worked shares.

use crate::admit_limits::small_flows;
use crate::case::{Call, Case};
use crate::run::Run;
use second::site::{set_of, Site};

const CELLS: [u16; 6] = [0, 1, 31, 32, 33, 65_535];
const SLOTS: [u16; 6] = [0, 1, 127, 128, 129, 65_535];
const CHANNELS: [u16; 6] = [0, 1, 15, 16, 17, 65_535];
const REPEATS: [u16; 7] = [0, 1, 2, 3, 4, 5, 65_535];
const TABLE: usize = 65_536;

pub fn compare(run: &mut Run) {
    every_size(|cells, slots, channels| every_call(run, cells, slots, channels));
    largest_sums(run);
    for period in [4, 5] {
        shares(run, 3, 3, period);
    }
    for slots in SLOTS {
        for burst in [0, 1, 2, 3, 511, 512, 513, 16_383, 16_384, 21_845, 21_846, 32_767, 32_768, 65_534, 65_535] {
            for period in [0, 1, 2, 3, 127, 128, 129, 65_534, 65_535] {
                shares(run, slots, burst, period);
            }
        }
    }
}

/// One flow without repeats given, and with each number of them and those next to the limits.
fn shares(run: &mut Run, slots: u16, burst: u16, period: u16) {
    run.compare(&Case::of(Call::Share, Site::default()).numbers([slots, burst, period]));
    for repeats in REPEATS {
        run.compare(&Case::of(Call::ShareRepeated, Site::default()).numbers([slots, burst, period, repeats]));
    }
}

/// Every number of cells, slots and channels at the limits of a site and next to them.
fn every_size(mut each: impl FnMut(u16, u16, u16)) {
    for cells in CELLS {
        for slots in SLOTS {
            for channels in CHANNELS {
                each(cells, slots, channels);
            }
        }
    }
}

/// A tunnel of each of these sizes.
pub fn every_tunnel(mut each: impl FnMut(&Site)) {
    every_size(|cells, slots, channels| each(&tunnel(cells, slots, channels)));
}

/// A site on one channel. Bit k of `clashes` is for the k-th pair of cells, by the lower cell and then the higher, and digit i
/// of `loads`, to the base 3, is the load of cell i.
pub fn small_site(cells: usize, slots: usize, mut clashes: u32, mut loads: u16) -> Site {
    let mut site = Site::sized(cells, slots, 1);
    for a in 0..cells {
        site.loads[a] = loads % 3;
        loads /= 3;
        for b in a + 1..cells {
            site.reach[a] |= (clashes % 2) << b;
            clashes /= 2;
        }
    }
    site
}

/// A tunnel in which each cell reaches the next, one way, and all the load that has room.
pub fn tunnel(cells: u16, slots: u16, channels: u16) -> Site {
    let mut site = Site::sized(cells.into(), slots.into(), channels.into());
    let room = slots as usize * channels as usize;
    for i in 0..32.min(cells as usize) {
        site.loads[i] = if i % 2 == 0 { room / 3 } else { room - room / 3 } as u16;
        if i + 1 < 32.min(cells as usize) {
            site.reach[i] = 1 << (i + 1);
        }
    }
    site
}

/// A site of three cells with each fault of a record: a load, a reach and a blocked position too many, a rule that is none, a
/// size out of range in three ways.
pub fn wrong_sites(three_cells: Site) -> [Site; 7] {
    let mut load = three_cells;
    load.loads[3] = 1;
    let mut reach = three_cells;
    reach.reach[2] |= 1 << 2;
    let n = three_cells.positions();
    let past = Site { blocked: set_of(n..n + 1), ..three_cells };
    let rule = Site { rule: 3, ..three_cells };
    [load, reach, past, rule, Site { slots: 129, ..three_cells }, Site { cells: 0, ..three_cells }, Site::default()]
}

/// All cells clash and have the greatest load, so that sums of loads go far above 65,535.
fn largest_sums(run: &mut Run) {
    let mut site = Site { loads: [65_535; 32], ..Site::sized(32, 128, 16) };
    for i in 0..32 {
        site.reach[i] = !(1 << i);
    }
    for call in [Call::LoadTest, Call::Chain, Call::Class, Call::Least, Call::Heaviest] {
        run.compare(&Case::of(call, site));
    }
}

fn every_call(run: &mut Run, cells: u16, slots: u16, channels: u16) {
    let site = tunnel(cells, slots, channels);
    for call in [Call::Fault, Call::LoadTest, Call::Chain, Call::Class, Call::Least, Call::Heaviest] {
        run.compare(&Case::of(call, site));
    }
    for call in [Call::Clash, Call::SetLoad, Call::SetReach, Call::ClearReach] {
        for (x, y) in [(1, 2), (1, 32), (32, 1), (31, 32), (32, 33), (33, 1), (0, 1), (1, 0), (5, 5), (65_535, 65_535)]
        {
            run.compare(&Case::of(call, site).numbers([x, y, 0]));
        }
    }
    tables(run, &site);
    files(run, &site);
    run.compare(&Case::of(Call::Admit, site).flows(&small_flows(3), 1));
    run.compare(&Case::of(Call::Admit, site).flows(&small_flows(17), 2));
    run.compare(&Case::of(Call::AdmitBeside, site).flows(&small_flows(3), 1));
    run.compare(&Case::of(Call::AdmitBeside, site).flows(&small_flows(17), 2));
    // One load beyond the last cell, and one reach bit beyond it.
    if cells < 32 {
        let mut wrong = site;
        wrong.reach[0] |= 1 << cells;
        tables(run, &wrong);
        wrong.loads[31] = 1;
        tables(run, &wrong);
    }
}

/// Plans, checks and writes tables of 65,536 bytes, of one less and one more, and of just the length that is due.
fn tables(run: &mut Run, site: &Site) {
    let due = (site.count() * site.positions()).min(TABLE + 2);
    for len in [TABLE, TABLE - 1, TABLE + 1, due, due.saturating_sub(1), due + 1, 0] {
        let planned = run.compare(&Case::of(Call::Plan, *site).output(&vec![7; len], len as u64));
        let table = planned.output.part();
        run.compare(&Case::of(Call::Check, *site).input(table, len as u64));
        let file = 14 + due / 8;
        for out in [file - 1, file, file + 1, file + 2] {
            let write = Case::of(Call::WritePlan, *site).input(table, len as u64);
            run.compare(&write.output(&vec![7; out], out as u64));
        }
    }
}

/// Writes the site, and reads files with its head, as a site and as a plan.
fn files(run: &mut Run, site: &Site) {
    for len in [0, 17, 18, 19, 20, 21, 81, 82, 83, 143, 144, 145, 4096] {
        run.compare(&Case::of(Call::WriteSite, *site).output(&vec![7; len], len as u64));
    }
    let mut head = vec![8, 0, 1, 0];
    for number in [site.cells, site.slots, site.channels] {
        head.extend_from_slice(&number.to_le_bytes());
    }
    let cells = site.count().min(33);
    let mut file = head.clone();
    file.extend_from_slice(&[2 + 2 * cells as u8, 0, 2, 0]);
    file.resize(file.len() + 2 * cells, 1);
    file.extend_from_slice(&[2, 0, 3, 0]);
    run.read_site(&file, 1);
    let due = (site.count() * site.positions()).min(TABLE + 2);
    for bytes in [due / 8, due.div_ceil(8), due / 8 + 1] {
        let mut file = head.clone();
        file.extend_from_slice(&(2 + bytes as u16).to_le_bytes());
        file.extend_from_slice(&[4, 0]);
        file.resize(file.len() + bytes, 1);
        for len in [TABLE, TABLE - 1, due, due.saturating_sub(1), 0] {
            run.read_plan(&file, len, len as u64);
        }
    }
}

//! Random sites, sound or damaged, and tables for them.

use crate::random::Random;
use second::planner::plan;
use second::site::{set_of, Site, MOST_POSITIONS};

/// A site whose record has no fault; small ones are most frequent.
pub fn sound_site(random: &mut Random) -> Site {
    let (cells, slots, channels) = match random.below(128) {
        0 => (random.between(28, 32), random.between(100, 128), random.between(12, 16)),
        1..=16 => (random.between(1, 32), random.between(1, 12), random.between(1, 4)),
        17..=32 => (random.between(6, 32), random.between(1, 6), 1),
        _ => (random.between(1, 5), random.between(1, 4), random.between(1, 3)),
    };
    sized_site(random, cells, slots, channels)
}

/// A site of these sizes whose record has no fault.
pub fn sized_site(random: &mut Random, cells: usize, slots: usize, channels: usize) -> Site {
    let mut site = Site { rule: random.pick(&[1, 1, 2]), ..Site::sized(cells, slots, channels) };
    set_reach(random, &mut site);
    set_blocked(random, &mut site);
    set_loads(random, &mut site);
    site
}

/// On half of the sites nothing is blocked; on the others few positions, some channels in every slot, the last position
/// alone, about half of all, all but few, or everything.
fn set_blocked(random: &mut Random, site: &mut Site) {
    let (n, channels) = (site.positions(), site.channels as usize);
    let (one_in, any) = (random.between(2, 6), random.next());
    let some = |random: &mut Random, one_in: usize| set_of((0..n).filter(|_| random.once_in(one_in)));
    site.blocked = match random.below(16) {
        0 => set_of(0..n),
        1 => set_of(n - 1..n),
        2 => set_of((0..n).filter(|k| any >> (k % channels) & 1 == 1)),
        3 => some(random, 2),
        4 | 5 => some(random, one_in),
        6 => set_of((0..n).filter(|_| !random.once_in(one_in))),
        7 => set_of(std::iter::once(random.below(n))),
        _ => [0; 32],
    };
}

/// Blocks a position that the site does not have: the next, one far past it, or many.
pub fn block_past(random: &mut Random, site: &mut Site) {
    let n = site.positions();
    if n >= MOST_POSITIONS {
        return;
    }
    let (past, one_in) = (random.between(n, MOST_POSITIONS - 1), random.between(1, 200));
    let more = match random.below(5) {
        0 => set_of(n..n + 1),
        1 => set_of(2047..2048),
        2 => set_of(n..MOST_POSITIONS),
        3 => set_of((n..MOST_POSITIONS).filter(|_| random.once_in(one_in))),
        _ => set_of(past..past + 1),
    };
    for (word, more) in site.blocked.iter_mut().zip(more) {
        *word |= more;
    }
}

/// Clashes that are scattered, or lie along a tunnel (and so are chained), or along side drifts that leave one another (and
/// so are nested); each in one direction or in both.
fn set_reach(random: &mut Random, site: &mut Site) {
    let cells = site.count();
    let one_in = random.pick(&[1, 2, 2, 3, 8, 40]);
    let width = random.between(0, 6);
    let tunnel = random.once_in(2);
    let drifts: Option<Vec<usize>> = random.once_in(3).then(|| (0..=cells).map(|b| random.below(b.max(1))).collect());
    for a in 1..=cells {
        for b in a + 1..=cells {
            let clash = match &drifts {
                Some(before) => before[b] == a,
                None if tunnel => b - a <= width,
                None => random.once_in(one_in),
            };
            let ways = if clash { random.between(1, 3) } else { 0 };
            site.reach[a - 1] |= (ways as u32 & 1) << (b - 1);
            site.reach[b - 1] |= (ways as u32 >> 1) << (a - 1);
        }
    }
    if tunnel && cells > 1 && random.once_in(4) {
        let hole = random.between(1, cells);
        site.reach[hole - 1] &= random.next() as u32;
    }
}

/// Loads that just fit, cell by cell, or are small, or are any; on some sites few cells, many or all are spare; now and
/// then one load is far too large.
fn set_loads(random: &mut Random, site: &mut Site) {
    let (style, most) = (random.below(4), site.room() as usize);
    let spare_one_in = if random.once_in(3) { random.pick(&[1, 2, 2, 3, 8]) } else { 0 };
    for cell in 1..=site.count() {
        let lower: u64 = (1..cell).filter(|&b| site.clash(b, cell)).map(|b| site.load(b)).sum();
        let room = most.saturating_sub(lower as usize);
        let load = match style {
            _ if spare_one_in > 0 && random.once_in(spare_one_in) => 0,
            0 => room.min(random.between(0, most)),
            1 => random.below(most / 3 + 2),
            2 => random.pick(&[0, 1, room, room / 2, room + 1]),
            _ => random.between(0, most),
        };
        site.loads[cell - 1] = load as u16;
    }
    if random.once_in(24) {
        let cell = random.below(site.count());
        site.loads[cell] = random.pick(&[most as u16 + 1, 65_535, 4096]);
    }
}

/// Puts one to three faults into a record.
pub fn damage(random: &mut Random, site: &mut Site) {
    for _ in 0..random.between(1, 3) {
        let (any, cell) = (random.below(32), random.below(site.count().clamp(1, 32)));
        match random.below(13) {
            0 => site.cells = random.pick(&[0, 33, 65_535, random_size(any)]),
            1 => site.slots = random.pick(&[0, 129, 65_535, random_size(any)]),
            2 => site.channels = random.pick(&[0, 17, 65_535, random_size(any)]),
            3 | 4 => site.loads[any] = 1 + any as u16,
            5 => site.reach[any] |= 1 << random.below(32),
            6 => site.reach[cell] |= 1 << cell,
            7 => site.reach[cell] |= 1u32.checked_shl(site.cells as u32).unwrap_or(0),
            8 => site.reach[any] |= 1 << 31,
            9 | 10 => block_past(random, site),
            11 => site.rule = no_rule(random),
            _ => site.cells = site.cells.saturating_sub(1).max(1),
        }
    }
}

/// A number that is no rule.
pub fn no_rule(random: &mut Random) -> u16 {
    random.pick(&[0, 3, 4, 255, 256, 257, 258, 512, 32_769, 65_535])
}

fn random_size(any: usize) -> u16 {
    [17, 18, 34, 130, 256, 257, 32_768][any % 7]
}

/// A table for the site: its plan, perhaps one that knows of nothing blocked, or a random one; then perhaps a few bytes
/// changed, and loads made to agree or not.
pub fn table(random: &mut Random, site: &mut Site) -> Vec<u8> {
    let len = site.table_len();
    let mut table = vec![0; len];
    let known = if random.once_in(6) { [0; 32] } else { site.blocked };
    let planned = plan(&Site { blocked: known, ..*site }, &mut table).is_ok();
    if !planned && random.once_in(2) {
        let one_in = random.between(2, 20);
        for byte in &mut table {
            *byte = if random.once_in(one_in) { 1 } else { random.pick(&[0, 0, 2, 3, 255, 129]) };
        }
    }
    if random.once_in(3) {
        for _ in 0..random.between(1, 3) {
            table[random.below(len)] = random.pick(&[0, 1, 1, 2, 3, 254, 255, 128]);
        }
    }
    if random.once_in(3) {
        for cell in 0..site.count() {
            let row = &table[cell * site.positions()..][..site.positions()];
            site.loads[cell] = row.iter().filter(|&&byte| byte == 1).count() as u16;
        }
    }
    if random.once_in(6) {
        let cell = random.below(site.count());
        site.loads[cell] = site.loads[cell].wrapping_add(random.pick(&[1, 2, 65_535, 256]));
    }
    table
}

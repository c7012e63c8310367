//! Random sites for `find`, and random sets of cells for `over_full`: sites to search, rings, lines and nested sites whose cells
//! are numbered in any order, and sites of any size, with loads that just fit, so that every verdict is given often.

use crate::case::{Call, Case};
use crate::make::near;
use crate::numberings::{bolt_up, shuffled};
use crate::random::Random;
use crate::searches::{limit, small};
use crate::sites::{damage, sound_site};
use second::heaviest::heaviest;
use second::site::Site;

pub fn case(random: &mut Random, call: Call) -> Case {
    let mut site = match random.below(8) {
        0 => sound_site(random),
        1 | 2 => small(random),
        3 => bolted(random),
        4 | 5 => line(random, false),
        _ => line(random, true),
    };
    if random.once_in(12) {
        damage(random, &mut site);
    }
    if call == Call::OverFull {
        let cells = set(random, &site);
        return Case::of(call, site).cells(cells);
    }
    let limit = limit(random, &site);
    let (len, mark) = (near(random, site.table_len().min(70_000)), random.next());
    Case::of(call, site).limit(limit).output(&random.bytes(len), mark)
}

/// A nested site whose cells are numbered in any order, with small loads on few positions.
fn bolted(random: &mut Random) -> Site {
    let (cells, slots) = (random.between(3, 12), random.between(2, 4));
    let mut site = Site { rule: random.pick(&[1, 1, 1, 2]), ..Site::sized(cells, slots, 1) };
    bolt_up(random, &mut site);
    for load in &mut site.loads[..cells] {
        *load = random.pick(&[0, 1, 1, 1, 1, 2]);
    }
    site
}

/// Four to nine cells in a ring, or in a line, numbered in any order, with just enough positions for two that clash, or one
/// more or less.
fn line(random: &mut Random, closed: bool) -> Site {
    let cells = random.between(4, 9);
    let order = shuffled(random, cells);
    let load = random.pick(&[1, 1, 1, 2]);
    let slots = (2 * load as usize + random.pick(&[0, 0, 0, 0, 1])).saturating_sub(random.below(8) / 7);
    let mut site = Site { rule: random.pick(&[1, 1, 1, 2]), ..Site::sized(cells, slots, 1) };
    site.loads[..cells].fill(load);
    for k in 0..if closed { cells } else { cells - 1 } {
        site.reach[order[k]] |= 1 << order[(k + 1) % cells];
    }
    if random.once_in(3) {
        site.loads[random.below(cells)] = random.between(0, 3) as u16;
    }
    site
}

/// Cells that are over, mostly, where the site has such; with one cell more or fewer; or none, one, some or any.
fn set(random: &mut Random, site: &Site) -> u32 {
    let heavy = heaviest(site).map(|heaviest| heaviest.cells).unwrap_or(7);
    let own = u32::MAX >> (32 - site.count().clamp(1, 32));
    match random.below(10) {
        0 => 0,
        1 => 1 << random.below(32),
        2 => random.next() as u32,
        3 => random.next() as u32 & own,
        4 | 5 => heavy ^ 1 << random.below(32),
        6 => heavy ^ 1 << random.below(site.count().clamp(1, 32)),
        _ => heavy,
    }
}

//! The heaviest clash at its limits: no load, one cell, nobody and everybody clashing, rings, tunnels, all but a matching
//! and all but triples, each of 1 to 32 cells and with loads that are alike, rise, fall, double, or are the greatest; and
//! every site of five cells with loads 0 to 2.

use crate::boundary::small_site;
use crate::case::{Call, Case};
use crate::run::Run;
use second::site::Site;

/// Do two cells of so many clash, the lower first, both counted from 0?
type Clash = fn(usize, usize, usize) -> bool;

const SHAPES: [Clash; 9] = [
    |_, _, _| false,
    |_, _, _| true,
    |_, a, b| b - a == 1,
    |_, a, b| b - a <= 3,
    |cells, a, b| b - a == 1 || b - a == cells - 1,
    |_, a, b| a / 2 != b / 2,
    |cells, a, b| b - a != cells.div_ceil(2),
    |_, a, b| a / 3 != b / 3,
    |_, a, b| (a * 7 + b * 13) % 5 < 3,
];

const LOADS: [fn(usize) -> u16; 8] = [
    |_| 0,
    |_| 1,
    |_| 65_535,
    |i| 1 + i as u16,
    |i| 32 - i as u16,
    |i| 1 << (i % 16),
    |i| (i % 3) as u16,
    |i| [1, 1, 1, 90, 20, 0, 1, 55][i * 5 % 8],
];

pub fn compare(run: &mut Run) {
    for shape in SHAPES {
        for load in LOADS {
            for cells in 1..=32 {
                let mut site = Site::sized(cells, 128, 16);
                for a in 0..cells {
                    site.loads[a] = load(a);
                    for b in (a + 1..cells).filter(|&b| shape(cells, a, b)) {
                        let (from, to) = if (a + b) % 2 == 0 { (a, b) } else { (b, a) };
                        site.reach[from] |= 1 << to;
                    }
                }
                run.compare(&Case::of(Call::Heaviest, site));
            }
        }
    }
}

pub fn every_small_site(run: &mut Run) {
    for clashes in 0..1 << 10 {
        for loads in 0..243 {
            run.compare(&Case::of(Call::Heaviest, small_site(5, 2, clashes, loads)));
        }
    }
}

//! `find` and `over_full` at their limits: no try, the tries that it takes, one less and one more; a table that is a byte short
//! or a byte long; a site that is too large to search; every size of a site; sets with no cell, with every cell and with
//! cells that the site does not have; and every site of four cells with loads 0 to 2 on one to three positions.

use crate::boundary::{every_tunnel, wrong_sites};
use crate::case::{Call, Case};
use crate::run::Run;
use crate::search_limits::with_its_tries;
use second::site::{set_of, Site};

pub fn compare(run: &mut Run) {
    every_tunnel(|site| {
        every_length(run, site, 3);
        every_set(run, site);
    });
    for cells in 4..=9 {
        for (load, slots) in [(1, 2), (1, 3), (2, 4), (5, 10), (6, 12), (2, 3)] {
            let site = ring(cells, slots, load);
            for limit in [0, 1, 17, 18, 1_000] {
                every_length(run, &site, limit);
            }
            every_set(run, &site);
        }
    }
    // 64 and 65 open positions, and 24 and 25 fragments.
    for (slots, load, open) in [(65, 4, 64), (65, 4, 65), (8, 4, 8), (8, 5, 8)] {
        let mut site = ring(5, slots, load);
        site.loads[5] = 24 % load;
        site.cells = 6;
        site.blocked = set_of(open..slots);
        every_length(run, &site, 1_000);
    }
    for wrong in wrong_sites(ring(3, 2, 1)) {
        every_length(run, &wrong, 5);
        every_set(run, &wrong);
    }
    everyone(run);
}

/// So many cells with this load in a ring.
fn ring(cells: usize, slots: usize, load: u16) -> Site {
    let mut site = Site::sized(cells, slots, 1);
    for a in 0..cells {
        site.loads[a] = load;
        site.reach[a] |= 1 << ((a + 1) % cells);
    }
    site
}

/// All cells clash and have the greatest load; then with just the room that it takes, and one position less.
fn everyone(run: &mut Run) {
    for (cells, load, slots) in [(32, 65_535, 128), (32, 4, 128), (32, 4, 127), (31, 1, 31), (31, 1, 30)] {
        let mut site = Site::sized(cells, slots, 1);
        for a in 0..cells {
            site.loads[a] = load;
            site.reach[a] = (u32::MAX >> (32 - cells)) & !(1 << a);
        }
        every_length(run, &site, 0);
        every_set(run, &site);
    }
}

/// With a table that is long enough, one byte longer, one shorter and none.
fn every_length(run: &mut Run, site: &Site, limit: u64) {
    let due = site.table_len().min(65_538);
    for len in [due, due + 1, due.saturating_sub(1), 0] {
        run.compare(&Case::of(Call::Find, *site).limit(limit).output(&vec![0xA5; len], limit ^ 2015));
    }
}

/// No cell, one, two and more, all that there are, one that there is not, and any.
fn every_set(run: &mut Run, site: &Site) {
    let (own, next) =
        (u32::MAX.checked_shr(32 - site.count().min(32) as u32).unwrap_or(0), 1u32 << (site.count() % 32));
    for cells in [0, 1, 2, 3, 5, 6, 7, own, own ^ 1, own | next, 3 | next, next, 1 << 31, u32::MAX] {
        run.compare(&Case::of(Call::OverFull, *site).cells(cells));
    }
}

/// Each site with the tries that it needs, one less and one more; and each set of its cells, with a fifth that it has not.
pub fn every_small_site(run: &mut Run) {
    with_its_tries(|site, tries| {
        for limit in [0, tries.saturating_sub(1), tries, tries + 1] {
            run.compare(&Case::of(Call::Find, site).limit(limit).output(&vec![0x5A; site.table_len()], tries));
        }
        for cells in 0..32 {
            run.compare(&Case::of(Call::OverFull, site).cells(cells));
        }
    });
}

//! The search at its limits: no try, one, the largest number of tries; no fragments, 24 and 25; 64 and 65 open positions;
//! all blocked; a load above the open positions; and every site of four cells with loads 0 to 2 on one to three positions.

use crate::boundary::small_site;
use crate::case::{Call, Case};
use crate::run::Run;
use second::search::search;
use second::site::{set_of, Site};

const LIMITS: [u64; 6] = [0, 1, 2, 23, 24, 1_000];

pub fn compare(run: &mut Run) {
    for (slots, channels) in [(64, 1), (65, 1), (16, 4), (13, 5), (128, 16)] {
        for fragments in [0, 1, 23, 24, 25, 65_535] {
            for cells in [1, 2, 24, 32] {
                for open in [0, 1, 63, 64, 65] {
                    let site = spread(cells, slots, channels, fragments, open);
                    for limit in LIMITS {
                        ask(run, site, limit);
                    }
                }
            }
        }
    }
    // The largest limit, where the search is short.
    for loads in [[0, 0], [1, 1], [2, 1], [3, 0], [0, 3]] {
        let mut site = Site::sized(2, 2, 1);
        site.loads[..2].copy_from_slice(&loads);
        site.reach[1] = 1;
        ask(run, site, u64::MAX);
        ask(run, site, u64::MAX - 1);
    }
}

/// So many fragments on so many cells, of which each clashes with the next; the last `open` positions are open.
fn spread(cells: usize, slots: usize, channels: usize, fragments: usize, open: usize) -> Site {
    let mut site = Site::sized(cells, slots, channels);
    for fragment in 0..fragments.min(60_000) {
        site.loads[fragment % cells] += 1;
    }
    for cell in 1..cells {
        site.reach[cell] |= 1 << (cell - 1);
    }
    site.blocked = set_of(0..site.positions().saturating_sub(open));
    site
}

/// With a table that is long enough, one byte longer and one shorter.
fn ask(run: &mut Run, site: Site, limit: u64) {
    let due = site.table_len();
    for len in [due, due + 1, due - 1] {
        run.compare(&Case::of(Call::Search, site).limit(limit).output(&vec![0xA5; len], limit ^ 2015));
    }
}

/// Each site of four cells with loads 0 to 2 on one to three positions, and the tries that it needs.
pub fn with_its_tries(mut each: impl FnMut(Site, u64)) {
    for slots in 1..=3 {
        for clashes in 0..64 {
            for loads in 0..81 {
                let site = small_site(4, slots, clashes, loads);
                if let Ok((_, tries)) = search(&site, u64::MAX, &mut vec![0; site.table_len()]) {
                    each(site, tries);
                }
            }
        }
    }
}

/// Each site with the tries that it needs, one less and one more.
pub fn every_small_site(run: &mut Run) {
    with_its_tries(|site, tries| {
        for limit in [tries.saturating_sub(1), tries, tries + 1] {
            run.compare(&Case::of(Call::Search, site).limit(limit).output(&vec![0x5A; site.table_len()], tries));
        }
    });
}

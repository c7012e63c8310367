//! Spare cells, those with load 0, before the verdicts: every site of four cells and two positions with loads 0 to 2,
//! whatever clashes, so that a spare stands as a, as b and as c and all cells are spare too; and tunnels of 32 cells with
//! few spares and with many.

use crate::boundary::{small_site, tunnel};
use crate::case::{Call, Case};
use crate::run::Run;
use second::site::Site;

pub fn compare(run: &mut Run) {
    for clashes in 0..64 {
        for loads in 0..81 {
            verdicts(run, small_site(4, 2, clashes, loads));
        }
    }
    for apart in 1..=32 {
        for first in 0..apart {
            verdicts(run, with_spares(|cell| cell % apart == first));
            verdicts(run, with_spares(|cell| cell % apart != first));
        }
    }
}

fn verdicts(run: &mut Run, site: Site) {
    for call in [Call::LoadTest, Call::Chain, Call::Class, Call::Least, Call::Heaviest] {
        run.compare(&Case::of(call, site));
    }
}

/// The largest tunnel, each cell reaching the next two, with load 0 in some cells.
fn with_spares(spare: impl Fn(usize) -> bool) -> Site {
    let mut site = tunnel(32, 128, 16);
    for i in 0..30 {
        site.reach[i] |= 1 << (i + 2);
    }
    for i in (0..32).filter(|&i| spare(i)) {
        site.loads[i] = 0;
    }
    site
}

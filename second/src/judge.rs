//! "Load test and chain" and nested sites: the verdicts on a sound site, and how many open channel-slots do. All are about the
//! cells with load above 0 only; a cell with load 0 is a spare.

use crate::answer::Outcome;
use crate::site::Site;

fn loads(site: &Site) -> Vec<u64> {
    (1..=site.count()).map(|cell| site.load(cell)).collect()
}

/// `None` if the load test holds; otherwise the lowest cell that is over, and by how much.
pub fn load_test(site: &Site) -> Outcome<Option<(usize, u64)>> {
    site.sound()?;
    Ok(first_over(site, &loads(site)))
}

/// What a cell asks of the channel-slots: its load, and the loads of the lower-numbered cells that clash with it.
fn sum_at(site: &Site, loads: &[u64], cell: usize) -> u64 {
    let mut sum = loads[cell - 1];
    for lower in 1..cell {
        if site.clash(lower, cell) {
            sum += loads[lower - 1];
        }
    }
    sum
}

/// The load test with these loads in place of the site's own, the first for cell 1. Spares are skipped.
pub fn first_over(site: &Site, loads: &[u64]) -> Option<(usize, u64)> {
    let room = site.room();
    for cell in 1..=site.count() {
        if loads[cell - 1] == 0 {
            continue;
        }
        let sum = sum_at(site, loads, cell);
        if sum > room {
            return Some((cell, sum - room));
        }
    }
    None
}

/// How many open channel-slots do for the site's cells, loads and reach.
#[derive(Clone, Copy, Debug, PartialEq, Eq)]
pub struct Least {
    pub channel_slots: u64,
    /// On a nested site fewer never do; on any other fewer may do.
    pub fewer_may_do: bool,
}

/// The most that a loaded cell asks of the channel-slots; 0 if no cell is loaded. The site's own slots, channels and
/// blocked positions play no part.
pub fn least(site: &Site) -> Outcome<Least> {
    let fewer_may_do = nested(site)?.is_some();
    let loads = loads(site);
    let loaded = (1..=site.count()).filter(|&cell| loads[cell - 1] > 0);
    let most = loaded.map(|cell| sum_at(site, &loads, cell)).max();
    Ok(Least { channel_slots: most.unwrap_or(0), fewer_may_do })
}

/// `None` if the site is chained; otherwise the first a, b, c that break the chain. None of the three is a spare.
pub fn chain(site: &Site) -> Outcome<Option<(usize, usize, usize)>> {
    site.sound()?;
    Ok(first_gap(site, |cell| site.load(cell) > 0))
}

/// The first a, b, c among the cells that count, sought by a, then c, then b, where a and c clash and b, strictly
/// between them, does not clash with the earlier cell a.
fn first_gap(site: &Site, counts: impl Fn(usize) -> bool) -> Option<(usize, usize, usize)> {
    for a in 1..=site.count() {
        for c in a + 1..=site.count() {
            if !counts(a) || !counts(c) || !site.clash(a, c) {
                continue;
            }
            for b in a + 1..c {
                if counts(b) && !site.clash(a, b) {
                    return Some((a, b, c));
                }
            }
        }
    }
    None
}

/// `None` if the site is nested; otherwise the first a, b, i that show it is not. None of the three is a spare.
pub fn nested(site: &Site) -> Outcome<Option<(usize, usize, usize)>> {
    site.sound()?;
    Ok(first_split(site, |cell| site.load(cell) > 0))
}

/// The first a, b, i among the cells that count, sought by i, then a, then b, where a and b are lower than i and clash with
/// it, and do not clash with one another.
pub fn first_split(site: &Site, counts: impl Fn(usize) -> bool) -> Option<(usize, usize, usize)> {
    for i in (1..=site.count()).filter(|&i| counts(i)) {
        let near: Vec<usize> = (1..i).filter(|&cell| counts(cell) && site.clash(cell, i)).collect();
        for (k, &a) in near.iter().enumerate() {
            if let Some(&b) = near[k + 1..].iter().find(|&&b| !site.clash(a, b)) {
                return Some((a, b, i));
            }
        }
    }
    None
}

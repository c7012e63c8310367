//! "What the desk asks all day": how much more each cell could carry with all else as it is, and how many slots would do.
//!
//! A cell could carry m more when the site with m more in that load has a plan. Less load in a plan is a plan again, so there
//! is a greatest m wherever the site has a plan. What is said of it is the greatest m with which the load test still holds,
//! and 0 where it holds with none but a plan is known. Where the load test holds the planner plans, so that this much is sure.
//!
//! Where the loaded cells, and this one with them, are nested, it is exact: with more no plan exists. A full site has no room
//! anywhere.

use crate::answer::Outcome;
use crate::find::{find, Found};
use crate::heaviest::heaviest;
use crate::judge::{first_over, least, nested};
use crate::numbering::renumber;
use crate::site::{Site, MOST_SLOTS};

/// How much more a cell could carry: exactly so much, or at least.
#[derive(Clone, Copy, Debug, PartialEq, Eq)]
pub struct Room {
    pub more: u64,
    pub exact: bool,
}

/// What can be said of a site's room: what is found for it; of each cell how much more, where a plan is found; the load of the
/// heaviest clash, with fewer channel-slots than which no plan exists; and the number of `least`, with which one does.
#[derive(Clone, Debug, PartialEq, Eq)]
pub struct Rooms {
    pub found: Found,
    pub cells: Vec<Room>,
    pub needs: u64,
    pub least: u64,
}

pub fn rooms(site: &Site, limit: u64) -> Outcome<Rooms> {
    let found = find(site, limit, &mut vec![0; site.table_len()])?;
    let cells = if found.is_plan() { (1..=site.count()).map(|cell| room(site, cell)).collect() } else { Vec::new() };
    Ok(Rooms { found, cells, needs: heaviest(site)?.load, least: least(site)?.channel_slots })
}

/// The room of one cell, by the load test. It is exact where the cells with load above 0, and this one, are nested.
fn room(site: &Site, cell: usize) -> Room {
    let counted = site.with_load(cell, site.load(cell).max(1) as u16).expect("a cell of a sound site");
    Room { more: by_load_test(site, cell), exact: nested(&counted) == Ok(None) }
}

/// The channel-slots that are needed, and those that are enough: for a nested site, and for one that has a numbering, the
/// heaviest clash is both. Elsewhere the load test's least is enough, and what the site has where a plan is found.
pub fn takes(site: &Site, found: &Found) -> Outcome<(u64, u64)> {
    let needs = heaviest(site)?.load;
    if nested(site)?.is_none() || renumber(site).is_ok() {
        return Ok((needs, needs));
    }
    let least = least(site)?.channel_slots;
    Ok((needs, if found.is_plan() { least.min(site.room()) } else { least }))
}

/// The greatest m with which the load test holds when the cell carries m more; 0 where it does not hold with any. With less
/// it holds all the more, so that the greatest is found by halving.
fn by_load_test(site: &Site, cell: usize) -> u64 {
    let mut loads: Vec<u64> = (1..=site.count()).map(|cell| site.load(cell)).collect();
    let (mut sure, mut most) = (0, site.room());
    while sure < most {
        let more = (sure + most + 1) / 2;
        loads[cell - 1] = site.load(cell) + more;
        match first_over(site, &loads) {
            None => sure = more,
            Some(_) => most = more - 1,
        }
    }
    sure
}

/// How many slots would do, with the site's channels.
#[derive(Clone, Copy, Debug, PartialEq, Eq)]
pub enum SlotsThatDo {
    /// With fewer slots than the first no plan exists; with the second one does.
    Will { least: u64, enough: u64 },
    /// With fewer slots than this no plan exists; whether the most that a site may have do is not known.
    AtLeast(u64),
    /// Even the most slots that a site may have are too few.
    TooFew,
}

/// Where something is blocked more slots need not be open, and nothing is said.
pub fn slots_that_do(site: &Site, rooms: &Rooms) -> Option<SlotsThatDo> {
    if site.has_blocked() {
        return None;
    }
    let slots = |channel_slots: u64| channel_slots.div_ceil(site.channels.into()).max(1);
    let enough = if rooms.own_do(site) { site.slots.into() } else { slots(rooms.least) };
    let (least, most) = (slots(rooms.needs), MOST_SLOTS as u64);
    Some(match (least > most, enough > most) {
        (true, _) => SlotsThatDo::TooFew,
        (false, true) => SlotsThatDo::AtLeast(least),
        (false, false) => SlotsThatDo::Will { least, enough },
    })
}

impl Rooms {
    /// A plan is found, and the site has fewer open positions than the load test asks.
    fn own_do(&self, site: &Site) -> bool {
        self.found.is_plan() && site.room() < self.least
    }

    /// How many open channel-slots will do.
    pub fn enough(&self, site: &Site) -> u64 {
        if self.own_do(site) {
            site.room()
        } else {
            self.least
        }
    }
}

#[cfg(test)]
mod tests {
    use super::*;
    use crate::answer::refuse;
    use crate::search::{search, End};
    use crate::site::{set_of, site_of};

    fn more(site: &Site) -> Vec<(u64, bool)> {
        rooms(site, 1000).unwrap().cells.iter().map(|room| (room.more, room.exact)).collect()
    }

    fn slots(site: &Site) -> Option<SlotsThatDo> {
        slots_that_do(site, &rooms(site, 1000).unwrap())
    }

    /// The north drift of docs/DESK.md: 16 channel-slots, loads 6, 5, 4, 7 and a spare cell, each clashing with the next.
    #[test]
    fn a_chain_is_exact() {
        let north = site_of(8, 2, &[6, 5, 4, 7, 0], &[(1, 2), (2, 3), (3, 2), (3, 4), (4, 5)]);
        assert_eq!(more(&north), [(5, true), (5, true), (5, true), (5, true), (9, true)]);
        let said = rooms(&north, 0).unwrap();
        assert_eq!((said.found, said.needs, said.least), (Found::Greedy, 11, 11));
        assert_eq!(slots(&north), Some(SlotsThatDo::Will { least: 6, enough: 6 }));
        let wifi = Site { blocked: set_of([1, 3, 5, 7].into_iter()), ..north };
        assert_eq!(more(&wifi), [(1, true), (1, true), (1, true), (1, true), (5, true)]);
        assert_eq!(slots(&wifi), None);
    }

    /// P4, which greedy does not plan, is planned with the cells renumbered: what it has will do.
    #[test]
    fn a_numbering_is_no_class() {
        let pairs = [(1, 3), (2, 4), (3, 4)];
        assert_eq!(more(&site_of(2, 1, &[1, 1, 1, 1], &pairs)), [(0, false); 4]);
        assert_eq!(slots(&site_of(2, 1, &[1, 1, 1, 1], &pairs)), Some(SlotsThatDo::Will { least: 2, enough: 2 }));
        let wide = site_of(5, 1, &[1, 1, 1, 1], &pairs);
        assert_eq!(slots(&wide), Some(SlotsThatDo::Will { least: 2, enough: 3 }));
    }

    #[test]
    fn a_ring_is_not_exact() {
        let ring = |slots| site_of(slots, 1, &[1; 4], &[(1, 2), (2, 3), (3, 4), (4, 1)]);
        assert_eq!(more(&ring(2)), [(0, false); 4]);
        assert_eq!(more(&ring(3)), [(0, false), (1, false), (0, false), (0, false)]);
        assert_eq!(slots(&ring(2)), Some(SlotsThatDo::Will { least: 2, enough: 2 }));
        assert_eq!(slots(&ring(4)), Some(SlotsThatDo::Will { least: 2, enough: 3 }));
    }

    #[test]
    fn a_full_site_has_no_room() {
        let full = site_of(8, 2, &[6, 12, 4, 7, 0], &[(1, 2), (2, 3), (3, 4), (4, 5)]);
        let said = rooms(&full, 0).unwrap();
        assert_eq!((said.found, &said.cells), (Found::FullBySet(0b11), &vec![]));
        assert_eq!((said.needs, said.least), (18, 18));
        assert_eq!(slots(&full), Some(SlotsThatDo::Will { least: 9, enough: 9 }));
        assert_eq!(rooms(&Site { slots: 0, ..full }, 0), refuse(1, &[]));
    }

    #[test]
    fn slots_at_their_limit() {
        let one = |load| site_of(1, 2, &[load], &[]);
        assert_eq!(slots(&one(0)), Some(SlotsThatDo::Will { least: 1, enough: 1 }));
        assert_eq!(slots(&one(256)), Some(SlotsThatDo::Will { least: 128, enough: 128 }));
        assert_eq!(slots(&one(257)), Some(SlotsThatDo::TooFew));
        let star = site_of(1, 1, &[100, 100, 1], &[(1, 3), (2, 3)]);
        assert_eq!(slots(&star), Some(SlotsThatDo::AtLeast(101)));
    }

    /// Every reach of four cells, loads 0 or 1, on three positions: the true room, by the search, is at least what is said,
    /// and it is that where the cells are nested.
    #[test]
    fn small_sites() {
        let pairs = [(1, 2), (1, 3), (1, 4), (2, 3), (2, 4), (3, 4)];
        let planned = |site: &Site| search(site, u64::MAX, &mut vec![0; 12]).unwrap().0 == End::Plan;
        for clashes in 0..64usize {
            let chosen: Vec<_> = (0..6).filter(|k| clashes >> k & 1 == 1).map(|k| pairs[k]).collect();
            for loads in 0..16u16 {
                let site = site_of(3, 1, &[0, 1, 2, 3].map(|k| loads >> k & 1), &chosen);
                for (cell, (more, exact)) in (1..).zip(more(&site)) {
                    let with = |more: u64| site.with_load(cell, (site.load(cell) + more) as u16).unwrap();
                    let true_room = (0..5).take_while(|&more| planned(&with(more))).last().unwrap();
                    assert!(more <= true_room);
                    assert!(!exact || more == true_room);
                    assert!(exact || nested(&with(1)) != Ok(None));
                }
            }
        }
    }
}

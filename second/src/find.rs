//! "A plan by any proved way, or why there is none": the greedy planner, then the heaviest clash, then the cells in new
//! numbers, then the search. Each is asked where those before it do not say.

use crate::answer::{done, Answer, Outcome};
use crate::heaviest::{cells_of, heaviest};
use crate::numbering::{carry, renumber};
use crate::planner::{plan, table_fits, IDLE, RESERVED};
use crate::search::{search, End};
use crate::site::Site;

/// What is found. A set of cells is a word, bit i-1 for cell i; the number with a search is its tries.
#[derive(Clone, Copy, Debug, PartialEq, Eq)]
pub enum Found {
    Greedy,
    Renumbered,
    Searched(u64),
    /// None exists: these cells clash with one another, and their loads are above the open positions.
    FullBySet(u32),
    /// None exists: the cells in new numbers are nested, and the planner finds no room for them. On such a site some set is
    /// over, so that this is never answered; it stands here because the order of the ways has it.
    FullInClass,
    FullBySearch(u64),
    NotKnown(u64),
}

impl Found {
    pub fn is_plan(&self) -> bool {
        matches!(self, Found::Greedy | Found::Renumbered | Found::Searched(_))
    }

    pub fn is_full(&self) -> bool {
        matches!(self, Found::FullBySet(_) | Found::FullInClass | Found::FullBySearch(_))
    }

    /// The answer in numbers: 0 with the verdict (0 a plan, 1 none exists, 2 not known), by which way (0 greedy, 1 a set that
    /// is over, 2 renumbered, 3 searched), and then the tries, or the set as a word, or 0.
    pub fn answer(&self) -> Answer {
        match *self {
            Found::Greedy => done(&[0, 0, 0]),
            Found::Renumbered => done(&[0, 2, 0]),
            Found::Searched(tries) => done(&[0, 3, tries]),
            Found::FullBySet(cells) => done(&[1, 1, cells.into()]),
            Found::FullInClass => done(&[1, 2, 0]),
            Found::FullBySearch(tries) => done(&[1, 3, tries]),
            Found::NotKnown(tries) => done(&[2, 3, tries]),
        }
    }
}

/// The loads of a set of cells, added up.
pub fn load_of(site: &Site, cells: u32) -> u64 {
    cells_of(cells).map(|cell| site.load(cell)).sum()
}

/// Do these cells clash with one another, and are their loads above the open positions? And what do their loads come to? A set
/// with a cell that the site does not have is not over; its load is that of the cells that the site has.
pub fn over_full(site: &Site, cells: u32) -> Outcome<(bool, u64)> {
    site.sound()?;
    let own = cells_of(cells).all(|cell| site.has(cell));
    let mutual = cells_of(cells).all(|a| cells_of(cells).all(|b| a == b || site.clash(a, b)));
    let load = cells_of(cells).filter(|&cell| site.has(cell)).map(|cell| site.load(cell)).sum();
    Ok((own && mutual && load > site.room(), load))
}

/// Finds a plan into the first IN bytes of the table, or says why there is none; then they are 0. Refusals: the record's
/// faults, then 4, and nothing is written. A greedy plan has the planner's 2s; any other is 1s and 0s.
pub fn find(site: &Site, limit: u64, table: &mut [u8]) -> Outcome<Found> {
    site.sound()?;
    table_fits(site, table.len())?;
    let table = &mut table[..site.table_len()];
    if plan(site, table).is_ok() {
        return Ok(Found::Greedy);
    }
    // The planner's refusal has left the table idle.
    let clash = heaviest(site)?;
    if clash.load > site.room() {
        return Ok(Found::FullBySet(clash.cells));
    }
    match renumber(site) {
        Ok(renumbered) => in_new_numbers(site, &renumbered.site, table),
        Err(_) => Ok(sought(site, limit, table)),
    }
}

/// The plan of the renumbered site, carried back, as 1s and 0s.
fn in_new_numbers(site: &Site, renumbered: &Site, table: &mut [u8]) -> Outcome<Found> {
    let mut new_numbered = vec![IDLE; site.table_len()];
    if plan(renumbered, &mut new_numbered).is_err() {
        return Ok(Found::FullInClass);
    }
    carry(site, &new_numbered, table)?;
    for byte in table {
        *byte = if *byte == RESERVED { RESERVED } else { IDLE };
    }
    Ok(Found::Renumbered)
}

/// What the search says; a site that is too large for it is not known, with no try made.
fn sought(site: &Site, limit: u64, table: &mut [u8]) -> Found {
    match search(site, limit, table) {
        Ok((End::Plan, tries)) => Found::Searched(tries),
        Ok((End::NoneExists, tries)) => Found::FullBySearch(tries),
        Ok((End::LimitMet, tries)) => Found::NotKnown(tries),
        Err(_) => Found::NotKnown(0),
    }
}

#[cfg(test)]
mod tests {
    use super::*;
    use crate::answer::refuse;
    use crate::checker::check;
    use crate::site::site_of;

    fn ring(cells: usize, slots: usize, load: u16) -> Site {
        let pairs: Vec<_> = (1..=cells).map(|cell| (cell, cell % cells + 1)).collect();
        site_of(slots, 1, &vec![load; cells], &pairs)
    }

    /// What is found with this limit, and the table; a byte past the table stays.
    fn found(site: &Site, limit: u64) -> (Found, Vec<u8>) {
        let mut table = vec![9; site.table_len() + 1];
        let found = find(site, limit, &mut table).unwrap();
        assert_eq!(table.pop(), Some(9));
        assert_eq!(check(site, &table).is_ok(), found.is_plan());
        assert!(found.is_plan() || table.iter().all(|&byte| byte == 0));
        (found, table)
    }

    #[test]
    fn greedy_is_the_planners_own() {
        let site = site_of(6, 1, &[5, 1, 4], &[(2, 1), (2, 3)]);
        let mut planned = vec![0; 18];
        plan(&site, &mut planned).unwrap();
        assert_eq!(found(&site, 0), (Found::Greedy, planned));
    }

    /// P4 and P5: greedy does not find the plan. P7 is a path in other numbers, too.
    #[test]
    fn renumbered() {
        let p4 = site_of(2, 1, &[1, 1, 1, 1], &[(1, 3), (2, 4), (3, 4)]);
        assert_eq!(found(&p4, 0), (Found::Renumbered, vec![1, 0, 0, 1, 0, 1, 1, 0]));
        let p7 = site_of(2, 1, &[1, 0, 1, 1, 1], &[(1, 4), (2, 3), (3, 5), (4, 5)]);
        let (found, table) = found(&p7, 0);
        assert_eq!(found, Found::Renumbered);
        assert!(table.iter().all(|&byte| byte < 2), "the marks of the planner are not carried");
    }

    #[test]
    fn full_by_a_set() {
        let site = site_of(6, 1, &[5, 2, 4], &[(2, 1), (2, 3)]);
        assert_eq!(found(&site, 0).0, Found::FullBySet(0b011));
        assert_eq!(over_full(&site, 0b011), Ok((true, 7)));
        let within = [(0, 0), (1, 5), (2, 2), (4, 4), (0b110, 6), (0b101, 9), (0b111, 11), (0b1011, 7), (1 << 31, 0)];
        for (cells, load) in within {
            assert_eq!(over_full(&site, cells), Ok((false, load)), "{cells:b}");
        }
        assert_eq!(over_full(&site_of(1, 1, &[2], &[]), 1), Ok((true, 2)));
        assert_eq!(over_full(&Site { slots: 0, ..site }, 0b011), refuse(1, &[]));
    }

    /// Five in a ring with two positions have no plan; a ring has no numbering, so that only the search says so.
    #[test]
    fn the_search_decides() {
        assert_eq!(found(&ring(5, 2, 1), 18).0, Found::FullBySearch(18));
        assert_eq!(found(&ring(5, 2, 1), 17).0, Found::NotKnown(17));
        assert_eq!(found(&ring(5, 2, 1), 0).0, Found::NotKnown(0));
        // Twenty-five fragments are too many to search, whatever the limit.
        assert_eq!(found(&ring(5, 10, 5), u64::MAX).0, Found::NotKnown(0));
        // A ring of six, numbered so that greedy gives up.
        let six = site_of(2, 1, &[1; 6], &[(1, 3), (3, 5), (5, 2), (2, 4), (4, 6), (6, 1)]);
        let (searched, _) = found(&six, 1000);
        assert!(matches!(searched, Found::Searched(1..=1000)), "{searched:?}");
    }

    #[test]
    fn answers_in_numbers() {
        for (found, values) in [
            (Found::Greedy, [0, 0, 0]),
            (Found::Renumbered, [0, 2, 0]),
            (Found::Searched(7), [0, 3, 7]),
            (Found::FullBySet(0x8000_0001), [1, 1, 0x8000_0001]),
            (Found::FullInClass, [1, 2, 0]),
            (Found::FullBySearch(8), [1, 3, 8]),
            (Found::NotKnown(9), [2, 3, 9]),
        ] {
            assert_eq!(found.answer(), done(&values));
        }
    }

    #[test]
    fn refusals_write_nothing() {
        let site = site_of(2, 1, &[1, 1], &[(1, 2)]);
        let mut table = [9; 3];
        assert_eq!(find(&Site { channels: 17, ..site }, 5, &mut table), refuse(1, &[]));
        assert_eq!(find(&Site { rule: 3, ..site }, 5, &mut []), refuse(24, &[]));
        assert_eq!(find(&site, 5, &mut table), refuse(4, &[]));
        assert_eq!(table, [9; 3]);
    }

    /// Every site of four cells, loads 0 to 2 and two positions: what is found is right, by an exhausted search; no larger
    /// limit alters a plan or a none; and the class is never what shows that there is none.
    #[test]
    fn small_sites() {
        for clashes in 0..64usize {
            for loads in 0..81usize {
                let mut site = Site::sized(4, 2, 1);
                let pairs = [(0, 1), (0, 2), (0, 3), (1, 2), (1, 3), (2, 3)];
                for (k, (a, b)) in pairs.into_iter().enumerate() {
                    site.reach[a] |= ((clashes >> k & 1) as u32) << b;
                }
                for cell in 0..4 {
                    site.loads[cell] = (loads / 3usize.pow(cell as u32) % 3) as u16;
                }
                let (all, table) = found(&site, u64::MAX);
                let exists = search(&site, u64::MAX, &mut vec![0; 8]).unwrap().0 == End::Plan;
                assert_eq!(all.is_plan(), exists);
                assert_ne!(all, Found::FullInClass);
                match all {
                    Found::FullBySet(cells) => assert_eq!(over_full(&site, cells), Ok((true, load_of(&site, cells)))),
                    _ => assert!((0..16).all(|cells| !over_full(&site, cells).unwrap().0)),
                }
                for limit in [0, 5, 20] {
                    let (some, short) = found(&site, limit);
                    let not_known = matches!(some, Found::NotKnown(tries) if tries == limit);
                    assert!(some == all && short == table || not_known && renumber(&site).is_err());
                }
            }
        }
    }
}

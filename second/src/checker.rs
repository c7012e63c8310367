//! "Positions, tables, validity": the checker of finished tables. Only the byte 1 means transmit.

use crate::answer::{refuse, Answer, Outcome};
use crate::planner::{table_fits, RESERVED};
use crate::site::Site;

/// Is the table valid for the site?
pub fn check(site: &Site, table: &[u8]) -> Outcome<()> {
    site.sound()?;
    table_fits(site, table.len())?;
    judge(site, |cell, position| transmits(site, table, cell, position))
}

pub fn transmits(site: &Site, table: &[u8], cell: usize, position: usize) -> bool {
    table[(cell - 1) * site.positions() + position] == RESERVED
}

/// Are the transmissions, by cell and position, valid for the site? Refusal 22 comes before refusal 6, and that before 7.
pub fn judge(site: &Site, sends: impl Fn(usize, usize) -> bool) -> Outcome<()> {
    none_where_blocked(site, &sends)?;
    no_clash(site, &sends)?;
    counts_right(site, &sends)
}

/// Refusal 22: the lowest blocked position with a reservation; there the lowest cell that has one.
fn none_where_blocked(site: &Site, sends: impl Fn(usize, usize) -> bool) -> Outcome<()> {
    for position in 0..site.positions() {
        if site.is_open(position) {
            continue;
        }
        if let Some(cell) = (1..=site.count()).find(|&cell| sends(cell, position)) {
            return refuse(22, &[position as u64, cell as u64]);
        }
    }
    Ok(())
}

/// Refusal 6: the lowest position with a clash; there the pair with the lowest first cell, then second.
fn no_clash(site: &Site, sends: impl Fn(usize, usize) -> bool) -> Outcome<()> {
    for position in 0..site.positions() {
        for first in 1..=site.count() {
            if !sends(first, position) {
                continue;
            }
            for second in first + 1..=site.count() {
                if sends(second, position) && site.clash(first, second) {
                    return refuse(6, &[position as u64, first as u64, second as u64]);
                }
            }
        }
    }
    Ok(())
}

/// Refusal 7: the lowest cell that does not hold 1 exactly as often as its load, and how often it does.
fn counts_right(site: &Site, sends: impl Fn(usize, usize) -> bool) -> Outcome<()> {
    for cell in 1..=site.count() {
        let count = (0..site.positions()).filter(|&position| sends(cell, position)).count() as u64;
        if count != site.load(cell) {
            return refuse(7, &[cell as u64, count]);
        }
    }
    Ok(())
}

/// Every fault of a table, not the first alone: the 22s by position, then cell; the 6s by position, then first cell, then
/// second; the 7s by cell. The first of them is the checker's own answer. The record's faults and 4 come before.
pub fn check_all(site: &Site, table: &[u8]) -> Outcome<Vec<Answer>> {
    site.sound()?;
    table_fits(site, table.len())?;
    let sends = |cell: usize, position: usize| transmits(site, table, cell, position);
    let mut faults = Vec::new();
    for position in (0..site.positions()).filter(|&position| !site.is_open(position)) {
        for cell in (1..=site.count()).filter(|&cell| sends(cell, position)) {
            faults.push(fault(22, &[position, cell]));
        }
    }
    for position in 0..site.positions() {
        for first in (1..=site.count()).filter(|&cell| sends(cell, position)) {
            for second in (first + 1..=site.count()).filter(|&cell| sends(cell, position) && site.clash(first, cell)) {
                faults.push(fault(6, &[position, first, second]));
            }
        }
    }
    for cell in 1..=site.count() {
        let count = (0..site.positions()).filter(|&position| sends(cell, position)).count();
        if count as u64 != site.load(cell) {
            faults.push(fault(7, &[cell, count]));
        }
    }
    Ok(faults)
}

/// A refusal as one of a list.
fn fault(number: u64, values: &[usize]) -> Answer {
    let values: Vec<u64> = values.iter().map(|&value| value as u64).collect();
    refuse::<()>(number, &values).unwrap_err()
}

#[cfg(test)]
mod tests {
    use super::*;

    /// Three cells, two slots, one channel: 1 and 2 clash, 2 and 3 clash, loads 1, 1, 0; slot 2 is blocked.
    fn three() -> Site {
        let site = Site::sized(3, 2, 1).with_reach(1, 2, true).and_then(|site| site.with_reach(3, 2, true));
        let site = site.and_then(|site| site.with_load(1, 1)).and_then(|site| site.with_load(2, 1)).unwrap();
        Site { blocked: crate::site::set_of(1..2), ..site }
    }

    #[test]
    fn every_fault_in_the_checkers_order() {
        let all = |table: &[u8]| -> Vec<(u64, [u64; 3])> {
            let faults = check_all(&three(), table).unwrap();
            assert_eq!(check(&three(), table).err(), faults.first().copied());
            faults.into_iter().map(|fault| (fault.number, fault.value)).collect()
        };
        assert_eq!(all(&[1, 0, 0, 0, 0, 0]), [(7, [2, 0, 0])]);
        assert_eq!(all(&[1, 0, 1, 0, 0, 0]), [(6, [0, 1, 2])]);
        assert_eq!(
            all(&[1, 1, 1, 1, 1, 1]),
            [
                (22, [1, 1, 0]),
                (22, [1, 2, 0]),
                (22, [1, 3, 0]),
                (6, [0, 1, 2]),
                (6, [0, 2, 3]),
                (6, [1, 1, 2]),
                (6, [1, 2, 3]),
                (7, [1, 2, 0]),
                (7, [2, 2, 0]),
                (7, [3, 2, 0]),
            ]
        );
    }

    /// On every table of three cells and two positions the first of all faults is the checker's, and a valid one has none.
    #[test]
    fn the_first_is_the_checkers() {
        for open in [[0; 32], three().blocked] {
            let site = Site { blocked: open, ..three() };
            for set in 0..64u8 {
                let table: Vec<u8> = (0..6).map(|k| set >> k & 1).collect();
                assert_eq!(check(&site, &table).err(), check_all(&site, &table).unwrap().first().copied());
            }
        }
        assert_eq!(check_all(&three(), &[0; 5]), refuse(4, &[]));
        assert_eq!(check_all(&Site { slots: 0, ..three() }, &[]), refuse(1, &[]));
    }
}

//! "Mend a table from another planner": reservations are kept where they can be, others dropped, and the lowest free
//! positions added, cell by cell.

use crate::answer::{refuse, Outcome};
use crate::checker::transmits;
use crate::planner::{table_fits, IDLE, RESERVED};
use crate::site::Site;

/// An entry of the list: cell, position, what it was and what it is, 1 for a reservation and 0 for silence.
pub type Change = [u16; 4];

/// Mends the table where it stands, lists the changes and gives their number. Every refusal leaves both as they were.
pub fn mend(site: &Site, table: &mut [u8], list: &mut [u16]) -> Outcome<usize> {
    site.sound()?;
    table_fits(site, table.len())?;
    let changes = changes(site, table, &mended(site, table)?);
    if list.len() / 4 < changes.len() {
        return refuse(13, &[changes.len() as u64]);
    }
    for (entry, change) in list.chunks_exact_mut(4).zip(&changes) {
        entry.copy_from_slice(change);
        let [cell, position, _, is] = change.map(usize::from);
        table[(cell - 1) * site.positions() + position] = if is == 1 { RESERVED } else { IDLE };
    }
    Ok(changes.len())
}

/// The changes that mending would make, or its refusal 5. The table stays as it is.
pub fn changes_to_mend(site: &Site, table: &[u8]) -> Outcome<Vec<Change>> {
    site.sound()?;
    table_fits(site, table.len())?;
    Ok(changes(site, table, &mended(site, table)?))
}

/// The changes from one table of the site to another, as the mender lists its own: by cell, then position.
pub fn diff(site: &Site, old: &[u8], new: &[u8]) -> Outcome<Vec<Change>> {
    site.sound()?;
    table_fits(site, old.len())?;
    table_fits(site, new.len())?;
    let at = new[..site.table_len()].iter().map(|&byte| byte == RESERVED).collect();
    Ok(changes(site, old, &Stands { site, at }))
}

/// Where a reservation stands after mending, by cell from 1 and position.
struct Stands<'a> {
    site: &'a Site,
    at: Vec<bool>,
}

impl Stands<'_> {
    fn index(&self, cell: usize, position: usize) -> usize {
        (cell - 1) * self.site.positions() + position
    }

    fn holds(&self, cell: usize, position: usize) -> bool {
        self.at[self.index(cell, position)]
    }

    /// The position is open, and no kept or added reservation of an earlier clashing cell stands here.
    fn free(&self, cell: usize, position: usize) -> bool {
        self.site.is_open(position)
            && (1..cell).all(|earlier| !(self.holds(earlier, position) && self.site.clash(earlier, cell)))
    }

    /// Reserves those of the positions that are free, in rising order, until nothing is left of the load.
    fn reserve(&mut self, cell: usize, positions: impl Iterator<Item = usize>, left: &mut u64) {
        for position in positions {
            if *left > 0 && !self.holds(cell, position) && self.free(cell, position) {
                let index = self.index(cell, position);
                self.at[index] = true;
                *left -= 1;
            }
        }
    }
}

/// The reservations after mending, or refusal 5 with the first cell whose load cannot be met and what is short.
fn mended<'a>(site: &'a Site, table: &[u8]) -> Outcome<Stands<'a>> {
    let mut stands = Stands { site, at: vec![false; site.table_len()] };
    for cell in 1..=site.count() {
        let mut left = site.load(cell);
        let own = (0..site.positions()).filter(|&position| transmits(site, table, cell, position));
        stands.reserve(cell, own, &mut left);
        stands.reserve(cell, 0..site.positions(), &mut left);
        if left > 0 {
            return refuse(5, &[cell as u64, left]);
        }
    }
    Ok(stands)
}

/// What differs, by cell, then position.
fn changes(site: &Site, table: &[u8], stands: &Stands) -> Vec<Change> {
    let mut changes = Vec::new();
    for cell in 1..=site.count() {
        for position in 0..site.positions() {
            let (was, is) = (transmits(site, table, cell, position), stands.holds(cell, position));
            if was != is {
                changes.push([cell as u16, position as u16, was as u16, is as u16]);
            }
        }
    }
    changes
}

#[cfg(test)]
mod tests {
    use super::*;

    /// One cell, four positions, load 2.
    fn one() -> Site {
        Site::sized(1, 4, 1).with_load(1, 2).unwrap()
    }

    fn mend_in(site: &Site, table: &mut [u8], numbers: usize) -> (Outcome<usize>, Vec<u16>) {
        let mut list = vec![9; numbers];
        (mend(site, table, &mut list), list)
    }

    #[test]
    fn keeps_drops_and_adds() {
        for (was, is, list) in [
            ([1, 0, 1, 0, 7], [1, 0, 1, 0, 7], vec![]),
            ([1, 1, 1, 1, 7], [1, 1, 0, 0, 7], vec![1, 2, 1, 0, 1, 3, 1, 0]),
            ([2, 255, 3, 1, 7], [1, 255, 3, 1, 7], vec![1, 0, 0, 1]),
            ([0, 2, 0, 2, 7], [1, 1, 0, 2, 7], vec![1, 0, 0, 1, 1, 1, 0, 1]),
        ] {
            let mut table = was;
            let (answer, mut written) = mend_in(&one(), &mut table, list.len() + 5);
            assert_eq!((answer, table), (Ok(list.len() / 4), is));
            assert_eq!(written.split_off(list.len()), [9; 5]);
            assert_eq!(written, list);
        }
    }

    #[test]
    fn an_earlier_clashing_cell_is_in_the_way() {
        let mut site = Site::sized(2, 3, 1).with_reach(2, 1, true).unwrap();
        site.loads[..2].copy_from_slice(&[1, 1]);
        // Cell 1 adds position 0, where cell 2 stood, and cell 2 then has the lowest free one.
        let mut table = [0, 0, 0, 1, 0, 0];
        assert_eq!(mend_in(&site, &mut table, 12), (Ok(3), vec![1, 0, 0, 1, 2, 0, 1, 0, 2, 1, 0, 1]));
        assert_eq!(table, [1, 0, 0, 0, 1, 0]);
    }

    #[test]
    fn refusals_in_their_order() {
        let mut table = [1, 1, 1, 1];
        let untouched = vec![9; 7];
        assert_eq!(mend_in(&Site { slots: 0, ..one() }, &mut table[..1], 7), (refuse(1, &[]), untouched.clone()));
        assert_eq!(mend_in(&one(), &mut table[..3], 7), (refuse(4, &[]), untouched.clone()));
        let over = one().with_load(1, 9).unwrap();
        assert_eq!(mend_in(&over, &mut table, 7), (refuse(5, &[1, 5]), untouched.clone()));
        assert_eq!(mend_in(&one(), &mut table, 7), (refuse(13, &[2]), untouched));
        assert_eq!(mend_in(&one(), &mut table, 0), (refuse(13, &[2]), vec![]));
        assert_eq!(table, [1, 1, 1, 1]);
    }

    #[test]
    fn from_one_table_to_another() {
        let site = one();
        assert_eq!(diff(&site, &[1, 0, 2, 1], &[1, 2, 0, 1]), Ok(vec![]));
        assert_eq!(
            diff(&site, &[1, 0, 2, 1], &[0, 1, 1, 3]),
            Ok(vec![[1, 0, 1, 0], [1, 1, 0, 1], [1, 2, 0, 1], [1, 3, 1, 0]])
        );
        assert_eq!(diff(&site, &[1, 0, 2], &[0; 4]), refuse(4, &[]));
        assert_eq!(diff(&site, &[0; 4], &[0; 3]), refuse(4, &[]));
        assert_eq!(diff(&Site { rule: 0, ..site }, &[], &[]), refuse(24, &[]));
    }

    /// The changes to mend are those from the table to the mended one.
    #[test]
    fn the_changes_to_mend() {
        for set in 0..16u8 {
            let table: Vec<u8> = (0..4).map(|k| set >> k & 1).collect();
            let mut mended = table.clone();
            mend(&one(), &mut mended, &mut [0; 16]).unwrap();
            assert_eq!(changes_to_mend(&one(), &table), diff(&one(), &table, &mended));
        }
        assert_eq!(changes_to_mend(&one().with_load(1, 9).unwrap(), &[0; 4]), refuse(5, &[1, 5]));
    }
}

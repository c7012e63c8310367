//! "Find the numbering": a renumbering of all cells with which each cell's lower clashing cells clash with one another,
//! and tables carried back from it.

use crate::answer::{refuse, Outcome};
use crate::planner::table_fits;
use crate::site::Site;

/// A number for each cell, from 1; 0 past the cells.
pub type Numbers = [u16; 32];

/// The site in new numbers, the new number of each old one, and the old number of each new one.
#[derive(Debug, PartialEq, Eq)]
pub struct Renumbered {
    pub site: Site,
    pub new_of_old: Numbers,
    pub old_of_new: Numbers,
}

/// Renumbers a site, or refuses it: its own faults, then 23.
pub fn renumber(site: &Site) -> Outcome<Renumbered> {
    site.sound()?;
    let order = order(site)?;
    let mut renumbered = Renumbered { site: *site, new_of_old: [0; 32], old_of_new: [0; 32] };
    renumbered.site.reach = [0; 32];
    for (new, &old) in (1..).zip(&order) {
        renumbered.old_of_new[new - 1] = old as u16;
        renumbered.new_of_old[old - 1] = new as u16;
        renumbered.site.loads[new - 1] = site.loads[old - 1];
        for (other, &old_other) in (1..).zip(&order) {
            renumbered.site.reach[new - 1] |= u32::from(site.reaches(old, old_other)) << (other - 1);
        }
    }
    Ok(renumbered)
}

/// Carries the rows of a table in new numbers into a table in old numbers, byte for byte.
pub fn carry(site: &Site, from: &[u8], to: &mut [u8]) -> Outcome<()> {
    site.sound()?;
    let order = order(site)?;
    table_fits(site, from.len())?;
    table_fits(site, to.len())?;
    let width = site.positions();
    for (row, old) in from.chunks_exact(width).zip(order) {
        to[(old - 1) * width..old * width].copy_from_slice(row);
    }
    Ok(())
}

/// The old numbers in their new order: "the last number goes to the highest old number whose clashing cells all clash
/// with one another, then the same for those left". Refusal 23 when there is no such cell.
fn order(site: &Site) -> Outcome<Vec<usize>> {
    let mut left: Vec<usize> = (1..=site.count()).collect();
    let mut order = Vec::new();
    while !left.is_empty() {
        match left.iter().rposition(|&cell| close(site, &left, cell)) {
            Some(highest) => order.insert(0, left.remove(highest)),
            None => return refuse(23, &[]),
        }
    }
    Ok(order)
}

/// Do the cells among those left that clash with this one all clash with one another?
fn close(site: &Site, left: &[usize], cell: usize) -> bool {
    let near: Vec<usize> = left.iter().copied().filter(|&other| site.clash(cell, other)).collect();
    near.iter().all(|&a| near.iter().all(|&b| a == b || site.clash(a, b)))
}

#[cfg(test)]
mod tests {
    use super::*;

    /// A site whose cells reach one another in these pairs.
    fn site_of(cells: usize, pairs: &[[usize; 2]]) -> Site {
        let mut site = Site::sized(cells, 2, 2);
        for &[a, b] in pairs {
            site.reach[a - 1] |= 1 << (b - 1);
        }
        for cell in 0..cells {
            site.loads[cell] = 10 + cell as u16;
        }
        site
    }

    fn first<const K: usize>(numbers: Numbers) -> [u16; K] {
        assert!(numbers[K..].iter().all(|&number| number == 0));
        numbers[..K].try_into().unwrap()
    }

    /// The star with its centre last: one leaf is last, then the centre may come before another leaf.
    #[test]
    fn a_star_has_a_numbering() {
        let star = site_of(3, &[[1, 3], [3, 2]]);
        let found = renumber(&star).unwrap();
        assert_eq!((first(found.new_of_old), first(found.old_of_new)), ([1, 3, 2], [1, 3, 2]));
        let mut due = site_of(3, &[[1, 2], [2, 3]]);
        due.loads.swap(1, 2);
        assert_eq!(found.site, due);
    }

    /// A ring of four has none, and any refusal is given before a table is looked at.
    #[test]
    fn a_ring_has_none() {
        let ring = site_of(4, &[[1, 2], [2, 3], [3, 4], [4, 1]]);
        assert_eq!(renumber(&ring), refuse(23, &[]));
        assert_eq!(carry(&ring, &[], &mut []), refuse(23, &[]));
        assert_eq!(renumber(&Site { slots: 0, ..ring }), refuse(1, &[]));
    }

    #[test]
    fn rows_go_back_to_their_old_numbers() {
        let star = site_of(3, &[[1, 3], [3, 2]]);
        let from: Vec<u8> = (0..14).collect();
        let mut to = [99; 13];
        assert_eq!(carry(&star, &from, &mut to), Ok(()));
        assert_eq!(to, [0, 1, 2, 3, 8, 9, 10, 11, 4, 5, 6, 7, 99]);
        assert_eq!(carry(&star, &from[..11], &mut to), refuse(4, &[]));
        assert_eq!(carry(&star, &from, &mut to[..11]), refuse(4, &[]));
    }
}

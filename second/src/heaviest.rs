//! "The heaviest clash": of all sets of cells that clash with one another the one with the greatest load; of equals, the
//! one with the smallest word. A spare cell is never in it, since the word without it is smaller. So it is a set of
//! loaded cells to which no loaded cell can be added, and all such sets are gone through (Bron and Kerbosch).

use crate::answer::Outcome;
use crate::site::Site;

/// A set of cells, bit i-1 for cell i, and what the loads of its cells come to.
#[derive(Clone, Copy, Debug, PartialEq, Eq)]
pub struct Heaviest {
    pub load: u64,
    pub cells: u32,
}

pub fn heaviest(site: &Site) -> Outcome<Heaviest> {
    site.sound()?;
    let loaded = word((1..=site.count()).filter(|&cell| site.load(cell) > 0));
    let neighbours = (1..=32).map(|a| word((1..=32).filter(|&b| site.clash(a, b)))).collect();
    let mut walk = Walk { site, neighbours, best: Heaviest { load: 0, cells: 0 } };
    walk.grow(0, loaded, 0);
    Ok(walk.best)
}

fn word(cells: impl Iterator<Item = usize>) -> u32 {
    cells.fold(0, |word, cell| word | 1 << (cell - 1))
}

/// The cells of a word, by number.
pub fn cells_of(word: u32) -> impl Iterator<Item = usize> {
    (1..=32).filter(move |cell| word >> (cell - 1) & 1 == 1)
}

struct Walk<'a> {
    site: &'a Site,
    /// For each cell the word of those that clash with it.
    neighbours: Vec<u32>,
    best: Heaviest,
}

impl Walk<'_> {
    /// Goes through the sets that have all of `chosen`, some of `open` and none of `done`, and cannot be added to. All of
    /// `open` and `done` clash with all of `chosen`.
    fn grow(&mut self, chosen: u32, mut open: u32, mut done: u32) {
        if open == 0 && done == 0 {
            self.meet(chosen);
            return;
        }
        // Such a set has the pivot or a cell that does not clash with it.
        let clashes = |cell: usize| open & self.neighbours[cell - 1];
        let pivot = cells_of(open | done).max_by_key(|&cell| clashes(cell).count_ones()).unwrap();
        for cell in cells_of(open & !clashes(pivot)) {
            let (bit, near) = (1 << (cell - 1), self.neighbours[cell - 1]);
            self.grow(chosen | bit, open & near, done & near);
            open &= !bit;
            done |= bit;
        }
    }

    fn meet(&mut self, cells: u32) {
        let load = cells_of(cells).map(|cell| self.site.load(cell)).sum();
        let Heaviest { load: most, cells: smallest } = self.best;
        if load > most || load == most && cells < smallest {
            self.best = Heaviest { load, cells };
        }
    }
}

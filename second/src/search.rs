//! "Search where greedy gives up": fragments in cell order, each cell's positions rising, lowest first, going back when
//! stuck. One try is one open position looked at for one fragment.

use crate::answer::{refuse, Outcome};
use crate::planner::{table_fits, IDLE, RESERVED};
use crate::site::Site;

pub const MOST_OPEN: u64 = 64;
pub const MOST_FRAGMENTS: u64 = 24;

#[derive(Clone, Copy, Debug, PartialEq, Eq)]
pub enum End {
    Plan,
    NoneExists,
    LimitMet,
}

/// Has a sound site more open positions or more fragments than a search takes?
pub fn too_large(site: &Site) -> bool {
    let fragments: u64 = (1..=site.count()).map(|cell| site.load(cell)).sum();
    site.room() > MOST_OPEN || fragments > MOST_FRAGMENTS
}

/// How a search ends, and the tries made. A plan is 1s and 0s in the first IN bytes of the table; else they are 0.
pub fn search(site: &Site, limit: u64, table: &mut [u8]) -> Outcome<(End, u64)> {
    site.sound()?;
    table_fits(site, table.len())?;
    if too_large(site) {
        return refuse(25, &[]);
    }
    let open = (0..site.positions()).filter(|&position| site.is_open(position)).collect();
    let owners = (1..=site.count()).flat_map(|cell| vec![cell; site.load(cell) as usize]).collect();
    let table = &mut table[..site.table_len()];
    table.fill(IDLE);
    let mut walk = Walk { site, open, owners, limit, tries: 0, table };
    let end = walk.place(0, 0);
    let tries = walk.tries;
    if end != End::Plan {
        table.fill(IDLE);
    }
    Ok((end, tries))
}

struct Walk<'a> {
    site: &'a Site,
    /// The open positions, rising.
    open: Vec<usize>,
    /// The cell of each fragment.
    owners: Vec<usize>,
    limit: u64,
    tries: u64,
    table: &'a mut [u8],
}

impl Walk<'_> {
    /// Places a fragment and all after it; the fragment looks at the open positions from index `from` on.
    fn place(&mut self, fragment: usize, from: usize) -> End {
        let Some(&cell) = self.owners.get(fragment) else { return End::Plan };
        for index in from..self.open.len() {
            if self.tries == self.limit {
                return End::LimitMet;
            }
            self.tries += 1;
            let position = self.open[index];
            if self.taken(cell, position) {
                continue;
            }
            let same_cell = self.owners.get(fragment + 1) == Some(&cell);
            let at = self.at(cell, position);
            self.table[at] = RESERVED;
            match self.place(fragment + 1, if same_cell { index + 1 } else { 0 }) {
                End::NoneExists => self.table[at] = IDLE,
                end => return end,
            }
        }
        End::NoneExists
    }

    fn at(&self, cell: usize, position: usize) -> usize {
        (cell - 1) * self.site.positions() + position
    }

    /// Is the position taken by a clashing cell?
    fn taken(&self, cell: usize, position: usize) -> bool {
        (1..cell).any(|other| self.site.clash(other, cell) && self.table[self.at(other, position)] == RESERVED)
    }
}

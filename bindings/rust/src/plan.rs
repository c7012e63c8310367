//! Plans: a byte for each cell and position, cell after cell.

use crate::raw;
use crate::refusal::{done, Call, Refusal};
use crate::site::Site;
use alloc::vec;
use alloc::vec::Vec;

/// A table of a site, one byte for each cell and position, cell after cell: 1 is a reservation, 0 and 2 (forbidden) are silence.
///
/// ```
/// let site = duggfrask::Site::new(2, 2, 1)?.with_load(1, 1)?.with_load(2, 1)?.with_reach(1, 2)?;
/// let plan = site.plan()?;
/// assert_eq!(plan.row(2), &[2, 1]);
/// assert!(plan.sends(2, 1) && !plan.sends(2, 0));
/// plan.check(&site)?;
/// # Ok::<(), duggfrask::Refusal>(())
/// ```
#[derive(Clone, Debug, PartialEq, Eq, Hash)]
pub struct Plan {
    pub(crate) table: Vec<u8>,
    pub(crate) cells: u16,
    pub(crate) slots: u16,
    pub(crate) channels: u16,
}

/// A change that mending made: which cell, at which position, and whether it now sends there.
#[derive(Clone, Copy, Debug, PartialEq, Eq, Hash)]
pub struct Change {
    pub cell: u16,
    pub position: u16,
    pub was: bool,
    pub is: bool,
}

/// By which way a plan was found.
#[derive(Clone, Copy, Debug, PartialEq, Eq, Hash)]
pub enum Way {
    Planner,
    /// With the cells in new numbers.
    Renumbered,
    Search { tries: u64 },
}

/// What shows that no plan exists.
#[derive(Clone, Copy, Debug, PartialEq, Eq, Hash)]
pub enum Shown {
    /// These cells, bit i-1 for cell i, clash with one another and are above the open positions.
    Cells(u32),
    /// The planner's no, with the cells in new numbers.
    Renumbered,
    /// A search that came to its end.
    Search { tries: u64 },
}

/// What a search, or a plan by any way, comes to.
#[derive(Clone, Debug, PartialEq, Eq, Hash)]
pub enum Found<P> {
    Plan(P, Way),
    None(Shown),
    NotKnown { tries: u64 },
}

/// A site in new numbers.
#[derive(Clone, Copy, Debug, PartialEq, Eq, Hash)]
pub struct Renumbered {
    pub site: Site,
    /// The new number of each old one, at index old - 1; 0 past the cells.
    pub new_of_old: [u16; 32],
    /// The old number of each new one.
    pub old_of_new: [u16; 32],
}

impl Plan {
    /// An idle table of a site's size.
    pub fn idle(site: &Site) -> Plan {
        let (cells, slots, channels) = (site.cells(), site.slots(), site.channels());
        Plan { table: vec![0; site.table_len()], cells, slots, channels }
    }

    /// The bytes, row after row.
    pub fn table(&self) -> &[u8] {
        &self.table
    }

    pub fn table_mut(&mut self) -> &mut [u8] {
        &mut self.table
    }

    fn width(&self) -> usize {
        self.slots as usize * self.channels as usize
    }

    /// The row of a cell, from 1; empty where there is no such cell.
    pub fn row(&self, cell: u16) -> &[u8] {
        if cell == 0 || cell > self.cells {
            return &[];
        }
        let from = (cell as usize - 1) * self.width();
        self.table.get(from..from + self.width()).unwrap_or(&[])
    }

    /// Whether a cell sends at a position.
    pub fn sends(&self, cell: u16, position: usize) -> bool {
        self.row(cell).get(position) == Some(&1)
    }

    /// Whether the table is valid for a site; otherwise the first thing that is wrong.
    pub fn check(&self, site: &Site) -> Result<(), Refusal> {
        site.check(&self.table)
    }

    /// Makes the table valid for a site where it stands, and names the changes.
    pub fn mend(&mut self, site: &Site) -> Result<Vec<Change>, Refusal> {
        site.mend(&mut self.table)
    }
}

impl Site {
    /// The plan of the site.
    pub fn plan(&self) -> Result<Plan, Refusal> {
        let mut plan = Plan::idle(self);
        self.plan_into(&mut plan.table)?;
        Ok(plan)
    }

    /// Plans the site into a lent table, which needs [`Site::table_len`] bytes.
    #[inline]
    pub fn plan_into(&self, table: &mut [u8]) -> Result<(), Refusal> {
        done(Call::Plan, unsafe { raw::dugg_plan(self.0, table.as_mut_ptr(), table.len()) })?;
        Ok(())
    }

    /// Searches for a plan with at most so many tries.
    pub fn search(&self, limit: u64) -> Result<Found<Plan>, Refusal> {
        let mut plan = Plan::idle(self);
        Ok(self.search_into(limit, &mut plan.table)?.with(plan))
    }

    /// The same, into a lent table.
    pub fn search_into(&self, limit: u64, table: &mut [u8]) -> Result<Found<()>, Refusal> {
        let answer = unsafe { raw::dugg_search(self.0, limit, table.as_mut_ptr(), table.len()) };
        let [verdict, tries, _] = done(Call::Search, answer)?;
        Ok(match verdict {
            0 => Found::Plan((), Way::Search { tries }),
            1 => Found::None(Shown::Search { tries }),
            _ => Found::NotKnown { tries },
        })
    }

    /// A plan by any proved way, or what shows that there is none; the search makes at most so many tries.
    ///
    /// ```
    /// use duggfrask::{Found, Shown, Site};
    /// let full = Site::new(2, 1, 1)?.with_load(1, 1)?.with_load(2, 1)?.with_reach(1, 2)?;
    /// assert_eq!(full.find(1000)?, Found::None(Shown::Cells(0b11)));
    /// # Ok::<(), duggfrask::Refusal>(())
    /// ```
    pub fn find(&self, limit: u64) -> Result<Found<Plan>, Refusal> {
        let mut plan = Plan::idle(self);
        Ok(self.find_into(limit, &mut plan.table)?.with(plan))
    }

    /// The same, into a lent table.
    pub fn find_into(&self, limit: u64, table: &mut [u8]) -> Result<Found<()>, Refusal> {
        let answer = unsafe { raw::dugg_find(self.0, limit, table.as_mut_ptr(), table.len()) };
        Ok(match done(Call::Find, answer)? {
            [0, 0, _] => Found::Plan((), Way::Planner),
            [0, 2, _] => Found::Plan((), Way::Renumbered),
            [0, _, tries] => Found::Plan((), Way::Search { tries }),
            [1, 1, cells] => Found::None(Shown::Cells(cells as u32)),
            [1, 2, _] => Found::None(Shown::Renumbered),
            [1, _, tries] => Found::None(Shown::Search { tries }),
            [_, _, tries] => Found::NotKnown { tries },
        })
    }

    /// Whether a table is valid for the site; otherwise the first thing that is wrong.
    #[inline]
    pub fn check(&self, table: &[u8]) -> Result<(), Refusal> {
        done(Call::Check, unsafe { raw::dugg_check(self.0, table.as_ptr(), table.len()) })?;
        Ok(())
    }

    /// Makes a table from another planner valid where it stands, and names the changes by cell, then position.
    pub fn mend(&self, table: &mut [u8]) -> Result<Vec<Change>, Refusal> {
        let mut list = Vec::new();
        loop {
            let answer = unsafe { raw::dugg_mend(self.0, table.as_mut_ptr(), table.len(), list.as_mut_ptr(), list.len()) };
            match done(Call::Mend, answer) {
                Ok(_) => return Ok(list.chunks_exact(4).map(change).collect()),
                Err(Refusal::OutputShort { needed, .. }) if list.len() < 4 * needed as usize => {
                    list.resize(4 * needed as usize, 0);
                }
                Err(refusal) => return Err(refusal),
            }
        }
    }

    /// Mends into a lent list of numbers, four for each change; how many changes there are.
    pub fn mend_into(&self, table: &mut [u8], list: &mut [u16]) -> Result<u64, Refusal> {
        let answer = unsafe { raw::dugg_mend(self.0, table.as_mut_ptr(), table.len(), list.as_mut_ptr(), list.len()) };
        Ok(done(Call::Mend, answer)?[0])
    }

    /// Changes the load of one cell in the site where it stands, and plans the table, which is the site's plan, anew from that
    /// cell on. After [`Refusal::NoRoom`] the site has the new load, and the table is idle.
    pub fn change_load(&mut self, cell: u16, load: u16, table: &mut [u8]) -> Result<(), Refusal> {
        let answer = unsafe { raw::dugg_change_load(&mut self.0, cell, load, table.as_mut_ptr(), table.len()) };
        done(Call::ChangeLoad, answer)?;
        Ok(())
    }

    /// The site in new numbers, with which it is nested.
    pub fn renumber(&self) -> Result<Renumbered, Refusal> {
        let given = unsafe { raw::dugg_renumber(self.0) };
        done(Call::Renumber, given.answer)?;
        Ok(Renumbered { site: Site(given.site), new_of_old: given.new_of_old, old_of_new: given.old_of_new })
    }

    /// The plan of this site that a plan of its renumbered site is.
    pub fn carry(&self, renumbered: &Plan) -> Result<Plan, Refusal> {
        let mut plan = Plan::idle(self);
        self.carry_into(&renumbered.table, &mut plan.table)?;
        Ok(plan)
    }

    /// The same, from one lent table into another.
    pub fn carry_into(&self, new_table: &[u8], old_table: &mut [u8]) -> Result<(), Refusal> {
        let (new_len, old_len) = (new_table.len(), old_table.len());
        let answer = unsafe { raw::dugg_carry(self.0, new_table.as_ptr(), new_len, old_table.as_mut_ptr(), old_len) };
        done(Call::Carry, answer)?;
        Ok(())
    }
}

fn change(four: &[u16]) -> Change {
    Change { cell: four[0], position: four[1], was: four[2] == 1, is: four[3] == 1 }
}

impl Found<()> {
    fn with(self, plan: Plan) -> Found<Plan> {
        match self {
            Found::Plan((), way) => Found::Plan(plan, way),
            Found::None(shown) => Found::None(shown),
            Found::NotKnown { tries } => Found::NotKnown { tries },
        }
    }
}

//! A site, its edits, and the calls that judge it.

use crate::raw::{self, Record};
use crate::refusal::{done, Call, Refusal};

/// A site that is in order: 1 to 32 cells, 1 to 128 slots, 1 to 16 channels, the load of each cell in fragments per superframe,
/// who reaches whom, what is blocked, and the rule. Cells are numbered from 1, positions from 0. It is never changed where it
/// stands but by [`Site::change_load`]; an edit gives a new site.
///
/// ```
/// let site = duggfrask::Site::new(3, 3, 2)?.with_load(1, 5)?.with_load(2, 1)?.with_reach(1, 2)?;
/// assert_eq!((site.cells(), site.load(1), site.load(4)), (3, Some(5), None));
/// assert!(site.clash(1, 2)? && !site.clash(1, 3)?);
/// # Ok::<(), duggfrask::Refusal>(())
/// ```
#[derive(Clone, Copy, Debug, PartialEq, Eq, Hash)]
pub struct Site(pub(crate) Record);

/// What the load test says.
#[derive(Clone, Copy, Debug, PartialEq, Eq, Hash)]
pub enum LoadTest {
    Holds,
    /// The lowest cell that is over, and by how many fragments.
    Over { cell: u64, excess: u64 },
}

/// Whether the site is chained.
#[derive(Clone, Copy, Debug, PartialEq, Eq, Hash)]
pub enum Chain {
    Chained,
    /// Cells a and c clash, and b between them does not clash with a.
    Broken { a: u64, b: u64, c: u64 },
}

/// Whether the site is nested.
#[derive(Clone, Copy, Debug, PartialEq, Eq, Hash)]
pub enum Class {
    Nested,
    /// Cells a and b clash with cell i, and not with one another.
    Split { a: u64, b: u64, i: u64 },
}

/// How many open positions are enough.
#[derive(Clone, Copy, Debug, PartialEq, Eq, Hash)]
pub struct Least {
    pub positions: u64,
    /// Whether fewer are never enough.
    pub exact: bool,
}

/// The heaviest clash: its load, and its cells as a word, bit i-1 for cell i.
#[derive(Clone, Copy, Debug, PartialEq, Eq, Hash)]
pub struct Heaviest {
    pub load: u64,
    pub cells: u32,
}

/// Whether some cells are over, so that no plan exists, and their load.
#[derive(Clone, Copy, Debug, PartialEq, Eq, Hash)]
pub struct OverFull {
    pub over: bool,
    pub load: u64,
}

impl Site {
    /// A site of this size under rule 1, with no load, no reach and nothing blocked.
    ///
    /// ```
    /// use duggfrask::{Refusal, Site};
    /// let refused = Site::new(33, 3, 2).unwrap_err();
    /// assert!(matches!(refused, Refusal::BadSize { .. }));
    /// assert_eq!(refused.number(), 1);
    /// assert!(refused.to_string().starts_with("refused 1: the size is out of range"));
    /// ```
    pub fn new(cells: u16, slots: u16, channels: u16) -> Result<Site, Refusal> {
        Site::from_record(Record { cells, slots, channels, rule: 1, ..Record::default() })
    }

    /// A site of any record, if that is in order.
    pub fn from_record(record: Record) -> Result<Site, Refusal> {
        done(Call::Fault, unsafe { raw::dugg_fault(record) })?;
        Ok(Site(record))
    }

    /// The record, as C has it.
    #[inline]
    pub fn record(&self) -> &Record {
        &self.0
    }

    #[inline]
    pub fn cells(&self) -> u16 {
        self.0.cells
    }

    #[inline]
    pub fn slots(&self) -> u16 {
        self.0.slots
    }

    #[inline]
    pub fn channels(&self) -> u16 {
        self.0.channels
    }

    /// 1 or 2.
    #[inline]
    pub fn rule(&self) -> u16 {
        self.0.rule
    }

    /// How many positions it has, blocked ones too: slots times channels.
    #[inline]
    pub fn positions(&self) -> usize {
        self.0.slots as usize * self.0.channels as usize
    }

    /// How many bytes a table of the site has: cells times positions.
    #[inline]
    pub fn table_len(&self) -> usize {
        self.0.cells as usize * self.positions()
    }

    /// The load of a cell in fragments per superframe; nothing for a cell that the site does not have.
    pub fn load(&self, cell: u16) -> Option<u16> {
        let index = usize::from(cell).checked_sub(1)?;
        self.0.loads[..self.0.cells as usize].get(index).copied()
    }

    /// Whether transmissions of the one cell can disturb the other's.
    pub fn reaches(&self, from: u16, to: u16) -> bool {
        let inside = |cell| (1..=self.0.cells).contains(&cell);
        inside(from) && inside(to) && self.0.reach[from as usize - 1] >> (to - 1) & 1 == 1
    }

    /// Whether a position is blocked.
    pub fn is_blocked(&self, position: usize) -> bool {
        position < self.positions() && self.0.blocked[position / 64] >> (position % 64) & 1 == 1
    }

    /// The site with another load of one cell.
    pub fn with_load(&self, cell: u16, load: u16) -> Result<Site, Refusal> {
        edited(Call::SetLoad, unsafe { raw::dugg_set_load(self.0, cell, load) })
    }

    /// The site where the one cell reaches the other.
    pub fn with_reach(&self, from: u16, to: u16) -> Result<Site, Refusal> {
        edited(Call::SetReach, unsafe { raw::dugg_set_reach(self.0, from, to) })
    }

    /// The site where the one cell does not reach the other.
    pub fn without_reach(&self, from: u16, to: u16) -> Result<Site, Refusal> {
        edited(Call::ClearReach, unsafe { raw::dugg_clear_reach(self.0, from, to) })
    }

    /// The site under this rule.
    pub fn with_rule(&self, rule: u16) -> Result<Site, Refusal> {
        Site::from_record(Record { rule, ..self.0 })
    }

    /// The site with these positions blocked, and no others.
    pub fn with_blocked(&self, blocked: raw::Blocked) -> Result<Site, Refusal> {
        Site::from_record(Record { blocked: blocked.bits, ..self.0 })
    }

    /// Whether two cells clash. A cell that the site does not have clashes with none.
    #[inline]
    pub fn clash(&self, a: u16, b: u16) -> Result<bool, Refusal> {
        Ok(done(Call::Clash, unsafe { raw::dugg_clash(self.0, a, b) })?[0] == 1)
    }

    /// Whether the loads of each cell and its lower clashing cells fit into the open positions.
    pub fn load_test(&self) -> Result<LoadTest, Refusal> {
        Ok(match done(Call::LoadTest, unsafe { raw::dugg_load_test(self.0) })? {
            [0, ..] => LoadTest::Holds,
            [cell, excess, _] => LoadTest::Over { cell, excess },
        })
    }

    /// Whether the site is chained.
    pub fn chain(&self) -> Result<Chain, Refusal> {
        Ok(match done(Call::Chain, unsafe { raw::dugg_chain(self.0) })? {
            [0, ..] => Chain::Chained,
            [a, b, c] => Chain::Broken { a, b, c },
        })
    }

    /// Whether the site is nested.
    pub fn class(&self) -> Result<Class, Refusal> {
        Ok(match done(Call::Class, unsafe { raw::dugg_class(self.0) })? {
            [0, ..] => Class::Nested,
            [a, b, i] => Class::Split { a, b, i },
        })
    }

    /// How many open positions are enough, whatever slots and channels the site has and whatever is blocked.
    pub fn least(&self) -> Result<Least, Refusal> {
        let [positions, fewer, _] = done(Call::Least, unsafe { raw::dugg_least(self.0) })?;
        Ok(Least { positions, exact: fewer == 0 })
    }

    /// Of all cells that clash with one another those with the greatest load.
    pub fn heaviest(&self) -> Result<Heaviest, Refusal> {
        let [load, cells, _] = done(Call::Heaviest, unsafe { raw::dugg_heaviest(self.0) })?;
        Ok(Heaviest { load, cells: cells as u32 })
    }

    /// Whether these cells, bit i-1 for cell i, clash with one another and are above the open positions.
    pub fn over_full(&self, cells: u32) -> Result<OverFull, Refusal> {
        let [over, load, _] = done(Call::OverFull, unsafe { raw::dugg_over_full(self.0, cells) })?;
        Ok(OverFull { over: over == 1, load })
    }
}

/// The site of an edit, or of a reader.
pub(crate) fn edited(call: Call, given: raw::Edited) -> Result<Site, Refusal> {
    done(call, given.answer)?;
    Ok(Site(given.site))
}

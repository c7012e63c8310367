//! "The site": the record and its faults, the two rules for clashes and the three edits. Cells are numbered from 1.

use crate::answer::{refuse, Outcome};

pub const MOST_CELLS: usize = 32;
pub const MOST_SLOTS: usize = 128;
pub const MOST_CHANNELS: usize = 16;

/// The positions of the largest site, 128 times 16.
pub const MOST_POSITIONS: usize = 2048;

/// The rule of running sites: two cells clash when either reaches the other.
pub const RULE_1: u16 = 1;

/// The fitters' new rule: two cells clash also when some third cell is reached by both.
pub const RULE_2: u16 = 2;

/// A set of positions: position k is bit k % 64 of word k / 64.
pub type Positions = [u64; 32];

pub fn in_set(set: &Positions, position: usize) -> bool {
    set[position / 64] >> (position % 64) & 1 == 1
}

pub fn set_of(positions: impl Iterator<Item = usize>) -> Positions {
    let mut set = [0; 32];
    for position in positions {
        set[position / 64] |= 1 << (position % 64);
    }
    set
}

/// One site record: all 32 loads and all 32 reach rows, used or not. Bit b-1 of row a-1 means that cell a reaches b. The
/// blocked positions are those that the plant uses itself: no cell may send there. The rule, 1 or 2, says which cells clash.
#[repr(C)]
#[derive(Clone, Copy, Debug, Default, PartialEq, Eq)]
pub struct Site {
    pub cells: u16,
    pub slots: u16,
    pub channels: u16,
    pub loads: [u16; 32],
    pub reach: [u32; 32],
    pub blocked: Positions,
    pub rule: u16,
}

impl Site {
    /// A site with no loads, no reach and nothing blocked, under rule 1.
    pub fn sized(cells: usize, slots: usize, channels: usize) -> Site {
        let (cells, slots, channels) = (cells as u16, slots as u16, channels as u16);
        Site { cells, slots, channels, rule: RULE_1, ..Site::default() }
    }

    /// I, the number of cells.
    pub fn count(&self) -> usize {
        self.cells as usize
    }

    /// N, the number of positions, open and blocked: channels times slots.
    pub fn positions(&self) -> usize {
        self.slots as usize * self.channels as usize
    }

    pub fn is_open(&self, position: usize) -> bool {
        !in_set(&self.blocked, position)
    }

    pub fn has_blocked(&self) -> bool {
        self.blocked != [0; 32]
    }

    /// How many positions of a sound site are open: the load test's N.
    pub fn room(&self) -> u64 {
        let blocked: u32 = self.blocked.iter().map(|word| word.count_ones()).sum();
        self.positions() as u64 - blocked as u64
    }

    /// The bytes of a table, one for each cell and position.
    pub fn table_len(&self) -> usize {
        self.count() * self.positions()
    }

    pub fn load(&self, cell: usize) -> u64 {
        self.loads[cell - 1] as u64
    }

    pub fn has(&self, cell: usize) -> bool {
        1 <= cell && cell <= self.count()
    }

    pub fn reaches(&self, from: usize, to: usize) -> bool {
        self.reach[from - 1] >> (to - 1) & 1 == 1
    }

    /// Two different cells clash "when either reaches the other", and under rule 2 "also when some third cell is reached by
    /// both". Cells that the site does not have never do.
    pub fn clash(&self, a: usize, b: usize) -> bool {
        let by_third = self.rule == RULE_2 && self.third(a, b).is_some();
        self.has(a) && self.has(b) && a != b && (self.reaches(a, b) || self.reaches(b, a) || by_third)
    }

    /// The lowest cell that both reach and that is neither of the two, loaded or not.
    pub fn third(&self, a: usize, b: usize) -> Option<usize> {
        let both = |c: usize| c != a && c != b && self.reaches(a, c) && self.reaches(b, c);
        if self.has(a) && self.has(b) && self.reach[a - 1] & self.reach[b - 1] != 0 {
            (1..=self.count()).find(|&c| both(c))
        } else {
            None
        }
    }

    /// The record's own faults: 1, then 24, then 2 with the lowest cell, then 3 with the lowest row, then 20 with the lowest
    /// blocked position that the site does not have.
    pub fn sound(&self) -> Outcome<()> {
        sizes_in_range(self.count(), self.slots as usize, self.channels as usize)?;
        if self.rule != RULE_1 && self.rule != RULE_2 {
            return refuse(24, &[]);
        }
        for cell in 1..=MOST_CELLS {
            if !self.has(cell) && self.load(cell) != 0 {
                return refuse(2, &[cell as u64]);
            }
        }
        for from in (1..=MOST_CELLS).filter(|&from| self.reach[from - 1] != 0) {
            for to in 1..=MOST_CELLS {
                let allowed = self.has(from) && self.has(to) && from != to;
                if self.reaches(from, to) && !allowed {
                    return refuse(3, &[from as u64]);
                }
            }
        }
        let past = || (self.positions()..MOST_POSITIONS).find(|&position| !self.is_open(position));
        match self.has_blocked().then(past).flatten() {
            Some(position) => refuse(20, &[position as u64]),
            None => Ok(()),
        }
    }

    /// The site with one load set.
    pub fn with_load(&self, cell: usize, load: u16) -> Outcome<Site> {
        self.sound()?;
        if !self.has(cell) {
            return refuse(2, &[cell as u64]);
        }
        let mut edited = *self;
        edited.loads[cell - 1] = load;
        Ok(edited)
    }

    /// The site with one reach set, or cleared.
    pub fn with_reach(&self, from: usize, to: usize, set: bool) -> Outcome<Site> {
        self.sound()?;
        self.pair_in_order(from, to, from as u64)?;
        let mut edited = *self;
        let bit = 1 << (to - 1);
        if set {
            edited.reach[from - 1] |= bit;
        } else {
            edited.reach[from - 1] &= !bit;
        }
        Ok(edited)
    }

    /// Refusal 3, with the value given, for a pair that names a cell outside 1..I, or one cell twice.
    pub fn pair_in_order(&self, from: usize, to: usize, value: u64) -> Outcome<()> {
        if !self.has(from) || !self.has(to) || from == to {
            return refuse(3, &[value]);
        }
        Ok(())
    }
}

/// Refusal 1: I, T or F out of range.
pub fn sizes_in_range(cells: usize, slots: usize, channels: usize) -> Outcome<()> {
    let fine = |number: usize, most: usize| 1 <= number && number <= most;
    if fine(cells, MOST_CELLS) && fine(slots, MOST_SLOTS) && fine(channels, MOST_CHANNELS) {
        Ok(())
    } else {
        refuse(1, &[])
    }
}

/// A site of this size with these loads and ranges, as the tests name it.
#[cfg(test)]
pub fn site_of(slots: usize, channels: usize, loads: &[u16], pairs: &[(usize, usize)]) -> Site {
    let mut site = Site::sized(loads.len(), slots, channels);
    site.loads[..loads.len()].copy_from_slice(loads);
    for &(from, to) in pairs {
        site = site.with_reach(from, to, true).unwrap();
    }
    site
}

#[cfg(test)]
mod tests {
    use super::*;

    fn three() -> Site {
        Site::sized(3, 3, 2)
    }

    #[test]
    fn sizes() {
        for (cells, slots, channels, fine) in [
            (1, 1, 1, true),
            (32, 128, 16, true),
            (0, 1, 1, false),
            (1, 0, 1, false),
            (1, 1, 0, false),
            (33, 128, 16, false),
            (32, 129, 16, false),
            (32, 128, 17, false),
        ] {
            let answer = Site::sized(cells, slots, channels).sound();
            assert_eq!(answer, if fine { Ok(()) } else { refuse(1, &[]) });
        }
    }

    #[test]
    fn faults_in_their_order() {
        let mut site = three();
        site.reach[4] = 1;
        site.reach[1] = 1 << 1;
        assert_eq!(site.sound(), refuse(3, &[2]));
        site.reach[0] = 1 << 3;
        assert_eq!(site.sound(), refuse(3, &[1]));
        site.blocked = [!0; 32];
        assert_eq!(site.sound(), refuse(3, &[1]));
        site.loads[31] = 1;
        site.loads[3] = 1;
        assert_eq!(site.sound(), refuse(2, &[4]));
        for rule in [0, 3, 4, 256, 257, 258, 65_535] {
            site.rule = rule;
            assert_eq!(site.sound(), refuse(24, &[]));
        }
        site.slots = 0;
        assert_eq!(site.sound(), refuse(1, &[]));
    }

    #[test]
    fn a_record_has_rule_1_or_2() {
        for rule in 0..=65_535 {
            let site = Site { rule, ..three() };
            assert_eq!(site.sound(), if rule == 1 || rule == 2 { Ok(()) } else { refuse(24, &[]) });
        }
        // 24 comes before an edit's own refusal, and an edit keeps the rule.
        assert_eq!(Site { rule: 3, ..three() }.with_load(9, 1), refuse(24, &[]));
        let two = Site { rule: RULE_2, ..three() };
        assert_eq!(two.with_load(1, 5).and_then(|site| site.with_reach(1, 2, true)).unwrap().rule, RULE_2);
    }

    #[test]
    fn blocked_positions_within_the_site() {
        let blocked = |positions: &[usize]| Site { blocked: set_of(positions.iter().copied()), ..three() };
        for positions in [&[][..], &[0], &[5], &[0, 1, 2, 3, 4, 5]] {
            let site = blocked(positions);
            assert_eq!((site.sound(), site.room()), (Ok(()), 6 - positions.len() as u64));
            assert_eq!(site.has_blocked(), !positions.is_empty());
            assert!((0..6).all(|k| site.is_open(k) != positions.contains(&k)));
        }
        for (positions, lowest) in
            [(&[6][..], 6), (&[5, 2047], 2047), (&[64, 63], 63), (&[2000, 128, 0], 128), (&[6, 7, 8], 6)]
        {
            assert_eq!(blocked(positions).sound(), refuse(20, &[lowest]));
            assert_eq!(blocked(positions).with_load(9, 1), refuse(20, &[lowest]));
        }
        let largest = Site { blocked: [!0; 32], ..Site::sized(32, 128, 16) };
        assert_eq!((largest.sound(), largest.room()), (Ok(()), 0));
    }

    #[test]
    fn clash_is_two_sided() {
        let site = three().with_reach(3, 1, true).unwrap();
        assert!(site.clash(1, 3) && site.clash(3, 1));
        assert!(!site.clash(1, 2) && !site.clash(1, 1) && !site.clash(0, 1) && !site.clash(1, 40));
    }

    #[test]
    fn edits() {
        let site = three();
        assert_eq!(site.with_load(3, 65535).unwrap().loads[2], 65535);
        assert_eq!(site.with_load(0, 1), refuse(2, &[0]));
        assert_eq!(site.with_load(4, 1), refuse(2, &[4]));
        assert_eq!(site.with_reach(2, 4, true), refuse(3, &[2]));
        assert_eq!(site.with_reach(40, 2, false), refuse(3, &[40]));
        assert_eq!(site.with_reach(2, 2, false), refuse(3, &[2]));
        let set = site.with_reach(2, 3, true).unwrap();
        assert_eq!(set.reach[1], 0b100);
        assert_eq!(set.with_reach(2, 3, false), Ok(site));
        assert_eq!(site.with_reach(2, 3, false), Ok(site));
    }
}

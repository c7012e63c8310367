//! "One word per position": the second table form. Bit i-1 of a position's word is set when cell i transmits; bits above
//! I are read as silence and written as 0.

use crate::answer::{refuse, Outcome};
use crate::checker::{judge, transmits};
use crate::planner::{plan, table_fits, IDLE, RESERVED};
use crate::site::Site;

/// Refusal 4: fewer than N words are lent.
fn words_fit(site: &Site, count: usize) -> Outcome<()> {
    if count < site.positions() {
        return refuse(4, &[]);
    }
    Ok(())
}

fn bit(cell: usize) -> u32 {
    1 << (cell - 1)
}

/// Writes the N words of a table's reservations.
fn put_words(site: &Site, table: &[u8], words: &mut [u32]) {
    for position in 0..site.positions() {
        words[position] = 0;
        for cell in 1..=site.count() {
            if transmits(site, table, cell, position) {
                words[position] |= bit(cell);
            }
        }
    }
}

/// Plans the site into the first N words, as the planner does into a table of bytes; refusal 5 leaves them 0.
pub fn plan_words(site: &Site, words: &mut [u32]) -> Outcome<()> {
    site.sound()?;
    words_fit(site, words.len())?;
    let mut table = vec![IDLE; site.table_len()];
    let result = plan(site, &mut table);
    // Where there is no room the table is idle, and so are its words.
    put_words(site, &table, words);
    result
}

/// Are the words valid for the site? Refusals 6 and 7 as for a table of bytes.
pub fn check_words(site: &Site, words: &[u32]) -> Outcome<()> {
    site.sound()?;
    words_fit(site, words.len())?;
    judge(site, |cell, position| words[position] & bit(cell) != 0)
}

/// The reservations of a table of bytes as words.
pub fn to_words(site: &Site, table: &[u8], words: &mut [u32]) -> Outcome<()> {
    site.sound()?;
    table_fits(site, table.len())?;
    words_fit(site, words.len())?;
    put_words(site, table, words);
    Ok(())
}

/// The reservations of words as a table of bytes, 1 where a cell transmits and 0 elsewhere.
pub fn to_bytes(site: &Site, words: &[u32], table: &mut [u8]) -> Outcome<()> {
    site.sound()?;
    table_fits(site, table.len())?;
    words_fit(site, words.len())?;
    for cell in 1..=site.count() {
        for position in 0..site.positions() {
            let sends = words[position] & bit(cell) != 0;
            table[(cell - 1) * site.positions() + position] = if sends { RESERVED } else { IDLE };
        }
    }
    Ok(())
}

#[cfg(test)]
mod tests {
    use super::*;

    /// Two cells that clash, N = 2, each with load 1.
    fn two() -> Site {
        let mut site = Site::sized(2, 2, 1).with_reach(1, 2, true).unwrap();
        site.loads[..2].copy_from_slice(&[1, 1]);
        site
    }

    #[test]
    fn words_past_the_last_are_left() {
        let mut words = [9; 3];
        assert_eq!(plan_words(&two(), &mut words), Ok(()));
        assert_eq!(words, [0b01, 0b10, 9]);
        let full = two().with_load(2, 2).unwrap();
        assert_eq!(plan_words(&full, &mut words), refuse(5, &[2, 1]));
        assert_eq!(words, [0, 0, 9]);
    }

    #[test]
    fn bits_above_the_last_cell_are_silence() {
        assert_eq!(check_words(&two(), &[0b101, 0xFFFF_FFFE]), Ok(()));
        assert_eq!(check_words(&two(), &[0b01, 0b11]), refuse(6, &[1, 1, 2]));
        assert_eq!(check_words(&two(), &[0b01, 0b100]), refuse(7, &[2, 0]));
        let mut table = [9; 5];
        assert_eq!(to_bytes(&two(), &[0b101, 0xFFFF_FFFE], &mut table), Ok(()));
        assert_eq!(table, [1, 0, 0, 1, 9]);
        let mut words = [7; 2];
        assert_eq!(to_words(&two(), &[1, 2, 255, 1], &mut words), Ok(()));
        assert_eq!(words, [0b01, 0b10]);
    }

    #[test]
    fn refusals_in_their_order() {
        let (site, mut words, mut table) = (two(), [7; 2], [9; 4]);
        let wrong = Site { cells: 0, ..site };
        assert_eq!(plan_words(&wrong, &mut []), refuse(1, &[]));
        assert_eq!(to_words(&wrong, &[], &mut []), refuse(1, &[]));
        assert_eq!(plan_words(&site, &mut words[..1]), refuse(4, &[]));
        assert_eq!(check_words(&site, &words[..1]), refuse(4, &[]));
        assert_eq!(to_words(&site, &table, &mut words[..1]), refuse(4, &[]));
        assert_eq!(to_words(&site, &table[..3], &mut words), refuse(4, &[]));
        assert_eq!(to_bytes(&site, &words[..1], &mut table), refuse(4, &[]));
        assert_eq!(to_bytes(&site, &words, &mut table[..3]), refuse(4, &[]));
        assert_eq!((words, table), ([7; 2], [9; 4]));
    }
}

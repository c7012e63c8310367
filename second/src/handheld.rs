//! W14, one load changes on the handheld: the record is edited where it stands, and the table becomes a fresh plan of it.

use crate::answer::{refuse, Outcome};
use crate::planner;
use crate::site::Site;

/// Whether the first IN bytes of the table are the greedy plan of the site, 2s included.
fn is_plan(site: &Site, table: &[u8]) -> bool {
    let mut fresh = vec![0; site.table_len()];
    planner::plan(site, &mut fresh).is_ok() && fresh == table[..site.table_len()]
}

/// "Refusals: record faults, 2 for the edit, 4, then 26, table is not the plan, changing nothing; 5 keeps the edit and
/// leaves the site's part idle, lower rows included."
pub fn change_load(site: &mut Site, cell: usize, load: u16, table: &mut [u8]) -> Outcome<()> {
    let edited = site.with_load(cell, load)?;
    planner::table_fits(site, table.len())?;
    if !is_plan(site, table) {
        return refuse(26, &[]);
    }
    *site = edited;
    planner::plan(site, table)
}

#[cfg(test)]
mod tests {
    use super::*;

    /// P6: five cells on two positions, and every load 1.
    fn five() -> (Site, Vec<u8>) {
        let mut site = Site::sized(5, 2, 1);
        for (from, to) in [(1, 4), (2, 3), (3, 5), (4, 5)] {
            site.reach[from - 1] |= 1 << (to - 1);
        }
        site.loads[..5].fill(1);
        let mut table = vec![7; 12];
        planner::plan(&site, &mut table).unwrap();
        (site, table)
    }

    #[test]
    fn a_changed_load_is_a_fresh_plan() {
        let (mut site, mut table) = five();
        let before = table.clone();
        change_load(&mut site, 5, 0, &mut table).unwrap();
        let mut fresh = vec![7; 12];
        planner::plan(&site, &mut fresh).unwrap();
        assert_eq!((site.loads[4], &table), (0, &fresh));
        assert_eq!(table[..8], before[..8]);
        change_load(&mut site, 5, 1, &mut table).unwrap();
        assert_eq!(table, before);
    }

    /// P7: load 0 in cell 2 leaves cell 5 no room. The edit is kept, the site's part is idle, and there is no plan to go on from.
    #[test]
    fn five_keeps_the_edit_and_the_next_edit_is_26() {
        let (mut site, mut table) = five();
        assert_eq!(change_load(&mut site, 2, 0, &mut table), refuse(5, &[5, 1]));
        assert_eq!((site.loads[1], &table), (0, &vec![0, 0, 0, 0, 0, 0, 0, 0, 0, 0, 7, 7]));
        assert_eq!(change_load(&mut site, 2, 1, &mut table), refuse(26, &[]));
        assert_eq!(site.loads[1], 0);
    }

    #[test]
    fn what_is_refused_changes_nothing() {
        let (site, table) = five();
        let tried = |cell: usize, spoil: usize, len: usize| {
            let (mut now, mut bytes) = (site, table[..len].to_vec());
            if spoil < len {
                bytes[spoil] ^= 2;
            }
            let given = bytes.clone();
            let said = change_load(&mut now, cell, 1, &mut bytes);
            assert_eq!((now, &bytes), (site, &given));
            said
        };
        assert_eq!(tried(6, 0, 9), refuse(2, &[6]));
        assert_eq!(tried(0, 0, 9), refuse(2, &[0]));
        assert_eq!(tried(1, 0, 9), refuse(4, &[]));
        for spoil in 0..10 {
            assert_eq!(tried(1, spoil, 12), refuse(26, &[]));
        }
        assert_eq!(tried(1, 10, 12), Ok(()));
    }
}

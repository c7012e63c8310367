//! What `find` says, and the last word of `why`: a plan and by which way, full and by what, or not known.

use super::wording::{counted, sizes, tries};
use crate::find::{load_of, Found};
use crate::heaviest::cells_of;
use crate::search::too_large;
use crate::site::Site;

/// `cell 1`, `cells 1, 2`, `cells 1, 2, 5`.
pub fn cells_named(cells: u32) -> String {
    let names: Vec<String> = cells_of(cells).map(|cell| cell.to_string()).collect();
    format!("cell{} {}", if names.len() == 1 { "" } else { "s" }, names.join(", "))
}

/// The last word: one of planned, planned with the cells renumbered, planned by search, full by these cells, full by the
/// cells in new numbers, full by a search that tried all, and not known.
pub fn last_word(found: &Found) -> String {
    match *found {
        Found::Greedy => String::from("planned"),
        Found::Renumbered => String::from("planned with the cells renumbered"),
        Found::Searched(made) => format!("planned by search ({})", tries(made)),
        Found::FullBySet(cells) => format!("full ({})", cells_named(cells)),
        Found::FullInClass => String::from("full (renumbered)"),
        Found::FullBySearch(made) => format!("full (searched, {})", tries(made)),
        Found::NotKnown(made) => format!("not known ({})", tries(made)),
    }
}

/// The exit status of `find` and of `why`: 0 a plan, 1 full, 3 not known.
pub fn status(found: &Found) -> u8 {
    match found {
        found if found.is_plan() => 0,
        found if found.is_full() => 1,
        _ => 3,
    }
}

/// The line of `find`: its last word, and what there is to say beside it.
pub fn find_line(site: &Site, found: &Found) -> String {
    format!("{}: {}\n", last_word(found), beside(site, found))
}

fn beside(site: &Site, found: &Found) -> String {
    match *found {
        Found::Greedy | Found::Renumbered | Found::Searched(_) => sizes(site, ", "),
        Found::FullBySet(cells) => over(site, cells),
        Found::FullInClass => String::from("in new numbers the cells are nested, and they find no room"),
        Found::FullBySearch(_) => String::from("no plan exists"),
        Found::NotKnown(_) if too_large(site) => {
            String::from("over 64 open positions or 24 fragments, which is too many to search")
        }
        Found::NotKnown(_) => String::from("the search stopped there"),
    }
}

/// What anybody can add up: the loads of these cells, and the open channel-slots.
fn over(site: &Site, cells: u32) -> String {
    let who = if cells.count_ones() == 1 { "it needs" } else { "they clash with one another and need" };
    let open = if site.has_blocked() { " open" } else { "" };
    format!("{who} {}, and the site has {}{open}", counted(load_of(site, cells), "channel-slot"), site.room())
}

#[cfg(test)]
mod tests {
    use super::*;
    use crate::site::set_of;

    #[test]
    fn cells_by_name() {
        for (cells, name) in [(1, "cell 1"), (0b110, "cells 2, 3"), (0x8000_0011, "cells 1, 5, 32")] {
            assert_eq!(cells_named(cells), name);
        }
    }

    #[test]
    fn lines_and_statuses() {
        let mut site = Site::sized(2, 2, 1).with_reach(1, 2, true).unwrap();
        site.loads[..2].copy_from_slice(&[2, 1]);
        for (found, line, due) in [
            (Found::Greedy, "planned: 2 cells, 2 slots, 1 channel\n", 0),
            (Found::Renumbered, "planned with the cells renumbered: 2 cells, 2 slots, 1 channel\n", 0),
            (Found::Searched(1), "planned by search (1 try): 2 cells, 2 slots, 1 channel\n", 0),
            (
                Found::FullBySet(3),
                "full (cells 1, 2): they clash with one another and need 3 channel-slots, and the site has 2\n",
                1,
            ),
            (Found::FullBySet(2), "full (cell 2): it needs 1 channel-slot, and the site has 2\n", 1),
            (Found::FullInClass, "full (renumbered): in new numbers the cells are nested, and they find no room\n", 1),
            (Found::FullBySearch(18), "full (searched, 18 tries): no plan exists\n", 1),
            (Found::NotKnown(10), "not known (10 tries): the search stopped there\n", 3),
            (Found::NotKnown(0), "not known (0 tries): the search stopped there\n", 3),
        ] {
            assert_eq!((find_line(&site, &found).as_str(), status(&found)), (line, due));
        }
        let large = site.with_load(1, 25).unwrap();
        let line = "not known (0 tries): over 64 open positions or 24 fragments, which is too many to search\n";
        assert_eq!(find_line(&large, &Found::NotKnown(0)), line);
        let blocked = Site { blocked: set_of(0..1), ..site };
        assert!(find_line(&blocked, &Found::FullBySet(3)).ends_with("and the site has 1 open\n"));
    }
}

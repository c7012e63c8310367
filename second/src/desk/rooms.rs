//! `duggfrask room`: how much more each cell could carry, and how many slots would do.

use super::verdict::last_word;
use crate::room::{slots_that_do, Room, Rooms, SlotsThatDo};
use crate::site::{Site, MOST_SLOTS};

/// A line for each cell, or the one that no cell can carry more, or that it is not known; then the line of the slots, or of the
/// open channel-slots where something is blocked.
pub fn room_lines(site: &Site, rooms: &Rooms) -> String {
    let mut lines = String::new();
    if rooms.found.is_full() {
        lines += &format!("{}: no cell can carry more\n", last_word(&rooms.found));
    } else if !rooms.found.is_plan() {
        lines += &format!("{}: whether it has a plan\n", last_word(&rooms.found));
    }
    for (cell, room) in (1..).zip(&rooms.cells) {
        lines += &format!("cell {cell}, load {}: {}\n", site.load(cell), more(room));
    }
    lines + &size_line(site, rooms)
}

/// How much more a cell of a site with a plan could carry.
fn more(room: &Room) -> String {
    match *room {
        Room { more, exact: false } => format!("at least {more} more"),
        Room { more: 0, .. } => String::from("no more"),
        Room { more, .. } => format!("{more} more, and no more than that"),
    }
}

fn size_line(site: &Site, rooms: &Rooms) -> String {
    match slots_that_do(site, rooms) {
        None => will_do("open channel-slots", rooms.needs, rooms.enough(site), site.room()),
        Some(SlotsThatDo::Will { least, enough }) => will_do("slots", least, enough, site.slots.into()),
        Some(SlotsThatDo::AtLeast(least)) => format!("slots: with fewer than {least} no plan exists\n"),
        Some(SlotsThatDo::TooFew) => format!("slots: {MOST_SLOTS}, the most that a site has, are too few\n"),
    }
}

/// How many will do, next to how many the site has; and with how few no plan exists. No site has 0 slots.
fn will_do(thing: &str, least: u64, enough: u64, has: u64) -> String {
    let beside = if enough < has {
        format!("{} fewer than it has", has - enough)
    } else if enough == has {
        String::from("as many as it has")
    } else {
        format!("{} more than it has", enough - has)
    };
    let none = if least <= 1 {
        String::new()
    } else if least == enough {
        String::from("; with fewer no plan exists")
    } else {
        format!("; with fewer than {least} no plan exists")
    };
    format!("{thing}: {enough} will do, {beside}{none}\n")
}

#[cfg(test)]
mod tests {
    use super::*;
    use crate::room::rooms;
    use crate::site::{set_of, site_of};

    fn lines(site: &Site) -> String {
        room_lines(site, &rooms(site, 10).unwrap())
    }

    fn north() -> Site {
        site_of(8, 2, &[6, 5, 4, 7, 0], &[(1, 2), (2, 3), (3, 2), (3, 4), (4, 5)])
    }

    #[test]
    fn the_north_drift() {
        let due = "\
cell 1, load 6: 5 more, and no more than that
cell 2, load 5: 5 more, and no more than that
cell 3, load 4: 5 more, and no more than that
cell 4, load 7: 5 more, and no more than that
cell 5, load 0: 9 more, and no more than that
slots: 6 will do, 2 fewer than it has; with fewer no plan exists
";
        assert_eq!(lines(&north()), due);
        let wifi = Site { blocked: set_of([1, 3, 5, 7].into_iter()), ..north() };
        let end = "open channel-slots: 11 will do, 1 fewer than it has; with fewer no plan exists\n";
        assert!(lines(&wifi).ends_with(end), "{}", lines(&wifi));
    }

    #[test]
    fn a_full_one() {
        let due = "\
full (cells 1, 2): no cell can carry more
slots: 9 will do, 1 more than it has; with fewer no plan exists
";
        assert_eq!(lines(&north().with_load(2, 12).unwrap()), due);
        assert!(lines(&north().with_load(2, 9999).unwrap())
            .ends_with("slots: 128, the most that a site has, are too few\n"));
    }

    #[test]
    fn a_ring_and_one_that_is_not_known() {
        let ring = |cells: usize, slots| {
            let pairs: Vec<_> = (1..=cells).map(|cell| (cell, cell % cells + 1)).collect();
            site_of(slots, 1, &vec![1; cells], &pairs)
        };
        let due = "\
cell 1, load 1: at least 0 more
cell 2, load 1: at least 1 more
cell 3, load 1: at least 0 more
cell 4, load 1: at least 0 more
slots: 3 will do, as many as it has; with fewer than 2 no plan exists
";
        assert_eq!(lines(&ring(4, 3)), due);
        let due = "\
not known (10 tries): whether it has a plan
slots: 3 will do, 1 more than it has; with fewer than 2 no plan exists
";
        assert_eq!(lines(&ring(5, 2)), due);
        assert_eq!(
            lines(&site_of(3, 1, &[0], &[])),
            "cell 1, load 0: 3 more, and no more than that\nslots: 1 will do, 2 fewer than it has\n"
        );
    }
}

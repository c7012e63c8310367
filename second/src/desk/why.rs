//! `duggfrask why`: what can be said of a site, line by line.

use super::verdict::last_word;
use super::wording::counted;
use crate::blocklist::write_list;
use crate::find::Found;
use crate::heaviest::{heaviest, Heaviest};
use crate::judge::{chain, least, load_test, nested};
use crate::numbering::renumber;
use crate::planner::plan;
use crate::site::{Site, MOST_CHANNELS, MOST_SLOTS, RULE_2};

/// Whether the site is chained, and if not whether it is nested; the load test, the plan or what a no means; how many channel-slots it takes and the
/// heaviest clash; and so how many slots and channels, or where something is blocked what; of a site that is not nested that it has no numbering; the rule
/// where it is 2; and last what was found for it. The site comes from a reader, and is sound.
pub fn why(site: &Site, found: &Found) -> String {
    let gap = chain(site).expect("a sound site");
    let clash = heaviest(site).expect("a sound site");
    let split = nested(site).expect("a sound site");
    let chain = match gap {
        None => String::from("chained\n"),
        Some((a, b, c)) => {
            format!("not chained: cells {a} and {c} clash, and cell {b} between them does not clash with cell {a}\n")
                + &nested_line(split)
        }
    };
    let room = site.room();
    let planned = plan(site, &mut vec![0; site.table_len()]);
    let demand = least(site).expect("a sound site").channel_slots;
    let enough = if planned.is_ok() { demand.min(room) } else { demand };
    let plan = match &planned {
        Ok(()) => String::from("planned\n"),
        Err(no) => no_line(no.value[0], no.value[1], clash.load > room),
    };
    chain
        + &load_line(site, split.is_none())
        + &plan
        + &takes_lines(site, &clash, enough)
        + &if site.has_blocked() { blocked_line(site) } else { size_lines(site, clash.load, enough) }
        + if split.is_some() && renumber(site).is_err() { NO_NUMBERING } else { "" }
        + &rule_lines(site)
        + &last_word(found)
        + "\n"
}

const NO_NUMBERING: &str = "no numbering of all its cells, idle ones too, is nested\n";

/// Running sites have rule 1, and of it nothing is said. Of rule 2, what it is, and each pair of cells that it alone makes
/// clash, by first cell, then second.
fn rule_lines(site: &Site) -> String {
    if site.rule != RULE_2 {
        return String::new();
    }
    let mut lines = String::from("rule 2: two cells clash also when some third cell is reached by both\n");
    for first in 1..=site.count() {
        for second in first + 1..=site.count() {
            lines += &third_line(site, first, second);
        }
    }
    lines
}

/// Of two cells of which neither reaches the other, the third cell: the lowest that both reach. Nothing where there is none.
fn third_line(site: &Site, a: usize, b: usize) -> String {
    match site.third(a, b) {
        Some(third) if !site.reaches(a, b) && !site.reaches(b, a) => {
            format!("  {a} and {b} clash: both reach {third}\n")
        }
        _ => String::new(),
    }
}

fn nested_line(split: Option<(usize, usize, usize)>) -> String {
    match split {
        None => String::from("nested: of each cell, the lower cells that clash with it clash with one another\n"),
        Some((a, b, i)) => format!("not nested: cells {a} and {b} clash with cell {i}, and not with one another\n"),
    }
}

fn load_line(site: &Site, nested: bool) -> String {
    let Some((cell, excess)) = load_test(site).expect("a sound site") else {
        return String::from("the load test holds\n");
    };
    let decides = if nested { "" } else { "; on a site that is not nested that alone decides nothing" };
    format!("the load test fails: cell {cell} is over by {}{decides}\n", counted(excess, "fragment"))
}

fn no_line(cell: u64, short: u64, full: bool) -> String {
    let meaning =
        if full { "The site is full: no plan exists" } else { "This order found no room, which alone decides nothing" };
    format!("not planned: cell {cell} is {} short. {meaning}\n", counted(short, "fragment"))
}

/// The number of channel-slots that it takes, or the two that it lies between; and the heaviest clash, cell by cell.
fn takes_lines(site: &Site, clash: &Heaviest, enough: u64) -> String {
    let least = counted(clash.load, "channel-slot");
    let takes = if clash.load == enough {
        format!("it takes {least}, and no fewer")
    } else {
        format!("it takes at least {least}, and {enough} will do")
    };
    let open = if site.has_blocked() { " open" } else { "" };
    let mut lines = format!("{takes}; the site has {}{open}\n", site.room());
    if clash.load > 0 {
        lines += &format!("of all cells that clash with one another these need the most, {}:\n", clash.load);
    }
    for cell in (1..=site.count()).filter(|cell| clash.cells >> (cell - 1) & 1 == 1) {
        lines += &format!("  cell {cell}, load {}\n", site.load(cell));
    }
    lines
}

/// Where something is blocked more slots or channels need not be open, so that nothing is said of how many would do.
fn blocked_line(site: &Site) -> String {
    format!("blocked: {}\n", write_list(site))
}

/// With the site's channels how many slots, and with its slots how many channels.
fn size_lines(site: &Site, least: u64, enough: u64) -> String {
    let (slots, channels) = (site.slots as u64, site.channels as u64);
    let of = |number: u64, each: u64| number.div_ceil(each).max(1);
    with(counted(channels, "channel"), of(least, channels), of(enough, channels), "slot", MOST_SLOTS)
        + &with(counted(slots, "slot"), of(least, slots), of(enough, slots), "channel", MOST_CHANNELS)
}

fn with(given: String, least: u64, enough: u64, thing: &str, most: usize) -> String {
    let most_ever = most as u64;
    let line = if least > most_ever {
        format!("more than {most} {thing}s, which no site has")
    } else if enough > most_ever {
        format!("at least {}", counted(least, thing))
    } else if least == enough {
        format!("{}, and no fewer", counted(least, thing))
    } else {
        format!("at least {}, and {enough} will do", counted(least, thing))
    };
    format!("with {given}: {line}\n")
}

#[cfg(test)]
mod tests {
    use super::*;
    use crate::find::find;
    use crate::site::set_of;

    fn why(site: &Site) -> String {
        let found = find(site, 1_000_000, &mut vec![0; site.table_len()]).unwrap();
        super::why(site, &found)
    }

    fn alone(slots: usize, channels: usize, load: u16) -> Vec<String> {
        let site = Site::sized(1, slots, channels).with_load(1, load).unwrap();
        why(&site).lines().map(String::from).collect()
    }

    /// Cells with these loads, all but the last of which clash with the last alone.
    fn star(slots: usize, loads: &[u16]) -> Site {
        let mut site = Site::sized(loads.len(), slots, 1);
        site.loads[..loads.len()].copy_from_slice(loads);
        for cell in 1..loads.len() {
            site = site.with_reach(cell, loads.len(), true).unwrap();
        }
        site
    }

    #[test]
    fn none_one_and_two() {
        for (load, takes, channels) in [
            (0, "0 channel-slots", "1 channel"),
            (1, "1 channel-slot", "1 channel"),
            (2, "2 channel-slots", "2 channels"),
        ] {
            let lines = alone(1, 2, load);
            assert_eq!(lines[..3], ["chained", "the load test holds", "planned"]);
            assert_eq!(lines[3], format!("it takes {takes}, and no fewer; the site has 2"));
            let sizes = [
                String::from("with 2 channels: 1 slot, and no fewer"),
                format!("with 1 slot: {channels}, and no fewer"),
            ];
            assert_eq!(lines[lines.len() - 3..lines.len() - 1], sizes);
            assert_eq!(lines[lines.len() - 1], "planned");
        }
        assert_eq!(alone(1, 2, 0).len(), 7);
        assert_eq!(
            alone(1, 2, 1)[4..6],
            ["of all cells that clash with one another these need the most, 1:", "  cell 1, load 1"]
        );
    }

    #[test]
    fn one_and_two_fragments_short() {
        for (load, fragments) in [(3, "1 fragment"), (4, "2 fragments")] {
            let lines = alone(2, 1, load);
            let over = format!("the load test fails: cell 1 is over by {fragments}");
            let short = format!("not planned: cell 1 is {fragments} short. The site is full: no plan exists");
            assert_eq!(lines[1..3], [over, short]);
        }
    }

    #[test]
    fn more_than_any_site_has() {
        let lines = alone(1, 2, 257);
        assert_eq!(lines[6], "with 2 channels: more than 128 slots, which no site has");
        assert_eq!(lines[7], "with 1 slot: more than 16 channels, which no site has");
        assert_eq!(alone(1, 2, 256)[6], "with 2 channels: 128 slots, and no fewer");
        assert_eq!(alone(1, 2, 16)[7], "with 1 slot: 16 channels, and no fewer");
        let lines = why(&star(1, &[64, 64, 64]));
        assert!(lines.contains("\nwith 1 channel: at least 128 slots\n"), "{lines}");
    }

    #[test]
    fn a_no_that_is_not_final() {
        let mut site = Site::sized(4, 2, 1);
        for (from, to) in [(1, 3), (2, 4), (3, 4)] {
            site = site.with_reach(from, to, true).unwrap();
        }
        site.loads[..4].fill(1);
        let expected = "\
not chained: cells 1 and 3 clash, and cell 2 between them does not clash with cell 1
not nested: cells 2 and 3 clash with cell 4, and not with one another
the load test fails: cell 4 is over by 1 fragment; on a site that is not nested that alone decides nothing
not planned: cell 4 is 1 fragment short. This order found no room, which alone decides nothing
it takes at least 2 channel-slots, and 3 will do; the site has 2
of all cells that clash with one another these need the most, 2:
  cell 1, load 1
  cell 3, load 1
with 1 channel: at least 2 slots, and 3 will do
with 2 slots: at least 1 channel, and 2 will do
planned with the cells renumbered
";
        assert_eq!(why(&site), expected);
    }

    /// Cells in a ring, each with this load.
    fn ring(cells: usize, slots: usize, load: u16) -> Site {
        let mut site = Site::sized(cells, slots, 1);
        for cell in 1..=cells {
            site = site.with_reach(cell, cell % cells + 1, true).unwrap();
        }
        site.loads[..cells].fill(load);
        site
    }

    #[test]
    fn full_by_a_search_or_not_known() {
        let lines = why(&ring(5, 2, 1));
        assert!(lines.ends_with("\nfull (searched, 18 tries)\n"), "{lines}");
        // Of five cells in a ring at most two send at once: 20 fragments need 10 positions, and 25 need 13.
        let lines = why(&ring(5, 8, 4));
        assert!(lines.ends_with("\nfull (searched, 8912 tries)\n"), "{lines}");
        // Seventeen cells that clash with nobody, each at one of two positions, and the ring: it is searched for each choice.
        let mut site = Site::sized(22, 2, 1);
        for cell in 18..=22 {
            site = site.with_reach(cell, if cell == 22 { 18 } else { cell + 1 }, true).unwrap();
        }
        site.loads[..22].fill(1);
        let lines = why(&site);
        assert!(lines.ends_with("\nnot known (1000000 tries)\n"), "{lines}");
        let lines = why(&ring(5, 10, 5));
        assert!(lines.ends_with("\nnot known (0 tries)\n"), "{lines}");
        // Full by two cells that clash: nothing is searched.
        let lines = why(&ring(5, 1, 1));
        assert!(lines.ends_with("\nfull (cells 1, 2)\n"), "{lines}");
    }

    /// A star with its centre last that is full, and a ring of four, which no numbering makes nested.
    #[test]
    fn the_renumbered_site_decides() {
        let lines = why(&star(1, &[1, 1, 1]));
        assert!(lines.ends_with("\nfull (cells 1, 3)\n") && !lines.contains("numbering"), "{lines}");
        let mut ring = Site::sized(4, 2, 1);
        for (from, to) in [(1, 2), (2, 3), (3, 4), (4, 1)] {
            ring = ring.with_reach(from, to, true).unwrap();
        }
        ring.loads[..4].fill(1);
        let lines = why(&ring);
        assert!(lines.ends_with("\nno numbering of all its cells, idle ones too, is nested\nplanned\n"), "{lines}");
        ring.loads[3] = 0;
        assert!(why(&ring).lines().all(|line| !line.contains("numbering")), "nested: cell 4 is idle");
    }

    #[test]
    fn a_side_drift_whose_no_is_final() {
        let mut site = Site::sized(4, 2, 1);
        for (from, to) in [(1, 2), (2, 3), (1, 4)] {
            site = site.with_reach(from, to, true).unwrap();
        }
        site.loads[..4].copy_from_slice(&[1, 1, 1, 2]);
        let expected = "\
not chained: cells 1 and 4 clash, and cell 3 between them does not clash with cell 1
nested: of each cell, the lower cells that clash with it clash with one another
the load test fails: cell 4 is over by 1 fragment
not planned: cell 4 is 1 fragment short. The site is full: no plan exists
it takes 3 channel-slots, and no fewer; the site has 2
of all cells that clash with one another these need the most, 3:
  cell 1, load 1
  cell 4, load 2
with 1 channel: 3 slots, and no fewer
with 2 slots: 2 channels, and no fewer
full (cells 1, 4)
";
        assert_eq!(why(&site), expected);
    }

    #[test]
    fn what_is_blocked() {
        let mut site = Site::sized(2, 3, 2).with_reach(1, 2, true).unwrap();
        site.loads[..2].copy_from_slice(&[3, 1]);
        site.blocked[0] = 0b101010;
        let expected = "\
chained
the load test fails: cell 2 is over by 1 fragment
not planned: cell 2 is 1 fragment short. The site is full: no plan exists
it takes 4 channel-slots, and no fewer; the site has 3 open
of all cells that clash with one another these need the most, 4:
  cell 1, load 3
  cell 2, load 1
blocked: *.2
full (cells 1, 2)
";
        assert_eq!(why(&site), expected);
        site.blocked[0] = 0b111111;
        let lines = why(&site);
        assert!(lines.contains("\nit takes 4 channel-slots, and no fewer; the site has 0 open\n"), "{lines}");
        assert!(lines.ends_with("\nblocked: *.*\nfull (cells 1, 2)\n"), "{lines}");
        let star = Site { blocked: set_of(9..10), ..star(128, &[10; 14]) };
        let lines = why(&star);
        assert!(
            lines.contains("\nplanned\nit takes at least 20 channel-slots, and 127 will do; the site has 127 open\n")
        );
    }

    #[test]
    fn a_clash_by_a_third_cell() {
        let mut site = Site { rule: 2, ..Site::sized(5, 4, 2) };
        for (from, to) in [(1, 2), (2, 4), (5, 4)] {
            site = site.with_reach(from, to, true).unwrap();
        }
        site.loads[..5].copy_from_slice(&[4, 3, 0, 3, 2]);
        let expected = "\
chained
the load test holds
planned
it takes 8 channel-slots, and no fewer; the site has 8
of all cells that clash with one another these need the most, 8:
  cell 2, load 3
  cell 4, load 3
  cell 5, load 2
with 2 channels: 4 slots, and no fewer
with 4 slots: 2 channels, and no fewer
rule 2: two cells clash also when some third cell is reached by both
  2 and 5 clash: both reach 4
planned
";
        assert_eq!(why(&site), expected);
        // Of rule 1 nothing is said, and the same reach makes no clash.
        let lines = why(&Site { rule: 1, ..site });
        assert!(!lines.contains("rule") && !lines.contains("both reach"), "{lines}");
    }

    #[test]
    fn each_clash_by_a_third_cell() {
        // 1, 3 and 4 all reach the spare cells 5 and 6, and 3 reaches 2 too; 6 reaches 5, and 5 nobody.
        let mut site = Site { rule: 2, ..Site::sized(6, 2, 1) };
        for (from, to) in [(1, 5), (1, 6), (3, 5), (3, 6), (3, 2), (4, 5), (4, 6), (6, 5)] {
            site = site.with_reach(from, to, true).unwrap();
        }
        let end = "\
rule 2: two cells clash also when some third cell is reached by both
  1 and 3 clash: both reach 5
  1 and 4 clash: both reach 5
  3 and 4 clash: both reach 5
planned
";
        let lines = why(&site);
        assert!(lines.ends_with(end), "{lines}");
        // Where one of the two reaches the other, no third cell is named. What reaches both makes no clash.
        let lines = why(&site.with_reach(4, 1, true).unwrap());
        assert!(
            lines.ends_with("\n  1 and 3 clash: both reach 5\n  3 and 4 clash: both reach 5\nplanned\n"),
            "{lines}"
        );
        let lines = why(&site.with_reach(3, 1, true).unwrap());
        assert!(!lines.contains("1 and 2 clash") && !lines.contains("1 and 3 clash"), "{lines}");
    }

    #[test]
    fn planned_with_less_than_the_load_test_asks_for() {
        let expected = "\
not chained: cells 1 and 14 clash, and cell 2 between them does not clash with cell 1
not nested: cells 1 and 2 clash with cell 14, and not with one another
the load test fails: cell 14 is over by 12 fragments; on a site that is not nested that alone decides nothing
planned
it takes at least 20 channel-slots, and 128 will do; the site has 128
of all cells that clash with one another these need the most, 20:
  cell 1, load 10
  cell 14, load 10
with 1 channel: at least 20 slots, and 128 will do
with 128 slots: 1 channel, and no fewer
planned
";
        assert_eq!(why(&star(128, &[10; 14])), expected);
    }
}

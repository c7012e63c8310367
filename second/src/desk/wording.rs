//! The words of the desk's command: how things are counted, what a refusal says, and the lines of a no.

use crate::answer::Answer;
use crate::site::Site;

/// The page that says what each number means.
const NUMBERS: &str = include_str!("../../../docs/NUMBERS.md");

/// `1 slot`, but `0 slots` and `2 slots`.
pub fn counted(number: u64, thing: &str) -> String {
    format!("{number} {thing}{}", if number == 1 { "" } else { "s" })
}

/// `1 try`, but `0 tries` and `2 tries`.
pub fn tries(number: u64) -> String {
    if number == 1 {
        return String::from("1 try");
    }
    format!("{number} tries")
}

/// `3 cells, 8 slots`, then what stands before the last, and `2 channels`.
pub fn sizes(site: &Site, before_last: &str) -> String {
    let cells = counted(site.cells.into(), "cell");
    let slots = counted(site.slots.into(), "slot");
    format!("{cells}, {slots}{before_last}{}", counted(site.channels.into(), "channel"))
}

/// `slot 3` and `channel 2`, by position from 0, with something between the two.
fn slot_and_channel(site: &Site, position: u64, between: &str) -> String {
    let channels = site.channels as u64;
    format!("slot {}{between}channel {}", position / channels + 1, position % channels + 1)
}

/// Where a refusal says that something is wrong.
pub enum Place {
    Nowhere,
    SiteFile(u64),
    PlanFile(u64),
    Line(u64),
    Cell(u64),
    Flow(u64),
    Position(u64),
}

/// The line of a refusal: its number, its place, and what it means.
pub fn refused(number: u64, place: Place) -> String {
    let place = match place {
        Place::Nowhere => String::new(),
        Place::SiteFile(offset) => format!(", byte {offset} of the site file"),
        Place::PlanFile(offset) => format!(", byte {offset} of the plan file"),
        Place::Line(line) => format!(", line {line}"),
        Place::Cell(cell) => format!(", cell {cell}"),
        Place::Flow(flow) => format!(", flow {flow}"),
        Place::Position(position) => format!(", position {position}"),
    };
    format!("refused {number}{place}: {}\n", meaning(NUMBERS, number))
}

/// What a number means: of its row in the page's table the first sentence of the second column, without its full stop
/// and with a small first letter.
fn meaning(page: &str, number: u64) -> String {
    let begins = format!("| {number} |");
    let row = page.lines().find(|line| line.starts_with(&begins)).expect("docs/NUMBERS.md has a row for each number");
    let column = row.split('|').nth(2).expect("a row has a second column").trim();
    let sentence = column.split(". ").next().unwrap_or(column);
    let sentence = sentence.strip_suffix('.').unwrap_or(sentence);
    let first = sentence.chars().take(1).flat_map(char::to_lowercase);
    first.chain(sentence.chars().skip(1)).collect()
}

/// The slots of a share are out of range: refusal 1, which here is of the slots alone.
pub fn wrong_slots() -> String {
    String::from("refused 1: the slots are not 1 to 128\n")
}

/// Refusal 15 of a share: the first of its numbers that is out of range.
pub fn wrong_flow(burst: u64, period: u64) -> String {
    let wrong = match (burst, period) {
        (0 | 65_536.., _) => "the burst is not 1 to 65,535",
        (_, 0 | 65_536..) => "the period is not 1 to 65,535",
        _ => "the repeats are not 1 to 4",
    };
    format!("refused 15: {wrong}\n")
}

/// Refusal 5 of the planner.
pub fn no_room(no: &Answer) -> String {
    let [cell, short, _] = no.value;
    format!("refused 5, cell {cell}: no room for {short} of its fragments; duggfrask why says what that means\n")
}

/// Refusal 5 of the mender.
pub fn no_room_beside(no: &Answer) -> String {
    let [cell, short, _] = no.value;
    format!(
        "refused 5, cell {cell}: keeping these reservations leaves no room for {short} of its fragments; a fresh plan may do\n"
    )
}

/// Refusal 5 of a change of a load.
pub fn no_room_with(no: &Answer) -> String {
    let [cell, short, _] = no.value;
    format!("refused 5, cell {cell}: with this load there is no room for {short} of its fragments\n")
}

/// Refusal 19, with the three cells that show it.
pub fn not_nested((a, b, i): (usize, usize, usize)) -> String {
    let sentence = meaning(NUMBERS, 19);
    format!("refused 19: {sentence}: cells {a} and {b} clash with cell {i}, and not with one another\n")
}

/// Who reaches whom, of two cells that clash; where neither does, both reach a third cell.
fn way(site: &Site, first: usize, second: usize) -> String {
    match (site.reaches(first, second), site.reaches(second, first)) {
        (true, true) => String::from("each reaches the other"),
        (true, false) => format!("{first} reaches {second}"),
        (false, true) => format!("{second} reaches {first}"),
        (false, false) => String::from("both reach a third cell"),
    }
}

/// A list of blocked positions that is none: where its first item begins that is no item, counted from 0.
pub fn bad_list(at: usize) -> String {
    format!("--blocked: at character {} stands no slot.channel of this site\n", at + 1)
}

/// The checker's refusals 22, 6 and 7.
pub fn sends_wrongly(site: &Site, no: &Answer) -> String {
    let [value, first, second] = no.value;
    if no.number == 22 {
        let place = slot_and_channel(site, value, ", ");
        return format!("refused 22: cell {first} sends in {place}, which is blocked\n");
    }
    if no.number == 6 {
        let place = slot_and_channel(site, value, ", ");
        let way = way(site, first as usize, second as usize);
        return format!("refused 6: cells {first} and {second} clash ({way}), and both send in {place}\n");
    }
    let (cell, times) = (value, counted(first, "time"));
    let load = site.load(cell as usize);
    format!("refused 7: cell {cell} sends {times} in a superframe, and its load is {load}\n")
}

/// A change of the mender: cell, position, what it was and what it is.
pub fn change_line(site: &Site, change: &[u16]) -> String {
    let place = slot_and_channel(site, change[1].into(), " ");
    let done = if change[3] == 1 { "added" } else { "dropped" };
    format!("cell {}: {place} {done}\n", change[0])
}

#[cfg(test)]
mod tests {
    use super::*;
    use crate::answer::refuse;

    #[test]
    fn one_has_no_s() {
        assert_eq!([0, 1, 2].map(|number| counted(number, "slot")), ["0 slots", "1 slot", "2 slots"]);
        assert_eq!(sizes(&Site::sized(1, 2, 1), " and "), "1 cell, 2 slots and 1 channel");
        assert_eq!(sizes(&Site::sized(2, 1, 16), ", "), "2 cells, 1 slot, 16 channels");
    }

    #[test]
    fn times_of_the_checker() {
        let site = Site::sized(1, 2, 2).with_load(1, 3).unwrap();
        for (count, times) in [(0, "0 times"), (1, "1 time"), (2, "2 times")] {
            let no = refuse::<()>(7, &[1, count]).unwrap_err();
            let line = format!("refused 7: cell 1 sends {times} in a superframe, and its load is 3\n");
            assert_eq!(sends_wrongly(&site, &no), line);
        }
    }

    #[test]
    fn positions_as_slot_and_channel() {
        let site = Site::sized(2, 3, 2);
        let no = refuse::<()>(6, &[5, 1, 2]).unwrap_err();
        for (forth, back, way) in
            [(true, false, "1 reaches 2"), (false, true, "2 reaches 1"), (true, true, "each reaches the other")]
        {
            let site = site.with_reach(1, 2, forth).unwrap().with_reach(2, 1, back).unwrap();
            let line = format!("refused 6: cells 1 and 2 clash ({way}), and both send in slot 3, channel 2\n");
            assert_eq!(sends_wrongly(&site, &no), line);
        }
        let mut five = Site { rule: 2, ..Site::sized(5, 4, 2) };
        for (from, to) in [(2, 4), (5, 4), (2, 3), (5, 3), (1, 5)] {
            five = five.with_reach(from, to, true).unwrap();
        }
        let no = refuse::<()>(6, &[4, 2, 5]).unwrap_err();
        let line = "refused 6: cells 2 and 5 clash (both reach a third cell), and both send in slot 3, channel 1\n";
        assert_eq!(sends_wrongly(&five, &no), line);
        assert_eq!(change_line(&site, &[2, 0, 0, 1]), "cell 2: slot 1 channel 1 added\n");
        assert_eq!(change_line(&site, &[1, 3, 1, 0]), "cell 1: slot 2 channel 2 dropped\n");
    }

    #[test]
    fn meanings_are_first_sentences() {
        let page = "| No. | What |\n|---|---|\n| 1 | A b. C d. | e |\n| 11 | Only: one, or 65,535. | e |\n| 2 | No stop | e |\n";
        assert_eq!([1, 11, 2].map(|number| meaning(page, number)), ["a b", "only: one, or 65,535", "no stop"]);
    }

    #[test]
    fn the_page_has_every_meaning() {
        for number in (1..=22).chain([24]) {
            let meaning = meaning(NUMBERS, number);
            assert!(meaning.starts_with(|first: char| first.is_ascii_lowercase()), "{number}: {meaning}");
            assert!(!meaning.ends_with('.') && !meaning.contains(". "), "{number}: {meaning}");
        }
    }
}

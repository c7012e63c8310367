//! Words about range sheets: why a line is bad, and what was tidied.

use super::wording::{refused, Place};
use crate::line_faults::{reason, Reason};
use crate::tidy::{Changed, Changes, Kind};

/// Refusal 17 of a range sheet, with the reason where it can be told, and else with what the number means.
pub fn bad_line_told(sheet: &[u8], line: u64) -> String {
    match reason_words(reason(sheet, line as usize)) {
        Some(words) => format!("refused 17, line {line}: {words}\n"),
        None => refused(17, Place::Line(line)),
    }
}

fn reason_words(reason: Reason) -> Option<String> {
    let at = |at: usize, what: &str| format!("at character {at} stands {what}");
    let column = |column: usize, what: &str| format!("column {column}: {what}");
    Some(match reason {
        Reason::Untold => return None,
        Reason::Missing => String::from("the sheet ends before this line"),
        Reason::Extra => String::from("a line too many"),
        Reason::OrderMark => String::from("it begins with a byte order mark"),
        Reason::Semicolon(character) => at(character, "a semicolon, and a comma belongs there"),
        Reason::Tab(character) => at(character, "a tab, and a comma belongs there"),
        Reason::Quote(character) => at(character, "a quote, and a sheet has none"),
        Reason::Blank(character) => at(character, "a blank, and a sheet has none"),
        Reason::FeedAlone => String::from("the line ends in LF alone, and CR LF belongs there"),
        Reason::NoEnd => String::from("the line has no end, and CR LF belongs there"),
        Reason::LeadingZero(number) => column(number, "a number with a leading zero"),
        Reason::TooLarge(number) => column(number, "a number above 65,535"),
        Reason::NoNumber(number) => column(number, "a plain number belongs there"),
        Reason::NoMark(mark) => column(mark, "0 or 1 belongs there"),
        Reason::TooFew(last) => format!("too few fields: it ends after column {last}"),
        Reason::TooMany(extra) => format!("too many fields: column {extra} is one too many"),
        Reason::LoneCr(character) => format!("before character {character} stands a CR without its LF"),
    })
}

/// What was tidied, a line for each thing, with the line where it was first.
pub fn change_lines(changes: &Changes) -> String {
    if changes.is_empty() {
        return String::from("tidy as it is: nothing to change\n");
    }
    let mut lines = String::from("tidied\n");
    for (&kind, &Changed { times, line }) in changes {
        let place = if times == 1 { format!("line {line}") } else { format!("from line {line} on, {times} times") };
        lines += &format!("{place}: {}\n", change_words(kind));
    }
    lines
}

fn change_words(kind: Kind) -> &'static str {
    match kind {
        Kind::MarkDropped => "the byte order mark dropped",
        Kind::CommaPut => "a comma put for a semicolon or a tab",
        Kind::EndMade => "CR LF put for LF",
        Kind::QuoteDropped => "a quote dropped",
        Kind::BlankDropped => "a blank dropped",
        Kind::ZeroPut => "0 put for a blank mark",
        Kind::OnePut => "1 put for an x",
        Kind::EndAdded => "the last line's end added",
    }
}

/// Refusal 17 of tidying.
pub fn not_tidied(line: u64) -> String {
    format!("refused 17, line {line}: this line can't be tidied\n")
}

#[cfg(test)]
mod tests {
    use super::*;
    use crate::tidy::tidied;

    #[test]
    fn a_bad_line_with_its_reason() {
        let told = |line: &str| bad_line_told(format!("cell,load,1,2\r\n{line}").as_bytes(), 2);
        for (line, words) in [
            ("1;5,0,1\r\n", "at character 2 stands a semicolon, and a comma belongs there"),
            ("1,5\t", "at character 4 stands a tab, and a comma belongs there"),
            ("\"1\"", "at character 1 stands a quote, and a sheet has none"),
            ("1, 5", "at character 3 stands a blank, and a sheet has none"),
            ("1,5,0,1\n", "the line ends in LF alone, and CR LF belongs there"),
            ("1,5,0,1", "the line has no end, and CR LF belongs there"),
            ("1,05", "column 2: a number with a leading zero"),
            ("1,65536", "column 2: a number above 65,535"),
            ("1,a", "column 2: a plain number belongs there"),
            ("1,5,,1\r\n", "column 3: 0 or 1 belongs there"),
            ("1,5,0\r\n", "too few fields: it ends after column 3"),
            ("1,5,0,1,0\r\n", "too many fields: column 5 is one too many"),
            ("1,5,0,1\r,", "before character 9 stands a CR without its LF"),
            ("", "the sheet ends before this line"),
        ] {
            assert_eq!(told(line), format!("refused 17, line 2: {words}\n"));
        }
        assert_eq!(bad_line_told(b"cell,load,1\r\n1,0,0\r\n\r\n", 3), "refused 17, line 3: a line too many\n");
        let mark = bad_line_told("\u{feff}cell,load,1\r\n".as_bytes(), 1);
        assert_eq!(mark, "refused 17, line 1: it begins with a byte order mark\n");
        let untold = bad_line_told(b"Cell,load,1\r\n", 1);
        assert_eq!(untold, refused(17, Place::Line(1)));
    }

    #[test]
    fn what_was_tidied() {
        let export = "\u{feff}\"cell\";\"load\";1;2\n1; 5;;\"x\"\n2;7;x;0";
        let due = "\
tidied
line 1: the byte order mark dropped
from line 1 on, 9 times: a comma put for a semicolon or a tab
from line 1 on, 2 times: CR LF put for LF
from line 1 on, 6 times: a quote dropped
line 2: a blank dropped
line 2: 0 put for a blank mark
from line 2 on, 2 times: 1 put for an x
line 3: the last line's end added
";
        assert_eq!(change_lines(&tidied(export.as_bytes()).unwrap().1), due);
        assert_eq!(change_lines(&Changes::new()), "tidy as it is: nothing to change\n");
    }
}

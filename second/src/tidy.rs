//! A fitter's sheet as spreadsheets really write it, made into the form of a range sheet, field by field. The strict reader
//! alone says whether what comes of it is a sheet.
//!
//! - The first comma, semicolon or tab of the sheet is what parts its fields.
//! - Every LF ends a line, with a CR before it or without. A CR anywhere else can't be tidied.
//! - Of a field the blanks around it go, then one pair of quotes, then the blanks inside them. A blank or a quote in its midst
//!   can't be tidied, nor what parts fields inside quotes, nor a comma in a sheet that another mark parts, nor a byte 0.
//! - In a cell's line a mark that is empty becomes 0, and one that begins with `x` or `X` begins with 1.
//! - A last line without its end gets it; blanks after the last end go. What can't be tidied spoils its line.

use crate::answer::Outcome;
use crate::files::deliver;
use crate::sheet::{bad_line, read_sheet};
use std::collections::BTreeMap;

/// What can be changed in a sheet.
#[derive(Clone, Copy, Debug, PartialEq, Eq, PartialOrd, Ord)]
pub enum Kind {
    MarkDropped = 1,
    CommaPut = 2,
    EndMade = 3,
    QuoteDropped = 4,
    BlankDropped = 5,
    ZeroPut = 6,
    OnePut = 7,
    EndAdded = 8,
}

/// How often a thing was changed, and in which line first, from 1.
#[derive(Clone, Copy, Debug, PartialEq, Eq)]
pub struct Changed {
    pub times: u64,
    pub line: u64,
}

/// The changes by kind; a kind that was not needed is not there.
pub type Changes = BTreeMap<Kind, Changed>;

/// The byte order mark of UTF-8.
pub const ORDER_MARK: &[u8] = &[0xEF, 0xBB, 0xBF];

const BLANK: u8 = b' ';
const QUOTE: u8 = b'"';

/// Tidies a sheet into the lent output: the bytes written, and what was changed. Refusals: 17 with the first line that can't
/// be tidied, then 13 with the bytes needed. No refusal writes.
pub fn tidy(sheet: &[u8], out: &mut [u8]) -> Outcome<(usize, Changes)> {
    let (tidied, changes) = tidied(sheet)?;
    Ok((deliver(&tidied, out)?, changes))
}

/// The tidied sheet and what was changed, or 17 with the first line that can't be tidied.
pub fn tidied(sheet: &[u8]) -> Outcome<(Vec<u8>, Changes)> {
    let mut tidying = Tidying { parts: parting(sheet), made: Vec::new(), changes: Changes::new(), line: 1 };
    let mut rest = sheet;
    if let Some(after) = sheet.strip_prefix(ORDER_MARK) {
        tidying.note(Kind::MarkDropped, 1);
        rest = after;
    }
    while let Some(end) = rest.iter().position(|&byte| byte == b'\n') {
        tidying.line(&rest[..end], true);
        rest = &rest[end + 1..];
    }
    tidying.last_line(rest);
    tidying.judged()
}

/// What parts the fields: the first comma, semicolon or tab; a comma where there is none.
fn parting(sheet: &[u8]) -> u8 {
    sheet.iter().copied().find(|byte| b",;\t".contains(byte)).unwrap_or(b',')
}

struct Tidying {
    parts: u8,
    /// The lines so far, without their ends; none for a line that can't be tidied.
    made: Vec<Option<Vec<u8>>>,
    changes: Changes,
    /// The line that is being made.
    line: u64,
}

impl Tidying {
    fn note(&mut self, kind: Kind, times: usize) {
        if times > 0 {
            self.changes.entry(kind).or_insert(Changed { times: 0, line: self.line }).times += times as u64;
        }
    }

    /// A line, whose LF stood there or is missing. A CR that stands last in it is a part of its end.
    fn line(&mut self, line: &[u8], ended: bool) {
        let (content, cr) = match line.split_last() {
            Some((b'\r', content)) => (content, true),
            _ => (line, false),
        };
        if !ended {
            self.note(Kind::EndAdded, 1);
        } else if !cr {
            self.note(Kind::EndMade, 1);
        }
        let made = self.fields(content);
        self.made.push(made);
        self.line += 1;
    }

    /// What stands after the last LF: nothing, blanks that go, or a line without its end. The first line is always there.
    fn last_line(&mut self, rest: &[u8]) {
        if self.line == 1 || rest.iter().any(|&byte| byte != BLANK) {
            self.line(rest, false);
        } else {
            self.note(Kind::BlankDropped, rest.len());
        }
    }

    /// The fields of a line with commas between, or none where one of them can't be tidied.
    fn fields(&mut self, content: &[u8]) -> Option<Vec<u8>> {
        let parts = self.parts;
        let mut tidied = Vec::new();
        for (column, field) in content.split(|&byte| byte == parts).enumerate() {
            if column > 0 {
                tidied.push(b',');
                self.note(Kind::CommaPut, (parts != b',') as usize);
            }
            let is_mark = self.line > 1 && column > 1;
            tidied.extend(self.field(field, is_mark)?);
        }
        Some(tidied)
    }

    fn field(&mut self, field: &[u8], is_mark: bool) -> Option<Vec<u8>> {
        let outside = trimmed(field);
        let quoted = outside.len() >= 2 && outside[0] == QUOTE && outside[outside.len() - 1] == QUOTE;
        let inside = if quoted { trimmed(&outside[1..outside.len() - 1]) } else { outside };
        if inside.iter().any(|byte| b"\0\r ,\"".contains(byte)) {
            return None;
        }
        self.note(Kind::QuoteDropped, 2 * quoted as usize);
        self.note(Kind::BlankDropped, field.len() - 2 * quoted as usize - inside.len());
        let mut tidied = inside.to_vec();
        match tidied.first_mut() {
            None if is_mark => {
                tidied.push(b'0');
                self.note(Kind::ZeroPut, 1);
            }
            Some(first @ (b'x' | b'X')) if is_mark => {
                *first = b'1';
                self.note(Kind::OnePut, 1);
            }
            _ => {}
        }
        Some(tidied)
    }

    /// The sheet, where the strict reader takes it; slots, channels and what else comes beside it play no part in its lines.
    fn judged(self) -> Outcome<(Vec<u8>, Changes)> {
        let mut sheet = Vec::new();
        for line in &self.made {
            // No line of a sheet has a quote, so that the reader refuses the line of one.
            sheet.extend_from_slice(line.as_deref().unwrap_or(b"\""));
            sheet.extend_from_slice(b"\r\n");
        }
        match read_sheet(&sheet, 1, 1, &[0; 32], 1) {
            Err(no) if no.number == 17 => bad_line(no.value[0] as usize),
            _ => Ok((sheet, self.changes)),
        }
    }
}

/// Without the blanks around it.
fn trimmed(mut bytes: &[u8]) -> &[u8] {
    while let [BLANK, rest @ ..] | [rest @ .., BLANK] = bytes {
        bytes = rest;
    }
    bytes
}

#[cfg(test)]
mod tests {
    use super::*;
    use crate::answer::refuse;

    const GOOD: &str = "cell,load,1,2\r\n1,5,0,1\r\n2,7,1,0\r\n";

    fn said(sheet: &str) -> Outcome<(String, Vec<(u8, u64, u64)>)> {
        let (bytes, changes) = tidied(sheet.as_bytes())?;
        let list = changes.iter().map(|(&kind, changed)| (kind as u8, changed.times, changed.line)).collect();
        Ok((String::from_utf8(bytes).unwrap(), list))
    }

    /// The byte order mark, semicolons, quotes, blanks, LF alone, marks left blank or with an x, the last line without an end.
    #[test]
    fn an_export() {
        let export = "\u{feff}\"cell\";\"load\";1;2\n1; 5;;\"x\"\n2;7;x;0";
        let list = vec![(1, 1, 1), (2, 9, 1), (3, 2, 1), (4, 6, 1), (5, 1, 2), (6, 1, 2), (7, 2, 2), (8, 1, 3)];
        assert_eq!(said(export), Ok((GOOD.into(), list)));
    }

    #[test]
    fn a_good_sheet_stays_and_tidied_again_too() {
        assert_eq!(said(GOOD), Ok((GOOD.into(), vec![])));
        for (sheet, list) in [
            (GOOD.replace("\r\n", "\n"), vec![(3, 3, 1)]),
            (GOOD.replace(',', "\t"), vec![(2, 9, 1)]),
            (GOOD.replace("1,5,", "1, 5 ,"), vec![(5, 2, 2)]),
            (GOOD.replace(",1,0", ",X,  "), vec![(5, 2, 3), (6, 1, 3), (7, 1, 3)]),
            (GOOD.replace(",1,0", ",\"1\",\"\""), vec![(4, 4, 3), (6, 1, 3)]),
            (GOOD.replace(",7", ", \" 7 \" "), vec![(4, 2, 3), (5, 4, 3)]),
            (GOOD.trim_end().into(), vec![(8, 1, 3)]),
            (GOOD.trim_end_matches('\n').into(), vec![(8, 1, 3)]),
            (format!("{GOOD}   "), vec![(5, 3, 4)]),
            (format!("\u{feff}{GOOD}"), vec![(1, 1, 1)]),
        ] {
            assert_eq!(said(&sheet), Ok((GOOD.into(), list)), "{sheet:?}");
        }
    }

    #[test]
    fn lines_that_cannot_be_tidied() {
        for (sheet, line) in [
            ("", 1),
            ("  ", 1),
            ("\u{feff}", 1),
            ("\u{feff}\u{feff}cell,load,1\r\n1,0,0\r\n", 1),
            ("cell,load,1,2\n1;5;0;1\n", 2),
            ("cell;load;1;2\n1;5,0;0;1\n", 2),
            ("cell,load,1,2\n1,\"5,0\",0,1\n", 2),
            ("cell,load,1,2\n1,5,0,1\n2,\"7,x,0\n", 3),
            ("cell,load,1,2\n1,5,0,1\n2,7,x,0\n\n", 4),
            ("cell,load,1,2\n1,5,0,1\n2,7,x,0\n \n", 4),
            ("cell,load,1,2\n1,5,0,1\n2,7,x,0\n\"\"", 4),
            ("cell,load,1,2\n1,5,0,1\n", 3),
            ("cell,load,1,2\n1,5,0,1\r\r\n", 2),
            ("cell,load,1,2\n1,5,0\r,1\n", 2),
            ("cell,load,1,2\n1,5,0,1\0\n", 2),
            ("cell,load,1,2\n1,5,xx,1\n", 2),
            ("cell,load,1,2\n1,5,0 0,1\n", 2),
            ("cell,load,1,2\n1,5,\"\"0\"\",1\n", 2),
            ("cell,load,1,2\n1,5,\",1\n", 2),
            ("cell,load,1,2\n1,5,\"0\"0,1\n", 2),
            ("cell,load,1,2\n1,,0,1\n", 2),
            ("cell,load,1,2\n1,x,0,1\n", 2),
            ("cell,load,x,2\n", 1),
            ("Cell,load,1\n", 1),
            ("cell,load,1,2\n1,05,0,1\n", 2),
        ] {
            assert_eq!(said(sheet), bad_line(line), "{sheet:?}");
        }
    }

    #[test]
    fn refusals_write_nothing() {
        let mut out = [9; 40];
        let lf = GOOD.replace("\r\n", "\n");
        assert_eq!(GOOD.len(), 33);
        assert_eq!(tidy(lf.as_bytes(), &mut out[..32]), refuse(13, &[33]));
        assert_eq!(tidy(b"cell", &mut out), bad_line(1));
        assert_eq!(out, [9; 40]);
        assert_eq!(tidy(lf.as_bytes(), &mut out).unwrap().0, 33);
        assert_eq!((&out[..33], &out[33..]), (GOOD.as_bytes(), &[9; 7][..]));
    }

    /// A mark on oneself is no matter of lines: such a sheet is tidied, and the reader says 3.
    #[test]
    fn what_is_not_of_the_lines_is_left_to_the_reader() {
        assert_eq!(said("cell,load,1\n1,0,x\n"), Ok(("cell,load,1\r\n1,0,1\r\n".into(), vec![(3, 2, 1), (7, 1, 2)])));
    }
}

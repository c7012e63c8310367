//! Why a line of a range sheet is bad, where it can be told: the first byte, from the left, that can't stand there. The
//! strict reader says which line is bad; this says why. Lines, columns and characters are counted from 1.

use crate::sheet::read_first;
use crate::tidy::ORDER_MARK;

/// The reasons, each with the character or the column where it is.
#[derive(Clone, Copy, Debug, PartialEq, Eq)]
pub enum Reason {
    /// Nothing that can be told.
    Untold,
    /// The sheet ends before this line.
    Missing,
    /// A line too many.
    Extra,
    /// The byte order mark.
    OrderMark,
    Semicolon(usize),
    Tab(usize),
    Quote(usize),
    Blank(usize),
    /// The line ends in LF alone.
    FeedAlone,
    /// The sheet ends in the midst of the line.
    NoEnd,
    LeadingZero(usize),
    TooLarge(usize),
    NoNumber(usize),
    /// Neither 0 nor 1.
    NoMark(usize),
    /// The line ends after this column.
    TooFew(usize),
    /// This column is one too many.
    TooMany(usize),
    /// A CR without an LF; the character after it.
    LoneCr(usize),
}

impl Reason {
    /// The reason by its number, and its place, 0 where it has none.
    pub fn numbers(&self) -> (u8, usize) {
        match *self {
            Reason::Untold => (0, 0),
            Reason::Missing => (1, 0),
            Reason::Extra => (2, 0),
            Reason::OrderMark => (3, 0),
            Reason::Semicolon(at) => (4, at),
            Reason::Tab(at) => (5, at),
            Reason::Quote(at) => (6, at),
            Reason::Blank(at) => (7, at),
            Reason::FeedAlone => (8, 0),
            Reason::NoEnd => (9, 0),
            Reason::LeadingZero(column) => (10, column),
            Reason::TooLarge(column) => (11, column),
            Reason::NoNumber(column) => (12, column),
            Reason::NoMark(column) => (13, column),
            Reason::TooFew(column) => (14, column),
            Reason::TooMany(column) => (15, column),
            Reason::LoneCr(at) => (16, at),
        }
    }
}

/// Why a line is bad. Below a first line that is bad nothing is told.
pub fn reason(sheet: &[u8], line: usize) -> Reason {
    if line <= 1 {
        if sheet.starts_with(ORDER_MARK) {
            return Reason::OrderMark;
        }
        return first_wrong(sheet, &FIRST_LINE);
    }
    let first = sheet.windows(2).position(|pair| pair == b"\r\n").and_then(|end| read_first(&sheet[..end]));
    match first {
        None => Reason::Untold,
        Some(cells) if line > cells + 1 => Reason::Extra,
        Some(cells) => {
            first_wrong(after_lines(sheet, line - 1), &Shape { words: 0, numbers: 2, fields: Some(cells + 2) })
        }
    }
}

/// What comes after so many line ends.
fn after_lines(sheet: &[u8], ends: usize) -> &[u8] {
    let mut rest = sheet;
    for _ in 0..ends {
        match rest.iter().position(|&byte| byte == b'\n') {
            Some(end) => rest = &rest[end + 1..],
            None => return &[],
        }
    }
    rest
}

/// What a line is made of: words, which are not looked at, then numbers up to this column, then marks; and how many fields
/// it has to have, where that is known.
struct Shape {
    words: usize,
    numbers: usize,
    fields: Option<usize>,
}

const FIRST_LINE: Shape = Shape { words: 2, numbers: usize::MAX, fields: None };

/// The reason of the first byte that can't stand where it stands, in the line that these bytes begin with.
fn first_wrong(bytes: &[u8], shape: &Shape) -> Reason {
    let (mut column, mut field) = (1, 0..0);
    for (k, &byte) in bytes.iter().enumerate() {
        let after_cr = k > 0 && bytes[k - 1] == b'\r';
        field.end = k;
        let before = &bytes[field.clone()];
        let wrong = match byte {
            b'\n' if after_cr => return Reason::Untold,
            b'\n' => Some(Reason::FeedAlone),
            _ if after_cr => Some(Reason::LoneCr(k + 1)),
            b',' if shape.fields == Some(column) => Some(Reason::TooMany(column + 1)),
            b'\r' if shape.fields > Some(column) => Some(Reason::TooFew(column)),
            b',' | b'\r' => empty(before, column, shape),
            _ => wrong_byte(byte, k + 1, before, column, shape),
        };
        if let Some(reason) = wrong {
            return reason;
        }
        if byte == b',' {
            column += 1;
            field = k + 1..k + 1;
        }
    }
    if bytes.is_empty() {
        Reason::Missing
    } else {
        Reason::NoEnd
    }
}

/// A field that ends: it may not be empty, unless it is a word.
fn empty(field: &[u8], column: usize, shape: &Shape) -> Option<Reason> {
    if !field.is_empty() || column <= shape.words {
        return None;
    }
    Some(if column <= shape.numbers { Reason::NoNumber(column) } else { Reason::NoMark(column) })
}

/// One byte more of a field, the character `at` of the line.
fn wrong_byte(byte: u8, at: usize, before: &[u8], column: usize, shape: &Shape) -> Option<Reason> {
    match byte {
        b';' => return Some(Reason::Semicolon(at)),
        b'\t' => return Some(Reason::Tab(at)),
        b'"' => return Some(Reason::Quote(at)),
        b' ' => return Some(Reason::Blank(at)),
        _ if column <= shape.words => return None,
        _ => {}
    }
    if column > shape.numbers {
        return (!before.is_empty() || byte != b'0' && byte != b'1').then_some(Reason::NoMark(column));
    }
    if !byte.is_ascii_digit() {
        return Some(Reason::NoNumber(column));
    }
    if before == b"0" {
        return Some(Reason::LeadingZero(column));
    }
    let number = before.iter().chain([&byte]).fold(0u32, |number, digit| 10 * number + u32::from(digit - b'0'));
    (number > 65_535).then_some(Reason::TooLarge(column))
}

#[cfg(test)]
mod tests {
    use super::*;

    fn second(line: &str) -> (u8, usize) {
        reason(format!("cell,load,1,2\r\n{line}").as_bytes(), 2).numbers()
    }

    #[test]
    fn reasons_of_a_cells_line() {
        for (line, reason, place) in [
            ("1;5,0,1\r\n", 4, 2),
            ("1,5\t", 5, 4),
            ("\"1\"", 6, 1),
            ("1, 5", 7, 3),
            ("1,5,0,1\n", 8, 0),
            ("1,5,0\n", 8, 0),
            ("1,5,0,1", 9, 0),
            ("1,5,0,1\r", 9, 0),
            ("1,05", 10, 2),
            ("01", 10, 1),
            ("1,65536", 11, 2),
            ("1,99999999999999999999", 11, 2),
            ("1,a", 12, 2),
            (",5,0,1\r\n", 12, 1),
            ("1,,0,1\r\n", 12, 2),
            ("1,-5", 12, 2),
            ("1,5,,1\r\n", 13, 3),
            ("1,5,0,\r\n", 13, 4),
            ("1,5,x,1\r\n", 13, 3),
            ("1,5,00,1\r\n", 13, 3),
            ("1,5,2,1\r\n", 13, 3),
            ("1,5,0\r\n", 14, 3),
            ("\r\n", 14, 1),
            ("1,5,0,1,0\r\n", 15, 5),
            ("1,5,0,1,", 15, 5),
            ("1,5,0,1\r,", 16, 9),
            ("1,5,0,1\r\r\n", 16, 9),
            ("", 1, 0),
            ("1,5,0,1\r\n", 0, 0),
            ("2,5,0,1\r\n", 0, 0),
            ("1,65535,0,1\r\n", 0, 0),
            ("1,0,0,1\r\n", 0, 0),
        ] {
            assert_eq!(second(line), (reason, place), "{line:?}");
        }
    }

    #[test]
    fn reasons_of_the_first_line() {
        for (sheet, reason_, place) in [
            ("", 1, 0),
            ("\u{feff}cell,load,1\r\n", 3, 0),
            ("cell;load;1\r\n", 4, 5),
            ("\"cell\",load", 6, 1),
            ("cell,load,1\n", 8, 0),
            ("cell,load,1", 9, 0),
            ("cell,load,01\r\n", 10, 3),
            ("cell,load,a\r\n", 12, 3),
            ("cell,load,1,\r\n", 12, 4),
            // What is wrong here is no single byte: other words, no cells, cells out of their order.
            ("Cell,load,1\r\n", 0, 0),
            (",,1\r\n", 0, 0),
            ("cell,load\r\n", 0, 0),
            ("cell,load,2,1\r\n", 0, 0),
        ] {
            assert_eq!(reason(sheet.as_bytes(), 1).numbers(), (reason_, place), "{sheet:?}");
        }
    }

    #[test]
    fn lines_too_many_and_below_a_bad_first_line() {
        let sheet = b"cell,load,1\r\n1,0,0\r\n\r\n";
        assert_eq!(reason(sheet, 3), Reason::Extra);
        assert_eq!(reason(sheet, 9), Reason::Extra);
        assert_eq!(reason(&sheet[..20], 3), Reason::Extra);
        assert_eq!(reason(b"cell,load,2\r\n1,0;0\r\n", 2), Reason::Untold);
    }
}

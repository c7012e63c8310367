//! "Range sheets": a site as a comma-separated sheet, read and written. Its slots, channels, blocked positions and rule
//! come beside it.

use crate::answer::{refuse, Outcome};
use crate::files::deliver;
use crate::site::{Positions, Site, MOST_CELLS};

const LINE_END: &[u8] = b"\r\n";

/// The lines that CR LF ends, and what stands after the last of them. A CR or LF by itself is part of a line.
pub fn split_lines(mut bytes: &[u8]) -> (Vec<&[u8]>, &[u8]) {
    let mut lines = Vec::new();
    while let Some(end) = bytes.windows(2).position(|pair| pair == LINE_END) {
        lines.push(&bytes[..end]);
        bytes = &bytes[end + 2..];
    }
    (lines, bytes)
}

pub fn fields(line: &[u8]) -> Vec<&[u8]> {
    line.split(|&byte| byte == b',').collect()
}

/// A number from 0 to 65,535, in digits alone and without leading zeros.
pub fn number(field: &[u8]) -> Option<u16> {
    let text = std::str::from_utf8(field).ok()?;
    let number = text.parse().ok()?;
    // Only the number's own digits are the number: no sign, no leading zero.
    (format!("{number}") == text).then_some(number)
}

/// `cell,load` and the cell numbers: how many cells there are.
pub fn read_first(line: &[u8]) -> Option<usize> {
    let fields = fields(line);
    if fields.len() < 3 || fields[0] != b"cell" || fields[1] != b"load" {
        return None;
    }
    let cells = fields.len() - 2;
    let counted = (1..=cells).all(|cell| number(fields[cell + 1]) == Some(cell as u16));
    (counted && cells <= MOST_CELLS).then_some(cells)
}

/// The line of one cell: its number, its load and a mark for each cell. Gives the load and the reach row.
fn read_cell(line: &[u8], cell: usize, cells: usize) -> Option<(u16, u32)> {
    let fields = fields(line);
    if fields.len() != 2 + cells || number(fields[0]) != Some(cell as u16) {
        return None;
    }
    let load = number(fields[1])?;
    let mut row = 0;
    for (to, &mark) in fields[2..].iter().enumerate() {
        match mark {
            b"0" => {}
            b"1" => row |= 1 << to,
            _ => return None,
        }
    }
    Some((load, row))
}

/// Refusal 17 with the first bad line, from 1.
pub fn bad_line<T>(line: usize) -> Outcome<T> {
    refuse(17, &[line as u64])
}

/// Reads a sheet: 17, then the record's 1, 24, 3 and 20.
pub fn read_sheet(bytes: &[u8], slots: u16, channels: u16, blocked: &Positions, rule: u16) -> Outcome<Site> {
    let (lines, rest) = split_lines(bytes);
    let Some(cells) = lines.first().and_then(|line| read_first(line)) else {
        return bad_line(1);
    };
    let mut site = Site { blocked: *blocked, rule, ..Site::sized(cells, slots as usize, channels as usize) };
    for cell in 1..=cells {
        let Some((load, row)) = lines.get(cell).and_then(|line| read_cell(line, cell, cells)) else {
            return bad_line(cell + 1);
        };
        site.loads[cell - 1] = load;
        site.reach[cell - 1] = row;
    }
    if lines.len() > cells + 1 || !rest.is_empty() {
        return bad_line(cells + 2);
    }
    site.sound()?;
    Ok(site)
}

/// Writes a site's sheet and gives the number of bytes written.
pub fn write_sheet(site: &Site, out: &mut [u8]) -> Outcome<usize> {
    site.sound()?;
    let mut sheet = String::from("cell,load");
    for cell in 1..=site.count() {
        sheet += &format!(",{cell}");
    }
    sheet += "\r\n";
    for from in 1..=site.count() {
        sheet += &format!("{from},{}", site.load(from));
        for to in 1..=site.count() {
            sheet += if site.reaches(from, to) { ",1" } else { ",0" };
        }
        sheet += "\r\n";
    }
    deliver(sheet.as_bytes(), out)
}

#[cfg(test)]
mod tests {
    use super::*;
    use crate::site::set_of;

    const NONE: Positions = [0; 32];

    const P1: &str = "cell,load,1,2,3\r\n1,5,0,0,0\r\n2,1,1,0,1\r\n3,4,0,0,0\r\n";

    fn read(text: &str) -> Outcome<Site> {
        read_sheet(text.as_bytes(), 3, 2, &NONE, 1)
    }

    #[test]
    fn there_and_back() {
        let site = read(P1).unwrap();
        assert_eq!((site.cells, site.slots, site.channels), (3, 3, 2));
        assert_eq!(site.loads[..4], [5, 1, 4, 0]);
        assert_eq!(site.reach[..4], [0, 0b101, 0, 0]);
        let mut out = [9; 60];
        assert_eq!(write_sheet(&site, &mut out), Ok(P1.len()));
        assert_eq!(&out[..P1.len()], P1.as_bytes());
        assert!(out[P1.len()..].iter().all(|&byte| byte == 9));
        let mut short = [9; 49];
        assert_eq!(P1.len(), 50);
        assert_eq!(write_sheet(&site, &mut short), refuse(13, &[50]));
        assert_eq!(short, [9; 49]);
    }

    #[test]
    fn blocked_positions_come_beside() {
        let site = read(P1).unwrap();
        for blocked in [set_of(0..1), set_of(5..6), set_of(0..6)] {
            assert_eq!(read_sheet(P1.as_bytes(), 3, 2, &blocked, 1), Ok(Site { blocked, ..site }));
            let mut out = [9; 50];
            assert_eq!(write_sheet(&Site { blocked, ..site }, &mut out), Ok(50));
            assert_eq!(&out[..], P1.as_bytes());
        }
    }

    #[test]
    fn the_rule_comes_beside() {
        let site = Site { rule: 2, ..read(P1).unwrap() };
        assert_eq!(read_sheet(P1.as_bytes(), 3, 2, &NONE, 2), Ok(site));
        let mut out = [9; 50];
        assert_eq!(write_sheet(&site, &mut out), Ok(50));
        assert_eq!(&out[..], P1.as_bytes());
        for rule in [0, 3, 65_535] {
            assert_eq!(read_sheet(P1.as_bytes(), 3, 2, &NONE, rule), refuse(24, &[]));
            assert_eq!(write_sheet(&Site { rule, ..site }, &mut out), refuse(24, &[]));
        }
    }

    #[test]
    fn the_first_bad_line() {
        for (was, is, line) in [
            ("cell", "Cell", 1),
            ("cell,load,1,2,3", "cell,load", 1),
            (",1,2,3", ",1,3,2", 1),
            (",1,2,3\r\n", ",1,2,3\n", 1),
            ("cell", "\u{feff}cell", 1),
            ("1,5,0", "1,05,0", 2),
            ("1,5,0", "1,65536,0", 2),
            ("1,5,0", "01,5,0", 2),
            ("1,5,0", "1,,0", 2),
            ("1,5,0", "1,\"5\",0", 2),
            ("1,5,0", "1, 5,0", 2),
            ("1,5,0", "1,+5,0", 2),
            ("\r\n2,1", "\n2,1", 2),
            ("2,1,1", "2,1,2", 3),
            ("2,1,1,0,1", "2,1,1,0", 3),
            ("2,1,1,0,1", "2,1,1,0,1,0", 3),
            ("\r\n3,", "\r\n4,", 4),
            ("\r\n3,4,0,0,0\r\n", "\r\n", 4),
            ("3,4,0,0,0\r\n", "3,4,0,0,0", 4),
            ("3,4,0,0,0\r\n", "3,4,0,0,0\r\n\r\n", 5),
            ("3,4,0,0,0\r\n", "3,4,0,0,0\r\n ", 5),
        ] {
            assert_eq!(P1.matches(was).count(), 1, "{was:?}");
            assert_eq!(read(&P1.replace(was, is)), bad_line(line), "{was:?} as {is:?}");
        }
        assert_eq!(read(""), bad_line(1));
    }

    #[test]
    fn refusals_in_their_order() {
        let own = P1.replace("3,4,0,0,0", "3,4,0,0,1").replace("2,1,1,0,1", "2,1,1,1,1");
        let past = set_of([3, 7, 6].into_iter());
        assert_eq!(read(&own), refuse(3, &[2]));
        assert_eq!(read_sheet(own.as_bytes(), 3, 2, &past, 1), refuse(3, &[2]));
        assert_eq!(read_sheet(P1.as_bytes(), 3, 2, &past, 2), refuse(20, &[6]));
        assert_eq!(read_sheet(own.as_bytes(), 3, 2, &past, 3), refuse(24, &[]));
        assert_eq!(read_sheet(own.as_bytes(), 129, 2, &past, 3), refuse(1, &[]));
        assert_eq!(read_sheet(own.as_bytes(), 3, 0, &past, 0), refuse(1, &[]));
        assert_eq!(read_sheet(own.replace("1,5", "1,5x").as_bytes(), 0, 0, &past, 0), bad_line(2));
        assert_eq!(read(&P1.replace("1,5,", "1,65535,")).unwrap().loads[0], 65_535);
    }
}

//! Tidying, held to its definition byte by byte: where a byte stands decides what becomes of it, and what can't be tidied is
//! left with a quote before it, which no sheet has. And the laws: a good sheet stays, what is tidied stays, and a sheet that
//! is refused has its line.

use second::answer::Outcome;
use second::sheet::{read_sheet, write_sheet};
use second::site::Site;
use second::tidy::{tidied, Changed, Changes, Kind, ORDER_MARK};
use std::collections::BTreeMap;

/// Where a byte stands: in the first line; its column; the quotes of its field, 0 none, 1 open, 2 closed; its content, 0 none,
/// 1 some, 2 some and then a blank; and whether a CR has ended the line.
#[derive(Clone, Copy)]
struct Spot {
    first: bool,
    column: usize,
    quotes: u8,
    content: u8,
    ended: bool,
}

const LINE: Spot = Spot { first: false, column: 0, quotes: 0, content: 0, ended: false };

#[derive(Default)]
struct Machine {
    out: Vec<u8>,
    changes: BTreeMap<u8, (u64, u64)>,
    line: u64,
}

impl Machine {
    fn note(&mut self, kind: u8) {
        self.changes.entry(kind).or_insert((0, self.line)).0 += 1;
    }

    fn spoil(&mut self, byte: u8) {
        self.out.extend([b'"', byte]);
    }

    /// A field ends: a blank mark becomes 0, an open quote spoils.
    fn end_field(&mut self, spot: Spot) {
        if spot.quotes == 1 {
            self.out.push(b'"');
        } else if !spot.first && spot.column > 1 && spot.content == 0 {
            self.out.push(b'0');
            self.note(6);
        }
    }

    fn end_line(&mut self, spot: Spot, kind: u8) {
        if spot.ended {
            self.out.push(b'\n');
            if kind == 8 {
                self.note(8);
            }
        } else {
            self.end_field(spot);
            self.out.extend(b"\r\n");
            self.note(kind);
        }
    }

    fn step(&mut self, parts: u8, mut spot: Spot, byte: u8) -> Spot {
        match byte {
            b'\n' => {
                self.end_line(spot, 3);
                self.line += 1;
                return LINE;
            }
            _ if spot.ended => self.spoil(byte),
            _ if byte == parts => {
                self.end_field(spot);
                self.out.push(b',');
                if parts != b',' {
                    self.note(2);
                }
                return Spot { first: spot.first, column: spot.column + 1, ..LINE };
            }
            b'\r' => {
                self.end_field(spot);
                self.out.push(b'\r');
                return Spot { ended: true, quotes: 0, content: 0, ..spot };
            }
            b' ' => {
                self.note(5);
                spot.content = if spot.content == 1 { 2 } else { spot.content };
            }
            b'"' if spot.quotes == 1 || spot.quotes == 0 && spot.content == 0 => {
                self.note(4);
                spot.quotes += 1;
            }
            b'"' | b',' | 0 => self.spoil(byte),
            _ if spot.quotes == 2 || spot.content == 2 => self.spoil(byte),
            b'x' | b'X' if !spot.first && spot.column > 1 && spot.content == 0 => {
                self.out.push(b'1');
                self.note(7);
                spot.content = 1;
            }
            _ => {
                self.out.push(byte);
                spot.content = 1;
            }
        }
        spot
    }
}

/// The cleaned sheet, whether it is one or not, and the changes by their numbers.
fn cleaned(sheet: &[u8]) -> (Vec<u8>, BTreeMap<u8, (u64, u64)>) {
    let mut machine = Machine { line: 1, ..Machine::default() };
    let parts = sheet.iter().copied().find(|byte| b",;\t".contains(byte)).unwrap_or(b',');
    let mut spot = Spot { first: true, ..LINE };
    let rest = match sheet.strip_prefix(ORDER_MARK) {
        Some(rest) => {
            machine.note(1);
            rest
        }
        None => sheet,
    };
    for &byte in rest {
        spot = machine.step(parts, spot, byte);
    }
    let fresh = !spot.first && spot.column == 0 && spot.quotes == 0 && spot.content == 0 && !spot.ended;
    if !fresh {
        machine.end_line(spot, 8);
    }
    (machine.out, machine.changes)
}

fn read(sheet: &[u8]) -> Outcome<Site> {
    read_sheet(sheet, 1, 1, &[0; 32], 1)
}

fn by_number(changes: &Changes) -> BTreeMap<u8, (u64, u64)> {
    changes.iter().map(|(&kind, &Changed { times, line })| (kind as u8, (times, line))).collect()
}

/// One sheet, in both ways.
fn held(sheet: &[u8]) -> bool {
    let (clean, changes) = cleaned(sheet);
    let bad_line = read(&clean).err().filter(|no| no.number == 17);
    match tidied(sheet) {
        Err(no) => assert_eq!(Some(no), bad_line, "{:?}", String::from_utf8_lossy(sheet)),
        Ok((tidy, made)) => {
            assert_eq!((&tidy, bad_line), (&clean, None), "{:?}", String::from_utf8_lossy(sheet));
            assert_eq!(by_number(&made), changes, "{:?}", String::from_utf8_lossy(sheet));
            assert_eq!(tidied(&tidy), Ok((tidy.clone(), Changes::new())));
            if read(sheet).is_ok() {
                assert_eq!((tidy.as_slice(), made.len()), (sheet, 0));
            }
            return true;
        }
    }
    false
}

/// All texts of so many of these bytes.
fn texts(bytes: &[u8], len: usize) -> Vec<Vec<u8>> {
    let mut texts = vec![Vec::new()];
    for _ in 0..len {
        texts = texts.iter().flat_map(|text| bytes.iter().map(move |&byte| [&text[..], &[byte]].concat())).collect();
    }
    texts
}

/// Every text of up to four odd bytes in the place of a mark, of a load and after the last line.
#[test]
fn every_short_text_in_its_place() {
    let mut good = 0;
    for len in 0..=4 {
        for text in texts(b",;\" x10\r\n\0", len) {
            for (before, after) in [
                ("cell,load,1\r\n1,0,", "\r\n"),
                ("cell;load;1\n1;", ";0\n"),
                ("cell,load,1\n1,0,0\n", ""),
                ("cell,load,1", "\n1,0,0\n"),
                ("", "cell,load,1\n1,0,0"),
                ("cell,load,1\n1,0,0", ""),
            ] {
                good += held(&[before.as_bytes(), &text, after.as_bytes()].concat()) as usize;
            }
        }
    }
    assert!(good > 100, "{good}");
}

#[test]
fn sheets_of_sites_stay() {
    for cells in [1, 2, 32] {
        let site = Site::sized(cells, 2, 1).with_load(cells, 65_535).unwrap();
        let mut sheet = vec![0; 4096];
        let len = write_sheet(&site, &mut sheet).unwrap();
        assert!(held(&sheet[..len]));
        assert_eq!(tidied(&sheet[..len]), Ok((sheet[..len].to_vec(), Changes::new())));
    }
    assert_eq!(Kind::EndAdded as u8, 8);
}

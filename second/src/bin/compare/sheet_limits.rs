//! Range sheets at their limits: 1, 32 and 33 cells, loads around 65,535, slots and channels around theirs, no input,
//! no line end, 70,000 digits, a line of commas, a NUL, a CR or an LF alone, a byte order mark, quotes and spaces.

use crate::case::{Call, Case};
use crate::run::Run;
use crate::sheets::lines;
use second::site::{set_of, Site};

pub fn compare(run: &mut Run) {
    for cells in [1, 2, 9, 10, 31, 32] {
        let site = all_reach(cells);
        let sheet = lines(&site).concat();
        beside(run, &sheet);
        written(run, &site, sheet.len());
        for other in damaged(&sheet) {
            read(run, other.as_bytes(), 3, 2, cells as u64);
        }
        for load in ["0", "00", "9", "10", "99", "100", "999", "1000", "9999", "10000", "65535", "65536", "065535"] {
            read(run, sheet.replace("\r\n1,1,", &format!("\r\n1,{load},")).as_bytes(), 3, 2, 5);
        }
    }
    for text in alone() {
        for cut in 0..=text.len().min(40) {
            read(run, &text[..cut], 1, 1, cut as u64);
        }
        read(run, &text, 1, 1, 7);
        read(run, &text, 0, 17, 8);
    }
    for cells in 33..=35 {
        read(run, wide(cells).as_bytes(), 3, 2, cells as u64);
    }
}

/// Reads a sheet with nothing blocked, with position 0, and with the last position of any site; under rule 1, under rule 2 and
/// under none.
fn read(run: &mut Run, bytes: &[u8], slots: u16, channels: u16, mark: u64) {
    for (positions, rule) in [(&[][..], 1), (&[0], 2), (&[2047], 1), (&[2047], 3)] {
        let blocked = set_of(positions.iter().copied());
        run.read_sheet(bytes, &Site { slots, channels, blocked, rule, ..Site::default() }, mark);
    }
}

/// Each cell reaches each other, and has its own number as its load.
fn all_reach(cells: usize) -> Site {
    let mut site = Site::sized(cells, 3, 2);
    for cell in 1..=cells {
        site.loads[cell - 1] = cell as u16;
        site.reach[cell - 1] = ((1u64 << cells) - 1) as u32 & !(1 << (cell - 1));
    }
    site
}

/// The sheet of more cells than a site may have.
fn wide(cells: usize) -> String {
    let mut sheet = String::from("cell,load");
    (1..=cells).for_each(|cell| sheet += &format!(",{cell}"));
    (1..=cells).for_each(|cell| sheet += &format!("\r\n{cell},1{}", ",0".repeat(cells)));
    sheet + "\r\n"
}

fn beside(run: &mut Run, sheet: &str) {
    for slots in [0, 1, 127, 128, 129, 65_535] {
        for channels in [0, 1, 15, 16, 17, 65_535] {
            read(run, sheet.as_bytes(), slots, channels, slots as u64);
        }
    }
}

/// Writes with just enough room, one byte less, more and none; and a record that is at fault in each way.
fn written(run: &mut Run, site: &Site, len: usize) {
    for room in [0, 1, len - 1, len, len + 1, len + 40] {
        run.compare(&Case::of(Call::WriteSheet, *site).output(&vec![7; room], room as u64));
    }
    let mut wrong = *site;
    wrong.reach[site.count() - 1] |= 1 << (site.count() - 1);
    run.compare(&Case::of(Call::WriteSheet, wrong).output(&vec![7; len], 1));
    if site.cells < 32 {
        wrong.loads[31] = 1;
        run.compare(&Case::of(Call::WriteSheet, wrong).output(&vec![7; len], 2));
    }
    wrong.slots = 129;
    run.compare(&Case::of(Call::WriteSheet, wrong).output(&vec![7; len], 3));
}

/// A good sheet made wrong in the ways that spreadsheet programs and people know.
fn damaged(sheet: &str) -> Vec<String> {
    let last = sheet.trim_end().len();
    let own = sheet.replacen("\r\n1,1,0", "\r\n1,1,1", 1);
    vec![
        sheet.replace("\r\n", "\n"),
        sheet.replace("\r\n", "\r"),
        sheet.replace("\r\n", ""),
        sheet.replacen("\r\n", "\n", 1),
        sheet.replacen("\r\n", "\r", 1),
        sheet.replacen("\r\n", "\r\r\n", 1),
        sheet.replace(',', ";"),
        sheet.replace(',', ", "),
        sheet.replace("cell", "Cell"),
        sheet.replace("cell", "\"cell\""),
        sheet.replacen(",1,", ",\"1\",", 1),
        sheet.replace("\r\n1,", "\r\n\"1\","),
        format!("\u{feff}{sheet}"),
        format!(" {sheet}"),
        format!("\r\n{sheet}"),
        format!("{sheet}\r\n"),
        format!("{sheet}\r"),
        format!("{sheet}\n"),
        format!("{sheet}\0"),
        format!("{sheet} "),
        format!("{sheet}{sheet}"),
        sheet[..last].into(),
        sheet[..last + 1].into(),
        sheet.replacen("\r\n1,", &format!("\r\n1,{}", "9".repeat(70_000)), 1),
        sheet.replacen("\r\n1,", &format!("\r\n{},", "1".repeat(70_000)), 1),
        sheet.replacen("\r\n1,1,", &format!("\r\n1,{}1,", "0".repeat(70_000)), 1),
        sheet.replacen("load,1", &format!("load,{}1", "0".repeat(70_000)), 1),
        sheet.replacen(",0", &format!(",{}", "0".repeat(70_000)), 1),
        sheet.replacen("load,1", "load", 1),
        own,
    ]
}

/// Inputs that are no sheet at all.
fn alone() -> Vec<Vec<u8>> {
    let texts: [&[u8]; 12] = [
        b"",
        b"\0",
        b"\r",
        b"\n",
        b"\r\n",
        b"cell",
        b"cell,load",
        b"cell,load\r\n",
        b"cell,load,\r\n",
        b"cell,load,1\r\n",
        b"\xEF\xBB\xBFcell,load,1\r\n1,0,0\r\n",
        b"\xFF\xFEc\0e\0l\0l\0",
    ];
    let mut all: Vec<Vec<u8>> = texts.iter().map(|text| text.to_vec()).collect();
    for byte in *b"9,\r\n1\0 \"" {
        all.push(vec![byte; 70_000]);
        all.push([b"cell,load,1\r\n1,".to_vec(), vec![byte; 70_000]].concat());
    }
    all
}

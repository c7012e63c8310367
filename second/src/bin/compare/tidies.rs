//! Sheets to tidy: a site's sheet in every form that a spreadsheet gives it, at the limits of a sheet and of the output, and
//! random ones, damaged as often as not.

use crate::case::{Call, Case};
use crate::files::damage_bytes;
use crate::make::near;
use crate::random::Random;
use crate::run::Run;
use crate::sheets::{lines, sheet};
use second::site::Site;
use second::tidy::tidied;

/// How a spreadsheet, or a fitter, writes a sheet.
#[derive(Clone, Copy)]
struct Form {
    parts: char,
    end: &'static str,
    last_end: &'static str,
    order_mark: bool,
    quotes: Quotes,
    blanks: &'static str,
    /// What stands for no reach and for a reach.
    marks: [&'static str; 2],
}

#[derive(Clone, Copy, PartialEq)]
enum Quotes {
    None,
    Words,
    All,
}

const PARTS: [char; 3] = [',', ';', '\t'];
const ENDS: [&str; 2] = ["\r\n", "\n"];
const LAST_ENDS: [&str; 5] = ["\r\n", "\n", "\r", "", "\r\n  "];
const QUOTES: [Quotes; 3] = [Quotes::None, Quotes::Words, Quotes::All];
const BLANKS: [&str; 3] = ["", " ", "   "];
const MARKS: [[&str; 2]; 4] = [["0", "1"], ["", "x"], ["", "X"], ["0", "x"]];

/// Texts that are no field, or only in some places.
const FIELDS: [&str; 16] =
    ["", " ", "\"", "\"\"", "\"\"\"\"", "x", "xx", "1x", "x1", "0 0", "\"0\"0", "1,0", "1;0", "\r", "\0", "\u{feff}"];

pub fn compare(run: &mut Run) {
    for cells in [1, 2, 9, 10, 31, 32] {
        for form in forms() {
            every_end(run, &site(cells), form);
        }
        one_field(run, &site(cells));
        for room in [0, 1, 2, 40] {
            let bytes = lines(&site(cells)).concat();
            let case = Case::of(Call::Tidy, Site::default()).input(bytes.as_bytes(), room as u64);
            run.compare(&case.clone().output(&vec![7; room], 3));
            run.compare(&case.output(&vec![7; bytes.len() + room], 4));
        }
    }
    for text in alone() {
        for cut in 0..=text.len().min(40) {
            run.tidy(&text[..cut], cut as u64);
        }
        run.tidy(&text, 7);
    }
}

/// Each form of a sheet, with its last line ended as the others.
fn forms() -> Vec<Form> {
    let mut forms = Vec::new();
    for parts in PARTS {
        for end in ENDS {
            for (quotes, blanks) in QUOTES.iter().flat_map(|&quotes| BLANKS.map(|blanks| (quotes, blanks))) {
                for (order_mark, marks) in [false, true].iter().flat_map(|&mark| MARKS.map(|marks| (mark, marks))) {
                    forms.push(Form { parts, end, last_end: end, order_mark, quotes, blanks, marks });
                }
            }
        }
    }
    forms
}

/// A sheet in this form with its last line ended in each way. It is tidied into the site's own sheet.
fn every_end(run: &mut Run, site: &Site, form: Form) {
    for last_end in LAST_ENDS {
        let bytes = export(site, Form { last_end, ..form });
        run.tidy(&bytes, bytes.len() as u64);
        let (tidy, _) = tidied(&bytes).expect("a sheet in such a form is tidied");
        assert_eq!(tidy, lines(site).concat().as_bytes(), "an export is tidied into the sheet of its site");
    }
}

/// A cell reaches the cells from the next but two on, and has a load of one to five digits.
fn site(cells: usize) -> Site {
    let mut site = Site::sized(cells, 3, 2);
    for cell in 0..cells {
        site.loads[cell] = [0, 7, 65_535, 10, 999, 1_000][cell % 6];
        site.reach[cell] = (((1u64 << cells) - 1) & !0 << (cell + 3)) as u32;
    }
    site
}

fn export(site: &Site, form: Form) -> Vec<u8> {
    let mut text = String::new();
    let all = lines(site);
    for (row, line) in all.iter().enumerate() {
        for (column, field) in line.trim_end().split(',').enumerate() {
            if column > 0 {
                text.push(form.parts);
            }
            text += &dressed(field, row > 0 && column > 1, form);
        }
        text += if row + 1 < all.len() { form.end } else { form.last_end };
    }
    let mut bytes = if form.order_mark { b"\xEF\xBB\xBF".to_vec() } else { Vec::new() };
    bytes.extend(text.into_bytes());
    bytes
}

/// A field, with quotes and blanks around it, and a mark as the form has it.
fn dressed(field: &str, is_mark: bool, form: Form) -> String {
    let content = if is_mark { form.marks[(field == "1") as usize] } else { field };
    let is_word = content.starts_with(char::is_alphabetic);
    let blanks = form.blanks;
    match form.quotes {
        Quotes::All => format!("{blanks}\"{blanks}{content}{blanks}\"{blanks}"),
        Quotes::Words if is_word => format!("{blanks}\"{content}\""),
        _ => format!("{blanks}{content}{blanks}"),
    }
}

/// Each of a few fields in the place of every field of a small sheet, or of one in each line of a larger one.
fn one_field(run: &mut Run, site: &Site) {
    let all = lines(site);
    for (row, line) in all.iter().enumerate() {
        let fields: Vec<&str> = line.trim_end().split(',').collect();
        let step = if site.count() < 4 { 1 } else { 7 + row % 5 };
        for at in (0..fields.len()).step_by(step) {
            for text in FIELDS {
                for parts in [",", ";"] {
                    let mut fields = fields.clone();
                    fields[at] = text;
                    let mut changed: Vec<String> = all.iter().map(|line| line.replace(',', parts)).collect();
                    changed[row] = fields.join(parts) + "\n";
                    run.tidy(changed.concat().as_bytes(), at as u64);
                }
            }
        }
    }
}

/// Inputs that are no sheet at all, and sheets that are longer than any.
fn alone() -> Vec<Vec<u8>> {
    let mut all = vec![
        b"cell,load,1\r\n1,0,0\r\n".to_vec(),
        b"\xEF\xBB\xBF\"cell\";\"load\";1\n1; 5;x".to_vec(),
        b"\xFF\xFEc\0e\0l\0l\0".to_vec(),
    ];
    for byte in *b"9,;\t\r\n1x\0 \"" {
        all.push(vec![byte; 70_000]);
        all.push([b"cell,load,1\r\n1,".to_vec(), vec![byte; 70_000]].concat());
        all.push([b"cell,load,1\r\n1,0,0\r\n".to_vec(), vec![byte; 70_000]].concat());
        all.push([b"cell,load,1\n1,0".to_vec(), vec![byte; 4_100], b",1\n".to_vec()].concat());
    }
    all
}

/// A sheet in any form, good as often as not, with an output of about the length that it needs.
pub fn case(random: &mut Random) -> Case {
    let (good, beside) = sheet(random);
    let mut bytes = good;
    if !random.once_in(4) {
        let form = Form {
            parts: random.pick(&PARTS),
            end: random.pick(&ENDS),
            last_end: random.pick(&LAST_ENDS),
            order_mark: random.once_in(3),
            quotes: random.pick(&QUOTES),
            blanks: random.pick(&BLANKS),
            marks: random.pick(&MARKS),
        };
        bytes = export(&beside, form);
    }
    if random.once_in(3) {
        damage_bytes(random, &mut bytes);
    }
    if random.once_in(6) {
        let at = random.below(bytes.len() + 1);
        let text = random.pick(&FIELDS);
        bytes.splice(at..at, text.bytes()).for_each(drop);
    }
    let due = tidied(&bytes).map(|(tidy, _)| tidy.len()).unwrap_or(bytes.len());
    let (len, mark) = (near(random, due), random.next());
    Case::of(Call::Tidy, Site::default()).input(&bytes, mark).output(&random.bytes(len), mark)
}

//! Random range sheets: about half are valid; in the others a field, a line, a line end or any byte is damaged.

use crate::files::damage_bytes;
use crate::make::near_number;
use crate::random::Random;
use crate::sites::{block_past, no_rule, sound_site};
use second::site::Site;

/// What no field of a sheet may be, or only some may.
const FIELDS: [&str; 24] = [
    "",
    "0",
    "1",
    "2",
    "00",
    "01",
    "10",
    "65535",
    "65536",
    "70000",
    "99999",
    "100000",
    "0000000001",
    "4294967297",
    "18446744073709551616",
    " 1",
    "1 ",
    "\"1\"",
    "-1",
    "+1",
    "1.0",
    "x",
    "\0",
    "cell",
];

const LINE_ENDS: [&str; 7] = ["\n", "\r", "", "\n\r", "\r\r\n", "\r\n\r\n", " \r\n"];

/// The lines of a site's sheet, with their line ends. A site with a faulty record has the lines of its first 32 cells.
pub fn lines(site: &Site) -> Vec<String> {
    let cells = site.count().min(32);
    let mut lines = vec![String::from("cell,load")];
    for cell in 1..=cells {
        lines[0] += &format!(",{cell}");
    }
    for from in 1..=cells {
        let marks: String = (1..=cells).map(|to| if site.reaches(from, to) { ",1" } else { ",0" }).collect();
        lines.push(format!("{from},{}{marks}", site.load(from)));
    }
    lines.iter().map(|line| format!("{line}\r\n")).collect()
}

/// A sheet, valid as often as not, and a site with the slots, channels, blocked positions and rule beside it.
pub fn sheet(random: &mut Random) -> (Vec<u8>, Site) {
    let mut site = sound_site(random);
    if random.once_in(8) {
        let cell = random.below(site.count());
        site.reach[cell] |= 1 << cell;
    }
    let mut lines = lines(&site);
    if random.once_in(4) {
        damage_field(random, &mut lines);
    }
    if random.once_in(8) {
        damage_lines(random, &mut lines);
    }
    let mut bytes = lines.concat().into_bytes();
    match random.below(48) {
        0..=3 => damage_bytes(random, &mut bytes),
        4 => bytes = lines.concat().replace("\r\n", "\n").into_bytes(),
        5 => bytes.splice(..0, *b"\xEF\xBB\xBF").for_each(drop),
        _ => {}
    }
    let beside =
        |random: &mut Random, number, most| if random.once_in(12) { near_number(random, most) } else { number };
    let (slots, channels) = (beside(random, site.slots, 128), beside(random, site.channels, 16));
    if random.once_in(10) {
        block_past(random, &mut site);
    }
    if random.once_in(12) {
        site.rule = no_rule(random);
    }
    (bytes, Site { slots, channels, ..site })
}

/// Changes, adds or drops a field.
fn damage_field(random: &mut Random, lines: &mut [String]) {
    let line = &mut lines[random.below(lines.len())];
    let mut fields: Vec<String> = line.trim_end().split(',').map(String::from).collect();
    let at = random.below(fields.len());
    match random.below(10) {
        0 => fields.insert(at, random.pick(&FIELDS).into()),
        1 => fields.swap_remove(at).clear(),
        2 => fields[at].insert(0, '0'),
        3 => fields[at].push(random.pick(&['0', '5', ' ', '"', ';', '\t'])),
        4 => fields[at] = format!("\"{}\"", fields[at]),
        5 => fields[1] = random.pick(&["65535", "65536", "0", "00", "99999999999999999999"]).into(),
        _ => fields[at] = random.pick(&FIELDS).into(),
    }
    *line = fields.join(",") + "\r\n";
}

/// Swaps, doubles, drops or adds a line, or ends one in another way.
fn damage_lines(random: &mut Random, lines: &mut Vec<String>) {
    let at = random.below(lines.len());
    match random.below(6) {
        0 => {
            lines.remove(at);
        }
        1 => lines.insert(at, lines[at].clone()),
        2 if at + 1 < lines.len() => lines.swap(at, at + 1),
        3 => lines.insert(random.below(lines.len() + 1), "\r\n".into()),
        _ => lines[at] = lines[at].trim_end().to_string() + random.pick(&LINE_ENDS),
    }
}

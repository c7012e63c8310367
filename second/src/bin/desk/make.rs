//! Random cases for the desk's command. Each seed has a site, a plan for it, its range sheet and a sheet of flows, all in
//! order; each of them damaged (`bad-site` and so on); what is given beside the sheet; the numbers of `share`; the words of
//! `set`; and the sheet as a spreadsheet may have written it (`export`).

use crate::damage;
use crate::random::Random;
use crate::sites::{sized_site, table};
use second::answer::Outcome;
use second::blocklist::write_list;
use second::files::{write_plan, write_site};
use second::sheet::write_sheet;
use second::site::Site;

/// The file or the words of this kind for this seed; nothing if there is no such kind.
pub fn make(kind: &str, seed: u64) -> Option<Vec<u8>> {
    let random = &mut Random::new(seed);
    let (site, table) = site_and_table(random, seed);
    let (kind, bad) = match kind.strip_prefix("bad-") {
        Some(kind) => (kind, true),
        None => (kind, false),
    };
    let mut file = match kind {
        "site" => written(|out| write_site(&site, out)),
        "plan" => plan_file(random, seed, &site, &table),
        "sheet" => written(|out| write_sheet(&site, out)),
        "flows" => flow_sheet(random, seed, &site),
        "beside" => beside(random, &site),
        "share" => share(random, seed),
        "edits" => edits(random, seed, &site),
        "export" => export(random, &written(|out| write_sheet(&site, out))),
        _ => return None,
    };
    match kind {
        _ if !bad => {}
        "site" => damage::site_file(random, seed, &mut file, &site),
        "plan" => damage::plan_file(random, seed, &mut file),
        "sheet" => damage::sheet(random, seed, &mut file, &site),
        "flows" => damage::flow_sheet(random, seed, &mut file, &site),
        "export" => {
            // It may have no CR and no comma, which the other ways ask for.
            let way = random.pick(&[2, 4, 6, 7]);
            damage::sheet(random, way, &mut file, &site);
        }
        _ => return None,
    }
    Some(file)
}

fn written(write: impl FnOnce(&mut [u8]) -> Outcome<usize>) -> Vec<u8> {
    let mut file = vec![0; 65_536];
    let len = write(&mut file).expect("a sound site and room enough");
    file.truncate(len);
    file
}

/// Mostly small and nearly full; one site in sixteen has the largest sizes, and one in eight no reach. The
/// table is valid, or nearly, or noise.
fn site_and_table(random: &mut Random, seed: u64) -> (Site, Vec<u8>) {
    let (cells, slots, channels) = match seed % 16 {
        0 => (32, 128, 16),
        1 => (random.between(6, 32), random.between(1, 12), random.between(1, 4)),
        _ => (random.between(2, 6), random.between(1, 4), random.between(1, 3)),
    };
    let mut site = sized_site(random, cells, slots, channels);
    if seed % 8 == 3 {
        site.reach = [0; 32];
    }
    let table = table(random, &mut site);
    (site, table)
}

/// A plan file with the table; one in eight is of another size.
fn plan_file(random: &mut Random, seed: u64, site: &Site, table: &[u8]) -> Vec<u8> {
    if seed % 8 != 5 {
        return written(|out| write_plan(site, table, out));
    }
    let mut sizes = [site.count(), site.slots as usize, site.channels as usize];
    match random.below(6) {
        at @ 0..=2 => sizes[at] = sizes[at] % [32, 128, 16][at] + 1,
        // The table is as long as the site's. A site of such a seed is small, so that its slots can be channels.
        _ => sizes.swap(1, 2),
    }
    let other = Site::sized(sizes[0], sizes[1], sizes[2]);
    let table: Vec<u8> = (0..other.table_len()).map(|_| random.below(2) as u8).collect();
    written(|out| write_plan(&other, &table, out))
}

/// Flows whose shares are about the room that there is, or any; one sheet in sixteen has as many as may be.
fn flow_sheet(random: &mut Random, seed: u64, site: &Site) -> Vec<u8> {
    let mut sheet = String::from("cell,burst,period,repeats,value\r\n");
    let count = if seed % 16 == 8 { 16 } else { random.between(0, 6) };
    let most_worth = random.pick(&[1, 3, 9, 100, 65_535]);
    for _ in 0..count {
        let cell = random.between(1, site.count());
        let repeats = random.pick(&[1, 1, 1, 2, 3, 4]);
        // With a period of T the share is the burst times the repeats.
        let (burst, period) = match random.below(3) {
            0 => (random.between(1, 20), random.between(1, 20)),
            _ => (random.between(1, site.positions() / repeats + 1), site.slots as usize),
        };
        sheet += &format!("{cell},{burst},{period},{repeats},{}\r\n", random.between(0, most_worth));
    }
    sheet.into_bytes()
}

/// The site's slots, channels, blocked positions and rule as they are given beside its sheet; one in five of the numbers is out
/// of range, and one list in eight is damaged. Rule 1 is given or left out.
fn beside(random: &mut Random, site: &Site) -> Vec<u8> {
    let mut near = |number: u16, beyond: &str| match random.below(25) {
        0..=2 => beyond.to_string(),
        3 => random.pick(&["65535", "65536", "65537", "99999999999999999999999"]).to_string(),
        4 => String::from("0"),
        _ => number.to_string(),
    };
    let sizes = format!("--slots {} --channels {}", near(site.slots, "129"), near(site.channels, "17"));
    let mut list = write_list(site);
    if random.once_in(8) {
        let at = random.between(0, list.len());
        list.insert(at, random.pick(&['0', '1', '9', '.', ',', '-', '*', ';']));
    }
    let option = if list.is_empty() { "" } else { " --blocked " };
    let rule = match site.rule {
        _ if random.once_in(8) => random.pick(&[" --rule 0", " --rule 3", " --rule 65535", " --rule 65538"]),
        2 => " --rule 2",
        _ => random.pick(&["", "", " --rule 1"]),
    };
    format!("{sizes}{option}{list}{rule}\n").into_bytes()
}

/// Slots, burst and period, and mostly the repeats; one flow in four is a large one.
fn share(random: &mut Random, seed: u64) -> Vec<u8> {
    let slots = random.pick(&["2", "3", "8", "100", "127", "128", "128", "1", "0", "129", "65537"]);
    let few = [random.between(1, 40).to_string(), random.between(1, 40).to_string()];
    let any = ["1", "2", "600", "32768", "65535", "0", "65536", "18446744073709551617"];
    let burst = match seed % 4 {
        0 => random.pick(&["32768", "65535"]),
        1 => random.pick(&any),
        _ => &few[0],
    };
    let period = if random.once_in(3) { random.pick(&any) } else { &few[1] };
    let repeats = random.pick(&["", "", " 1", " 2", " 3", " 4", " 0", " 5"]);
    format!("{slots} {burst} {period}{repeats}\n").into_bytes()
}

/// One to four edits; one in eight names a cell or a size that the site does not have, and once in sixteen one word is wrong.
fn edits(random: &mut Random, seed: u64, site: &Site) -> Vec<u8> {
    let mut words = Vec::new();
    for _ in 0..random.between(1, 4) {
        let beyond = random.once_in(8) as usize;
        let (a, b) = (random.between(1, site.count() + beyond), random.between(1, site.count() + beyond));
        words.push(match random.below(8) {
            0 | 1 => format!("load {a}={}", random.pick(&[0, 1, 2, 5, site.positions(), 65_535])),
            2 => format!("reach {a}-{b}"),
            3 => format!("clear {a}-{b}"),
            4 => format!("rule {}", random.between(1, 2) + beyond),
            5 => format!("slots {}", random.between(1, site.slots as usize + 2) + 128 * beyond),
            6 => format!("channels {}", random.between(1, site.channels as usize + 1) + 16 * beyond),
            _ => format!("blocked {}", random.pick(&["none", "1.1", "*.1", "1.*", "1-2.1", "2.2,1.1", "1.1,9"])),
        });
    }
    let mut text = words.join(" ");
    if seed % 16 == 7 {
        let at = random.between(0, text.len());
        text.insert(at, random.pick(&['0', '-', '=', 'x', ' ']));
    }
    (text + "\n").into_bytes()
}

/// A sheet with another mark between its fields or not, LF alone or not, quotes, blanks, marks left blank or with an x, the
/// mark of the byte order, and the last line without its end.
fn export(random: &mut Random, sheet: &[u8]) -> Vec<u8> {
    let between = random.pick(&[",", ",", ";", "\t"]);
    let end = random.pick(&["\r\n", "\n"]);
    let [quoted, blank, words, marks] = [(); 4].map(|()| random.once_in(2));
    let mut text = String::from(if random.once_in(3) { "\u{feff}" } else { "" });
    for (line, row) in std::str::from_utf8(sheet).expect("a sheet is plain text").lines().enumerate() {
        for (column, field) in row.split(',').enumerate() {
            let field = match field {
                "1" if line > 0 && column > 1 && marks => random.pick(&["1", "x", "X"]),
                "0" if line > 0 && column > 1 && marks => random.pick(&["0", ""]),
                field => field,
            };
            let quoted = quoted && (line == 0 && column < 2 || words);
            let field = if quoted { format!("\"{field}\"") } else { field.into() };
            let field = if blank && random.once_in(4) { format!(" {field} ") } else { field };
            text += &format!("{}{field}", if column == 0 { "" } else { between });
        }
        text += end;
    }
    if random.once_in(4) {
        text.truncate(text.len() - random.between(1, end.len()));
    }
    text.into_bytes()
}

//! "The listing": a site file as lines of text, with the verdicts and the plan.

use crate::answer::Outcome;
use crate::files::read_site;
use crate::judge::{chain, load_test};
use crate::planner::{plan, RESERVED};
use crate::site::Site;

/// The lister looks at no more of its input than this.
pub const MOST_BYTES: usize = 4096;

/// The listing of a site file, of which the first 4,096 bytes are read.
pub fn listing(file: &[u8]) -> String {
    let read = &file[..file.len().min(MOST_BYTES)];
    let lines = read_site(read).and_then(|site| lines(&site));
    lines.unwrap_or_else(|refusal| format!("refused {} {}\n", refusal.number, refusal.value[0]))
}

fn lines(site: &Site) -> Outcome<String> {
    let mut text = format!("site {} {} {}\n", site.cells, site.slots, site.channels);
    text += &match chain(site)? {
        None => "chain yes\n".to_string(),
        Some((a, b, c)) => format!("chain no {a} {b} {c}\n"),
    };
    text += &match load_test(site)? {
        None => "load holds\n".to_string(),
        Some((cell, excess)) => format!("load over {cell} {excess}\n"),
    };
    let mut table = vec![0; site.table_len()];
    match plan(site, &mut table) {
        Ok(()) => text += &format!("plan done\n{}", cell_lines(site, &table)),
        Err(full) => text += &format!("plan {} {} {}\n", full.number, full.value[0], full.value[1]),
    }
    Ok(text)
}

/// Each cell's number and its reservations as slot.channel, in rising position.
fn cell_lines(site: &Site, table: &[u8]) -> String {
    let mut text = String::new();
    for (row, cell) in table.chunks(site.positions()).zip(1..) {
        text += &format!("{cell}");
        for (position, &byte) in row.iter().enumerate() {
            if byte == RESERVED {
                let channels = site.channels as usize;
                text += &format!(" {}.{}", position / channels + 1, position % channels + 1);
            }
        }
        text += "\n";
    }
    text
}

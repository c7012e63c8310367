//! Random tables to mend: a plan, a plan with some reservations moved, a table that is nearly valid, and noise of any
//! bytes; and lists with room for the changes, for one less, for more, or of an odd length.

use crate::case::{Call, Case};
use crate::make::{near, resized};
use crate::random::Random;
use crate::sites::{damage, sound_site, table};
use second::mender::mend;
use second::site::Site;

pub fn case(random: &mut Random) -> Case {
    let mut site = sound_site(random);
    let table = foreign_table(random, &mut site);
    if random.once_in(12) {
        damage(random, &mut site);
    }
    let due = site.table_len().min(70_000);
    let table = resized(random, table, due);
    let len = list_len(random, &site, &table);
    let mark = random.next();
    let numbers: Vec<u16> = (0..len).map(|_| random.next() as u16).collect();
    Case::of(Call::Mend, site).output(&table, mark).list(&numbers, mark >> 5)
}

/// A table as another planner may have made it.
fn foreign_table(random: &mut Random, site: &mut Site) -> Vec<u8> {
    let len = site.table_len();
    match random.below(8) {
        0 => vec![random.pick(&[0, 1, 1, 2, 255]); len],
        1 => random.bytes(len),
        2 => (0..len).map(|_| random.pick(&[0, 1, 1, 2, 255, 129])).collect(),
        3 | 4 => {
            let mut table = table(random, site);
            let one_in = random.pick(&[2, 10, 10, 30]);
            move_some(random, site, &mut table, one_in);
            table
        }
        _ => table(random, site),
    }
}

/// Moves one reservation in so many to another place of its row.
fn move_some(random: &mut Random, site: &Site, table: &mut [u8], one_in: usize) {
    for row in table.chunks_mut(site.positions()) {
        for position in 0..row.len() {
            let to = random.below(row.len());
            if row[position] == 1 && row[to] != 1 && random.once_in(one_in) {
                row.swap(position, to);
            }
        }
    }
}

/// Four numbers for each change, mostly; otherwise a few more or less, or none.
fn list_len(random: &mut Random, site: &Site, table: &[u8]) -> usize {
    let mut room = vec![0; 4 * table.len()];
    let due = match mend(site, &mut table.to_vec(), &mut room) {
        Ok(changes) => 4 * changes,
        Err(_) => random.below(40),
    };
    match random.below(6) {
        0 => due.saturating_sub(random.between(1, 4)),
        1 => due + random.between(1, 9),
        2 => near(random, due),
        _ => due,
    }
}

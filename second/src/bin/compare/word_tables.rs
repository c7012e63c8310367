//! Random tables of words: those of a plan or of a table that is nearly valid, with bits above the last cell set in some,
//! of just the length that is due or of another; and tables of any bytes to change into words.

use crate::case::{Call, Case};
use crate::make::{near, resized};
use crate::random::Random;
use crate::sites::{damage, sound_site, table};
use second::site::Site;

pub fn case(random: &mut Random, call: Call) -> Case {
    let mut site = sound_site(random);
    // The table first: it may set the loads.
    let table = if call == Call::PlanWords { Vec::new() } else { table(random, &mut site) };
    let words = words(random, &site, &table);
    if random.once_in(8) {
        damage(random, &mut site);
    }
    let (bytes, count) = (site.table_len().min(70_000), site.positions().min(70_000));
    let (mark, words) = (random.next(), resized_words(random, words, count));
    let case = Case::of(call, site).words(&words, mark >> 7);
    match call {
        Call::ToWords => case.input(&resized(random, table, bytes), mark),
        Call::ToBytes => {
            let len = near(random, bytes);
            case.output(&random.bytes(len), mark)
        }
        _ => case,
    }
}

/// The words of a table, or any words where there is none or once in a while; then perhaps a few bits changed, and bits
/// above the last cell set.
fn words(random: &mut Random, site: &Site, table: &[u8]) -> Vec<u32> {
    let n = site.positions();
    let sends = |cell, position| (table[cell * n + position] == 1) as u32;
    let mut words = match random.below(12) {
        _ if table.is_empty() => any_words(random, n),
        0 => any_words(random, n),
        _ => (0..n).map(|k| (0..site.count()).map(|cell| sends(cell, k) << cell).sum()).collect(),
    };
    if random.once_in(6) {
        for _ in 0..random.between(1, 3) {
            words[random.below(n)] ^= 1 << random.below(site.count());
        }
    }
    if site.cells < 32 && random.once_in(2) {
        let above = random.next() as u32 >> site.cells << site.cells;
        let one_in = random.between(1, 4);
        words.iter_mut().for_each(|word| *word |= if random.once_in(one_in) { above } else { 0 });
    }
    words
}

fn any_words(random: &mut Random, count: usize) -> Vec<u32> {
    (0..count).map(|_| random.next() as u32).collect()
}

fn resized_words(random: &mut Random, mut words: Vec<u32>, due: usize) -> Vec<u32> {
    let count = near(random, due);
    if count > words.len() {
        let more = any_words(random, count - words.len());
        words.extend_from_slice(&more);
    }
    words.truncate(count);
    words
}

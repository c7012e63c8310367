//! Random changes of a load on the handheld, two in a row: the table is the plan of the record, mostly; otherwise one byte of
//! it is another, its marks are gone, it is the plan of another load, or noise. Some sites have no plan.

use crate::case::{Call, Case};
use crate::make::{near_number, resized};
use crate::random::Random;
use crate::run::Run;
use crate::sites::{damage, sound_site};
use second::planner::plan;
use second::site::Site;

/// Makes a change, and then another of what the first one left. A change that is done leaves a fresh plan.
pub fn compare(run: &mut Run, random: &mut Random) {
    let mut site = sound_site(random);
    if !random.once_in(10) {
        lighten(&mut site);
    }
    let mut table = vec![0; site.table_len()];
    let _ = plan(&site, &mut table);
    if random.once_in(4) {
        spoil(random, &site, &mut table);
    }
    if random.once_in(12) {
        damage(random, &mut site);
    }
    let table = resized(random, table, site.table_len().min(70_000));
    let first = run.compare(&change(random, &site, &table));
    if first.answer.number == 0 {
        let fresh = run.compare(&Case::of(Call::Plan, first.site).output(&table, random.next()));
        assert_eq!(first.output.part(), fresh.output.part(), "a change that is done leaves a fresh plan");
    }
    let second = run.compare(&change(random, &first.site, first.output.part()));
    match first.answer.number {
        0 => assert_ne!(second.answer.number, 26, "after a change that is done the table is the plan"),
        5 => assert!(matches!(second.answer.number, 2 | 26), "after a 5 there is no plan"),
        _ => (),
    }
}

/// A cell of the site, mostly, and a load that is near its own, that the cell has room for or not, or any.
fn change(random: &mut Random, site: &Site, table: &[u8]) -> Case {
    let cell = near_number(random, site.count());
    let own = site.loads[(cell as usize).clamp(1, 32) - 1];
    let load = match random.below(8) {
        0 => 0,
        1 => own,
        2 | 3 => own.wrapping_add(1),
        4 | 5 => own.saturating_sub(random.between(1, 3) as u16),
        6 => random.between(0, site.positions().min(2048) + 1) as u16,
        _ => random.next() as u16,
    };
    let mark = random.next();
    Case::of(Call::ChangeLoad, *site).numbers([cell, load]).output(table, mark).record(mark >> 9)
}

/// Takes load from each cell that finds no room, so that the site is planned.
fn lighten(site: &mut Site) {
    let mut table = vec![0; site.table_len()];
    while let Err(refused) = plan(site, &mut table) {
        let [cell, short, _] = refused.value;
        site.loads[cell as usize - 1] -= short as u16;
    }
}

/// A table that is not the plan, or just so; bytes that differ in the first row, in the last or anywhere.
fn spoil(random: &mut Random, site: &Site, table: &mut [u8]) {
    let (len, n) = (table.len(), site.positions());
    match random.below(6) {
        0 => table[random.below(n)] ^= random.pick(&[1, 2, 3, 128]),
        1 => table[len - 1 - random.below(n)] ^= random.pick(&[1, 2, 3, 128]),
        2 => table.iter_mut().filter(|byte| **byte == 2).for_each(|byte| *byte = 0),
        3 => {
            let cell = random.below(site.count());
            let mut other = *site;
            other.loads[cell] = other.loads[cell].wrapping_add(random.pick(&[1, 65_535]));
            let _ = plan(&other, table);
        }
        4 => table.fill(random.pick(&[0, 1, 2])),
        _ => table[random.below(len)] = random.pick(&[0, 1, 2, 3, 255]),
    }
}

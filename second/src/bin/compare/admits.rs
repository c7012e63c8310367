//! Random lists of flows: most have shares that just fit or nearly, and values that are often equal; in some a flow is
//! damaged, or the list is too long. The second program tries every set, so that long lists are rare.

use crate::case::{Call, Case};
use crate::make::{flow_number, near_number};
use crate::random::Random;
use crate::sites::{damage, sound_site};
use second::admit::Flow;
use second::site::Site;

/// On top of the loads these are mostly made smaller, so that flows find room beside them.
pub fn case(random: &mut Random, call: Call) -> Case {
    let mut site = sound_site(random);
    if call == Call::AdmitBeside && !random.once_in(8) {
        let most = random.between(0, site.room() as usize / 4 + 1);
        site.loads.iter_mut().for_each(|load| *load = (*load).min(random.between(0, most) as u16));
    }
    let count = match random.below(512) {
        0 => 16,
        1..=24 => random.between(9, 12),
        25..=40 => random.between(17, 20),
        41..=60 => 0,
        _ => random.between(1, 8),
    };
    let mut flows = list(random, &site, count);
    if count > 0 && random.once_in(5) {
        for _ in 0..random.between(1, 2) {
            let at = random.below(count);
            damage_flow(random, &site, &mut flows[at]);
        }
    }
    if random.once_in(10) {
        damage(random, &mut site);
    }
    let mark = random.next();
    Case::of(call, site).flows(&flows, mark)
}

/// Flows without fault.
fn list(random: &mut Random, site: &Site, count: usize) -> Vec<Flow> {
    let few_cells = random.between(1, site.count());
    let most_worth = random.pick(&[0, 1, 3, 3, 9, 100, 65_535]);
    let kind = random.below(4);
    (0..count)
        .map(|_| {
            let (burst, period, repeats) = wish(random, site, kind);
            let cell = random.between(1, few_cells) as u16;
            Flow { cell, burst, period, repeats, value: random.between(0, most_worth) as u16 }
        })
        .collect()
}

/// Burst, period and repeats whose share is small, or about the room that there is, or any.
fn wish(random: &mut Random, site: &Site, kind: usize) -> (u16, u16, u16) {
    let (slots, room) = (site.slots, (site.room() as usize).max(1));
    let repeats = if random.once_in(3) { random.between(1, 4) as u16 } else { 1 };
    match kind {
        // With a period of T the share is the burst times the repeats.
        0 => (random.between(1, room) as u16, slots, repeats),
        1 => (random.between(1, room / 3 + 1) as u16, slots, repeats),
        2 => (random.between(1, 8) as u16, random.between(1, 12) as u16, repeats),
        _ => (random.between(1, 400) as u16, random.between(1, 65_535) as u16, repeats),
    }
}

/// A wrong cell, burst, period or repeats, or a share about 65,535.
fn damage_flow(random: &mut Random, site: &Site, flow: &mut Flow) {
    match random.below(8) {
        0 => flow.cell = near_number(random, site.count()),
        1 => flow.cell = random.pick(&[0, site.cells + 1, 33, 65_535]),
        2 => flow.burst = 0,
        3 => flow.period = 0,
        4 => flow.repeats = random.pick(&[0, 5, 5, 256, 257, 65_535]),
        5 => {
            (flow.burst, flow.period, flow.repeats) = random.pick(&[
                (65_535, site.slots, 1),
                (32_767, site.slots, 2),
                (32_768, site.slots, 2),
                (21_845, site.slots, 3),
                (16_384, site.slots, 4),
                (16_383, site.slots, 4),
                (65_535, 1, 1),
            ])
        }
        _ => (flow.burst, flow.period) = (flow_number(random), flow_number(random)),
    }
}

//! Times calls as C makes them, and the same calls through the crate: the name, and nanoseconds per call of both, the best of several repeats.

use duggfrask::{raw, Site};
use std::time::Instant;

/// A value that the compiler knows nothing of.
fn black_box<T: Copy>(value: T) -> T {
    unsafe { std::ptr::read_volatile(&value) }
}

/// The best of several repeats of two calls in turn.
fn times(mut first: impl FnMut(), mut second: impl FnMut(), calls: u32) -> [f64; 2] {
    let mut best = [f64::MAX; 2];
    for _ in 0..40 {
        let start = Instant::now();
        (0..calls).for_each(|_| first());
        best[0] = best[0].min(start.elapsed().as_nanos() as f64 / f64::from(calls));
        let start = Instant::now();
        (0..calls).for_each(|_| second());
        best[1] = best[1].min(start.elapsed().as_nanos() as f64 / f64::from(calls));
    }
    best
}

fn tunnel(cells: u16, slots: u16, channels: u16) -> Site {
    let room = slots * channels;
    let mut site = Site::new(cells, slots, channels).unwrap();
    for cell in 1..=cells {
        site = site.with_load(cell, if cell % 2 == 1 { room / 3 } else { room - room / 3 }).unwrap();
        if cell < cells {
            site = site.with_reach(cell, cell + 1).unwrap();
        }
    }
    site
}

fn main() {
    for (name, site, calls) in [("3 cells", tunnel(3, 3, 2), 20_000), ("the largest site", tunnel(32, 128, 16), 200)] {
        let record = *site.record();
        let [c, rust] = times(
            || {
                black_box(unsafe { raw::dugg_clash(*black_box(&record), 1, 2) });
            },
            || {
                black_box(black_box(&site).clash(1, 2).unwrap());
            },
            20_000,
        );
        println!("clash, {name}\t{c:.1}\t{rust:.1}");
        let (mut table, mut other) = (vec![0; site.table_len()], vec![0; site.table_len()]);
        let [c, rust] = times(
            || {
                black_box(unsafe { raw::dugg_plan(*black_box(&record), table.as_mut_ptr(), table.len()) });
            },
            || black_box(&site).plan_into(&mut other).unwrap(),
            calls,
        );
        assert_eq!(table, other);
        println!("plan, {name}\t{c:.1}\t{rust:.1}");
    }
}

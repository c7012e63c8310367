//! The worked examples of admission.

mod common;

use common::site;
use second::admit::{admit, Flow};

/// Paper 000, Table I: cell, period, burst and value of its nine flows.
const FLOWS: [[u16; 4]; 9] = [
    [1, 10, 1, 8],
    [1, 4, 3, 39],
    [1, 7, 3, 38],
    [2, 10, 1, 50],
    [2, 6, 5, 29],
    [2, 7, 6, 41],
    [3, 5, 3, 3],
    [3, 11, 4, 20],
    [3, 9, 6, 30],
];

fn paper() -> Vec<Flow> {
    FLOWS.iter().map(|&[cell, period, burst, value]| Flow { cell, burst, period, repeats: 1, value }).collect()
}

/// The number of a set of flows, from their numbers.
fn set(flows: &[u32]) -> u32 {
    flows.iter().map(|flow| 1 << (flow - 1)).sum()
}

#[test]
fn the_paper() {
    let site = site(3, 2, &[0, 0, 0], &[(1, 2), (2, 3)]);
    let admitted = set(&[2, 3, 4, 8, 9]);
    assert_eq!(admit(&site, &paper()), Ok(admitted));
    let worth: u16 = FLOWS.iter().enumerate().filter(|(k, _)| admitted >> k & 1 == 1).map(|(_, flow)| flow[3]).sum();
    assert_eq!(worth, 177);
}

#[test]
fn the_request() {
    let site = site(2, 1, &[0, 0], &[]);
    let flow = |cell, period, value| Flow { cell, burst: 1, period, repeats: 1, value };
    // With T = 2 and a burst of 1, a period of 2 has share 1 and a period of 1 has share 2.
    assert_eq!(admit(&site, &[flow(1, 2, 1), flow(2, 1, 1), flow(1, 1, 5)]), Ok(set(&[2, 3])));
}

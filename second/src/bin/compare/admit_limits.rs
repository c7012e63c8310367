//! Lists of flows at their limits: 0, 16 and 17 flows, all values 0 or equal, a cell that is not there, repeats around 1 to
//! 4, shares around 65,535 and around the room, sums above 65,535, each refusal before the next; the two worked
//! examples; and every list of three flows on three cells. Each with the loads set aside, and on top of them.

use crate::boundary::tunnel;
use crate::case::{Call, Case};
use crate::run::Run;
use second::admit::Flow;
use second::site::Site;

pub fn compare(run: &mut Run) {
    for width in [0, 1, 31] {
        let site = wide_tunnel(32, width);
        for count in [0, 1, 2, 15, 16, 17, 18, 300] {
            for value in [0, 1, 65_535] {
                let flows: Vec<Flow> = small_flows(count).iter().map(|flow| Flow { value, ..*flow }).collect();
                admit(run, site, &flows);
            }
        }
        let rising: Vec<Flow> = (1..=16).map(|k| Flow { value: k, burst: 300, ..flow(k, 128) }).collect();
        admit(run, site, &rising);
        let falling: Vec<Flow> = (1..=16).map(|k| Flow { value: 17 - k, burst: 900, ..flow(2 * k, 128) }).collect();
        admit(run, site, &falling);
    }
    one_flow(run);
    sums(run);
    orders(run);
    worked(run);
}

/// With the loads set aside; on top of them; and on top of loads that leave room.
fn admit(run: &mut Run, site: Site, flows: &[Flow]) {
    let light = Site { loads: site.loads.map(|load| load.min(3)), ..site };
    for (call, site) in [(Call::Admit, site), (Call::AdmitBeside, site), (Call::AdmitBeside, light)] {
        run.compare(&Case::of(call, site).flows(flows, flows.len() as u64));
    }
}

/// Each cell reaches the next few. The loads, which are set aside, are as high as they go.
fn wide_tunnel(cells: u16, width: usize) -> Site {
    let mut site = Site::sized(cells.into(), 128, 16);
    for i in 0..cells as usize {
        site.loads[i] = 65_535;
        (i + 1..cells as usize).filter(|j| j - i <= width).for_each(|j| site.reach[i] |= 1 << j);
    }
    site
}

fn flow(cell: u16, period: u16) -> Flow {
    Flow { cell, burst: 1, period, repeats: 1, value: 1 }
}

/// Flows of cell 1 that differ in their bursts.
pub fn small_flows(count: usize) -> Vec<Flow> {
    (0..count).map(|k| Flow { burst: 1 + k as u16, value: 1 + k as u16 % 3, ..flow(1, 2) }).collect()
}

/// One flow on a site of five cells, each of its numbers at its limits, after a good one and before a bad one.
fn one_flow(run: &mut Run) {
    let numbers = [0, 1, 2, 3, 4, 5, 6, 127, 128, 511, 512, 2047, 2048, 2049, 65_534, 65_535];
    let site = wide_tunnel(5, 2);
    for cell in [0, 1, 5, 6, 32, 33, 65_535] {
        for burst in numbers {
            for period in numbers {
                for repeats in [0, 1, 2, 3, 4, 5, 65_535] {
                    let tried = Flow { repeats, burst, ..flow(cell, period) };
                    admit(run, site, &[tried]);
                    admit(run, site, &[flow(1, 128), tried, flow(0, 1)]);
                }
            }
        }
    }
    // With a period of T the share is the burst times the repeats: up to 65,535 and above it, up to N and above it.
    for room in [65_535u16, 2048] {
        for repeats in 1..=4 {
            for burst in room / repeats - 1..=(room / repeats).saturating_add(1) {
                admit(run, site, &[Flow { repeats, burst, ..flow(5, 128) }]);
            }
        }
    }
}

/// Shares that pass 65,535 when summed in one cell, or in cells that clash.
fn sums(run: &mut Run) {
    for width in [0, 1, 31] {
        let site = wide_tunnel(16, width);
        for burst in [1024, 1025, 2048, 4096, 32_767, 32_768, 65_535] {
            let same = [Flow { burst, ..flow(1, 128) }; 16];
            admit(run, site, &same);
            let apart: Vec<Flow> = (1..=16).map(|cell| Flow { burst, ..flow(cell, 128) }).collect();
            admit(run, site, &apart);
        }
    }
}

/// The record's faults before 18, 18 before 19, 19 before a flow's 2; a site that only a spare cell keeps from being nested
/// is 19 here, and one that is nested and not chained is admitted.
fn orders(run: &mut Run) {
    let drift = Site::sized(3, 2, 1).with_reach(1, 3, true).unwrap();
    let broken = drift.with_reach(3, 2, true).unwrap();
    let mut spare = broken;
    spare.loads = [0; 32];
    (spare.loads[0], spare.loads[2]) = (1, 1);
    let mut faulty = broken;
    faulty.reach[1] |= 2;
    let mut loaded = broken;
    loaded.loads[31] = 1;
    for site in [drift, broken, spare, faulty, loaded, Site { cells: 33, ..broken }, Site::default(), tunnel(3, 2, 1)] {
        for count in [0, 1, 3, 16, 17] {
            for cell in [0, 1, 2, 3, 4] {
                admit(run, site, &vec![flow(cell, 1); count]);
                admit(run, site, &vec![flow(cell, 0); count]);
            }
        }
    }
}

fn worked(run: &mut Run) {
    let row = Site::sized(3, 3, 2).with_reach(1, 2, true).and_then(|site| site.with_reach(2, 3, true)).unwrap();
    let paper = [
        (1, 10, 1, 8),
        (1, 4, 3, 39),
        (1, 7, 3, 38),
        (2, 10, 1, 50),
        (2, 6, 5, 29),
        (2, 7, 6, 41),
        (3, 5, 3, 3),
        (3, 11, 4, 20),
        (3, 9, 6, 30),
    ];
    let flows = paper.map(|(cell, period, burst, value)| Flow { cell, burst, period, repeats: 1, value });
    admit(run, row, &flows);
    let apart = Site::sized(2, 2, 1);
    admit(run, apart, &[flow(1, 2), flow(2, 1), Flow { value: 5, ..flow(1, 1) }]);
}

/// The loads set aside, and on top of loads 0 and 1 in each of three cells.
fn beside(run: &mut Run, site: Site, flows: &[Flow]) {
    run.compare(&Case::of(Call::Admit, site).flows(flows, 3));
    for loads in 0..8u16 {
        let mut running = site;
        (0..3).for_each(|i| running.loads[i] = loads >> i & 1);
        run.compare(&Case::of(Call::AdmitBeside, running).flows(flows, 3));
    }
}

/// Three flows on three cells and two positions: any clashes, cells, shares from 1 to 3 and values from 0 to 2.
pub fn every_small_list(run: &mut Run) {
    let some: Vec<Flow> =
        (0..27).map(|k| Flow { cell: 1 + k % 3, burst: 1 + k / 3 % 3, value: k / 9, period: 2, repeats: 1 }).collect();
    for clashes in 0..8 {
        let mut site = Site::sized(3, 2, 1);
        site.reach[..2].copy_from_slice(&[(clashes & 3) << 1, clashes >> 2 << 2]);
        for &first in &some {
            for &second in &some {
                for &third in &some {
                    beside(run, site, &[first, second, third]);
                }
            }
        }
    }
}

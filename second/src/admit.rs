//! "Which flows to admit": every set of the flows is tried, as the rule says it.

use crate::answer::{refuse, Outcome};
use crate::judge::{first_over, first_split};
use crate::share::{share_of, Fragments, Repeats, Slots};
use crate::site::Site;

/// One flow of the lent list.
#[repr(C)]
#[derive(Clone, Copy, Debug, Default, PartialEq, Eq)]
pub struct Flow {
    pub cell: u16,
    pub burst: u16,
    pub period: u16,
    pub repeats: u16,
    pub value: u16,
}

pub const MOST_FLOWS: usize = 16;

/// The number of the set to admit, in which flow 1 weighs 1, flow 2 weighs 2 and flow 3 weighs 4. The record's faults
/// come first, then 18, then 19 with all cells counted as loaded, then each flow's own refusals.
pub fn admit(site: &Site, flows: &[Flow]) -> Outcome<u32> {
    on_top_of(site, flows, [0; 32])
}

/// The same on top of the loads that the site has. After 19 comes 5, with the lowest cell that is over by these loads alone
/// and by how much: then no set is allowed, not even the empty one.
pub fn admit_beside(site: &Site, flows: &[Flow]) -> Outcome<u32> {
    on_top_of(site, flows, site.loads.map(u64::from))
}

fn on_top_of(site: &Site, flows: &[Flow], start: [u64; 32]) -> Outcome<u32> {
    site.sound()?;
    if flows.len() > MOST_FLOWS {
        return refuse(18, &[]);
    }
    if first_split(site, |_| true).is_some() {
        return refuse(19, &[]);
    }
    if let Some((cell, excess)) = first_over(site, &start) {
        return refuse(5, &[cell as u64, excess]);
    }
    let mut shares = Vec::new();
    for (flow, number) in flows.iter().zip(1..) {
        shares.push(share_in(site, flow, number)?);
    }
    Ok(best(site, flows, &shares, start))
}

/// The share of one flow; its refusals 2, 15 and 16 carry the flow's number.
fn share_in(site: &Site, flow: &Flow, number: u64) -> Outcome<u64> {
    if !site.has(flow.cell as usize) {
        return refuse(2, &[number]);
    }
    let (burst, period) = (Fragments(flow.burst as u64), Slots(flow.period as u64));
    match share_of(Slots(site.slots as u64), burst, period, Repeats(flow.repeats as u64)) {
        Ok(share) => Ok(share.share.0),
        Err(refusal) => refuse(refusal.number, &[number]),
    }
}

/// Of the allowed sets that are worth most, the one with the smallest number. The empty set, 0, is one of the sets.
fn best(site: &Site, flows: &[Flow], shares: &[u64], start: [u64; 32]) -> u32 {
    let (mut best, mut most) = (0, 0);
    for set in 0..1u32 << flows.len() {
        let worth: u64 = members(set, flows.len()).map(|k| flows[k].value as u64).sum();
        if worth > most && allowed(site, flows, shares, set, start) {
            (best, most) = (set, worth);
        }
    }
    best
}

/// The flows of a set, counted from 0.
fn members(set: u32, count: usize) -> impl Iterator<Item = usize> {
    (0..count).filter(move |k| set >> k & 1 == 1)
}

/// Do the shares of the set, summed by cell on top of what each cell starts with, pass the load test?
fn allowed(site: &Site, flows: &[Flow], shares: &[u64], set: u32, start: [u64; 32]) -> bool {
    let mut loads = start;
    for k in members(set, flows.len()) {
        loads[flows[k].cell as usize - 1] += shares[k];
    }
    first_over(site, &loads).is_none()
}

#[cfg(test)]
mod tests {
    use super::*;

    /// Two cells that do not clash, N = 2. A burst of 1 has share 2 with period 1, and share 1 with period 2.
    fn two() -> Site {
        Site::sized(2, 2, 1)
    }

    fn flow(cell: u16, period: u16, burst: u16, value: u16) -> Flow {
        Flow { cell, burst, period, repeats: 1, value }
    }

    #[test]
    fn of_equals_the_smallest_number() {
        let one = flow(1, 1, 1, 7);
        assert_eq!(admit(&two(), &[one, one, one]), Ok(0b001));
        assert_eq!(
            admit(&two(), &[flow(1, 1, 1, 14), flow(2, 1, 1, 7), flow(1, 2, 1, 7), flow(1, 2, 1, 7)]),
            Ok(0b011)
        );
        assert_eq!(admit(&two(), &[flow(1, 2, 1, 0), flow(2, 1, 1, 0)]), Ok(0));
        assert_eq!(admit(&two(), &[]), Ok(0));
    }

    #[test]
    fn loads_of_the_site_are_set_aside() {
        let mut full = two();
        full.loads[..2].copy_from_slice(&[65_535, 2]);
        assert_eq!(admit(&full, &[flow(1, 1, 1, 1), flow(2, 1, 1, 1)]), Ok(0b11));
    }

    /// Two cells that clash, N = 4, loads 1 and 1: two channel-slots are left for the flows of either.
    #[test]
    fn on_top_of_the_loads() {
        let mut running = Site::sized(2, 4, 1).with_reach(2, 1, true).unwrap();
        running.loads[..2].copy_from_slice(&[1, 1]);
        // With 4 slots a burst of 1 has share 2 with period 2, and share 1 with period 4.
        let flows = [flow(1, 2, 1, 5), flow(2, 4, 1, 3), flow(2, 4, 1, 4)];
        assert_eq!(admit(&running, &flows), Ok(0b111));
        assert_eq!(admit_beside(&running, &flows), Ok(0b110));
        assert_eq!(admit_beside(&running, &flows[..2]), Ok(0b01));
        let idle = Site { loads: [0; 32], ..running };
        assert_eq!(admit_beside(&idle, &flows), admit(&idle, &flows));
        // Full: no flow is taken. Over: no set is allowed, and the planner says the same of the site.
        let full = running.with_load(2, 3).unwrap();
        assert_eq!(admit_beside(&full, &flows), Ok(0));
        let over = running.with_load(2, 5).unwrap();
        assert_eq!(admit_beside(&over, &[flow(0, 0, 0, 0)]), refuse(5, &[2, 2]));
        assert_eq!(crate::planner::plan(&over, &mut [0; 8]), refuse(5, &[2, 2]));
        assert_eq!(admit_beside(&over, &[flows[0]; 17]), refuse(18, &[]));
        assert_eq!(admit_beside(&running, &[flows[0], flow(3, 1, 1, 1)]), refuse(2, &[2]));
    }

    #[test]
    fn sums_go_beyond_a_load() {
        // 16 shares of 65,534 or so in one cell: none fits, and no sum of them does.
        assert_eq!(admit(&two(), &[flow(1, 1, 32_767, 9); 16]), Ok(0));
        let mut flows = [flow(1, 1, 32_767, 9); 16];
        flows[15] = flow(1, 1, 1, 3);
        assert_eq!(admit(&two(), &flows), Ok(1 << 15));
    }

    #[test]
    fn repeats_make_the_share_larger() {
        let twice = Flow { repeats: 2, ..flow(1, 2, 1, 3) };
        assert_eq!(admit(&two(), &[twice, flow(1, 2, 1, 2)]), Ok(0b01));
        assert_eq!(admit(&two(), &[Flow { repeats: 3, ..twice }, flow(1, 2, 1, 2)]), Ok(0b10));
    }

    #[test]
    fn refusals_in_their_order() {
        let drift = Site::sized(3, 2, 1).with_reach(1, 3, true).unwrap();
        assert_eq!(admit(&drift, &[]), Ok(0));
        let site = drift.with_reach(2, 3, true).unwrap();
        let fine = flow(1, 1, 1, 1);
        assert_eq!(admit(&Site { slots: 0, ..site }, &[fine; 17]), refuse(1, &[]));
        assert_eq!(admit(&site, &[fine; 17]), refuse(18, &[]));
        assert_eq!(admit(&site, &[flow(0, 0, 0, 0)]), refuse(19, &[]));
        let big = flow(2, 1, 65_535, 1);
        for (wrong, number) in [
            (flow(0, 0, 0, 0), 2),
            (flow(3, 1, 1, 1), 2),
            (flow(65_535, 1, 1, 1), 2),
            (flow(1, 0, 1, 1), 15),
            (flow(1, 1, 0, 1), 15),
            (Flow { repeats: 0, ..big }, 15),
            (Flow { repeats: 5, ..big }, 15),
            (big, 16),
        ] {
            assert_eq!(admit(&two(), &[fine, fine, wrong, flow(0, 1, 1, 1)]), refuse(number, &[3]), "{wrong:?}");
        }
    }
}

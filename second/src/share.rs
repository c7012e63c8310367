//! "Flow shares": what a flow with a burst of c fragments and a period of p slots needs in a superframe of T slots,
//! each fragment sent k times. Fragments, slots and repeats are three units, so each has a type of its own and they are
//! never added.

use crate::answer::{refuse, Outcome};
use crate::site::MOST_SLOTS;
use std::ops::RangeInclusive;

#[derive(Clone, Copy, Debug, PartialEq, Eq)]
pub struct Slots(pub u64);

#[derive(Clone, Copy, Debug, PartialEq, Eq)]
pub struct Fragments(pub u64);

#[derive(Clone, Copy, Debug, PartialEq, Eq)]
pub struct Repeats(pub u64);

#[derive(Clone, Copy, Debug, PartialEq, Eq)]
pub struct Share {
    pub share: Fragments,
    pub queue: Fragments,
    pub delay: Slots,
}

/// "each 1 to 65,535": what a burst and a period may be.
const FLOW: RangeInclusive<u64> = 1..=65_535;

/// "k from 1 to 4"
const REPEATS: RangeInclusive<u64> = 1..=4;

/// "A caller that gives no k gets 2."
pub const NO_REPEATS_GIVEN: Repeats = Repeats(2);

/// The share for a caller that gives no repeats.
pub fn share(superframe: Slots, burst: Fragments, period: Slots) -> Outcome<Share> {
    share_of(superframe, burst, period, NO_REPEATS_GIVEN)
}

/// The share and the two bounds; refusals 1 (T out of range), 15, 16. Only the share has the repeats in it.
pub fn share_of(superframe: Slots, burst: Fragments, period: Slots, repeats: Repeats) -> Outcome<Share> {
    if superframe.0 < 1 || superframe.0 > MOST_SLOTS as u64 {
        return refuse(1, &[]);
    }
    if !FLOW.contains(&burst.0) || !FLOW.contains(&period.0) || !REPEATS.contains(&repeats.0) {
        return refuse(15, &[]);
    }
    let work = burst.0 * superframe.0;
    let once = Fragments(work.div_ceil(period.0));
    let share = Fragments(repeats.0 * once.0);
    if share.0 > 65_535 {
        return refuse(16, &[]);
    }
    let queue = Fragments(burst.0 + once.0);
    let drain = Slots(work.div_ceil(once.0));
    let delay = Slots(superframe.0 + drain.0);
    Ok(Share { share, queue, delay })
}

#[cfg(test)]
mod tests {
    use super::*;

    fn values(share: Outcome<Share>) -> Outcome<(u64, u64, u64)> {
        share.map(|s| (s.share.0, s.queue.0, s.delay.0))
    }

    fn none_given(t: u64, c: u64, p: u64) -> Outcome<(u64, u64, u64)> {
        values(share(Slots(t), Fragments(c), Slots(p)))
    }

    fn sent(t: u64, c: u64, p: u64, k: u64) -> Outcome<(u64, u64, u64)> {
        values(share_of(Slots(t), Fragments(c), Slots(p), Repeats(k)))
    }

    #[test]
    fn worked_shares() {
        assert_eq!(sent(3, 3, 4, 1), Ok((3, 6, 6)));
        assert_eq!(sent(3, 3, 5, 1), Ok((2, 5, 8)));
    }

    #[test]
    fn worked_shares_with_no_repeats_given() {
        assert_eq!(none_given(3, 3, 4), Ok((6, 6, 6)));
        assert_eq!(none_given(3, 3, 5), Ok((4, 5, 8)));
    }

    #[test]
    fn worked_shares_with_repeats() {
        assert_eq!(sent(3, 3, 4, 2), Ok((6, 6, 6)));
        assert_eq!(sent(3, 3, 5, 4), Ok((8, 5, 8)));
    }

    #[test]
    fn no_repeats_given_is_twice() {
        for (t, c, p) in [(3, 3, 4), (3, 3, 5), (0, 1, 1), (129, 1, 1), (1, 0, 1), (1, 1, 0), (1, 65_535, 1)] {
            assert_eq!(none_given(t, c, p), sent(t, c, p, 2));
        }
        // Sent once the largest share has room.
        assert_eq!((none_given(1, 32_768, 1), sent(1, 32_768, 1, 1).is_ok()), (refuse(16, &[]), true));
        assert_eq!(none_given(1, 32_767, 1), Ok((65_534, 65_534, 2)));
    }

    #[test]
    fn repeats_outside_one_to_four() {
        for k in [0, 5, 65_535, 65_536, u64::MAX] {
            assert_eq!(sent(3, 3, 4, k), refuse(15, &[]));
            assert_eq!(sent(129, 3, 4, k), refuse(1, &[]));
            assert_eq!(sent(2, 65_535, 1, k), refuse(15, &[]));
        }
    }

    #[test]
    fn sixteen_is_tested_on_the_share_with_repeats() {
        assert_eq!(sent(1, 65_535, 1, 1), Ok((65_535, 131_070, 2)));
        assert_eq!(sent(1, 65_535, 1, 2), refuse(16, &[]));
        assert_eq!(sent(1, 16_383, 1, 4), Ok((65_532, 32_766, 2)));
        assert_eq!(sent(1, 16_384, 1, 4), refuse(16, &[]));
        assert_eq!(sent(1, 21_845, 1, 3), Ok((65_535, 43_690, 2)));
    }

    #[test]
    fn refusals_in_their_order() {
        assert_eq!(sent(0, 0, 0, 1), refuse(1, &[]));
        assert_eq!(sent(129, 1, 1, 1), refuse(1, &[]));
        assert_eq!(sent(1, 0, 1, 1), refuse(15, &[]));
        assert_eq!(sent(1, 1, 0, 1), refuse(15, &[]));
        assert_eq!(sent(1, 65_536, 65_536, 1), refuse(15, &[]));
        assert_eq!(sent(1, 1, 65_536, 1), refuse(15, &[]));
        assert_eq!(sent(2, 32_768, 1, 1), refuse(16, &[]));
        assert_eq!(sent(1, 65_535, 1, 1), Ok((65_535, 131_070, 2)));
    }

    #[test]
    fn delay_is_never_above_superframe_and_period() {
        for t in [1, 3, 127, 128] {
            for c in [1, 2, 7, 1000, 65_535] {
                for p in [1, 2, 9, 4096, 65_535] {
                    for k in 1..=4 {
                        if let Ok((_, _, delay)) = sent(t, c, p, k) {
                            assert!(delay <= t + p);
                        }
                    }
                }
            }
        }
    }
}

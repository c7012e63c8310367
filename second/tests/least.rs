//! How many channel-slots do: the desk examples by hand, and what the number means to the planner and the checker.

mod common;

use common::{faulty, p1, p4, site, small_site};
use second::answer::refuse;
use second::checker::check;
use second::judge::{chain, least, nested, Least};
use second::planner::plan;
use second::site::{Site, MOST_CHANNELS, MOST_SLOTS};

const FEWER_NEVER: bool = false;
const FEWER_MAY: bool = true;

#[test]
fn desk_examples() {
    let p3 = [(1, 3), (2, 3)];
    let p6 = [(1, 4), (2, 3), (3, 5), (4, 5)];
    for (site, channel_slots, fewer_may_do) in [
        (p1(&[5, 1, 4]), 6, FEWER_NEVER),
        (site(3, 2, &[5, 1, 4, 0], &[(2, 1), (2, 3), (1, 4)]), 6, FEWER_NEVER),
        (p1(&[5, 2, 4]), 7, FEWER_NEVER),
        (site(2, 1, &[1, 1, 1], &p3), 3, FEWER_MAY),
        (site(2, 1, &[2, 1, 0], &p3), 2, FEWER_NEVER),
        (p4(), 3, FEWER_MAY),
        (site(2, 1, &[1, 1, 1, 1, 1], &p6), 3, FEWER_MAY),
        (site(2, 1, &[1, 0, 1, 1, 1], &p6), 3, FEWER_MAY),
        (site(1, 1, &[0], &[]), 0, FEWER_NEVER),
        (site(1, 1, &[1], &[]), 1, FEWER_NEVER),
        (site(1, 1, &[2], &[]), 2, FEWER_NEVER),
        (site(1, 1, &[65_535, 65_535], &[(1, 2)]), 131_070, FEWER_NEVER),
    ] {
        assert_eq!(least(&site), Ok(Least { channel_slots, fewer_may_do }), "{site:?}");
    }
}

#[test]
fn a_faulty_record_is_refused() {
    for (site, number, values) in faulty() {
        assert_eq!(least(&site), refuse(number, values));
    }
}

/// The site with other slots and channels, in every way that gives so many channel-slots.
fn with_room(site: &Site, channel_slots: usize) -> Vec<Site> {
    let channels =
        (1..=MOST_CHANNELS).filter(|f| channel_slots % f == 0 && (1..=MOST_SLOTS).contains(&(channel_slots / f)));
    channels.map(|f| Site { slots: (channel_slots / f) as u16, channels: f as u16, ..*site }).collect()
}

fn is_planned(site: &Site) -> bool {
    plan(site, &mut vec![0; site.table_len()]).is_ok()
}

/// So many channel-slots are enough, and on a nested site one fewer is not. Gives whether the site is nested.
fn so_many_do(site: &Site) -> bool {
    let Least { channel_slots, fewer_may_do } = least(site).unwrap();
    let enough = channel_slots as usize;
    assert_eq!(fewer_may_do, nested(site).unwrap().is_some());
    for room in [enough, enough + 1] {
        assert!(with_room(site, room).iter().all(is_planned), "{site:?}");
    }
    if !fewer_may_do && enough > 1 {
        assert!(!with_room(site, enough - 1).iter().any(is_planned), "{site:?}");
    }
    !fewer_may_do
}

#[test]
fn every_site_of_four_cells() {
    let mut exact = 0;
    for clashes in 0..64 {
        for loads in 0..81 {
            exact += so_many_do(&small_site(4, 1, clashes, loads)) as usize;
        }
    }
    assert!(64 < exact && exact < 64 * 81);
}

/// A random number below `most`, the same in every run (splitmix64).
fn below(seed: &mut u64, most: u64) -> u64 {
    *seed = seed.wrapping_add(0x9E37_79B9_7F4A_7C15);
    let mut z = *seed;
    z = (z ^ z >> 30).wrapping_mul(0xBF58_476D_1CE4_E5B9);
    z = (z ^ z >> 27).wrapping_mul(0x94D0_49BB_1331_11EB);
    (z ^ z >> 31) % most
}

/// A chained site: each cell reaches the next few, how many is its own; spare cells among them reach whom they like.
fn chained_site(seed: &mut u64) -> Site {
    let cells = 1 + below(seed, 12) as usize;
    let mut site = Site::sized(cells, 1, 1);
    for a in 0..cells {
        site.loads[a] = below(seed, 9).saturating_sub(2) as u16;
    }
    for a in 0..cells {
        let width = below(seed, 5) as usize;
        for b in a + 1..cells {
            let spare = site.loads[a] == 0 || site.loads[b] == 0;
            let clash = if spare { below(seed, 2) == 1 } else { b - a <= width };
            let (from, to) = if below(seed, 2) == 1 { (a, b) } else { (b, a) };
            site.reach[from] |= (clash as u32) << to;
        }
    }
    site
}

#[test]
fn random_chained_sites() {
    let mut seed = 2015;
    for _ in 0..500 {
        let site = chained_site(&mut seed);
        assert_eq!(chain(&site), Ok(None), "a chained site was made");
        assert!(so_many_do(&site));
    }
}

/// Table k of a site: bit p of k says whether byte p is a reservation.
fn table(site: &Site, k: usize) -> Vec<u8> {
    (0..site.table_len()).map(|p| (k >> p & 1) as u8).collect()
}

#[test]
fn with_fewer_no_table_is_valid() {
    let mut asked = 0;
    for clashes in 0..8 {
        for loads in 0..27 {
            let site = small_site(3, 1, clashes, loads);
            let Least { channel_slots, fewer_may_do } = least(&site).unwrap();
            if fewer_may_do || !(2..=4).contains(&channel_slots) {
                continue;
            }
            let few = Site { slots: channel_slots as u16 - 1, ..site };
            assert!((0..1 << few.table_len()).all(|k| check(&few, &table(&few, k)).is_err()), "{few:?}");
            asked += 1;
        }
    }
    assert!(asked > 50);
}

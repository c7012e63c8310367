//! The heaviest clash: the desk examples by hand, small sites with every set tried, large ones whose answer is known, and
//! what the number means to the planner, the checker and `least`.

mod common;

use common::{faulty, p1, p4, site, small_site};
use second::answer::refuse;
use second::checker::check;
use second::heaviest::{heaviest, Heaviest};
use second::judge::least;
use second::planner::plan;
use second::site::Site;

#[test]
fn desk_examples() {
    let p3 = [(1, 3), (2, 3)];
    let p6 = [(1, 4), (2, 3), (3, 5), (4, 5)];
    for (site, load, cells) in [
        (p1(&[5, 1, 4]), 6, 0b011),
        (site(3, 2, &[5, 1, 4, 0], &[(2, 1), (2, 3), (1, 4)]), 6, 0b011),
        (p1(&[5, 2, 4]), 7, 0b011),
        (p1(&[3, 1, 4]), 5, 0b110),
        (site(2, 1, &[1, 1, 1], &p3), 2, 0b101),
        (site(2, 1, &[2, 1, 0], &p3), 2, 0b001),
        (p4(), 2, 0b0101),
        (site(2, 1, &[1, 1, 1, 1, 1], &p6), 2, 0b00110),
        (site(2, 1, &[1, 0, 1, 1, 1], &p6), 2, 0b01001),
        (site(1, 1, &[0], &[]), 0, 0),
        (site(1, 1, &[0, 0], &[(1, 2)]), 0, 0),
        (site(1, 1, &[2], &[]), 2, 1),
        (site(1, 1, &[3, 4], &[]), 4, 2),
        (site(1, 1, &[65_535, 65_535], &[(2, 1)]), 131_070, 3),
    ] {
        assert_eq!(heaviest(&site), Ok(Heaviest { load, cells }), "{site:?}");
    }
}

#[test]
fn a_faulty_record_is_refused() {
    for (site, number, values) in faulty() {
        assert_eq!(heaviest(&site), refuse(number, values));
    }
}

/// 32 cells of load 1, of which those clash that `clash` says, asked with the lower cell first and counted from 0.
fn large(clash: impl Fn(usize, usize) -> bool) -> Site {
    let mut site = Site { loads: [1; 32], ..Site::sized(32, 128, 16) };
    for a in 0..32 {
        for b in a + 1..32 {
            site.reach[a] |= (clash(a, b) as u32) << b;
        }
    }
    site
}

#[test]
fn large_sites() {
    for (site, load, cells) in [
        (large(|_, _| false), 1, 1),
        (large(|_, _| true), 32, u32::MAX),
        // A tunnel: four that follow each other, the first four.
        (large(|a, b| b - a <= 3), 4, 0b1111),
        // A ring: two neighbours.
        (large(|a, b| b - a == 1 || b - a == 31), 2, 0b11),
        // All but the pairs 1 and 2, 3 and 4 and so on: the lower of each.
        (large(|a, b| a / 2 != b / 2), 16, 0x5555_5555),
        // All but the triples, the last one of two cells.
        (large(|a, b| a / 3 != b / 3), 11, 0x4924_9249),
    ] {
        assert_eq!(heaviest(&site), Ok(Heaviest { load, cells }));
    }
}

/// Every set of a small site, in rising order of its word: the first with the greatest load.
fn by_all_sets(site: &Site) -> Heaviest {
    let mut best = Heaviest { load: 0, cells: 0 };
    for cells in 0..1u32 << site.count() {
        let chosen: Vec<usize> = (1..=site.count()).filter(|cell| cells >> (cell - 1) & 1 == 1).collect();
        let all_clash = chosen.iter().all(|&a| chosen.iter().all(|&b| a == b || site.clash(a, b)));
        let load = chosen.iter().map(|&cell| site.load(cell)).sum();
        if all_clash && load > best.load {
            best = Heaviest { load, cells };
        }
    }
    best
}

#[test]
fn every_site_of_four_cells() {
    let (mut nested, mut fewer) = (0, 0);
    for clashes in 0..64 {
        for loads in 0..81 {
            let site = small_site(4, 2, clashes, loads);
            let found = heaviest(&site).unwrap();
            assert_eq!(found, by_all_sets(&site), "{site:?}");
            let enough = least(&site).unwrap();
            if !enough.fewer_may_do {
                assert_eq!(found.load, enough.channel_slots, "{site:?}");
                nested += 1;
            }
            assert!(found.load <= enough.channel_slots, "{site:?}");
            fewer += (found.load < enough.channel_slots) as usize;
            if plan(&site, &mut vec![0; site.table_len()]).is_ok() {
                assert!(found.load <= site.positions() as u64, "{site:?}");
            }
        }
    }
    assert!(nested > 1000 && fewer > 100);
}

#[test]
fn with_fewer_no_table_is_valid() {
    let mut asked = 0;
    for clashes in 0..8 {
        for loads in 0..27 {
            let site = small_site(3, 2, clashes, loads);
            let load = heaviest(&site).unwrap().load as usize;
            if !(2..=4).contains(&load) {
                continue;
            }
            let few = Site { slots: load as u16 - 1, ..site };
            let table = |k: usize| -> Vec<u8> { (0..few.table_len()).map(|p| (k >> p & 1) as u8).collect() };
            assert!((0..1 << few.table_len()).all(|k| check(&few, &table(k)).is_err()), "{few:?}");
            asked += 1;
        }
    }
    assert!(asked > 50);
}

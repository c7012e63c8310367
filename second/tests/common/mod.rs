//! Sites and tables of the examples.
#![allow(dead_code)]

use second::site::Site;

/// A site from its sizes, its loads and its pairs "from, to".
pub fn site(slots: usize, channels: usize, loads: &[u16], pairs: &[(usize, usize)]) -> Site {
    let mut site = Site::sized(loads.len(), slots, channels);
    site.loads[..loads.len()].copy_from_slice(loads);
    for &(from, to) in pairs {
        site = site.with_reach(from, to, true).unwrap();
    }
    site
}

/// A table from its rows, a digit for each position.
pub fn table(rows: &str) -> Vec<u8> {
    rows.bytes().filter(u8::is_ascii_digit).map(|digit| digit - b'0').collect()
}

pub fn p1(loads: &[u16]) -> Site {
    site(3, 2, loads, &[(2, 1), (2, 3)])
}

pub fn p4() -> Site {
    site(2, 1, &[1, 1, 1, 1], &[(1, 3), (2, 4), (3, 4)])
}

/// Records with a fault, each with the number and the values of its refusal.
pub fn faulty() -> [(Site, u64, &'static [u64]); 3] {
    let mut own_reach = p1(&[5, 1, 4]);
    own_reach.reach[2] = 1 << 2;
    let mut extra_load = own_reach;
    extra_load.loads[3] = 1;
    [(Site::sized(3, 0, 2), 1, &[]), (own_reach, 3, &[3]), (extra_load, 2, &[4])]
}

/// Bit k of `clashes` is for the k-th pair, and digit i of `loads`, to the base 3, is the load of a cell.
pub fn small_site(cells: usize, slots: usize, mut clashes: usize, mut loads: usize) -> Site {
    let mut site = Site::sized(cells, slots, 1);
    for a in 0..cells {
        site.loads[a] = (loads % 3) as u16;
        loads /= 3;
        for b in a + 1..cells {
            site.reach[a] |= ((clashes % 2) as u32) << b;
            clashes /= 2;
        }
    }
    site
}

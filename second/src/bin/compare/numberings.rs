//! Random sites to renumber: a tunnel or a tree of tunnels whose cells were numbered as they were bolted up, the same with
//! some clash too many or too few, and any site; and tables to carry back, of the right length or a few bytes off.

use crate::case::{Call, Case};
use crate::make::near;
use crate::random::Random;
use crate::sites::{damage, sound_site};
use second::site::Site;

pub fn case(random: &mut Random, call: Call) -> Case {
    let mut site = sound_site(random);
    if !random.once_in(4) {
        bolt_up(random, &mut site);
    }
    if random.once_in(10) {
        damage(random, &mut site);
    }
    let case = Case::of(call, site);
    if call == Call::Renumber {
        return case;
    }
    let due = site.table_len().min(70_000);
    let (from, to, mark) = (near(random, due), near(random, due), random.next());
    case.input(&random.bytes(from), mark).output(&random.bytes(to), mark >> 7)
}

/// Gives the site clashes that have a numbering, its cells numbered in any order, and perhaps spoils one.
pub fn bolt_up(random: &mut Random, site: &mut Site) {
    let cells = site.count();
    let order = shuffled(random, cells);
    site.reach = [0; 32];
    for k in 1..cells {
        let at = random.below(k);
        // The new cell clashes with an earlier one, and with some of those that clash with that one and with one another.
        let mut near = vec![order[at]];
        for &other in &order[..k] {
            let close = near.iter().all(|&a| a != other && site.clash(a + 1, other + 1));
            if close && random.once_in(2) {
                near.push(other);
            }
        }
        if random.once_in(8) {
            near.clear();
        }
        for a in near {
            join(random, site, a, order[k]);
        }
    }
    if cells > 1 && random.once_in(4) {
        let (a, b) = (random.below(cells), random.below(cells));
        if site.clash(a + 1, b + 1) {
            site.reach[a] &= !(1 << b);
            site.reach[b] &= !(1 << a);
        } else if a != b {
            join(random, site, a, b);
        }
    }
}

/// The numbers from 0 up to, but not including, `cells`, in any order.
pub fn shuffled(random: &mut Random, cells: usize) -> Vec<usize> {
    let mut order: Vec<usize> = (0..cells).collect();
    for last in (1..cells).rev() {
        order.swap(last, random.below(last + 1));
    }
    order
}

/// One cell reaches the other, or each the other.
fn join(random: &mut Random, site: &mut Site, a: usize, b: usize) {
    let ways = random.between(1, 3) as u32;
    site.reach[a] |= (ways & 1) << b;
    site.reach[b] |= (ways >> 1) << a;
}

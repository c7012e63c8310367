//! Random searches: sites of few fragments and few open positions, mostly; otherwise just too many of them, or a site of
//! any size. The limit is small, or about what the search needs.

use crate::case::{Call, Case};
use crate::make::near;
use crate::random::Random;
use crate::sites::{damage, sound_site};
use second::search::search;
use second::site::{set_of, Site};

/// No search of the comparison makes more tries than this.
pub const MOST_TRIES: u64 = 3_000;

pub fn case(random: &mut Random) -> Case {
    let mut site = if random.once_in(8) { sound_site(random) } else { small(random) };
    if random.once_in(12) {
        damage(random, &mut site);
    }
    let limit = limit(random, &site);
    let (len, mark) = (near(random, site.table_len().min(70_000)), random.next());
    Case::of(Call::Search, site).limit(limit).output(&random.bytes(len), mark)
}

/// A site with few fragments in all and a few open positions.
pub fn small(random: &mut Random) -> Site {
    let cells = random.between(1, 12);
    let (slots, channels) =
        random.pick(&[(1, 1), (2, 1), (2, 2), (3, 1), (3, 2), (5, 1), (8, 2), (64, 1), (13, 5), (128, 1)]);
    let mut site = Site::sized(cells, slots, channels);
    let clash_in = random.pick(&[1, 2, 2, 3, 6]);
    for a in 0..cells {
        site.loads[a] = random.pick(&[0, 1, 1, 1, 2, 2, 3]);
        for b in (0..cells).filter(|&b| b != a) {
            site.reach[a] |= (random.once_in(2 * clash_in) as u32) << b;
        }
    }
    if random.once_in(4) {
        site.loads[random.below(cells)] = random.between(0, 26) as u16;
    }
    if random.once_in(2) || site.positions() > 64 {
        let open_in = random.pick(&[1, 2, 3]);
        site.blocked = set_of((0..site.positions()).filter(|_| !random.once_in(open_in)));
    }
    site
}

/// None, one, what the search needs, one less and one more, or as many as is allowed.
pub fn limit(random: &mut Random, site: &Site) -> u64 {
    let needed = match search(site, MOST_TRIES, &mut vec![0; site.table_len().min(70_000)]) {
        Ok((_, tries)) => tries,
        Err(_) => random.next(),
    };
    match random.below(8) {
        0 => 0,
        1 => 1,
        2 | 3 => needed,
        4 | 5 => needed.saturating_sub(1),
        6 => needed.saturating_add(1),
        _ => MOST_TRIES,
    }
}

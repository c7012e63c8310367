//! The two rules at their limits: rules that are one and rules that are none through every call, each fault of the record
//! before and after 24; the record of kind 5 with every rule, every byte and every length, and cut; and every reach of four
//! cells under both rules.

use crate::blocked_limits::{every_call, every_order};
use crate::boundary::{tunnel, wrong_sites};
use crate::case::{Call, Case};
use crate::run::Run;
use second::site::{set_of, Site};

const RULES: [u16; 12] = [0, 1, 2, 3, 4, 255, 256, 257, 258, 512, 32_770, 65_535];

pub fn compare(run: &mut Run) {
    for rule in RULES {
        for (cells, slots, channels) in [(1, 1, 1), (2, 3, 2), (3, 3, 2), (5, 13, 5), (32, 12, 3), (32, 128, 16)] {
            for site in sites(cells, slots, channels) {
                every_call(run, &Site { rule, ..site });
            }
        }
        for wrong in wrong_sites(tunnel(3, 3, 2)) {
            every_order(run, &Site { rule, ..wrong });
        }
    }
    every_pair(run);
    files(run);
    plan_files(run);
}

/// Sites in which each cell reaches both neighbours, the second next one, the first one, the next one, or all; and the first of
/// them with something blocked. On some the rules give other clashes, on some the same.
fn sites(cells: usize, slots: usize, channels: usize) -> Vec<Site> {
    let reaches: [fn(usize, usize) -> bool; 5] =
        [|a, b| a.abs_diff(b) == 1, |a, b| b == a + 2, |_, b| b == 0, |a, b| b == a + 1, |_, _| true];
    let mut sites = Vec::new();
    for reach in reaches {
        let mut site = Site::sized(cells, slots, channels);
        for a in 0..cells {
            site.loads[a] = [1, 0, 2, slots * channels / 5][a % 4] as u16;
            (0..cells).filter(|&b| a != b && reach(a, b)).for_each(|b| site.reach[a] |= 1 << b);
        }
        sites.push(site);
    }
    sites.push(Site { blocked: set_of((0..slots * channels).step_by(3)), ..sites[0] });
    sites
}

/// Every two cells of the largest sites, and cells that are not there.
fn every_pair(run: &mut Run) {
    for site in sites(32, 2, 2).into_iter().chain(sites(31, 2, 2)) {
        for rule in [1, 2] {
            for a in 0..=33 {
                for b in (0..=33).chain([65_535]) {
                    run.compare(&Case::of(Call::Clash, Site { rule, ..site }).numbers([a, b]));
                }
            }
        }
    }
}

/// A site file of three cells that begins with this head.
fn with_head(head: &[u8]) -> Vec<u8> {
    [head, &[8, 0, 2, 0, 1, 0, 1, 0, 1, 0, 6, 0, 3, 0, 1, 2, 3, 2]].concat()
}

fn files(run: &mut Run) {
    let head = [10, 0, 5, 0, 3, 0, 2, 0, 2, 0, 2, 0];
    for rule in 0..=65_535u16 {
        run.read_site(&with_head(&[&head[..10], &rule.to_le_bytes()].concat()), 1);
    }
    for value in 0..=255 {
        for at in 0..12 {
            let mut changed = head;
            changed[at] = value;
            run.read_site(&with_head(&changed), 2);
            // With the rule, or the sizes, wrong as well.
            for (also, wrong) in [(10, 1), (10, 0), (4, 0), (4, 33), (8, 17)] {
                changed[also] = wrong;
                run.read_site(&with_head(&changed), 3);
            }
        }
    }
    let whole = with_head(&head);
    (0..=whole.len()).for_each(|cut| run.read_site(&whole[..cut], cut as u64));
    for more in [&[0][..], &[3, 0, 6, 0, 1], &[3, 0, 6, 0, 0], &[3, 0, 6, 0, 16], &[3, 0, 6, 0, 1, 0]] {
        run.read_site(&[&whole[..], more].concat(), 4);
    }
    // A head of either kind in each other's length, and one after the other.
    for kind in 0..=7 {
        for length in 0..=13 {
            for bytes in [6, 8, 10] {
                let sizes = [3, 0, 2, 0, 2, 0, 2, 0, 2, 0];
                run.read_site(&with_head(&[&[length, 0, kind, 0], &sizes[..bytes]].concat()), 5);
            }
        }
    }
    run.read_site(&with_head(&[&head[..], &[8, 0, 1, 0, 3, 0, 2, 0, 2, 0]].concat()), 6);
    run.read_site(&with_head(&[&[8, 0, 1, 0, 3, 0, 2, 0, 2, 0], &head[..]].concat()), 7);
}

/// Plan files that begin with kind 5, and plan files of sites under each rule.
fn plan_files(run: &mut Run) {
    let body = [4, 0, 4, 0, 0x0F, 0];
    for rule in [0, 1, 2, 3] {
        let file = [&[10, 0, 5, 0, 3, 0, 2, 0, 2, 0, rule, 0], &body[..]].concat();
        for cut in 0..=file.len() {
            run.read_plan(&file[..cut], 12, cut as u64);
        }
        run.read_plan(&[&[8, 0, 5, 0, 3, 0, 2, 0, 2, 0], &body[..]].concat(), 12, 1);
        run.read_plan(&[&[10, 0, 1, 0, 3, 0, 2, 0, 2, 0, rule, 0], &body[..]].concat(), 12, 2);
        run.read_plan(&[&[8, 0, 1, 0, 3, 0, 2, 0, 2, 0], &body[..]].concat(), 12, 3);
    }
}

/// Every reach of four cells under both rules: who clashes, the verdicts, the plan in both forms, and the checks of the plan
/// that the other rule has.
pub fn every_small_reach(run: &mut Run) {
    for bits in 0..1 << 12 {
        let mut site = Site { loads: loads_of(bits), ..Site::sized(4, 3, 1) };
        for a in 0..4 {
            let others = bits >> (3 * a) & 7;
            // Bit a of the row is left out.
            site.reach[a] = (others & ((1 << a) - 1)) | (others >> a << (a + 1));
        }
        let planned = [1, 2].map(|rule| small(run, &Site { rule, ..site }));
        for rule in [1, 2] {
            for table in &planned {
                run.compare(&Case::of(Call::Check, Site { rule, ..site }).input(table, 3));
                run.compare(&Case::of(Call::Mend, Site { rule, ..site }).output(table, 4).list(&[9; 48], 5));
            }
        }
    }
}

/// Loads that go with the bits, most of them small.
fn loads_of(bits: u32) -> [u16; 32] {
    let mut loads = [0; 32];
    for (i, load) in loads.iter_mut().take(4).enumerate() {
        *load = [1, 0, 1, 2, 1, 3][(bits as usize * 7 + i * 5 + bits as usize / 64) % 6];
    }
    loads
}

fn small(run: &mut Run, site: &Site) -> Vec<u8> {
    for a in 1..=4 {
        for b in 1..=4 {
            run.compare(&Case::of(Call::Clash, *site).numbers([a, b]));
        }
    }
    for call in [Call::LoadTest, Call::Chain, Call::Least, Call::Heaviest] {
        run.compare(&Case::of(call, *site));
    }
    run.compare(&Case::of(Call::PlanWords, *site).words(&[7; 4], 1));
    run.compare(&Case::of(Call::Plan, *site).output(&[7; 12], 2)).output.part().to_vec()
}

//! "Greedy order": paper 000's Figure 1, line by line; blocked positions are skipped.

use crate::answer::{refuse, Outcome};
use crate::site::Site;

pub const IDLE: u8 = 0;
pub const RESERVED: u8 = 1;
pub const FORBIDDEN: u8 = 2;

/// Refusal 4: the lent table is shorter than IN.
pub fn table_fits(site: &Site, len: usize) -> Outcome<()> {
    if len < site.table_len() {
        return refuse(4, &[]);
    }
    Ok(())
}

/// Plans the site into the first IN bytes of the table; refusal 5 leaves them 0.
pub fn plan(site: &Site, table: &mut [u8]) -> Outcome<()> {
    site.sound()?;
    table_fits(site, table.len())?;
    let table = &mut table[..site.table_len()];
    let result = g_schedule(site, table);
    if result.is_err() {
        table.fill(IDLE);
    }
    result
}

fn g_schedule(site: &Site, s: &mut [u8]) -> Outcome<()> {
    let (slots, channels) = (site.slots as usize, site.channels as usize);
    // Slots and channels are counted from 1, as the paper does.
    let position = |t: usize, f: usize| (t - 1) * channels + (f - 1);
    let at = |i: usize, t: usize, f: usize| (i - 1) * site.positions() + position(t, f);
    s.fill(IDLE);
    for i in 1..=site.count() {
        let mut l = site.load(i);
        'search: for t in 1..=slots {
            for f in 1..=channels {
                if l == 0 {
                    break 'search;
                }
                if s[at(i, t, f)] == IDLE && site.is_open(position(t, f)) {
                    s[at(i, t, f)] = RESERVED;
                    l -= 1;
                    for j in i + 1..=site.count() {
                        if site.clash(i, j) {
                            s[at(j, t, f)] = FORBIDDEN;
                        }
                    }
                }
            }
        }
        if l > 0 {
            return refuse(5, &[i as u64, l]);
        }
    }
    Ok(())
}

//! The site-file reader as it was at two times, kept to say what a station with old software answers to a file of today.
//! Before blocked positions a site file was kinds 1, 2 and 3, and whatever stood after kind 3 was refused with 12. Before
//! the two rules it was that, and kind 6 where something was blocked; no file began with kind 5. Nothing else uses it.

use crate::answer::{refuse, Outcome};
use crate::site::{set_of, sizes_in_range, Site};

const HEAD: u16 = 1;
const LOADS: u16 = 2;
const REACH: u16 = 3;
const BLOCKED: u16 = 6;

/// A record that has the kind and the length that are due, and lies within the file.
struct Record<'a> {
    /// The offset of its first byte, which every refusal of it carries.
    at: usize,
    body: &'a [u8],
    /// The offset after its last byte.
    end: usize,
}

impl Record<'_> {
    fn refuse<T>(&self, number: u64) -> Outcome<T> {
        refuse(number, &[self.at as u64])
    }
}

fn word(bytes: &[u8], at: usize) -> u16 {
    u16::from_le_bytes([bytes[at], bytes[at + 1]])
}

/// Opens the record at an offset: 8 for its first four bytes, 9, 10, then 8 for its end.
fn open(bytes: &[u8], at: usize, kind: u16, right: impl Fn(usize) -> bool) -> Outcome<Record<'_>> {
    let offset = at as u64;
    if bytes.len() - at < 4 {
        return refuse(8, &[offset]);
    }
    let length = word(bytes, at) as usize;
    if word(bytes, at + 2) != kind {
        return refuse(9, &[offset]);
    }
    if !right(length) {
        return refuse(10, &[offset]);
    }
    let end = at + 2 + length;
    if end > bytes.len() {
        return refuse(8, &[offset]);
    }
    Ok(Record { at, body: &bytes[at + 4..end], end })
}

/// Kind 1. The site that comes of it has no loads and no reach.
fn read_head(bytes: &[u8]) -> Outcome<(Site, usize)> {
    let head = open(bytes, 0, HEAD, |length| length == 8)?;
    let (cells, slots, channels) = (word(head.body, 0), word(head.body, 2), word(head.body, 4));
    if sizes_in_range(cells as usize, slots as usize, channels as usize).is_err() {
        return head.refuse(1);
    }
    Ok((Site::sized(cells as usize, slots as usize, channels as usize), head.end))
}

/// Refusal 12, with the offset of the first extra byte.
fn nothing_after(bytes: &[u8], end: usize) -> Outcome<()> {
    if end < bytes.len() {
        return refuse(12, &[end as u64]);
    }
    Ok(())
}

/// Reads a site file as before blocked positions. The site that comes of it has none.
pub fn read_before_blocked(bytes: &[u8]) -> Outcome<Site> {
    let (site, end) = read_to_reach(bytes)?;
    nothing_after(bytes, end)?;
    Ok(site)
}

/// Reads a site file as before the two rules. The site that comes of it has rule 1, as all had.
pub fn read_before_rules(bytes: &[u8]) -> Outcome<Site> {
    let (mut site, at) = read_to_reach(bytes)?;
    if at == bytes.len() {
        return Ok(site);
    }
    let bits = site.positions();
    let blocked = open(bytes, at, BLOCKED, |length| length == 2 + bits.div_ceil(8))?;
    let set = |k: usize| blocked.body[k / 8] >> (k % 8) & 1 == 1;
    if (bits..8 * blocked.body.len()).any(set) {
        return blocked.refuse(14);
    }
    site.blocked = set_of((0..bits).filter(|&k| set(k)));
    if !site.has_blocked() {
        return blocked.refuse(21);
    }
    nothing_after(bytes, blocked.end)?;
    Ok(site)
}

/// Kinds 1, 2 and 3, which both have in common: the site so far, and the offset after them.
fn read_to_reach(bytes: &[u8]) -> Outcome<(Site, usize)> {
    let (mut site, head_end) = read_head(bytes)?;
    let loads = open(bytes, head_end, LOADS, |length| length == 2 + 2 * site.count())?;
    for cell in 1..=site.count() {
        site.loads[cell - 1] = word(loads.body, 2 * (cell - 1));
    }
    let reach = open(bytes, loads.end, REACH, |length| length >= 2 && length % 2 == 0)?;
    let mut before = None;
    for pair in reach.body.chunks_exact(2) {
        let (from, to) = (pair[0] as usize, pair[1] as usize);
        site.pair_in_order(from, to, reach.at as u64)?;
        // `None` is below every pair.
        if before >= Some((from, to)) {
            return reach.refuse(11);
        }
        before = Some((from, to));
        site.reach[from - 1] |= 1 << (to - 1);
    }
    Ok((site, reach.end))
}

//! "House files": the site file (kinds 1, 2, 3, and 6 where something is blocked; under rule 2 kind 5 in place of kind 1) and
//! the plan file (kinds 1, 4), read and written. A record is its length (two bytes, counting what follows them), its kind (two bytes) and its body; numbers are
//! little-endian.

use crate::answer::{refuse, Outcome};
use crate::planner::{table_fits, RESERVED};
use crate::site::{set_of, sizes_in_range, Site, RULE_2};

const HEAD: u16 = 1;
const LOADS: u16 = 2;
const REACH: u16 = 3;
const PLAN: u16 = 4;
const RULED_HEAD: u16 = 5;
const BLOCKED: u16 = 6;

/// A record that has the kind and the length that are due, and lies within the file.
struct Record<'a> {
    /// The offset of its first byte, which every refusal of it carries.
    at: usize,
    body: &'a [u8],
    /// The offset after its last byte.
    end: usize,
}

impl Record<'_> {
    fn refuse<T>(&self, number: u64) -> Outcome<T> {
        refuse(number, &[self.at as u64])
    }
}

fn word(bytes: &[u8], at: usize) -> u16 {
    u16::from_le_bytes([bytes[at], bytes[at + 1]])
}

/// Opens the record at an offset: 8 for its first four bytes, 9, 10, then 8 for its end.
fn open(bytes: &[u8], at: usize, kind: u16, right: impl Fn(usize) -> bool) -> Outcome<Record<'_>> {
    let offset = at as u64;
    if bytes.len() - at < 4 {
        return refuse(8, &[offset]);
    }
    let length = word(bytes, at) as usize;
    if word(bytes, at + 2) != kind {
        return refuse(9, &[offset]);
    }
    if !right(length) {
        return refuse(10, &[offset]);
    }
    let end = at + 2 + length;
    if end > bytes.len() {
        return refuse(8, &[offset]);
    }
    Ok(Record { at, body: &bytes[at + 4..end], end })
}

/// Kind 1. The site that comes of it has its sizes alone, and rule 1.
fn read_head(bytes: &[u8]) -> Outcome<(Site, usize)> {
    let head = open(bytes, 0, HEAD, |length| length == 8)?;
    Ok((read_sizes(&head)?, head.end))
}

/// Kind 5: the body of kind 1, then the rule, which is 2; 24 comes after 1.
fn read_ruled_head(bytes: &[u8]) -> Outcome<(Site, usize)> {
    let head = open(bytes, 0, RULED_HEAD, |length| length == 10)?;
    let (site, rule) = (read_sizes(&head)?, word(head.body, 6));
    if rule != RULE_2 {
        return head.refuse(24);
    }
    Ok((Site { rule, ..site }, head.end))
}

/// The three sizes at the start of a head's body, or refusal 1.
fn read_sizes(head: &Record) -> Outcome<Site> {
    let (cells, slots, channels) = (word(head.body, 0), word(head.body, 2), word(head.body, 4));
    if sizes_in_range(cells as usize, slots as usize, channels as usize).is_err() {
        return head.refuse(1);
    }
    Ok(Site::sized(cells as usize, slots as usize, channels as usize))
}

/// Refusal 12, with the offset of the first extra byte.
fn nothing_after(bytes: &[u8], end: usize) -> Outcome<()> {
    if end < bytes.len() {
        return refuse(12, &[end as u64]);
    }
    Ok(())
}

/// Reads a site file.
pub fn read_site(bytes: &[u8]) -> Outcome<Site> {
    let ruled = bytes.get(2..4) == Some(&RULED_HEAD.to_le_bytes());
    let (mut site, head_end) = if ruled { read_ruled_head(bytes)? } else { read_head(bytes)? };
    let loads = open(bytes, head_end, LOADS, |length| length == 2 + 2 * site.count())?;
    for cell in 1..=site.count() {
        site.loads[cell - 1] = word(loads.body, 2 * (cell - 1));
    }
    let reach = open(bytes, loads.end, REACH, |length| length >= 2 && length % 2 == 0)?;
    let mut before = None;
    for pair in reach.body.chunks_exact(2) {
        let (from, to) = (pair[0] as usize, pair[1] as usize);
        site.pair_in_order(from, to, reach.at as u64)?;
        // `None` is below every pair.
        if before >= Some((from, to)) {
            return reach.refuse(11);
        }
        before = Some((from, to));
        site.reach[from - 1] |= 1 << (to - 1);
    }
    // A file that ends here is whole; any byte more makes kind 6 due.
    if reach.end < bytes.len() {
        read_blocked(bytes, reach.end, &mut site)?;
    }
    Ok(site)
}

/// Kind 6, the last record of a site file: 14 for a left-over bit, then 21 if nothing is blocked, and 12 after it.
fn read_blocked(bytes: &[u8], at: usize, site: &mut Site) -> Outcome<()> {
    let bits = site.positions();
    let blocked = open_bits(bytes, at, BLOCKED, bits)?;
    site.blocked = set_of((0..bits).filter(|&k| bit(blocked.body, k)));
    if !site.has_blocked() {
        return blocked.refuse(21);
    }
    nothing_after(bytes, blocked.end)
}

/// Opens a record of bits, which is of just the length that they take: 14 after its other refusals.
fn open_bits(bytes: &[u8], at: usize, kind: u16, bits: usize) -> Outcome<Record<'_>> {
    let record = open(bytes, at, kind, |length| length == 2 + bits.div_ceil(8))?;
    if (bits..8 * record.body.len()).any(|k| bit(record.body, k)) {
        return record.refuse(14);
    }
    Ok(record)
}

/// The bytes of so many bits, left-over bits 0.
fn packed(bits: impl ExactSizeIterator<Item = bool>) -> Vec<u8> {
    let mut body = vec![0; bits.len().div_ceil(8)];
    for (k, set) in bits.enumerate() {
        body[k / 8] |= (set as u8) << (k % 8);
    }
    body
}

fn push_word(file: &mut Vec<u8>, number: usize) {
    file.extend_from_slice(&(number as u16).to_le_bytes());
}

fn push_record(file: &mut Vec<u8>, kind: u16, body: &[u8]) {
    push_word(file, 2 + body.len());
    push_word(file, kind as usize);
    file.extend_from_slice(body);
}

fn push_head(file: &mut Vec<u8>, site: &Site) {
    push_record(file, HEAD, &sizes(site));
}

/// A site of rule 1 has kind 1, one of rule 2 has kind 5.
fn push_site_head(file: &mut Vec<u8>, site: &Site) {
    if site.rule != RULE_2 {
        return push_head(file, site);
    }
    let mut body = sizes(site);
    push_word(&mut body, site.rule as usize);
    push_record(file, RULED_HEAD, &body);
}

fn sizes(site: &Site) -> Vec<u8> {
    let mut body = Vec::new();
    for number in [site.cells, site.slots, site.channels] {
        push_word(&mut body, number as usize);
    }
    body
}

/// Copies a finished file into the lent output, or refuses with 13 and the bytes needed.
pub fn deliver(file: &[u8], out: &mut [u8]) -> Outcome<usize> {
    if out.len() < file.len() {
        return refuse(13, &[file.len() as u64]);
    }
    out[..file.len()].copy_from_slice(file);
    Ok(file.len())
}

/// Writes a site file and gives the number of bytes written.
pub fn write_site(site: &Site, out: &mut [u8]) -> Outcome<usize> {
    site.sound()?;
    let (mut loads, mut pairs) = (Vec::new(), Vec::new());
    for from in 1..=site.count() {
        push_word(&mut loads, site.load(from) as usize);
        for to in 1..=site.count() {
            if site.reaches(from, to) {
                pairs.extend_from_slice(&[from as u8, to as u8]);
            }
        }
    }
    let mut file = Vec::new();
    push_site_head(&mut file, site);
    push_record(&mut file, LOADS, &loads);
    push_record(&mut file, REACH, &pairs);
    if site.has_blocked() {
        push_record(&mut file, BLOCKED, &packed((0..site.positions()).map(|k| !site.is_open(k))));
    }
    deliver(&file, out)
}

/// Is bit k, in byte k/8 with weight 2 to the power k mod 8, set?
fn bit(bytes: &[u8], k: usize) -> bool {
    bytes[k / 8] >> (k % 8) & 1 == 1
}

/// Reads a plan file into the lent table and gives the three sizes, as a site that has them alone.
pub fn read_plan(bytes: &[u8], table: &mut [u8]) -> Outcome<Site> {
    let (site, head_end) = read_head(bytes)?;
    let bits = site.table_len();
    let plan = open_bits(bytes, head_end, PLAN, bits)?;
    nothing_after(bytes, plan.end)?;
    table_fits(&site, table.len())?;
    for (k, byte) in table[..bits].iter_mut().enumerate() {
        *byte = bit(plan.body, k) as u8;
    }
    Ok(site)
}

/// Writes the reservations of a table as a plan file, which begins with kind 1 under either rule, and gives the number of bytes written.
pub fn write_plan(site: &Site, table: &[u8], out: &mut [u8]) -> Outcome<usize> {
    site.sound()?;
    table_fits(site, table.len())?;
    let body = packed(table[..site.table_len()].iter().map(|&byte| byte == RESERVED));
    let mut file = Vec::new();
    push_head(&mut file, site);
    push_record(&mut file, PLAN, &body);
    deliver(&file, out)
}

//! Random site files and plan files: about half are valid; in the others a pair, a record or any byte is damaged.

use crate::make::near_number;
use crate::random::Random;
use crate::sites::sound_site;
use second::site::Site;

fn record(kind: u16, body: &[u8]) -> Vec<u8> {
    let mut record = Vec::new();
    record.extend_from_slice(&(2 + body.len() as u16).to_le_bytes());
    record.extend_from_slice(&kind.to_le_bytes());
    record.extend_from_slice(body);
    record
}

fn words(numbers: &[u16]) -> Vec<u8> {
    numbers.iter().flat_map(|number| number.to_le_bytes()).collect()
}

fn head(random: &mut Random, site: &Site) -> Vec<u8> {
    record(1, &words(&sizes(random, site)))
}

/// The three sizes of a head, one of them now and then another.
fn sizes(random: &mut Random, site: &Site) -> [u16; 3] {
    let mut sizes = [site.cells, site.slots, site.channels];
    if random.once_in(16) {
        sizes[random.below(3)] = random.pick(&[0, 1, 16, 17, 32, 33, 128, 129, 256, 65_535]);
    }
    sizes
}

/// Kind 5, with rule 2 or, one time in six, another.
fn ruled_head(random: &mut Random, site: &Site) -> Vec<u8> {
    let [cells, slots, channels] = sizes(random, site);
    let rule = if random.once_in(6) { random.pick(&[0, 1, 1, 3, 256, 258, 512, 514, 65_535]) } else { 2 };
    record(5, &words(&[cells, slots, channels, rule]))
}

/// A site file, valid as often as not.
pub fn site_file(random: &mut Random) -> Vec<u8> {
    let site = sound_site(random);
    let mut pairs = Vec::new();
    for from in 1..=site.count() {
        for to in 1..=site.count() {
            if site.reaches(from, to) {
                pairs.push([from as u8, to as u8]);
            }
        }
    }
    if random.once_in(4) {
        for _ in 0..random.between(1, 3) {
            damage_pairs(random, &mut pairs, site.count());
        }
    }
    let head = if site.rule == 2 { ruled_head(random, &site) } else { head(random, &site) };
    let mut records = vec![head, record(2, &words(&site.loads[..site.count()])), record(3, &pairs.concat())];
    records.extend(blocked_records(random, &site));
    if random.once_in(6) {
        damage_record(random, &mut records);
    }
    let mut file = records.concat();
    if random.once_in(8) {
        damage_bytes(random, &mut file);
    }
    file
}

/// Kind 6 where something is blocked. Now and then it is there though nothing is, or twice, or a left-over bit is set.
fn blocked_records(random: &mut Random, site: &Site) -> Vec<Vec<u8>> {
    let bits = site.positions();
    let mut body = vec![0; bits.div_ceil(8)];
    for k in (0..bits).filter(|&k| !site.is_open(k)) {
        body[k / 8] |= 1 << (k % 8);
    }
    if bits % 8 != 0 && random.once_in(12) {
        *body.last_mut().expect("a site has a position") |= random.pick(&[128, 128, 1 << (bits % 8), 255]);
    }
    let due = body.iter().any(|&byte| byte != 0) || random.once_in(10);
    let times = if due && random.once_in(16) { 2 } else { due as usize };
    vec![record(6, &body); times]
}

/// Swaps, doubles, adds or changes a pair.
fn damage_pairs(random: &mut Random, pairs: &mut Vec<[u8; 2]>, cells: usize) {
    let any = [near_number(random, cells) as u8, near_number(random, cells) as u8];
    let at = random.below(pairs.len() + 1);
    match random.below(5) {
        0 => pairs.insert(at, any),
        1 if at < pairs.len() => pairs[at] = any,
        2 if at < pairs.len() => pairs.insert(at, pairs[at]),
        3 if at + 1 < pairs.len() => pairs.swap(at, at + 1),
        _ => pairs.insert(at, [any[0], any[0]]),
    }
}

/// A plan file, valid as often as not, and the table length that it needs.
pub fn plan_file(random: &mut Random) -> (Vec<u8>, usize) {
    let site = sound_site(random);
    let bits = site.table_len();
    let mut body = random.bytes(bits.div_ceil(8));
    if bits & 7 != 0 && !random.once_in(8) {
        body[bits / 8] &= (1 << (bits % 8)) - 1;
    }
    let head = if random.once_in(20) { ruled_head(random, &site) } else { head(random, &site) };
    let mut records = [head, record(4, &body)];
    if random.once_in(6) {
        damage_record(random, &mut records);
    }
    let mut file = records.concat();
    if random.once_in(6) {
        damage_bytes(random, &mut file);
    }
    (file, bits)
}

/// Changes a record's length or kind, drops or doubles it, or makes its body longer or shorter, told or untold.
fn damage_record(random: &mut Random, records: &mut [Vec<u8>]) {
    let at = random.below(records.len());
    let record = &mut records[at];
    let length = u16::from_le_bytes([record[0], record[1]]);
    let by = random.pick(&[1, 2, 4, 65_535, 65_534, 256]);
    match random.below(8) {
        0 => record.clear(),
        1 => record[2] = random.pick(&[0, 1, 2, 3, 4, 5, 6, 7]),
        2 => record[3] = 1,
        3 | 4 => record[..2].copy_from_slice(&length.wrapping_add(by).to_le_bytes()),
        5 => record[..2].copy_from_slice(&random.pick(&[0u16, 1, 2, 3, 65_535]).to_le_bytes()),
        6 => record.truncate(random.pick(&[0, 1, 3, 4, 5, 9])),
        _ => {
            record.extend_from_slice(&[0, 1]);
            record[..2].copy_from_slice(&length.wrapping_add(2).to_le_bytes());
        }
    }
}

/// Cuts the file, adds to it, or changes bytes anywhere.
pub fn damage_bytes(random: &mut Random, file: &mut Vec<u8>) {
    let at = random.below(file.len() + 1);
    match random.below(4) {
        0 => file.truncate(at),
        1 => {
            let len = random.between(1, 12);
            file.extend_from_slice(&random.bytes(len));
        }
        2 => file.insert(at, random.next() as u8),
        _ if at < file.len() => file[at] = random.next() as u8,
        _ => file.push(0),
    }
}

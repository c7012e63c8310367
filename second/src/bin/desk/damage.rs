//! Damages a case. The way goes by the seed: eight seeds in a row have every way.

use crate::random::Random;
use second::site::Site;

/// The offset of the second record of a plan file: the head has ten bytes.
const SECOND: usize = 10;

pub fn site_file(random: &mut Random, seed: u64, file: &mut Vec<u8>, site: &Site) {
    let second = if site.rule == 2 { SECOND + 2 } else { SECOND };
    let reach = second + 4 + 2 * site.count();
    let end = reach + 2 + u16::from_le_bytes([file[reach], file[reach + 1]]) as usize;
    match seed % 8 {
        1 => {
            let own = random.between(0, site.count() + 1) as u8;
            add_pair(file, reach, end, [own, own]);
        }
        5 if seed / 8 % 2 == 0 => {
            // The second time it does not rise.
            add_pair(file, reach, end, [2, 1]);
            add_pair(file, reach, end + 2, [2, 1]);
        }
        5 => blocked(random, file, end, site.positions()),
        0 if site.rule == 2 && seed / 8 % 2 == 0 => file[10] = random.pick(&[0, 1, 3, 255]),
        _ if end < file.len() => records(random, seed, file, &[0, second, reach, end]),
        _ => records(random, seed, file, &[0, second, reach]),
    }
}

/// Adds a pair at the end of the reach record, and to its length.
fn add_pair(file: &mut Vec<u8>, reach: usize, end: usize, pair: [u8; 2]) {
    file.splice(end..end, pair);
    let length = (end - reach) as u16;
    file[reach..reach + 2].copy_from_slice(&length.to_le_bytes());
}

/// After the reach, a record of blocked positions that blocks none, that has a left-over bit if there is room for one, or
/// that is there twice.
fn blocked(random: &mut Random, file: &mut Vec<u8>, reach_end: usize, positions: usize) {
    file.truncate(reach_end);
    let bytes = positions.div_ceil(8);
    let mut record = (2 + bytes as u16).to_le_bytes().to_vec();
    record.extend([6, 0]);
    record.resize(4 + bytes, 0);
    let last = record.last_mut().expect("a record has bytes");
    let times = random.between(1, 2);
    *last = random.pick(&[0, 1, if positions % 8 == 0 { 0 } else { 128 }]);
    file.extend(record.repeat(times));
}

pub fn plan_file(random: &mut Random, seed: u64, file: &mut Vec<u8>) {
    match seed % 8 {
        // Where the table's bits fill the last byte this is a bit of the table.
        1 | 5 => *file.last_mut().expect("a plan has a byte") |= 128,
        _ => records(random, seed, file, &[0, SECOND]),
    }
}

/// Damages the sizes, the kind or the length of a record, or the bytes of the file.
fn records(random: &mut Random, seed: u64, file: &mut Vec<u8>, begin: &[usize]) {
    let at = random.pick(begin);
    match seed % 8 {
        0 => {
            let (size, wrong) = random.pick(&[(4, 0u16), (4, 33), (6, 0), (6, 129), (8, 0), (8, 17), (8, 65_535)]);
            file[size..size + 2].copy_from_slice(&wrong.to_le_bytes());
        }
        3 => file[at + 2] = random.pick(&[0, 5, 6, file[at + 2] % 4 + 1]),
        4 => file[at] = file[at].wrapping_add(random.pick(&[1, 2, 254, 255])),
        _ => bytes(random, seed, file),
    }
}

/// Cuts the file, adds to it, or changes one byte.
fn bytes(random: &mut Random, seed: u64, file: &mut Vec<u8>) {
    let at = random.below(file.len());
    match seed % 8 {
        2 => file.truncate(at),
        6 => {
            let len = random.pick(&[1, 1, 2, 5, 70_000]);
            file.extend(random.bytes(len));
        }
        _ => file[at] = random.pick(&[0, 1, b',', b'\r', b'\n', b'0', b'1', 255, file[at] ^ 1]),
    }
}

pub fn sheet(random: &mut Random, seed: u64, file: &mut Vec<u8>, site: &Site) {
    match seed % 8 {
        1 | 5 => {
            mark_itself(file, random.between(1, site.count()));
            mark_itself(file, random.between(1, site.count()));
        }
        _ => text(random, seed, file),
    }
}

/// In the cell's line the mark for the cell itself becomes 1.
fn mark_itself(file: &mut [u8], cell: usize) {
    let line = file.split_inclusive(|&byte| byte == b'\n').take(cell).map(<[u8]>::len).sum::<usize>();
    let before = file[line..].split_inclusive(|&byte| byte == b',').take(cell + 1).map(<[u8]>::len).sum::<usize>();
    file[line + before] = b'1';
}

/// Takes every CR away, or one; puts something before a digit; or damages bytes.
fn text(random: &mut Random, seed: u64, file: &mut Vec<u8>) {
    let all = |file: &[u8], wanted: fn(u8) -> bool| -> Vec<usize> {
        (0..file.len()).filter(|&at| wanted(file[at])).collect()
    };
    match seed % 8 {
        0 => file.retain(|&byte| byte != b'\r'),
        3 => {
            file.remove(random.pick(&all(file, |byte| byte == b'\r')));
        }
        4 => {
            // A sheet of no flows has no digits.
            let mut places = all(file, |byte| byte.is_ascii_digit());
            places.push(file.len());
            let at = random.pick(&places);
            let odd = random.pick(&["0", "1", "+", "-", " ", "\"", ",", "6553", "99999999999999999999"]);
            file.splice(at..at, odd.bytes());
        }
        _ => bytes(random, seed, file),
    }
}

/// A flow that is refused, with one in order after it; or as many flows as may be, or more, with something after them.
pub fn flow_sheet(random: &mut Random, seed: u64, file: &mut Vec<u8>, site: &Site) {
    let refused = match seed / 8 % 3 {
        0 => random.pick(&["0,1,1,1,1", "B,1,1,1,1", "B,0,0,0,0", "33,1,1,1,1", "65535,1,1,1,1"]),
        1 => random.pick(&["1,0,1,1,1", "1,1,0,1,1", "1,1,1,0,1", "1,1,1,5,1", "1,0,0,65535,0"]),
        _ => random.pick(&["1,65535,T,2,1", "1,32768,T,2,1", "1,16384,T,4,1", "1,65535,1,4,1"]),
    };
    // B is a cell beyond the last. With a period of T, the slots, the share is the burst times the repeats.
    let refused = refused.replace('B', &format!("{}", site.count() + 1)).replace('T', &format!("{}", site.slots));
    let more = match seed % 8 {
        1 | 3 => refused + "\r\n1,1,1,1,1\r\n",
        5 => {
            // The lines of the flows that are there; the first line is none.
            let flows = file.iter().filter(|&&byte| byte == b'\n').count() - 1;
            let lines = 16 - flows + random.pick(&[0, 0, 1, 2]);
            "1,1,1,1,1\r\n".repeat(lines) + random.pick(&["x", "\r\n", "1,1,1,1,1", ""])
        }
        _ => return text(random, seed, file),
    };
    file.extend(more.bytes());
}

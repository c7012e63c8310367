//! The list of blocked positions as people type it: "a row of `slot.channel` with commas between, each of the two a number,
//! a range `3-5` or `*`". So `*.11-14` is a plant's Wi-Fi in every slot.

use crate::sheet::number;
use crate::site::{in_set, set_of, sizes_in_range, Positions, Site};
use std::ops::RangeInclusive;

/// The numbers of one side of an item.
type Side = RangeInclusive<usize>;

/// A side of an item: a number of 1 to `most`, a range of them that does not run backwards, or `*` for all.
fn read_side(text: &[u8], most: usize) -> Option<Side> {
    if text == b"*" {
        return Some(1..=most);
    }
    let mut ends = text.splitn(2, |&byte| byte == b'-').map(|end| number(end).map(usize::from));
    let first = ends.next()??;
    let last = ends.next().unwrap_or(Some(first))?;
    (1 <= first && first <= last && last <= most).then_some(first..=last)
}

/// An item: a slot, a dot and a channel.
fn read_item(text: &[u8], slots: usize, channels: usize) -> Option<(Side, Side)> {
    let dot = text.iter().position(|&byte| byte == b'.')?;
    Some((read_side(&text[..dot], slots)?, read_side(&text[dot + 1..], channels)?))
}

/// Reads the list of a site with so many slots and channels: the positions that some item names, or where the first item
/// begins that is none. Where there can be no such site that is 0.
pub fn read_list(text: &[u8], slots: u16, channels: u16) -> Result<Positions, usize> {
    let (slots, channels) = (slots as usize, channels as usize);
    sizes_in_range(1, slots, channels).map_err(|_| 0usize)?;
    let (mut at, mut named) = (0, Vec::new());
    for item in text.split(|&byte| byte == b',') {
        let (over, across) = read_item(item, slots, channels).ok_or(at)?;
        for slot in over {
            named.extend(across.clone().map(|channel| (slot - 1) * channels + (channel - 1)));
        }
        at += item.len() + 1;
    }
    Ok(set_of(named.into_iter()))
}

/// A side in as few characters as it takes.
fn side(numbers: Side, most: usize) -> String {
    match (*numbers.start(), *numbers.end()) {
        (1, last) if last == most => String::from("*"),
        (first, last) if first == last => format!("{first}"),
        (first, last) => format!("{first}-{last}"),
    }
}

/// The longest runs of 1 to `most` whose numbers are alike, each with what its numbers are like.
fn runs<T: PartialEq>(most: usize, like: impl Fn(usize) -> T) -> Vec<(Side, T)> {
    let mut runs: Vec<(Side, T)> = Vec::new();
    for number in 1..=most {
        let what = like(number);
        match runs.last_mut() {
            Some((run, before)) if *before == what => *run = *run.start()..=number,
            _ => runs.push((number..=number, what)),
        }
    }
    runs
}

/// The list of the site's blocked positions, to be seen and typed again: for each run of slots with the same blocked
/// channels the runs of those channels, all in rising order. It is empty where nothing is blocked.
pub fn write_list(site: &Site) -> String {
    let (slots, channels) = (site.slots as usize, site.channels as usize);
    let blocked = |slot: usize, channel: usize| in_set(&site.blocked, (slot - 1) * channels + (channel - 1));
    let row = |slot: usize| (1..=channels).map(|channel| blocked(slot, channel)).collect::<Vec<bool>>();
    let mut items = Vec::new();
    for (over, row) in runs(slots, row) {
        for (across, is_blocked) in runs(channels, |channel| row[channel - 1]) {
            if is_blocked {
                items.push(format!("{}.{}", side(over.clone(), slots), side(across, channels)));
            }
        }
    }
    items.join(",")
}

#[cfg(test)]
mod tests {
    use super::*;

    fn read(text: &str) -> Result<Vec<usize>, usize> {
        let set = read_list(text.as_bytes(), 4, 3)?;
        Ok((0..2048).filter(|&k| in_set(&set, k)).collect())
    }

    fn written(slots: usize, channels: usize, positions: &[usize]) -> String {
        write_list(&Site { blocked: set_of(positions.iter().copied()), ..Site::sized(1, slots, channels) })
    }

    #[test]
    fn items_name_positions() {
        for (text, positions) in [
            ("1.1", &[0][..]),
            ("2.3", &[5]),
            ("4.3", &[11]),
            ("*.2", &[1, 4, 7, 10]),
            ("3.*", &[6, 7, 8]),
            ("2-3.1-2", &[3, 4, 6, 7]),
            ("1-1.2-2", &[1]),
            ("*.3,1.1-3", &[0, 1, 2, 5, 8, 11]),
            ("1.1,1.1,4.3,1.1", &[0, 11]),
            ("*.*", &[0, 1, 2, 3, 4, 5, 6, 7, 8, 9, 10, 11]),
        ] {
            assert_eq!(read(text), Ok(positions.to_vec()), "{text}");
        }
    }

    #[test]
    fn the_first_item_that_is_none() {
        for text in [
            "",
            ",",
            "1",
            ".",
            "1.",
            ".1",
            "1.1.1",
            "0.1",
            "1.0",
            "5.1",
            "1.4",
            "01.1",
            "1.01",
            "2-1.1",
            "1.2-1",
            "1-.1",
            "-1.1",
            "1-2-3.1",
            "1-5.1",
            "0-1.1",
            "*-1.1",
            "**.1",
            "* .1",
            " 1.1",
            "+1.1",
            "1.1 ",
            "1.1;2.2",
            "1,1",
            "65537.1",
            "18446744073709551617.1",
            "1.1\n",
            "a.b",
            "\u{2a}.\u{b9}",
        ] {
            assert_eq!(read(text), Err(0), "{text:?}");
            assert_eq!(read(&format!("1.1,{text}")), Err(4), "{text:?}");
            assert_eq!(read(&format!("1.1,2-3.*,{text},1.1")), Err(10), "{text:?}");
        }
        assert_eq!(read("1.1,"), Err(4));
        for (slots, channels) in [(0, 1), (1, 0), (129, 1), (1, 17), (65_535, 65_535)] {
            assert_eq!(read_list(b"1.1", slots, channels), Err(0));
        }
        assert_eq!(read_list(b"128.16", 128, 16), Ok(set_of(2047..2048)));
    }

    #[test]
    fn written_shortly() {
        for (positions, text) in [
            (&[][..], ""),
            (&[0], "1.1"),
            (&[1, 4, 7, 10], "*.2"),
            (&[1, 2, 4, 5, 7, 8, 10, 11], "*.2-3"),
            (&[6, 7, 8], "3.*"),
            (&[3, 5, 6, 8], "2-3.1,2-3.3"),
            (&[0, 1, 2, 5, 8, 11], "1.*,2-4.3"),
            (&[0, 6], "1.1,3.1"),
        ] {
            assert_eq!(written(4, 3, positions), text);
        }
        // Channels 2 and 3 of every slot; and channels 1 and 3 of slots 1 and 2 with all of slot 3.
        assert_eq!(written(3, 4, &[1, 2, 5, 6, 9, 10]), "*.2-3");
        assert_eq!(written(3, 4, &[0, 2, 4, 6, 8, 9, 10, 11]), "1-2.1,1-2.3,3.*");
        assert_eq!(written(1, 1, &[0]), "*.*");
        assert_eq!(written(1, 2, &[1]), "*.2");
        assert_eq!(written(2, 1, &[0]), "1.*");
    }

    #[test]
    fn there_and_back() {
        for set in 1u64..1 << 12 {
            let positions: Vec<usize> = (0..12).filter(|k| set >> k & 1 == 1).collect();
            for (slots, channels) in [(4, 3), (3, 4), (12, 1), (1, 12), (2, 6)] {
                let read = read_list(written(slots, channels, &positions).as_bytes(), slots as u16, channels as u16);
                assert_eq!(read, Ok(set_of(positions.iter().copied())));
            }
        }
    }
}

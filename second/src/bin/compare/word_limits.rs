//! Tables of words at their limits: every size around the largest site, one word or one byte too few, words and bytes past
//! the site's part, bits above the last cell, all bits set, bytes of every value, every small site; and there and back.

use crate::boundary::{every_tunnel, small_site, tunnel, wrong_sites};
use crate::case::{Call, Case};
use crate::run::Run;
use second::site::Site;

pub fn compare(run: &mut Run) {
    every_tunnel(|site| every_length(run, site));
    for cells in 1..=32 {
        bits(run, cells);
    }
    every_byte(run);
    every_small_site(run);
    faults(run);
}

/// Plans, checks and changes form with N words and IN bytes, one more and one less, and with none.
fn every_length(run: &mut Run, site: &Site) {
    let (n, len) = (site.positions().min(2050), site.table_len().min(65_538));
    for count in [n, n.saturating_sub(1), n + 1, 2047, 2048, 2049, 0] {
        let planned = run.compare(&Case::of(Call::PlanWords, *site).words(&vec![0x7070_7070; count], count as u64));
        let words = planned.words.part();
        run.compare(&Case::of(Call::CheckWords, *site).words(words, 1));
        for bytes in [len, len.saturating_sub(1), len + 1, 0] {
            let back = Case::of(Call::ToBytes, *site).words(words, 2).output(&vec![7; bytes], bytes as u64);
            let table = run.compare(&back).output;
            let again = Case::of(Call::ToWords, *site).input(table.part(), 3).words(&vec![7; count], 4);
            let seen = run.compare(&again);
            if planned.answer.number == 0 && seen.answer.number == 0 {
                assert_eq!(seen.words.part()[..n], words[..n], "words there and back are the same words");
            }
        }
    }
}

/// Words with all bits set, with none, with those above the last cell, and with one bit, checked and changed into bytes.
fn bits(run: &mut Run, cells: u16) {
    let mut site = tunnel(cells, 5, 1);
    let above = u32::MAX.checked_shl(cells as u32).unwrap_or(0);
    for clashes in [true, false] {
        for load in [0, 1, 5] {
            site.loads[..cells as usize].fill(load);
            let single = (0..32).map(|bit| 1 << bit);
            for word in single.chain([0, u32::MAX, above, !above, 1 | above]) {
                for words in [[word; 6], [0, 0, 0, 0, word, 0], [word, 0, above, 0, 0, word]] {
                    run.compare(&Case::of(Call::CheckWords, site).words(&words, 3));
                    let back = Case::of(Call::ToBytes, site).words(&words, 4);
                    run.compare(&back.output(&vec![9; 5 * cells as usize + 3], 5));
                }
            }
        }
        if clashes {
            site.reach = [0; 32];
        }
    }
}

/// Only the byte 1 becomes a bit.
fn every_byte(run: &mut Run) {
    let site = Site::sized(2, 128, 1);
    let table: Vec<u8> = (0..=255).collect();
    for shift in 0..256 {
        let bytes: Vec<u8> = table.iter().map(|byte| byte.wrapping_add(shift as u8)).collect();
        run.compare(&Case::of(Call::ToWords, site).input(&bytes, shift).words(&[u32::MAX; 130], shift));
    }
}

/// Every site of four cells and two positions with loads 0 to 2, with room and without, planned and then checked.
fn every_small_site(run: &mut Run) {
    for clashes in 0..64 {
        for loads in 0..81 {
            let site = small_site(4, 2, clashes, loads);
            let planned = run.compare(&Case::of(Call::PlanWords, site).words(&[0xFFFF_FFFF; 3], 5));
            run.compare(&Case::of(Call::CheckWords, site).words(planned.words.part(), 6));
        }
    }
}

/// The record's faults come before 4.
fn faults(run: &mut Run) {
    for wrong in wrong_sites(tunnel(3, 3, 2)) {
        for count in [0, 5, 6, 7] {
            for call in [Call::PlanWords, Call::CheckWords, Call::ToWords, Call::ToBytes] {
                let case = Case::of(call, wrong).words(&vec![5; count], count as u64);
                run.compare(&case.clone());
                let case = if call == Call::ToBytes { case.output(&[7; 18], 1) } else { case.input(&[1; 18], 2) };
                run.compare(&case);
            }
        }
    }
}

//! The C interface of include/duggfrask.h with the prefix `second_`, for the comparison and for the benchmark.

use crate::admit::Flow;
use crate::answer::{done, Answer, Outcome};
use crate::share::{Fragments, Repeats, Share, Slots};
use crate::site::{Positions, Site};
use crate::{
    admit, checker, files, find, handheld, heaviest, judge, mender, numbering, planner, search, share, sheet, tidy,
    words,
};

#[repr(C)]
#[derive(Clone, Copy, Debug, PartialEq, Eq)]
pub struct Edited {
    pub site: Site,
    pub answer: Answer,
}

/// The blocked positions that are given beside a sheet.
#[repr(C)]
#[derive(Clone, Copy, Debug, PartialEq, Eq)]
pub struct Blocked {
    pub bits: Positions,
}

#[repr(C)]
#[derive(Clone, Copy, Debug, PartialEq, Eq)]
pub struct PlanRead {
    pub cells: u16,
    pub slots: u16,
    pub channels: u16,
    pub answer: Answer,
}

#[repr(C)]
#[derive(Clone, Copy, Debug, PartialEq, Eq)]
pub struct Renumbered {
    pub site: Site,
    pub new_of_old: [u16; 32],
    pub old_of_new: [u16; 32],
    pub answer: Answer,
}

/// The answer to give: done with the values that `values` finds in the result, or the refusal.
fn answer<T, const K: usize>(outcome: Outcome<T>, values: impl Fn(T) -> [u64; K]) -> Answer {
    match outcome {
        Ok(result) => done(&values(result)),
        Err(refusal) => refusal,
    }
}

/// The site that came of an edit or a read, or the one to give when it is refused.
fn edited(outcome: Outcome<Site>, if_refused: Site) -> Edited {
    match outcome {
        Ok(site) => Edited { site, answer: done(&[]) },
        Err(answer) => Edited { site: if_refused, answer },
    }
}

/// A lent part to read. A pointer with length 0 is not looked at.
unsafe fn lent<'a, T>(start: *const T, len: usize) -> &'a [T] {
    if len == 0 {
        return &[];
    }
    std::slice::from_raw_parts(start, len)
}

/// A lent part to write.
unsafe fn lent_out<'a, T>(start: *mut T, len: usize) -> &'a mut [T] {
    if len == 0 {
        return &mut [];
    }
    std::slice::from_raw_parts_mut(start, len)
}

#[no_mangle]
pub extern "C" fn second_fault(site: Site) -> Answer {
    answer(site.sound(), |()| [])
}

#[no_mangle]
pub extern "C" fn second_clash(site: Site, a: u16, b: u16) -> Answer {
    answer(site.sound(), |()| [site.clash(a as usize, b as usize) as u64])
}

#[no_mangle]
pub extern "C" fn second_set_load(site: Site, cell: u16, load: u16) -> Edited {
    edited(site.with_load(cell as usize, load), site)
}

#[no_mangle]
pub extern "C" fn second_set_reach(site: Site, from: u16, to: u16) -> Edited {
    edited(site.with_reach(from as usize, to as usize, true), site)
}

#[no_mangle]
pub extern "C" fn second_clear_reach(site: Site, from: u16, to: u16) -> Edited {
    edited(site.with_reach(from as usize, to as usize, false), site)
}

#[no_mangle]
pub extern "C" fn second_load_test(site: Site) -> Answer {
    answer(judge::load_test(&site), |over| match over {
        None => [0, 0],
        Some((cell, excess)) => [cell as u64, excess],
    })
}

#[no_mangle]
pub extern "C" fn second_chain(site: Site) -> Answer {
    answer(judge::chain(&site), |gap| match gap {
        None => [0, 0, 0],
        Some((a, b, c)) => [a as u64, b as u64, c as u64],
    })
}

#[no_mangle]
pub extern "C" fn second_class(site: Site) -> Answer {
    answer(judge::nested(&site), |split| match split {
        None => [0, 0, 0],
        Some((a, b, i)) => [a as u64, b as u64, i as u64],
    })
}

#[no_mangle]
pub extern "C" fn second_least(site: Site) -> Answer {
    answer(judge::least(&site), |least| [least.channel_slots, least.fewer_may_do as u64])
}

#[no_mangle]
pub extern "C" fn second_heaviest(site: Site) -> Answer {
    answer(heaviest::heaviest(&site), |heaviest| [heaviest.load, heaviest.cells as u64])
}

/// # Safety
/// `table` has `len` bytes.
#[no_mangle]
pub unsafe extern "C" fn second_plan(site: Site, table: *mut u8, len: usize) -> Answer {
    answer(planner::plan(&site, lent_out(table, len)), |()| [])
}

/// # Safety
/// `table` has `len` bytes.
#[no_mangle]
pub unsafe extern "C" fn second_search(site: Site, limit: u64, table: *mut u8, len: usize) -> Answer {
    answer(search::search(&site, limit, lent_out(table, len)), |(end, tries)| match end {
        search::End::Plan => [0, tries],
        search::End::NoneExists => [1, tries],
        search::End::LimitMet => [2, tries],
    })
}

/// # Safety
/// `table` has `len` bytes.
#[no_mangle]
pub unsafe extern "C" fn second_find(site: Site, limit: u64, table: *mut u8, len: usize) -> Answer {
    match find::find(&site, limit, lent_out(table, len)) {
        Ok(found) => found.answer(),
        Err(refusal) => refusal,
    }
}

#[no_mangle]
pub extern "C" fn second_over_full(site: Site, cells: u32) -> Answer {
    answer(find::over_full(&site, cells), |(over, load)| [over as u64, load])
}

/// # Safety
/// `table` has `len` bytes.
#[no_mangle]
pub unsafe extern "C" fn second_check(site: Site, table: *const u8, len: usize) -> Answer {
    answer(checker::check(&site, lent(table, len)), |()| [])
}

#[no_mangle]
pub extern "C" fn second_share(slots: u16, burst: u16, period: u16) -> Answer {
    share_answer(share::share(Slots(slots as u64), Fragments(burst as u64), Slots(period as u64)))
}

#[no_mangle]
pub extern "C" fn second_share_repeated(slots: u16, burst: u16, period: u16, repeats: u16) -> Answer {
    let (burst, repeats) = (Fragments(burst as u64), Repeats(repeats as u64));
    share_answer(share::share_of(Slots(slots as u64), burst, Slots(period as u64), repeats))
}

fn share_answer(share: Outcome<Share>) -> Answer {
    answer(share, |s| [s.share.0, s.queue.0, s.delay.0])
}

/// # Safety
/// `bytes` has `len` bytes.
#[no_mangle]
pub unsafe extern "C" fn second_read_site(bytes: *const u8, len: usize) -> Edited {
    edited(files::read_site(lent(bytes, len)), Site::default())
}

/// # Safety
/// `out` has `len` bytes.
#[no_mangle]
pub unsafe extern "C" fn second_write_site(site: Site, out: *mut u8, len: usize) -> Answer {
    answer(files::write_site(&site, lent_out(out, len)), |written| [written as u64])
}

/// # Safety
/// `bytes` has `len` bytes, `table` has `table_len`, and they do not overlap.
#[no_mangle]
pub unsafe extern "C" fn second_read_plan(bytes: *const u8, len: usize, table: *mut u8, table_len: usize) -> PlanRead {
    let outcome = files::read_plan(lent(bytes, len), lent_out(table, table_len));
    let Edited { site, answer } = edited(outcome, Site::default());
    PlanRead { cells: site.cells, slots: site.slots, channels: site.channels, answer }
}

/// # Safety
/// `table` has `table_len` bytes, `out` has `len`, and they do not overlap.
#[no_mangle]
pub unsafe extern "C" fn second_write_plan(
    site: Site,
    table: *const u8,
    table_len: usize,
    out: *mut u8,
    len: usize,
) -> Answer {
    let outcome = files::write_plan(&site, lent(table, table_len), lent_out(out, len));
    answer(outcome, |written| [written as u64])
}

/// # Safety
/// `bytes` has `len` bytes.
#[no_mangle]
pub unsafe extern "C" fn second_read_sheet(
    bytes: *const u8,
    len: usize,
    slots: u16,
    channels: u16,
    blocked: Blocked,
    rule: u16,
) -> Edited {
    edited(sheet::read_sheet(lent(bytes, len), slots, channels, &blocked.bits, rule), Site::default())
}

/// # Safety
/// `out` has `len` bytes.
#[no_mangle]
pub unsafe extern "C" fn second_write_sheet(site: Site, out: *mut u8, len: usize) -> Answer {
    answer(sheet::write_sheet(&site, lent_out(out, len)), |written| [written as u64])
}

/// # Safety
/// `sheet` has `len` bytes, `out` has `out_len`, and they do not overlap.
#[no_mangle]
pub unsafe extern "C" fn second_tidy(sheet: *const u8, len: usize, out: *mut u8, out_len: usize) -> Answer {
    answer(tidy::tidy(lent(sheet, len), lent_out(out, out_len)), |(written, _)| [written as u64])
}

/// # Safety
/// `flows` has `count` flows.
#[no_mangle]
pub unsafe extern "C" fn second_admit(site: Site, flows: *const Flow, count: usize) -> Answer {
    answer(admit::admit(&site, lent(flows, count)), |set| [set as u64])
}

/// # Safety
/// `flows` has `count` flows.
#[no_mangle]
pub unsafe extern "C" fn second_admit_beside(site: Site, flows: *const Flow, count: usize) -> Answer {
    answer(admit::admit_beside(&site, lent(flows, count)), |set| [set as u64])
}

/// # Safety
/// `words` has `count` words.
#[no_mangle]
pub unsafe extern "C" fn second_plan_words(site: Site, words: *mut u32, count: usize) -> Answer {
    answer(words::plan_words(&site, lent_out(words, count)), |()| [])
}

/// # Safety
/// `words` has `count` words.
#[no_mangle]
pub unsafe extern "C" fn second_check_words(site: Site, words: *const u32, count: usize) -> Answer {
    answer(words::check_words(&site, lent(words, count)), |()| [])
}

/// # Safety
/// `table` has `len` bytes, `words` has `count` words, and they do not overlap.
#[no_mangle]
pub unsafe extern "C" fn second_to_words(
    site: Site,
    table: *const u8,
    len: usize,
    words: *mut u32,
    count: usize,
) -> Answer {
    answer(words::to_words(&site, lent(table, len), lent_out(words, count)), |()| [])
}

/// # Safety
/// `words` has `count` words, `table` has `len` bytes, and they do not overlap.
#[no_mangle]
pub unsafe extern "C" fn second_to_bytes(
    site: Site,
    words: *const u32,
    count: usize,
    table: *mut u8,
    len: usize,
) -> Answer {
    answer(words::to_bytes(&site, lent(words, count), lent_out(table, len)), |()| [])
}

/// # Safety
/// `table` has `len` bytes, and the record does not lie in it.
#[no_mangle]
pub unsafe extern "C" fn second_change_load(
    site: &mut Site,
    cell: u16,
    load: u16,
    table: *mut u8,
    len: usize,
) -> Answer {
    answer(handheld::change_load(site, cell as usize, load, lent_out(table, len)), |()| [])
}

/// # Safety
/// `table` has `len` bytes, `changes` has `count` numbers, and they do not overlap.
#[no_mangle]
pub unsafe extern "C" fn second_mend(
    site: Site,
    table: *mut u8,
    len: usize,
    changes: *mut u16,
    count: usize,
) -> Answer {
    answer(mender::mend(&site, lent_out(table, len), lent_out(changes, count)), |changes| [changes as u64])
}

#[no_mangle]
pub extern "C" fn second_renumber(site: Site) -> Renumbered {
    match numbering::renumber(&site) {
        Ok(found) => Renumbered {
            site: found.site,
            new_of_old: found.new_of_old,
            old_of_new: found.old_of_new,
            answer: done(&[]),
        },
        Err(answer) => Renumbered { site, new_of_old: [0; 32], old_of_new: [0; 32], answer },
    }
}

/// # Safety
/// `new_table` has `new_len` bytes, `old_table` has `old_len`, and they do not overlap.
#[no_mangle]
pub unsafe extern "C" fn second_carry(
    site: Site,
    new_table: *const u8,
    new_len: usize,
    old_table: *mut u8,
    old_len: usize,
) -> Answer {
    answer(numbering::carry(&site, lent(new_table, new_len), lent_out(old_table, old_len)), |()| [])
}

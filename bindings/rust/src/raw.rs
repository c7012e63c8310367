//! The C interface, include/duggfrask.h, as it is. `tools/try-packages` holds the sizes and offsets of the records to the header's.

/// `dugg_site`: a site as C has it. Any values may stand in it; [`crate::Site`] has one that is in order.
#[repr(C)]
#[derive(Clone, Copy, Debug, Default, PartialEq, Eq, Hash)]
pub struct Record {
    pub cells: u16,
    pub slots: u16,
    pub channels: u16,
    pub loads: [u16; 32],
    pub reach: [u32; 32],
    pub blocked: [u64; 32],
    pub rule: u16,
}

/// `dugg_blocked`: the blocked positions alone. Position k is blocked when bit k % 64 of word k / 64 is set.
#[repr(C)]
#[derive(Clone, Copy, Debug, Default, PartialEq, Eq, Hash)]
pub struct Blocked {
    pub bits: [u64; 32],
}

/// `dugg_answer`: the number given back, and its values.
#[repr(C)]
#[derive(Clone, Copy, Debug, Default, PartialEq, Eq, Hash)]
pub struct Answer {
    pub number: u64,
    pub value: [u64; 3],
}

/// `dugg_edited`: a site and the answer beside it.
#[repr(C)]
#[derive(Clone, Copy, Debug, PartialEq, Eq)]
pub struct Edited {
    pub site: Record,
    pub answer: Answer,
}

/// `dugg_plan_read`: what a plan file says of its site.
#[repr(C)]
#[derive(Clone, Copy, Debug, PartialEq, Eq)]
pub struct PlanRead {
    pub cells: u16,
    pub slots: u16,
    pub channels: u16,
    pub answer: Answer,
}

/// `dugg_renumbered`: a site in new numbers, and both lists of numbers.
#[repr(C)]
#[derive(Clone, Copy, Debug, PartialEq, Eq)]
pub struct Renumbered {
    pub site: Record,
    pub new_of_old: [u16; 32],
    pub old_of_new: [u16; 32],
    pub answer: Answer,
}

/// `dugg_flow`: a flow that asks to be admitted: its cell by number, its burst in fragments, its period in slots, how many times
/// each fragment is sent (1 to 4), and what it is worth.
#[repr(C)]
#[derive(Clone, Copy, Debug, Default, PartialEq, Eq, Hash)]
pub struct Flow {
    pub cell: u16,
    pub burst: u16,
    pub period: u16,
    pub repeats: u16,
    pub value: u16,
}

extern "C" {
    pub fn dugg_fault(site: Record) -> Answer;
    pub fn dugg_clash(site: Record, a: u16, b: u16) -> Answer;
    pub fn dugg_set_load(site: Record, cell: u16, load: u16) -> Edited;
    pub fn dugg_set_reach(site: Record, from: u16, to: u16) -> Edited;
    pub fn dugg_clear_reach(site: Record, from: u16, to: u16) -> Edited;
    pub fn dugg_load_test(site: Record) -> Answer;
    pub fn dugg_chain(site: Record) -> Answer;
    pub fn dugg_class(site: Record) -> Answer;
    pub fn dugg_least(site: Record) -> Answer;
    pub fn dugg_heaviest(site: Record) -> Answer;
    pub fn dugg_plan(site: Record, table: *mut u8, len: usize) -> Answer;
    pub fn dugg_search(site: Record, limit: u64, table: *mut u8, len: usize) -> Answer;
    pub fn dugg_find(site: Record, limit: u64, table: *mut u8, len: usize) -> Answer;
    pub fn dugg_over_full(site: Record, cells: u32) -> Answer;
    pub fn dugg_check(site: Record, table: *const u8, len: usize) -> Answer;
    pub fn dugg_plan_words(site: Record, words: *mut u32, count: usize) -> Answer;
    pub fn dugg_check_words(site: Record, words: *const u32, count: usize) -> Answer;
    pub fn dugg_to_words(site: Record, table: *const u8, len: usize, words: *mut u32, count: usize) -> Answer;
    pub fn dugg_to_bytes(site: Record, words: *const u32, count: usize, table: *mut u8, len: usize) -> Answer;
    pub fn dugg_mend(site: Record, table: *mut u8, len: usize, changes: *mut u16, count: usize) -> Answer;
    pub fn dugg_change_load(site: *mut Record, cell: u16, load: u16, table: *mut u8, len: usize) -> Answer;
    pub fn dugg_renumber(site: Record) -> Renumbered;
    pub fn dugg_carry(site: Record, new: *const u8, new_len: usize, old: *mut u8, old_len: usize) -> Answer;
    pub fn dugg_share(slots: u16, burst: u16, period: u16) -> Answer;
    pub fn dugg_share_repeated(slots: u16, burst: u16, period: u16, repeats: u16) -> Answer;
    pub fn dugg_admit(site: Record, flows: *const Flow, count: usize) -> Answer;
    pub fn dugg_admit_beside(site: Record, flows: *const Flow, count: usize) -> Answer;
    pub fn dugg_read_site(bytes: *const u8, len: usize) -> Edited;
    pub fn dugg_write_site(site: Record, out: *mut u8, len: usize) -> Answer;
    pub fn dugg_read_plan(bytes: *const u8, len: usize, table: *mut u8, table_len: usize) -> PlanRead;
    pub fn dugg_write_plan(site: Record, table: *const u8, table_len: usize, out: *mut u8, len: usize) -> Answer;
    pub fn dugg_read_sheet(bytes: *const u8, len: usize, slots: u16, channels: u16, blocked: Blocked, rule: u16) -> Edited;
    pub fn dugg_write_sheet(site: Record, out: *mut u8, len: usize) -> Answer;
    pub fn dugg_tidy(sheet: *const u8, len: usize, out: *mut u8, out_len: usize) -> Answer;
    pub fn dugg_words(answer: Answer, call: u64, out: *mut u8, len: usize) -> Answer;
    pub fn dugg_why(site: Record, out: *mut u8, len: usize) -> Answer;
    pub fn dugg_list(bytes: *const u8, len: usize, out: *mut u8, out_len: usize) -> Answer;
    pub fn dugg_version() -> Answer;
}

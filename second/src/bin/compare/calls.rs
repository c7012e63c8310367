//! The two sides of the comparison: the calls of the proved library, linked from its archive, and those of the second
//! program, through the same C interface.

use second::admit::Flow;
use second::answer::Answer;
use second::capi::*;
use second::site::Site;

extern "C" {
    fn dugg_fault(site: Site) -> Answer;
    fn dugg_clash(site: Site, a: u16, b: u16) -> Answer;
    fn dugg_set_load(site: Site, cell: u16, load: u16) -> Edited;
    fn dugg_set_reach(site: Site, from: u16, to: u16) -> Edited;
    fn dugg_clear_reach(site: Site, from: u16, to: u16) -> Edited;
    fn dugg_load_test(site: Site) -> Answer;
    fn dugg_chain(site: Site) -> Answer;
    fn dugg_class(site: Site) -> Answer;
    fn dugg_least(site: Site) -> Answer;
    fn dugg_heaviest(site: Site) -> Answer;
    fn dugg_plan(site: Site, table: *mut u8, len: usize) -> Answer;
    fn dugg_search(site: Site, limit: u64, table: *mut u8, len: usize) -> Answer;
    fn dugg_find(site: Site, limit: u64, table: *mut u8, len: usize) -> Answer;
    fn dugg_over_full(site: Site, cells: u32) -> Answer;
    fn dugg_change_load(site: &mut Site, cell: u16, load: u16, table: *mut u8, len: usize) -> Answer;
    fn dugg_check(site: Site, table: *const u8, len: usize) -> Answer;
    fn dugg_share(slots: u16, burst: u16, period: u16) -> Answer;
    fn dugg_share_repeated(slots: u16, burst: u16, period: u16, repeats: u16) -> Answer;
    fn dugg_read_site(bytes: *const u8, len: usize) -> Edited;
    fn dugg_write_site(site: Site, out: *mut u8, len: usize) -> Answer;
    fn dugg_read_plan(bytes: *const u8, len: usize, table: *mut u8, table_len: usize) -> PlanRead;
    fn dugg_write_plan(site: Site, table: *const u8, table_len: usize, out: *mut u8, len: usize) -> Answer;
    fn dugg_read_sheet(bytes: *const u8, len: usize, slots: u16, channels: u16, blocked: Blocked, rule: u16) -> Edited;
    fn dugg_write_sheet(site: Site, out: *mut u8, len: usize) -> Answer;
    fn dugg_tidy(sheet: *const u8, len: usize, out: *mut u8, out_len: usize) -> Answer;
    fn dugg_admit(site: Site, flows: *const Flow, count: usize) -> Answer;
    fn dugg_admit_beside(site: Site, flows: *const Flow, count: usize) -> Answer;
    fn dugg_plan_words(site: Site, words: *mut u32, count: usize) -> Answer;
    fn dugg_check_words(site: Site, words: *const u32, count: usize) -> Answer;
    fn dugg_to_words(site: Site, table: *const u8, len: usize, words: *mut u32, count: usize) -> Answer;
    fn dugg_to_bytes(site: Site, words: *const u32, count: usize, table: *mut u8, len: usize) -> Answer;
    fn dugg_mend(site: Site, table: *mut u8, len: usize, changes: *mut u16, count: usize) -> Answer;
    fn dugg_renumber(site: Site) -> Renumbered;
    fn dugg_carry(site: Site, new_table: *const u8, new_len: usize, old_table: *mut u8, old_len: usize) -> Answer;
}

pub struct Calls {
    pub fault: unsafe extern "C" fn(Site) -> Answer,
    pub clash: unsafe extern "C" fn(Site, u16, u16) -> Answer,
    pub set_load: unsafe extern "C" fn(Site, u16, u16) -> Edited,
    pub set_reach: unsafe extern "C" fn(Site, u16, u16) -> Edited,
    pub clear_reach: unsafe extern "C" fn(Site, u16, u16) -> Edited,
    pub load_test: unsafe extern "C" fn(Site) -> Answer,
    pub chain: unsafe extern "C" fn(Site) -> Answer,
    pub class: unsafe extern "C" fn(Site) -> Answer,
    pub least: unsafe extern "C" fn(Site) -> Answer,
    pub heaviest: unsafe extern "C" fn(Site) -> Answer,
    pub plan: unsafe extern "C" fn(Site, *mut u8, usize) -> Answer,
    pub search: unsafe extern "C" fn(Site, u64, *mut u8, usize) -> Answer,
    pub find: unsafe extern "C" fn(Site, u64, *mut u8, usize) -> Answer,
    pub over_full: unsafe extern "C" fn(Site, u32) -> Answer,
    pub change_load: unsafe extern "C" fn(&mut Site, u16, u16, *mut u8, usize) -> Answer,
    pub check: unsafe extern "C" fn(Site, *const u8, usize) -> Answer,
    pub share: unsafe extern "C" fn(u16, u16, u16) -> Answer,
    pub share_repeated: unsafe extern "C" fn(u16, u16, u16, u16) -> Answer,
    pub read_site: unsafe extern "C" fn(*const u8, usize) -> Edited,
    pub write_site: unsafe extern "C" fn(Site, *mut u8, usize) -> Answer,
    pub read_plan: unsafe extern "C" fn(*const u8, usize, *mut u8, usize) -> PlanRead,
    pub write_plan: unsafe extern "C" fn(Site, *const u8, usize, *mut u8, usize) -> Answer,
    pub read_sheet: unsafe extern "C" fn(*const u8, usize, u16, u16, Blocked, u16) -> Edited,
    pub write_sheet: unsafe extern "C" fn(Site, *mut u8, usize) -> Answer,
    pub tidy: unsafe extern "C" fn(*const u8, usize, *mut u8, usize) -> Answer,
    pub admit: unsafe extern "C" fn(Site, *const Flow, usize) -> Answer,
    pub admit_beside: unsafe extern "C" fn(Site, *const Flow, usize) -> Answer,
    pub plan_words: unsafe extern "C" fn(Site, *mut u32, usize) -> Answer,
    pub check_words: unsafe extern "C" fn(Site, *const u32, usize) -> Answer,
    pub to_words: unsafe extern "C" fn(Site, *const u8, usize, *mut u32, usize) -> Answer,
    pub to_bytes: unsafe extern "C" fn(Site, *const u32, usize, *mut u8, usize) -> Answer,
    pub mend: unsafe extern "C" fn(Site, *mut u8, usize, *mut u16, usize) -> Answer,
    pub renumber: unsafe extern "C" fn(Site) -> Renumbered,
    pub carry: unsafe extern "C" fn(Site, *const u8, usize, *mut u8, usize) -> Answer,
}

pub const LIBRARY: Calls = Calls {
    fault: dugg_fault,
    clash: dugg_clash,
    set_load: dugg_set_load,
    set_reach: dugg_set_reach,
    clear_reach: dugg_clear_reach,
    load_test: dugg_load_test,
    chain: dugg_chain,
    class: dugg_class,
    least: dugg_least,
    heaviest: dugg_heaviest,
    plan: dugg_plan,
    search: dugg_search,
    find: dugg_find,
    over_full: dugg_over_full,
    change_load: dugg_change_load,
    check: dugg_check,
    share: dugg_share,
    share_repeated: dugg_share_repeated,
    read_site: dugg_read_site,
    write_site: dugg_write_site,
    read_plan: dugg_read_plan,
    write_plan: dugg_write_plan,
    read_sheet: dugg_read_sheet,
    write_sheet: dugg_write_sheet,
    tidy: dugg_tidy,
    admit: dugg_admit,
    admit_beside: dugg_admit_beside,
    plan_words: dugg_plan_words,
    check_words: dugg_check_words,
    to_words: dugg_to_words,
    to_bytes: dugg_to_bytes,
    mend: dugg_mend,
    renumber: dugg_renumber,
    carry: dugg_carry,
};

pub const SECOND: Calls = Calls {
    fault: second_fault,
    clash: second_clash,
    set_load: second_set_load,
    set_reach: second_set_reach,
    clear_reach: second_clear_reach,
    load_test: second_load_test,
    chain: second_chain,
    class: second_class,
    least: second_least,
    heaviest: second_heaviest,
    plan: second_plan,
    search: second_search,
    find: second_find,
    over_full: second_over_full,
    change_load: second_change_load,
    check: second_check,
    share: second_share,
    share_repeated: second_share_repeated,
    read_site: second_read_site,
    write_site: second_write_site,
    read_plan: second_read_plan,
    write_plan: second_write_plan,
    read_sheet: second_read_sheet,
    write_sheet: second_write_sheet,
    tidy: second_tidy,
    admit: second_admit,
    admit_beside: second_admit_beside,
    plan_words: second_plan_words,
    check_words: second_check_words,
    to_words: second_to_words,
    to_bytes: second_to_bytes,
    mend: second_mend,
    renumber: second_renumber,
    carry: second_carry,
};

//! Makes random cases: sites, tables, files and flows that are valid, nearly valid or damaged, so that every number is
//! given often. Sites and tables are made in `sites`, files in `files`, range sheets in `sheets`, lists of flows in
//! `admits`, tables of words in `word_tables`, tables to mend in `mends`, sites to renumber in `numberings`, sites to search in
//! `searches`, sites to find a plan for and sets of their cells in `finds`, changes of a load in `load_changes`,
//! sheets to tidy in `tidies`.

use crate::admits;
use crate::case::{Call, Case};
use crate::files::{plan_file, site_file};
use crate::finds;
use crate::load_changes;
use crate::mends;
use crate::numberings;
use crate::random::Random;
use crate::run::Run;
use crate::searches;
use crate::sheets::{self, sheet};
use crate::sites::{damage, sound_site, table};
use crate::tidies;
use crate::word_tables;
use second::site::Site;

/// What is called; the calls with most to get wrong are called twice as often.
const CALLS: &[Call] = &[
    Call::Fault,
    Call::Clash,
    Call::SetLoad,
    Call::SetReach,
    Call::ClearReach,
    Call::LoadTest,
    Call::Chain,
    Call::Class,
    Call::Least,
    Call::Heaviest,
    Call::Heaviest,
    Call::Plan,
    Call::Plan,
    Call::Search,
    Call::Search,
    Call::Find,
    Call::Find,
    Call::OverFull,
    Call::ChangeLoad,
    Call::Check,
    Call::Check,
    Call::Share,
    Call::ShareRepeated,
    Call::ReadSite,
    Call::ReadSite,
    Call::WriteSite,
    Call::ReadPlan,
    Call::ReadPlan,
    Call::WritePlan,
    Call::ReadSheet,
    Call::ReadSheet,
    Call::WriteSheet,
    Call::Tidy,
    Call::Tidy,
    Call::Admit,
    Call::AdmitBeside,
    Call::PlanWords,
    Call::CheckWords,
    Call::ToWords,
    Call::ToBytes,
    Call::Mend,
    Call::Mend,
    Call::Renumber,
    Call::Renumber,
    Call::Carry,
];

/// Makes one case and compares it; a file that is accepted is also written back.
pub fn compare(run: &mut Run, random: &mut Random) {
    let call = random.pick(CALLS);
    let mark = random.next();
    match call {
        Call::ReadSite => run.read_site(&site_file(random), mark),
        Call::ReadPlan => {
            let (file, due) = plan_file(random);
            run.read_plan(&file, near(random, due), mark);
        }
        Call::ReadSheet => {
            let (bytes, beside) = sheet(random);
            run.read_sheet(&bytes, &beside, mark);
        }
        Call::Share => {
            let flow = [near_number(random, 128), flow_number(random), flow_number(random)];
            run.compare(&Case::of(call, Site::default()).numbers(flow));
        }
        Call::ShareRepeated => {
            let [slots, burst, period] = [near_number(random, 128), flow_number(random), flow_number(random)];
            run.compare(&Case::of(call, Site::default()).numbers([slots, burst, period, near_number(random, 4)]));
        }
        Call::Tidy => {
            run.compare(&tidies::case(random));
        }
        Call::Admit | Call::AdmitBeside => {
            run.compare(&admits::case(random, call));
        }
        Call::PlanWords | Call::CheckWords | Call::ToWords | Call::ToBytes => {
            run.compare(&word_tables::case(random, call));
        }
        Call::Mend => {
            run.compare(&mends::case(random));
        }
        Call::Renumber | Call::Carry => {
            run.compare(&numberings::case(random, call));
        }
        Call::Search => {
            run.compare(&searches::case(random));
        }
        Call::Find | Call::OverFull => {
            run.compare(&finds::case(random, call));
        }
        Call::ChangeLoad => load_changes::compare(run, random),
        _ => {
            let case = with_site(random, call).numbers_for(random);
            run.compare(&case);
        }
    }
}

impl Case {
    /// Cells and loads for the calls that take some.
    fn numbers_for(self, random: &mut Random) -> Case {
        let cells = self.site.count();
        let second = if self.call == Call::SetLoad { random.next() as u16 } else { near_number(random, cells) };
        let first = near_number(random, cells);
        self.numbers([first, second, 0])
    }
}

/// A call that takes a site and perhaps lent memory.
fn with_site(random: &mut Random, call: Call) -> Case {
    let mut site = sound_site(random);
    let table = if matches!(call, Call::Check | Call::WritePlan) { table(random, &mut site) } else { Vec::new() };
    if random.once_in(8) {
        damage(random, &mut site);
    }
    let (mark, due) = (random.next(), (site.count() * site.positions()).min(70_000));
    let case = Case::of(call, site);
    match call {
        Call::Plan => {
            let len = near(random, due);
            case.output(&random.bytes(len), mark)
        }
        Call::Check => case.input(&resized(random, table, due), mark),
        Call::WriteSite => {
            let pairs: u32 = site.reach.iter().map(|row| row.count_ones()).sum();
            let bits = if site.has_blocked() { 4 + site.positions().min(2048).div_ceil(8) } else { 0 };
            let head = if site.rule == 2 { 12 } else { 10 };
            let len = near(random, head + 8 + 2 * site.count().min(33) + 2 * pairs as usize + bits);
            case.output(&random.bytes(len), mark)
        }
        Call::WriteSheet => {
            let len = near(random, sheets::lines(&site).concat().len());
            case.output(&random.bytes(len), mark)
        }
        Call::WritePlan => {
            let len = near(random, 14 + due.div_ceil(8));
            case.input(&resized(random, table, due), mark).output(&random.bytes(len), mark)
        }
        _ => case,
    }
}

/// The length that is due, mostly; otherwise one off, longer, shorter or 0.
pub fn near(random: &mut Random, due: usize) -> usize {
    match random.below(16) {
        0 => due.saturating_sub(1),
        1 => due + 1,
        2 => random.below(due + 1),
        3 => 0,
        4..=8 => due + random.below(40),
        _ => due,
    }
}

pub fn resized(random: &mut Random, mut table: Vec<u8>, due: usize) -> Vec<u8> {
    let len = near(random, due);
    if len > table.len() {
        let more = random.bytes(len - table.len());
        table.extend_from_slice(&more);
    }
    table.truncate(len);
    table
}

/// A number within 1..most, mostly; otherwise 0, just beyond, or any.
pub fn near_number(random: &mut Random, most: usize) -> u16 {
    match random.below(16) {
        0 => 0,
        1 => most.wrapping_add(1) as u16,
        2 => random.next() as u16,
        3 => random.between(0, 40) as u16,
        _ => (1 + random.below(most.max(1))) as u16,
    }
}

pub fn flow_number(random: &mut Random) -> u16 {
    match random.below(12) {
        0 => 0,
        1 => 1,
        2 => 65_535,
        3 | 4 => random.between(1, 8) as u16,
        5 | 6 => random.between(1, 600) as u16,
        7 => random.between(60_000, 65_535) as u16,
        _ => random.next() as u16,
    }
}

//! The cases with what the library gave, written out for the bindings to be put through: numbers little end first, no padding.
//! Of the three lent parts that may be written, those that a call left as they were are not written out a second time.
//! `bindings/rust/examples/replay.rs` and `bindings/python/tests/replay.py` read it.

use crate::case::{Call, Case, Seen};
use second::site::Site;
use std::io::{self, Write};

/// The call's number in the header.
fn number(call: Call) -> u32 {
    match call {
        Call::Fault => 1,
        Call::Clash => 2,
        Call::SetLoad => 3,
        Call::SetReach => 4,
        Call::ClearReach => 5,
        Call::LoadTest => 6,
        Call::Chain => 7,
        Call::Class => 8,
        Call::Least => 9,
        Call::Heaviest => 10,
        Call::Plan => 11,
        Call::Search => 12,
        Call::Find => 13,
        Call::OverFull => 14,
        Call::Check => 15,
        Call::PlanWords => 16,
        Call::CheckWords => 17,
        Call::ToWords => 18,
        Call::ToBytes => 19,
        Call::Mend => 20,
        Call::ChangeLoad => 21,
        Call::Renumber => 22,
        Call::Carry => 23,
        Call::Share => 24,
        Call::ShareRepeated => 25,
        Call::Admit => 26,
        Call::AdmitBeside => 27,
        Call::ReadSite => 28,
        Call::WriteSite => 29,
        Call::ReadPlan => 30,
        Call::WritePlan => 31,
        Call::ReadSheet => 32,
        Call::WriteSheet => 33,
        Call::Tidy => 34,
    }
}

fn site(out: &mut Vec<u8>, site: &Site) {
    for number in [site.cells, site.slots, site.channels].iter().chain(&site.loads) {
        out.extend(number.to_le_bytes());
    }
    site.reach.iter().for_each(|row| out.extend(row.to_le_bytes()));
    site.blocked.iter().for_each(|word| out.extend(word.to_le_bytes()));
    out.extend(site.rule.to_le_bytes());
}

/// One case: the call, what it is given, and what is seen after it.
pub fn write(to: &mut dyn Write, case: &Case, seen: &Seen) -> io::Result<()> {
    let mut out = Vec::new();
    out.extend(number(case.call).to_le_bytes());
    site(&mut out, &case.site);
    case.numbers.iter().for_each(|number| out.extend(number.to_le_bytes()));
    out.extend(case.limit.to_le_bytes());
    out.extend(case.cells.to_le_bytes());
    let counts = [case.input.len(), case.output.len(), case.flows.len(), case.words.len(), case.list.len()];
    counts.iter().for_each(|&count| out.extend((count as u32).to_le_bytes()));
    let changed = [seen.output.part() != case.output.part(), seen.words.part() != case.words.part(), seen.list.part() != case.list.part()];
    changed.iter().for_each(|&part| out.extend(u32::from(part).to_le_bytes()));
    out.extend(case.input.part());
    out.extend(case.output.part());
    for flow in case.flows.part() {
        for number in [flow.cell, flow.burst, flow.period, flow.repeats, flow.value] {
            out.extend(number.to_le_bytes());
        }
    }
    case.words.part().iter().for_each(|word| out.extend(word.to_le_bytes()));
    case.list.part().iter().for_each(|number| out.extend(number.to_le_bytes()));
    out.extend(seen.answer.number.to_le_bytes());
    seen.answer.value.iter().for_each(|value| out.extend(value.to_le_bytes()));
    site(&mut out, &seen.site);
    seen.numbers.iter().flatten().for_each(|number| out.extend(number.to_le_bytes()));
    if changed[0] {
        out.extend(seen.output.part());
    }
    if changed[1] {
        seen.words.part().iter().for_each(|word| out.extend(word.to_le_bytes()));
    }
    if changed[2] {
        seen.list.part().iter().for_each(|number| out.extend(number.to_le_bytes()));
    }
    to.write_all(&out)
}

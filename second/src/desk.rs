//! The desk's command (docs/DESK.md): what each command answers to its files and to its numbers. The words are in
//! `wording`, the files and their names in `input`, what is said of a site in `why`, the sheet of flows in `flows`.

mod asked;
mod audits;
mod flows;
mod input;
mod reports;
mod rooms;
mod sheets;
mod verdict;
mod why;
mod wording;

use crate::admit::{admit as admitted_set, admit_beside as admitted_beside, Flow};
use crate::answer::{Answer, Outcome};
use crate::blocklist::read_list;
use crate::checker;
use crate::files::{read_plan, read_site, write_plan, write_site};
use crate::handheld::change_load;
use crate::judge::first_split;
use crate::mender;
use crate::numbering;
use crate::planner;
use crate::search::{self, End};
use crate::share::{share as share_by_default, share_of, Fragments, Repeats, Share, Slots, NO_REPEATS_GIVEN};
use crate::sheet::{read_sheet, write_sheet};
use crate::site::{Positions, Site};
pub use asked::{
    audit, check_all, clashes, diff, find, made_line, picture, room, set, show, tidy, why, AuditFile, Ended,
};
pub use input::Input;
use input::Kind;
pub use reports::report;
pub use sheets::bad_line_told;
pub use verdict::last_word;
use wording::{
    bad_list, change_line, counted, no_room, no_room_beside, no_room_with, not_nested, refused, sends_wrongly, sizes,
    tries, wrong_flow, wrong_slots, Place,
};

/// Of each input no more than this is looked at.
const MOST_BYTES: usize = 65_536;

/// The bytes of the largest table: 32 cells, 128 slots and 16 channels.
const MOST_TABLE: usize = 65_536;

/// What a command that is done says: its result for standard output, and words for standard error. Its status is 0.
#[derive(Debug, Default, PartialEq, Eq)]
pub struct Done {
    pub result: Vec<u8>,
    pub words: String,
}

/// Done; or a no, with the line for standard error that says why. The status of a no is 1.
pub type Told = Result<Done, String>;

/// A result alone, with nothing to say beside it.
fn result(bytes: impl Into<Vec<u8>>) -> Told {
    Ok(Done { result: bytes.into(), words: String::new() })
}

fn seen<'a>(file: Input<'a>) -> Input<'a> {
    Input { bytes: &file.bytes[..file.bytes.len().min(MOST_BYTES)], ..file }
}

fn site_in(file: Input) -> Result<Site, String> {
    let refusal = |no: Answer| refused(no.number, Place::SiteFile(no.value[0]));
    read_site(seen(file).bytes).map_err(|no| seen(file).refused(Kind::SiteFile, refusal(no)))
}

/// What a writer writes. It has room for every file, and a site that was read is sound.
fn written(write: impl FnOnce(&mut [u8]) -> Result<usize, Answer>) -> Vec<u8> {
    let mut file = vec![0; MOST_BYTES];
    let len = write(&mut file).expect("a sound site and room enough");
    file.truncate(len);
    file
}

pub fn plan(site_file: Input) -> Told {
    let site = site_in(site_file)?;
    let mut table = vec![0; site.table_len()];
    planner::plan(&site, &mut table).map_err(|no| no_room(&no))?;
    let words = format!("planned: {}\n", sizes(&site, ", "));
    Ok(Done { result: written(|file| write_plan(&site, &table, file)), words })
}

/// The tries that a search makes at most where no number is given.
pub const TRIES_WITHOUT_A_NUMBER: u64 = 10_000_000;

pub fn search(site_file: Input, limit: u64) -> Told {
    let site = site_in(site_file)?;
    let mut table = vec![0; site.table_len()];
    let (end, made) = search::search(&site, limit, &mut table).map_err(|no| refused(no.number, Place::Nowhere))?;
    match end {
        End::Plan => {
            let words = format!("planned after {}\n", tries(made));
            Ok(Done { result: written(|file| write_plan(&site, &table, file)), words })
        }
        End::NoneExists => {
            let show = if made == 1 { "shows" } else { "show" };
            Err(format!("full: no plan exists, and {} {show} it\n", tries(made)))
        }
        End::LimitMet => Err(format!("not known: stopped at {}\n", tries(made))),
    }
}

/// The site and the table of a plan for it: the site file is read first, then the plan file, then the sizes compared.
fn site_and_table(site_file: Input, plan_file: Input) -> Result<(Site, Vec<u8>), String> {
    let site = site_in(site_file)?;
    let plan_file = seen(plan_file);
    let mut table = vec![0; MOST_TABLE];
    let refusal = |no: Answer| refused(no.number, Place::PlanFile(no.value[0]));
    let planned =
        read_plan(plan_file.bytes, &mut table).map_err(|no| plan_file.refused(Kind::PlanFile, refusal(no)))?;
    if (planned.cells, planned.slots, planned.channels) != (site.cells, site.slots, site.channels) {
        let sizes = sizes(&planned, " and ");
        let line = format!("refused: the plan is for {sizes}, and the site is of another size\n");
        return Err(plan_file.refused(Kind::PlanFile, line));
    }
    Ok((site, table))
}

pub fn check(site_file: Input, plan_file: Input) -> Told {
    let (site, table) = site_and_table(site_file, plan_file)?;
    checker::check(&site, &table).map_err(|no| sends_wrongly(&site, &no))?;
    result("valid\n")
}

pub fn mend(site_file: Input, plan_file: Input) -> Told {
    let (site, mut table) = site_and_table(site_file, plan_file)?;
    let mut list = vec![0; 4 * MOST_TABLE];
    let count = mender::mend(&site, &mut table, &mut list).map_err(|no| no_room_beside(&no))?;
    let mut words = match count {
        0 => String::from("valid as it is: nothing to change\n"),
        _ => format!("mended with {}\n", counted(count as u64, "change")),
    };
    for change in list.chunks_exact(4).take(count) {
        words += &change_line(&site, change);
    }
    Ok(Done { result: written(|file| write_plan(&site, &table, file)), words })
}

pub fn renumber(site_file: Input) -> Told {
    let site = site_in(site_file)?;
    let found = numbering::renumber(&site).map_err(|no| refused(no.number, Place::Nowhere))?;
    let mut words = String::new();
    for (cell, new) in (1..=site.cells).zip(found.new_of_old) {
        words += &format!("cell {cell} is now cell {new}\n");
    }
    Ok(Done { result: written(|file| write_site(&found.site, file)), words })
}

pub fn carry(site_file: Input, plan_file: Input) -> Told {
    let (site, new_numbered) = site_and_table(site_file, plan_file)?;
    let mut table = vec![0; site.table_len()];
    numbering::carry(&site, &new_numbered, &mut table).map_err(|no| refused(no.number, Place::Nowhere))?;
    result(written(|file| write_plan(&site, &table, file)))
}

/// What a change of a load writes, and its words for standard error.
#[derive(Debug, PartialEq, Eq)]
pub struct Changed {
    pub site: Vec<u8>,
    pub plan: Vec<u8>,
    pub words: String,
}

/// A plan file has no forbidden marks: it is the plan where its reservations are those of the site's own plan.
pub fn load(site_file: Input, plan_file: Input, cell: u16, load: u16) -> Result<Changed, String> {
    let (mut site, read) = site_and_table(site_file, plan_file)?;
    let mut table = vec![0; site.table_len()];
    let planned = planner::plan(&site, &mut table).is_ok();
    if !planned
        || table.iter().zip(&read).any(|(&own, &read)| (own == planner::RESERVED) != (read == planner::RESERVED))
    {
        // Then no table with these reservations is the plan.
        table.fill(planner::FORBIDDEN);
    }
    change_load(&mut site, cell.into(), load, &mut table).map_err(|no| match no.number {
        2 => refused(2, Place::Cell(no.value[0])),
        5 => no_room_with(&no),
        number => refused(number, Place::Nowhere),
    })?;
    let site_bytes = written(|file| write_site(&site, file));
    let plan_bytes = written(|file| write_plan(&site, &table, file));
    Ok(Changed { site: site_bytes, plan: plan_bytes, words: format!("planned: cell {cell} now has load {load}\n") })
}

pub fn sheet(site_file: Input) -> Told {
    let site = site_in(site_file)?;
    result(written(|file| write_sheet(&site, file)))
}

/// The positions that a list names, or the line for standard error: the command is used wrongly, and its status is 2.
pub fn blocked(list: &[u8], slots: u16, channels: u16) -> Result<Positions, String> {
    read_list(list, slots, channels).map_err(bad_list)
}

/// The site file of a range sheet. Slots and channels above 65,535 are given as 0, which is out of range as well: that
/// refusal is not the sheet's, and so it is with the rule. Blocked positions come from a list, which names none that the
/// site does not have.
pub fn site(sheet: Input, slots: u16, channels: u16, blocked: &Positions, rule: u16) -> Told {
    let sheet = seen(sheet);
    let site = read_sheet(sheet.bytes, slots, channels, blocked, rule).map_err(|no| {
        let value = no.value[0];
        match no.number {
            1 | 24 => refused(no.number, Place::Nowhere),
            17 => sheet.refused(Kind::RangeSheet, bad_line_told(sheet.bytes, value)),
            number => sheet.refused(Kind::RangeSheet, refused(number, Place::Cell(value))),
        }
    })?;
    Ok(Done { result: written(|file| write_site(&site, file)), words: made_line(&site) })
}

/// What a flow needs, in a superframe of so many slots. Numbers above 65,535 are given as 0, as `site` has it. Where no
/// repeats are given, the first line says what was taken.
pub fn share(slots: u16, burst: u16, period: u16, repeats: Option<u16>) -> Told {
    let (t, c, p) = (Slots(slots.into()), Fragments(burst.into()), Slots(period.into()));
    let answer = match repeats {
        None => share_by_default(t, c, p),
        Some(repeats) => share_of(t, c, p, Repeats(repeats.into())),
    };
    let Share { share, queue, delay } = answer.map_err(|no| match no.number {
        1 => wrong_slots(),
        15 => wrong_flow(burst.into(), period.into()),
        number => refused(number, Place::Nowhere),
    })?;
    let taken = match repeats {
        None => format!("repeats {}, since none were given\n", NO_REPEATS_GIVEN.0),
        Some(_) => String::new(),
    };
    let share = format!("share {} in a superframe\n", counted(share.0, "fragment"));
    let queue = format!("queue at most {}\n", counted(queue.0, "fragment"));
    let delay = format!("delay at most {}\n", counted(delay.0, "slot"));
    result(taken + &share + &queue + &delay)
}

pub fn admit(site_file: Input, flow_sheet: Input) -> Told {
    admitted(site_file, flow_sheet, admitted_set, "the loads of the site are set aside\n")
}

pub fn admit_beside(site_file: Input, flow_sheet: Input) -> Told {
    admitted(site_file, flow_sheet, admitted_beside, "on top of the loads of the site\n")
}

/// What an admission says, by the call that finds the set, and with this first line.
fn admitted(site_file: Input, flow_sheet: Input, set_of: fn(&Site, &[Flow]) -> Outcome<u32>, first_line: &str) -> Told {
    let site = site_in(site_file)?;
    let flow_sheet = seen(flow_sheet);
    let place = |no: &Answer| if no.number == 17 { Place::Line(no.value[0]) } else { Place::Nowhere };
    let flows = flows::read_flows(flow_sheet.bytes)
        .map_err(|no| flow_sheet.refused(Kind::FlowSheet, refused(no.number, place(&no))))?;
    let set = set_of(&site, &flows).map_err(|no| match no.number {
        5 => no_room(&no),
        19 => not_nested(first_split(&site, |_| true).expect("a site that is not nested")),
        number => refused(number, Place::Flow(no.value[0])),
    })?;
    let (mut lines, mut worth) = (String::from(first_line), 0);
    for (k, flow) in flows.iter().enumerate() {
        let taken = set >> k & 1 == 1;
        worth += if taken { flow.value as u64 } else { 0 };
        lines += &flow_line(&site, k + 1, flow, taken);
    }
    result(lines + &format!("worth {worth}\n"))
}

fn flow_line(site: &Site, number: usize, flow: &Flow, taken: bool) -> String {
    let Flow { cell, burst, period, repeats, value } = *flow;
    let (burst, period, repeats) = (Fragments(burst.into()), Slots(period.into()), Repeats(repeats.into()));
    let share = share_of(Slots(site.slots.into()), burst, period, repeats).expect("an admitted list has its shares");
    let taken = if taken { "taken" } else { "not taken" };
    format!("flow {number}: cell {cell}, share {}, value {value}, {taken}\n", share.share.0)
}

#[cfg(test)]
mod tests {
    use super::*;

    /// One cell, two slots, one channel, with this load.
    fn one(load: u16) -> Vec<u8> {
        let site = Site::sized(1, 2, 1).with_load(1, load).unwrap();
        written(|file| write_site(&site, file))
    }

    fn plan_of(site: &Site, table: &[u8]) -> Vec<u8> {
        written(|file| write_plan(site, table, file))
    }

    /// A file with no name to speak of.
    fn file(bytes: &[u8]) -> Input<'_> {
        Input { name: "f", bytes }
    }

    #[test]
    fn no_change_one_and_two() {
        let empty = plan_of(&Site::sized(1, 2, 1), &[0, 0]);
        for (load, table, words) in [
            (0, [0, 0], "valid as it is: nothing to change\n"),
            (1, [1, 0], "mended with 1 change\ncell 1: slot 1 channel 1 added\n"),
            (2, [1, 1], "mended with 2 changes\ncell 1: slot 1 channel 1 added\ncell 1: slot 2 channel 1 added\n"),
        ] {
            let mended = plan_of(&Site::sized(1, 2, 1), &table);
            assert_eq!(mend(file(&one(load)), file(&empty)), Ok(Done { result: mended.clone(), words: words.into() }));
            assert_eq!(check(file(&one(load)), file(&mended)), result("valid\n"));
            assert_eq!(
                plan(file(&one(load))),
                Ok(Done { result: mended, words: "planned: 1 cell, 2 slots, 1 channel\n".into() })
            );
        }
        let start = "refused 5, cell 1: ";
        let kept = "keeping these reservations leaves no room for 1 of its fragments; a fresh plan may do\n";
        assert_eq!(mend(file(&one(3)), file(&empty)), Err(format!("{start}{kept}")));
        let short = "no room for 1 of its fragments; duggfrask why says what that means\n";
        assert_eq!(plan(file(&one(3))), Err(format!("{start}{short}")));
    }

    #[test]
    fn the_site_first_then_the_plan_then_the_sizes() {
        let other = plan_of(&Site::sized(2, 1, 1), &[0, 0]);
        let line = "f: refused: the plan is for 2 cells, 1 slot and 1 channel, and the site is of another size\n";
        for command in [check, mend, carry] {
            assert_eq!(command(file(&one(1)), file(&other)), Err(line.into()));
            let start = |told: Told| told.unwrap_err().rsplit_once(": a ").unwrap().0.to_string();
            let plan = "f is a site file; a plan file is asked for: refused 9, byte 10 of the plan file";
            assert_eq!(start(command(file(&one(1)), file(&one(1)))), plan);
            let site = "f is a plan file; a site file is asked for: refused 9, byte 10 of the site file";
            assert_eq!(start(command(file(&other), file(&other))), site);
            assert!(command(file(b""), file(b"")).unwrap_err().starts_with("f: refused 8, byte 0 of the site file: "));
        }
    }

    /// Cells 1 and 2 clash with cell 3 and not with one another; the last number goes to cell 2, the one before to cell 3.
    #[test]
    fn a_fork_renumbered_and_its_plan_carried_back() {
        let fork = Site::sized(3, 1, 2).with_reach(3, 1, true).and_then(|site| site.with_reach(2, 3, true)).unwrap();
        let fork = fork.with_load(1, 1).and_then(|site| site.with_load(3, 2)).unwrap();
        let made = Site::sized(3, 1, 2).with_reach(2, 1, true).and_then(|site| site.with_reach(3, 2, true)).unwrap();
        let made = made.with_load(1, 1).and_then(|site| site.with_load(2, 2)).unwrap();
        let [old, new] = [fork, made].map(|site| written(|file| write_site(&site, file)));
        let words = String::from("cell 1 is now cell 1\ncell 2 is now cell 3\ncell 3 is now cell 2\n");
        assert_eq!(renumber(file(&old)), Ok(Done { result: new, words }));
        let [from, to] = [[1, 0, 0, 1, 1, 1], [1, 0, 1, 1, 0, 1]].map(|table| plan_of(&fork, &table));
        assert_eq!(carry(file(&old), file(&from)), result(to));
        let ring = [(1, 2), (2, 3), (3, 4), (4, 1)];
        let ring = ring.iter().fold(Site::sized(4, 1, 1), |site, &(a, b)| site.with_reach(a, b, true).unwrap());
        let ring_file = written(|file| write_site(&ring, file));
        let line = "refused 23: no numbering makes the site nested when all its cells count, the spare ones too\n";
        assert_eq!(renumber(file(&ring_file)), Err(line.into()));
        assert_eq!(carry(file(&ring_file), file(&plan_of(&ring, &[0; 4]))), Err(line.into()));
    }

    /// P6, where load 0 in cell 5 is planned, and load 0 in cell 2 leaves cell 5 no room.
    #[test]
    fn a_load_changed() {
        let mut p6 = Site::sized(5, 2, 1);
        for (from, to) in [(1, 4), (2, 3), (3, 5), (4, 5)] {
            p6 = p6.with_reach(from, to, true).unwrap();
        }
        p6.loads[..5].fill(1);
        let own = written(|file| write_site(&p6, file));
        let planned = plan(file(&own)).unwrap().result;
        let made = load(file(&own), file(&planned), 5, 0).unwrap();
        let edited = written(|file| write_site(&p6.with_load(5, 0).unwrap(), file));
        assert_eq!((&made.site, made.words.as_str()), (&edited, "planned: cell 5 now has load 0\n"));
        assert_eq!(made.plan, plan(file(&edited)).unwrap().result);
        let no = |cell, with: u16, plan: &[u8]| load(file(&own), file(plan), cell, with).unwrap_err();
        let line = "refused 5, cell 5: with this load there is no room for 1 of its fragments\n";
        assert_eq!(no(2, 0, &planned), line);
        let line =
            "refused 26: the table is not the plan of the site as it is, so that one load can't be changed in it\n";
        assert_eq!(no(1, 1, &plan_of(&p6, &[0; 10])), line);
        let line = "refused 2, cell 6: a load or a flow is for a cell that the site does not have\n";
        assert_eq!(no(6, 1, &plan_of(&p6, &[0; 10])), line);
        assert_eq!(load(file(&own), file(&planned), 3, 1).unwrap().plan, planned);
    }

    #[test]
    fn shares_of_one_and_two() {
        let said = |text: &str| result(text);
        let one = "share 1 fragment in a superframe\nqueue at most 2 fragments\ndelay at most 2 slots\n";
        assert_eq!(share(1, 1, 1, Some(1)), said(one));
        let two = "share 2 fragments in a superframe\nqueue at most 2 fragments\ndelay at most 2 slots\n";
        assert_eq!(share(1, 1, 1, Some(2)), said(two));
        assert_eq!(share(1, 1, 1, None), said(&format!("repeats 2, since none were given\n{two}")));
        for (numbers, number) in [
            ((0, 0, 0), "refused 1: the slots "),
            ((1, 0, 0), "refused 15: the burst "),
            ((1, 1, 0), "refused 15: the period "),
            ((2, 65_535, 1), "refused 16: "),
        ] {
            for repeats in [None, Some(1)] {
                assert!(share(numbers.0, numbers.1, numbers.2, repeats).unwrap_err().starts_with(number));
            }
        }
        assert!(share(1, 1, 1, Some(0)).unwrap_err().starts_with("refused 15: the repeats "));
    }

    #[test]
    fn sheets_and_their_refusals() {
        let sheet_of_one = b"cell,load,1\r\n1,1,0\r\n";
        assert_eq!(sheet(file(&one(1))), result(*sheet_of_one));
        let site = |bytes, slots, channels| site(file(bytes), slots, channels, &[0; 32], 1);
        let words = String::from("made: 1 cell, 2 slots, 1 channel, 0 clashes\n");
        assert_eq!(site(sheet_of_one, 2, 1), Ok(Done { result: one(1).to_vec(), words }));
        assert!(site(sheet_of_one, 0, 1).unwrap_err().starts_with("refused 1: "));
        assert!(site(b"cell,load,1\r\n1,1,1\r\n", 2, 1).unwrap_err().starts_with("f: refused 3, cell 1: "));
        let line = "f: refused 17, line 2: the sheet ends before this line\n";
        assert_eq!(site(b"cell,load,1\r\n", 0, 1), Err(String::from(line)));
    }

    #[test]
    fn a_sheet_with_a_list_of_blocked_positions() {
        let set = blocked(b"2.*", 2, 1).unwrap();
        let made = site(file(b"cell,load,1\r\n1,1,0\r\n"), 2, 1, &set, 1).unwrap().result;
        assert_eq!(made, [&one(1)[..], &[3, 0, 6, 0, 2]].concat());
        assert_eq!(sheet(file(&made)), result(*b"cell,load,1\r\n1,1,0\r\n"));
        let line = "--blocked: at character 5 stands no slot.channel of this site\n";
        assert_eq!(blocked(b"1.1,3.1", 2, 1), Err(line.into()));
    }

    #[test]
    fn a_sheet_with_its_rule() {
        let (sheet_of_one, none) = (b"cell,load,1\r\n1,1,0\r\n", [0; 32]);
        let made = site(file(sheet_of_one), 2, 1, &none, 2).unwrap().result;
        assert_eq!(made, [&[10, 0, 5, 0, 1, 0, 2, 0, 1, 0, 2, 0], &one(1)[10..]].concat());
        assert_eq!(sheet(file(&made)), result(*sheet_of_one));
        let line = "refused 24: the rule is not 1 or 2, or not 2 where a site file says it\n";
        for rule in [0, 3, 65_535] {
            assert_eq!(site(file(sheet_of_one), 2, 1, &none, rule), Err(line.into()));
            assert!(site(file(sheet_of_one), 0, 1, &none, rule).unwrap_err().starts_with("refused 1: "));
            assert!(site(file(b""), 2, 1, &none, rule).unwrap_err().starts_with("f: refused 17, line 1: "));
        }
        let mut wrong = made.clone();
        wrong[10] = 1;
        let line =
            "f: refused 24, byte 0 of the site file: the rule is not 1 or 2, or not 2 where a site file says it\n";
        let named = "f is a site file; a plan file is asked for: refused 9, byte 0 of the plan file: ";
        assert_eq!(plan(file(&wrong)), Err(line.into()));
        assert!(check(file(&made), file(&made)).unwrap_err().starts_with(named));
    }

    #[test]
    fn a_plan_that_sends_where_it_is_blocked() {
        let empty = plan_of(&Site::sized(1, 2, 1), &[0, 0]);
        let first = plan_of(&Site::sized(1, 2, 1), &[1, 0]);
        let second = plan_of(&Site::sized(1, 2, 1), &[0, 1]);
        let site = [&one(1)[..], &[3, 0, 6, 0, 1]].concat();
        let line = "refused 22: cell 1 sends in slot 1, channel 1, which is blocked\n";
        assert_eq!(check(file(&site), file(&first)), Err(line.into()));
        assert_eq!(plan(file(&site)).unwrap().result, second);
        assert_eq!(
            mend(file(&site), file(&empty)).unwrap().words,
            "mended with 1 change\ncell 1: slot 2 channel 1 added\n"
        );
        let both = "mended with 2 changes\ncell 1: slot 1 channel 1 dropped\ncell 1: slot 2 channel 1 added\n";
        assert_eq!(mend(file(&site), file(&first)), Ok(Done { result: second, words: both.into() }));
    }

    #[test]
    fn flows_taken_and_not() {
        let said = |lines: &str| {
            let sheet = format!("cell,burst,period,repeats,value\r\n{lines}");
            admit(file(&one(9)), file(sheet.as_bytes()))
        };
        let aside = "the loads of the site are set aside\n";
        assert_eq!(said(""), result(format!("{aside}worth 0\n")));
        let both = "flow 1: cell 1, share 2, value 3, not taken\nflow 2: cell 1, share 2, value 4, taken\nworth 4\n";
        assert_eq!(said("1,1,1,1,3\r\n1,1,2,2,4\r\n"), result(format!("{aside}{both}")));
        assert!(said("1,1,1,1,3\r\n2,1,1,1,1\r\n").unwrap_err().starts_with("refused 2, flow 2: "));
        assert!(said("1,1,1,5,3\r\n").unwrap_err().starts_with("refused 15, flow 1: "));
        assert!(said("1,1\r\n").unwrap_err().starts_with("f: refused 17, line 2: "));
        assert!(said(&"1,1,1,1,1\r\n".repeat(17)).unwrap_err().starts_with("f: refused 18: "));
    }

    #[test]
    fn three_cells_that_are_not_nested() {
        let site = Site::sized(4, 1, 1).with_reach(4, 1, true).and_then(|site| site.with_reach(2, 4, true)).unwrap();
        let made = written(|out| write_site(&site, out));
        let line = "refused 19: the site is not nested when all its cells count, the spare ones too: cells 1 and 2 clash with cell 4, and not with one another\n";
        assert_eq!(admit(file(&made), file(b"cell,burst,period,repeats,value\r\n")), Err(line.into()));
    }

    #[test]
    fn of_a_file_the_first_65536_bytes() {
        // The reach record begins at byte 16, and its pairs are wrong: which shows only if all of it is looked at.
        for (length, number) in [(65_518u16, "f: refused 3, "), (65_520, "f: refused 8, ")] {
            let mut bytes = one(1)[..16].to_vec();
            bytes.extend(length.to_le_bytes());
            bytes.extend([3, 0]);
            bytes.resize(18 + length as usize, 0);
            assert!(why(file(&bytes), 0).words.starts_with(number), "{length}");
        }
    }
}

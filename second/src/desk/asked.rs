//! What the desk asks all day: `find`, `why`, `room`, `set`, `clashes`, `check --all`, `diff`, `show`, `tidy` and `audit`.

use super::audits::{audit_line, csv_line, total_lines, CSV_FIRST};
use super::input::{Input, Kind};
use super::rooms::room_lines;
use super::sheets::{change_lines, not_tidied};
use super::verdict::{find_line, status};
use super::why::why as why_lines;
use super::wording::{change_line, counted, no_room, refused, sends_wrongly, sizes, Place};
use super::{seen, site_and_table, site_in, written, MOST_BYTES};
use crate::audit::{self, Totals};
use crate::checker;
use crate::clashes::{clashes as clashes_of, Clash};
use crate::edits::{read_edits, set as edited_site, BadWords, NotSet};
use crate::files::{write_plan, write_site};
use crate::find::find as found_for;
use crate::mender;
use crate::picture::picture as picture_of;
use crate::planner;
use crate::room::rooms;
use crate::show::{shown, Form};
use crate::site::Site;
use crate::tidy::tidied;

/// How a command ends: its result for standard output, its words for standard error, and its exit status.
#[derive(Debug, Default, PartialEq, Eq)]
pub struct Ended {
    pub result: Vec<u8>,
    pub words: String,
    pub status: u8,
}

/// A no, with its line for standard error.
fn no(words: String) -> Ended {
    Ended { words, status: 1, ..Ended::default() }
}

/// Used wrongly.
fn wrong(words: String) -> Ended {
    Ended { words, status: 2, ..Ended::default() }
}

/// A result, with nothing to say beside it.
fn lines(result: String, status: u8) -> Ended {
    Ended { result: result.into_bytes(), status, ..Ended::default() }
}

/// What comes of it, a no or not.
fn ended(end: Result<Ended, String>) -> Ended {
    end.unwrap_or_else(no)
}

pub fn find(site_file: Input, limit: u64) -> Ended {
    ended(site_in(site_file).map(|site| {
        let mut table = vec![0; site.table_len()];
        let found = found_for(&site, limit, &mut table).expect("a sound site and a table of its size");
        let plan = found.is_plan().then(|| written(|file| write_plan(&site, &table, file)));
        Ended { result: plan.unwrap_or_default(), words: find_line(&site, &found), status: status(&found) }
    }))
}

/// What can be said of a site, and last what is found for it; the status is that of `find`.
pub fn why(site_file: Input, limit: u64) -> Ended {
    ended(site_in(site_file).map(|site| {
        let found =
            found_for(&site, limit, &mut vec![0; site.table_len()]).expect("a sound site and a table of its size");
        lines(why_lines(&site, &found), status(&found))
    }))
}

pub fn room(site_file: Input, limit: u64) -> Ended {
    ended(site_in(site_file).map(|site| lines(room_lines(&site, &rooms(&site, limit).expect("a sound site")), 0)))
}

/// Words that are no edits are found before the file is read. A list that is none for the site is used wrongly, too.
pub fn set(site_file: Input, words: &[&str]) -> Ended {
    let edits = match read_edits(words) {
        Ok(edits) => edits,
        Err(bad) => return wrong(bad_words(&bad)),
    };
    ended(site_in(site_file).map(|site| match edited_site(&site, &edits) {
        Ok(made) => Ended { result: written(|file| write_site(&made, file)), ..Ended::default() },
        Err((k, why)) => not_set(&words[2 * k..2 * k + 2].join(" "), why),
    }))
}

fn bad_words(bad: &BadWords) -> String {
    let names = "load, reach, clear, blocked, rule, slots and channels";
    match bad {
        BadWords::None => format!("set: no edit is given; the edits are {names}\n"),
        BadWords::NoEdit(word) => format!("set: '{word}' is no edit; the edits are {names}\n"),
        BadWords::Missing(name, asked) => format!("set: after {name} stands nothing; it takes {asked}\n"),
        BadWords::Bad(name, asked, word) => format!("set: after {name} stands '{word}'; it takes {asked}\n"),
    }
}

/// A refused edit, with its words in front.
fn not_set(words: &str, why: NotSet) -> Ended {
    let refusal = match why {
        NotSet::BadList(at) => {
            return wrong(format!("{words}: at character {} stands no slot.channel of this site\n", at + 1));
        }
        NotSet::Refused(refusal) => refusal,
    };
    let place = match refusal.number {
        2 | 3 => Place::Cell(refusal.value[0]),
        20 => Place::Position(refusal.value[0]),
        _ => Place::Nowhere,
    };
    no(format!("{words}: {}", refused(refusal.number, place)))
}

pub fn clashes(site_file: Input) -> Ended {
    ended(site_in(site_file).map(|site| {
        let clashes = clashes_of(&site).expect("a sound site");
        let mut text: String = clashes.iter().map(clash_line).collect();
        text += &format!("{}, rule {}\n", clash_count(clashes.len()), site.rule);
        lines(text, 0)
    }))
}

/// `1 clash`, but `0 clashes` and `2 clashes`.
fn clash_count(count: usize) -> String {
    format!("{count} clash{}", if count == 1 { "" } else { "es" })
}

fn clash_line(clash: &Clash) -> String {
    let Clash { first, second, forth, back, third } = *clash;
    let reach = match (forth, back) {
        (true, true) => Some(String::from("each reaches the other")),
        (true, false) => Some(format!("{first} reaches {second}")),
        (false, true) => Some(format!("{second} reaches {first}")),
        (false, false) => None,
    };
    let third = third.map(|third| format!("both reach {third}"));
    let ways: Vec<String> = reach.into_iter().chain(third).collect();
    format!("{first} and {second} clash: {}\n", ways.join(", and "))
}

/// What a site is that was made: its sizes, and how many of its cells clash.
pub fn made_line(site: &Site) -> String {
    let clashes = clashes_of(site).expect("a sound site").len();
    format!("made: {}, {}\n", sizes(site, ", "), clash_count(clashes))
}

pub fn check_all(site_file: Input, plan_file: Input) -> Ended {
    ended(site_and_table(site_file, plan_file).map(|(site, table)| {
        let faults = checker::check_all(&site, &table).expect("a sound site and its table");
        if faults.is_empty() {
            return lines(String::from("valid\n"), 0);
        }
        let mut text: String = faults.iter().map(|fault| sends_wrongly(&site, fault)).collect();
        text += &format!("not valid: {} wrong\n", counted(faults.len() as u64, "thing"));
        lines(text, 1)
    }))
}

/// A plan in a form, or the plan that is made; of one that is not valid the first thing wrong besides.
pub fn show(site_file: Input, plan_file: Option<Input>, form: Form) -> Ended {
    of_plan(site_file, plan_file, |site, table| shown(site, table, form))
}

/// The same as a picture. Where the planner finds no room nobody sends in it, and the planner's words are said besides.
pub fn picture(site_file: Input, plan_file: Option<Input>) -> Ended {
    if plan_file.is_some() {
        return of_plan(site_file, plan_file, picture_of);
    }
    ended(site_in(site_file).map(|site| {
        let mut table = vec![0; site.table_len()];
        let words = planner::plan(&site, &mut table).map_or_else(|no| no_room(&no), |_| String::new());
        Ended { result: picture_of(&site, &table).into_bytes(), words, status: 0 }
    }))
}

fn of_plan(site_file: Input, plan_file: Option<Input>, text: impl Fn(&Site, &[u8]) -> String) -> Ended {
    let all = || -> Result<Ended, String> {
        let Some(plan_file) = plan_file else {
            let site = site_in(site_file)?;
            let mut table = vec![0; site.table_len()];
            planner::plan(&site, &mut table).map_err(|no| no_room(&no))?;
            return Ok(lines(text(&site, &table), 0));
        };
        let (site, table) = site_and_table(site_file, plan_file)?;
        let words = checker::check(&site, &table).map_or_else(|no| sends_wrongly(&site, &no), |_| String::new());
        Ok(Ended { result: text(&site, &table).into_bytes(), words, status: 0 })
    };
    ended(all())
}

/// The site is read first, then the first plan, then the second.
pub fn diff(site_file: Input, old_file: Input, new_file: Input) -> Ended {
    let both = || -> Result<Ended, String> {
        let (site, old) = site_and_table(site_file, old_file)?;
        let (_, new) = site_and_table(site_file, new_file)?;
        let changes = mender::diff(&site, &old, &new).expect("a sound site and two tables of its size");
        let mut text = match changes.len() {
            0 => String::from("no change\n"),
            count => counted(count as u64, "change") + "\n",
        };
        text.extend(changes.iter().map(|change| change_line(&site, change)));
        Ok(lines(text, 0))
    };
    ended(both())
}

pub fn tidy(sheet: Input) -> Ended {
    let sheet = seen(sheet);
    match tidied(sheet.bytes) {
        Ok((result, changes)) => Ended { result, words: change_lines(&changes), status: 0 },
        Err(refusal) => no(sheet.refused(Kind::RangeSheet, not_tidied(refusal.value[0]))),
    }
}

/// A site file to audit, and the bytes of the plan file beside it, if there is one.
pub struct AuditFile<'a> {
    pub site: Input<'a>,
    pub plan: Option<&'a [u8]>,
}

/// The lines of all sites, sorted by name, and the counts; and the comma-separated sheet.
pub fn audit(files: &mut [AuditFile], limit: u64) -> (Ended, String) {
    files.sort_by(|a, b| a.site.name.as_bytes().cmp(b.site.name.as_bytes()));
    let (mut text, mut csv, mut totals) = (String::new(), String::from(CSV_FIRST), Totals::default());
    for file in files {
        let part = |bytes: &'_ [u8]| bytes.len().min(MOST_BYTES);
        let plan = file.plan.map(|bytes| &bytes[..part(bytes)]);
        let said = audit::audit(seen(file.site).bytes, plan, limit);
        totals.count(&said);
        text += &audit_line(file.site.name, &said);
        csv += &csv_line(file.site.name, &said);
    }
    text += &total_lines(&totals);
    (lines(text, !totals.all_well() as u8), csv)
}

#[cfg(test)]
mod tests {
    use super::*;

    const NORTH: &[u8] = include_bytes!("../../../samples/north.site");
    const CUSTOMER: &[u8] = include_bytes!("../../../samples/customer.plan");
    const P1: &[u8] = include_bytes!("../../../samples/p1.site");
    const P1_PLAN: &[u8] = include_bytes!("../../../samples/p1.plan");
    const P4: &[u8] = include_bytes!("../../../samples/p4.site");
    const EDGE2: &[u8] = include_bytes!("../../../samples/edge2.site");
    const EDGE1_PLAN: &[u8] = include_bytes!("../../../samples/edge1.plan");
    const SURVEY: &[u8] = include_bytes!("../../../samples/survey.csv");
    const NORTH_SHEET: &[u8] = include_bytes!("../../../samples/north.sheet.csv");

    fn file(bytes: &[u8]) -> Input<'_> {
        Input { name: "f", bytes }
    }

    fn text(end: &Ended) -> &str {
        std::str::from_utf8(&end.result).unwrap()
    }

    #[test]
    fn found() {
        let end = find(file(P1), 0);
        assert_eq!((end.status, end.words.as_str()), (0, "planned: 3 cells, 3 slots, 2 channels\n"));
        assert_eq!(end.result, P1_PLAN);
        let end = find(file(P4), 0);
        assert_eq!(end.words, "planned with the cells renumbered: 4 cells, 2 slots, 1 channel\n");
        assert_eq!(super::super::check(file(P4), file(&end.result)).unwrap().result, b"valid\n");
        let end = find(file(P1_PLAN), 0);
        assert_eq!((end.status, end.result.len()), (1, 0));
        assert!(end.words.starts_with("f is a plan file; a site file is asked for: refused 9, byte 10"));
    }

    #[test]
    fn edits_and_what_is_wrong_with_them() {
        let said = |words: &str| {
            let words: Vec<&str> = words.split_whitespace().collect();
            let end = set(file(NORTH), &words);
            (end.status, end.words, end.result)
        };
        let (status, words, site) = said("load 2=12");
        assert_eq!((status, words.as_str()), (0, ""));
        let line = "full (cells 1, 2): they clash with one another and need 18 channel-slots, and the site has 16\n";
        assert_eq!(find(file(&site), 0).words, line);
        assert_eq!(said("load 2=5").2, NORTH);
        for (words, status, start) in [
            ("", 2, "set: no edit is given; the edits are load, reach"),
            (
                "laod 2=12",
                2,
                "set: 'laod' is no edit; the edits are load, reach, clear, blocked, rule, slots and channels\n",
            ),
            ("slots 9 load", 2, "set: after load stands nothing; it takes CELL=LOAD\n"),
            ("clear 1>2", 2, "set: after clear stands '1>2'; it takes FROM-TO\n"),
            ("blocked 1.1,9.1", 2, "blocked 1.1,9.1: at character 5 stands no slot.channel of this site\n"),
            (
                "load 1=1 load 6=1",
                1,
                "load 6=1: refused 2, cell 6: a load or a flow is for a cell that the site does not have\n",
            ),
            ("reach 2-2", 1, "reach 2-2: refused 3, cell 2: the reach has a cell that reaches itself"),
            ("slots 129", 1, "slots 129: refused 1: the size is out of range"),
            ("rule 3", 1, "rule 3: refused 24: the rule is not 1 or 2"),
            (
                "blocked 8.2 slots 7",
                1,
                "slots 7: refused 20, position 15: a blocked position is one that the site does not have",
            ),
        ] {
            let said = said(words);
            assert_eq!((said.0, said.2.len()), (status, 0), "{words}");
            assert!(said.1.starts_with(start), "{words}: {}", said.1);
        }
        // Words that are no edits come before the file.
        assert_eq!(set(file(b""), &["slots"]).status, 2);
        assert_eq!(set(file(b""), &["slots", "3"]).status, 1);
    }

    #[test]
    fn who_reaches_whom() {
        let due = "1 and 2 clash: 1 reaches 2\n2 and 3 clash: each reaches the other\n3 and 4 clash: 3 reaches 4\n\
                   4 and 5 clash: 4 reaches 5\n4 clashes, rule 1\n";
        assert_eq!(text(&clashes(file(NORTH))), due);
        let due = "1 and 2 clash: 1 reaches 2\n2 and 4 clash: 2 reaches 4\n2 and 5 clash: both reach 4\n\
                   4 and 5 clash: 5 reaches 4\n4 clashes, rule 2\n";
        assert_eq!(text(&clashes(file(EDGE2))), due);
        let both = Clash { first: 1, second: 4, forth: true, back: false, third: Some(2) };
        assert_eq!(clash_line(&both), "1 and 4 clash: 1 reaches 4, and both reach 2\n");
        assert_eq!([0, 1, 2].map(clash_count), ["0 clashes", "1 clash", "2 clashes"]);
        assert_eq!(
            made_line(&super::super::site_in(file(NORTH)).unwrap()),
            "made: 5 cells, 8 slots, 2 channels, 4 clashes\n"
        );
    }

    #[test]
    fn every_fault() {
        let end = check_all(file(NORTH), file(CUSTOMER));
        let due = "\
refused 6: cells 1 and 2 clash (1 reaches 2), and both send in slot 3, channel 1
refused 6: cells 1 and 2 clash (1 reaches 2), and both send in slot 3, channel 2
refused 7: cell 4 sends 6 times in a superframe, and its load is 7
not valid: 3 things wrong
";
        assert_eq!((end.status, text(&end)), (1, due));
        let end = check_all(file(P1), file(P1_PLAN));
        assert_eq!((end.status, text(&end)), (0, "valid\n"));
    }

    #[test]
    fn from_plan_to_plan() {
        let mended = super::super::mend(file(NORTH), file(CUSTOMER)).unwrap();
        let end = diff(file(NORTH), file(CUSTOMER), file(&mended.result));
        assert_eq!(text(&end).replacen("5 changes", "mended with 5 changes", 1), mended.words);
        let same = diff(file(NORTH), file(CUSTOMER), file(CUSTOMER));
        assert_eq!((same.status, text(&same)), (0, "no change\n"));
        let other = diff(file(EDGE2), file(EDGE1_PLAN), file(P1_PLAN));
        assert_eq!(other.status, 1);
        assert!(other.words.starts_with("f: refused: the plan is for 3 cells"), "{}", other.words);
    }

    #[test]
    fn tidied_sheets() {
        let end = tidy(file(SURVEY));
        assert_eq!((end.status, end.words.as_str()), (0, "tidied\nfrom line 1 on, 6 times: CR LF put for LF\n"));
        assert_eq!(end.result, NORTH_SHEET);
        assert_eq!(tidy(file(NORTH_SHEET)).words, "tidy as it is: nothing to change\n");
        let end = tidy(file(b"cell,load,1\n1,x,0\n"));
        assert_eq!((end.status, end.words.as_str()), (1, "f: refused 17, line 2: this line can't be tidied\n"));
    }

    #[test]
    fn audited_by_name() {
        let mut files = [("b.site", P1, Some(P1_PLAN)), ("a.site", NORTH, Some(CUSTOMER)), ("B", P4, None)]
            .map(|(name, bytes, plan)| AuditFile { site: Input { name, bytes }, plan });
        let (end, csv) = audit(&mut files, 100);
        let names: Vec<&str> = text(&end).lines().take(3).map(|line| line.split(':').next().unwrap()).collect();
        assert_eq!(names, ["B", "a.site", "b.site"]);
        assert_eq!((end.status, csv.lines().count()), (1, 4));
        assert_eq!(text(&end).lines().nth(3), Some("3 sites: 3 with a plan, 0 full, 0 not known, 0 refused"));
        let (end, _) = audit(&mut files[..1], 100);
        assert_eq!(end.status, 0);
    }
}

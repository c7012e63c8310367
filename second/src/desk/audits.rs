//! `duggfrask audit`: a line for each site file, the counts, and the same as a comma-separated sheet.

use super::verdict::last_word;
use super::wording::{counted, refused, sends_wrongly, sizes, Place};
use crate::answer::Outcome;
use crate::audit::{Audited, Class, PlanSaid, Totals};
use crate::find::Found;
use crate::heaviest::cells_of;

/// A name as it is shown: a byte that is no character of a line is a question mark.
fn shown(name: &str) -> String {
    name.replace(|c: char| c.is_ascii_control(), "?")
}

/// The line of one site file.
pub fn audit_line(name: &str, said: &Outcome<Audited>) -> String {
    let name = shown(name);
    match said {
        Err(no) => format!("{name}: {}", refused(no.number, Place::SiteFile(no.value[0]))),
        Ok(audited) => format!("{name}: {}\n", site_words(audited)),
    }
}

fn site_words(audited: &Audited) -> String {
    let Audited { site, class, found, .. } = audited;
    let start = format!("{}, rule {}, {}; {}", sizes(site, ", "), site.rule, class_word(*class), last_word(found));
    let plan = audited.plan.as_ref().map_or(String::new(), |plan| format!("; {}", plan_words(audited, plan)));
    format!("{start}; {}{plan}", takes_words(audited))
}

fn class_word(class: Class) -> &'static str {
    match class {
        Class::Chained => "chained",
        Class::Nested => "nested",
        Class::Renumbered => "renumbered",
        Class::Neither => "neither",
    }
}

/// How many channel-slots it takes, of how many open ones.
fn takes_words(audited: &Audited) -> String {
    let Audited { needs, enough, .. } = audited;
    let open = audited.site.room();
    if needs == enough {
        format!("takes {needs} of {open}")
    } else {
        format!("takes {needs} to {enough} of {open}")
    }
}

fn plan_words(audited: &Audited, plan: &PlanSaid) -> String {
    match plan {
        PlanSaid::Valid => String::from("plan valid"),
        PlanSaid::Refused(no) => plan_line(refused(no.number, Place::PlanFile(no.value[0]))),
        PlanSaid::OtherSize(planned) => format!("plan refused: it is for {}", sizes(planned, " and ")),
        PlanSaid::Wrong { first, changes, one_way } => {
            let wrong = plan_line(sends_wrongly(&audited.site, first));
            let mended = match changes {
                Ok(count) => format!("mended with {}", counted(*count as u64, "change")),
                Err(no) => format!("mending leaves no room for cell {}", no.value[0]),
            };
            let one_way = if *one_way { "; valid if only two-way ranges clashed" } else { "" };
            format!("{wrong}; {mended}{one_way}")
        }
    }
}

/// A refusal's line as a part of another.
fn plan_line(line: String) -> String {
    format!("plan {}", line.trim_end_matches('\n'))
}

/// The last lines: the counts of the sites, of the plans if there are any, and of what a one-way reading would not see.
pub fn total_lines(totals: &Totals) -> String {
    let Totals { sites, refused, with_plan, full, not_known, plans, plans_valid, plans_wrong, plans_refused, one_way } =
        *totals;
    let sites = counted(sites, "site");
    let plans = counted(plans, "plan");
    format!(
        "{sites}: {with_plan} with a plan, {full} full, {not_known} not known, {refused} refused\n\
         {plans}: {plans_valid} valid, {plans_wrong} not valid, {plans_refused} refused\n\
         {} with a clash that a one-way reading would not see\n",
        counted(one_way, "plan")
    )
}

/// The first line of the sheet. Its lines end in CR LF, as those of the other sheets do.
pub const CSV_FIRST: &str =
    "file,refused,cells,slots,channels,rule,class,found,tries,set,needs,enough,open,plan,changes,oneway\r\n";

/// A line of the sheet. A field is empty where there is nothing to say.
pub fn csv_line(name: &str, said: &Outcome<Audited>) -> String {
    let fields = match said {
        Err(no) => [vec![no.number.to_string()], vec![String::new(); 14]].concat(),
        Ok(audited) => csv_fields(audited),
    };
    format!("{},{}\r\n", csv_name(name), fields.join(","))
}

fn csv_fields(audited: &Audited) -> Vec<String> {
    let Audited { site, class, found, needs, enough, plan } = audited;
    let (word, tries, set) = csv_found(found);
    let (plan, changes, one_way) = csv_plan(plan.as_ref());
    let numbers = |list: &[u64]| list.iter().map(u64::to_string).collect::<Vec<_>>();
    [
        vec![String::new()],
        numbers(&[site.cells, site.slots, site.channels, site.rule].map(u64::from)),
        vec![class_word(*class).into(), word.into(), tries, set],
        numbers(&[*needs, *enough, site.room()]),
        vec![plan, changes, one_way],
    ]
    .concat()
}

/// A word for what is found, the tries of a search, and the cells of a set with blanks between.
fn csv_found(found: &Found) -> (&'static str, String, String) {
    let none = String::new;
    match *found {
        Found::Greedy => ("planned", none(), none()),
        Found::Renumbered => ("renumbered", none(), none()),
        Found::Searched(tries) => ("searched", tries.to_string(), none()),
        Found::FullBySet(cells) => {
            let cells: Vec<String> = cells_of(cells).map(|cell| cell.to_string()).collect();
            ("full", none(), cells.join(" "))
        }
        Found::FullInClass => ("full", none(), none()),
        Found::FullBySearch(tries) => ("full", tries.to_string(), none()),
        Found::NotKnown(tries) => ("not known", tries.to_string(), none()),
    }
}

/// 0 for a valid plan, or the number of the refusal (a plan of another size has none, and says size); the changes that mend
/// it; and 1 where only a one-way reading would pass it.
fn csv_plan(plan: Option<&PlanSaid>) -> (String, String, String) {
    let none = String::new;
    match plan {
        None => (none(), none(), none()),
        Some(PlanSaid::Valid) => ("0".into(), "0".into(), "0".into()),
        Some(PlanSaid::Refused(no)) => (no.number.to_string(), none(), none()),
        Some(PlanSaid::OtherSize(_)) => ("size".into(), none(), none()),
        Some(PlanSaid::Wrong { first, changes, one_way }) => {
            let changes = changes.as_ref().map_or(none(), usize::to_string);
            (first.number.to_string(), changes, (*one_way as u8).to_string())
        }
    }
}

/// A name as a field: in quotes where it has a comma, a quote or a line's end, and quotes in it twice (RFC 4180).
fn csv_name(name: &str) -> String {
    if name.contains([',', '"', '\r', '\n']) {
        return format!("\"{}\"", name.replace('"', "\"\""));
    }
    name.into()
}

#[cfg(test)]
mod tests {
    use super::*;
    use crate::answer::refuse;
    use crate::audit::audit;

    const NORTH: &[u8] = include_bytes!("../../../samples/north.site");
    const CUSTOMER: &[u8] = include_bytes!("../../../samples/customer.plan");
    const P4: &[u8] = include_bytes!("../../../samples/p4.site");
    const P1: &[u8] = include_bytes!("../../../samples/p1.site");
    const P1_PLAN: &[u8] = include_bytes!("../../../samples/p1.plan");
    const P2: &[u8] = include_bytes!("../../../samples/p2.site");

    #[test]
    fn samples() {
        for (name, site, plan, line, csv) in [
            (
                "north.site",
                NORTH,
                Some(CUSTOMER),
                "north.site: 5 cells, 8 slots, 2 channels, rule 1, chained; planned; takes 11 of 16; plan refused 6: cells 1 \
                 and 2 clash (1 reaches 2), and both send in slot 3, channel 1; mended with 5 changes\n",
                "north.site,,5,8,2,1,chained,planned,,,11,11,16,6,5,0\r\n",
            ),
            (
                "p1.site",
                P1,
                Some(P1_PLAN),
                "p1.site: 3 cells, 3 slots, 2 channels, rule 1, chained; planned; takes 6 of 6; plan valid\n",
                "p1.site,,3,3,2,1,chained,planned,,,6,6,6,0,0,0\r\n",
            ),
            (
                "a,b.site",
                P4,
                None,
                "a,b.site: 4 cells, 2 slots, 1 channel, rule 1, renumbered; planned with the cells renumbered; takes 2 of 2\n",
                "\"a,b.site\",,4,2,1,1,renumbered,renumbered,,,2,2,2,,,\r\n",
            ),
            (
                "p2.site",
                P2,
                Some(P4),
                "p2.site: 3 cells, 3 slots, 2 channels, rule 1, chained; full (cells 1, 2); takes 7 of 6; plan refused 9, \
                 byte 10 of the plan file: a record of another kind has to stand there\n",
                "p2.site,,3,3,2,1,chained,full,,1 2,7,7,6,9,,\r\n",
            ),
            (
                "x",
                P1_PLAN,
                None,
                "x: refused 9, byte 10 of the site file: a record of another kind has to stand there\n",
                "x,9,,,,,,,,,,,,,,\r\n",
            ),
        ] {
            let said = audit(site, plan, 1000);
            assert_eq!(audit_line(name, &said), line);
            assert_eq!(csv_line(name, &said), csv);
            assert_eq!(csv_line("f", &said).split(',').count(), CSV_FIRST.split(',').count());
        }
        let said = audit(P1, Some(CUSTOMER), 0);
        assert!(audit_line("f", &said).ends_with("; plan refused: it is for 5 cells, 8 slots and 2 channels\n"));
    }

    #[test]
    fn totals() {
        let mut totals = Totals::default();
        totals.count(&audit(NORTH, Some(CUSTOMER), 0));
        totals.count(&audit(P1, Some(P1_PLAN), 0));
        totals.count(&audit(P2, None, 0));
        totals.count(&refuse(8, &[0]));
        let due = "\
4 sites: 2 with a plan, 1 full, 0 not known, 1 refused
2 plans: 1 valid, 1 not valid, 0 refused
0 plans with a clash that a one-way reading would not see
";
        assert_eq!(total_lines(&totals), due);
    }
}

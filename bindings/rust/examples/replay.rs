//! Reads the comparison's cases from standard input (second/compare-library --replay), puts them through this crate, and holds
//! what it gives to what the C call gave.

use duggfrask::raw::{Answer, Blocked, Flow, Record};
use duggfrask::*;
use std::io::{self, BufReader, Read};

/// What is seen after a call.
#[derive(Debug, PartialEq, Eq)]
struct Seen {
    answer: Answer,
    site: Record,
    numbers: [[u16; 32]; 2],
    output: Vec<u8>,
    words: Vec<u32>,
    list: Vec<u16>,
}

struct Case {
    call: u32,
    record: Record,
    numbers: [u16; 4],
    limit: u64,
    cells: u32,
    input: Vec<u8>,
    flows: Vec<Flow>,
}

struct Source<R>(R);

impl<R: Read> Source<R> {
    fn bytes(&mut self, n: usize) -> Vec<u8> {
        let mut bytes = vec![0; n];
        self.0.read_exact(&mut bytes).expect("a whole case");
        bytes
    }
    fn few<const N: usize>(&mut self) -> [u8; N] {
        let mut bytes = [0; N];
        self.0.read_exact(&mut bytes).expect("a whole case");
        bytes
    }
    fn u16(&mut self) -> u16 {
        u16::from_le_bytes(self.few())
    }
    fn u32(&mut self) -> u32 {
        u32::from_le_bytes(self.few())
    }
    fn u64(&mut self) -> u64 {
        u64::from_le_bytes(self.few())
    }
    fn words(&mut self, n: usize) -> Vec<u32> {
        (0..n).map(|_| self.u32()).collect()
    }
    fn list(&mut self, n: usize) -> Vec<u16> {
        (0..n).map(|_| self.u16()).collect()
    }
    fn record(&mut self) -> Record {
        let (cells, slots, channels) = (self.u16(), self.u16(), self.u16());
        let mut record = Record { cells, slots, channels, ..Record::default() };
        record.loads.iter_mut().for_each(|load| *load = self.u16());
        record.reach.iter_mut().for_each(|row| *row = self.u32());
        record.blocked.iter_mut().for_each(|word| *word = self.u64());
        record.rule = self.u16();
        record
    }
    /// The next case, what is lent to be written, and what the C call gave; nothing at the end.
    fn case(&mut self) -> Option<(Case, Seen, Seen)> {
        let mut first = [0; 4];
        if self.0.read(&mut first[..1]).expect("cases") == 0 {
            return None;
        }
        self.0.read_exact(&mut first[1..]).expect("a whole case");
        let record = self.record();
        let numbers = [self.u16(), self.u16(), self.u16(), self.u16()];
        let (limit, cells) = (self.u64(), self.u32());
        let [input, output, flows, words, list]: [usize; 5] = core::array::from_fn(|_| self.u32() as usize);
        let changed: [bool; 3] = core::array::from_fn(|_| self.u32() == 1);
        let (input, before) = (self.bytes(input), self.bytes(output));
        let flows = (0..flows)
            .map(|_| Flow { cell: self.u16(), burst: self.u16(), period: self.u16(), repeats: self.u16(), value: self.u16() })
            .collect();
        let (old_words, old_list) = (self.words(words), self.list(list));
        let number = self.u64();
        let answer = Answer { number, value: [self.u64(), self.u64(), self.u64()] };
        let site = self.record();
        let lists = core::array::from_fn(|_| core::array::from_fn(|_| self.u16()));
        let output = if changed[0] { self.bytes(output) } else { before.clone() };
        let words = if changed[1] { self.words(words) } else { old_words.clone() };
        let list = if changed[2] { self.list(list) } else { old_list.clone() };
        let given = Seen { answer, site, numbers: lists, output, words, list };
        let lent = Seen { answer: Answer::default(), site: Record::default(), numbers: [[0; 32]; 2], output: before, words: old_words, list: old_list };
        Some((Case { call: u32::from_le_bytes(first), record, numbers, limit, cells, input, flows }, lent, given))
    }
}

fn told(result: Result<[u64; 3], Refusal>) -> Answer {
    match result {
        Ok(value) => Answer { number: 0, value },
        Err(refusal) => Answer { number: refusal.number(), value: refusal.values() },
    }
}

fn found(found: Found<()>, search: bool) -> [u64; 3] {
    let (verdict, way, more) = match found {
        Found::Plan((), Way::Planner) => (0, 0, 0),
        Found::Plan((), Way::Renumbered) => (0, 2, 0),
        Found::Plan((), Way::Search { tries }) => (0, 3, tries),
        Found::None(Shown::Cells(cells)) => (1, 1, cells.into()),
        Found::None(Shown::Renumbered) => (1, 2, 0),
        Found::None(Shown::Search { tries }) => (1, 3, tries),
        Found::NotKnown { tries } => (2, 3, tries),
    };
    if search { [verdict, more, 0] } else { [verdict, way, more] }
}

/// The site of an edit or of a reader: what it gave, or what C gives where it is refused.
fn site(result: Result<Site, Refusal>, refused: Record, seen: &mut Seen) -> Result<[u64; 3], Refusal> {
    seen.site = refused;
    result.map(|site| {
        seen.site = *site.record();
        [0; 3]
    })
}

/// The calls that take no site.
fn alone(case: &Case, seen: &mut Seen) -> Option<Result<[u64; 3], Refusal>> {
    let [x, y, z, w] = case.numbers;
    Some(match case.call {
        24 => share(x, y, z).map(|s| [s.share, s.queue, s.delay]),
        25 => share_repeated(x, y, z, w).map(|s| [s.share, s.queue, s.delay]),
        28 => site(Site::from_bytes(&case.input), Record::default(), seen),
        30 => {
            // Of a plan file the comparison shows the sizes, as a site that has them alone.
            let (result, (cells, slots, channels)) = match Plan::read_into(&case.input, &mut seen.output) {
                Ok(sizes) => (Ok([0; 3]), sizes),
                Err(refusal) => (Err(refusal), (0, 0, 0)),
            };
            seen.site = Record { cells, slots, channels, rule: 1, ..Record::default() };
            result
        }
        32 => {
            let r = case.record;
            site(Site::from_sheet(&case.input, r.slots, r.channels, Blocked { bits: r.blocked }, r.rule), Record::default(), seen)
        }
        34 => tidy_into(&case.input, &mut seen.output).map(|n| [n, 0, 0]),
        _ => return None,
    })
}

fn call(case: &Case, s: Site, seen: &mut Seen) -> Result<[u64; 3], Refusal> {
    let [x, y, ..] = case.numbers;
    let none = [0; 3];
    match case.call {
        1 => Ok(none),
        2 => s.clash(x, y).map(|yes| [yes.into(), 0, 0]),
        3 => site(s.with_load(x, y), case.record, seen),
        4 => site(s.with_reach(x, y), case.record, seen),
        5 => site(s.without_reach(x, y), case.record, seen),
        6 => s.load_test().map(|test| match test {
            LoadTest::Holds => none,
            LoadTest::Over { cell, excess } => [cell, excess, 0],
        }),
        7 => s.chain().map(|chain| match chain {
            Chain::Chained => none,
            Chain::Broken { a, b, c } => [a, b, c],
        }),
        8 => s.class().map(|class| match class {
            Class::Nested => none,
            Class::Split { a, b, i } => [a, b, i],
        }),
        9 => s.least().map(|least| [least.positions, u64::from(!least.exact), 0]),
        10 => s.heaviest().map(|heavy| [heavy.load, heavy.cells.into(), 0]),
        11 => s.plan_into(&mut seen.output).map(|()| none),
        12 => s.search_into(case.limit, &mut seen.output).map(|f| found(f, true)),
        13 => s.find_into(case.limit, &mut seen.output).map(|f| found(f, false)),
        14 => s.over_full(case.cells).map(|over| [over.over.into(), over.load, 0]),
        15 => s.check(&case.input).map(|()| none),
        16 => s.plan_words_into(&mut seen.words).map(|()| none),
        17 => s.check_words(&seen.words).map(|()| none),
        18 => s.to_words_into(&case.input, &mut seen.words).map(|()| none),
        19 => s.to_bytes_into(&seen.words, &mut seen.output).map(|()| none),
        20 => s.mend_into(&mut seen.output, &mut seen.list).map(|n| [n, 0, 0]),
        21 => {
            let mut site = s;
            let answer = site.change_load(x, y, &mut seen.output);
            seen.site = *site.record();
            answer.map(|()| none)
        }
        22 => match s.renumber() {
            Ok(renumbered) => {
                seen.site = *renumbered.site.record();
                seen.numbers = [renumbered.new_of_old, renumbered.old_of_new];
                Ok(none)
            }
            Err(refusal) => {
                seen.site = case.record;
                Err(refusal)
            }
        },
        23 => s.carry_into(&case.input, &mut seen.output).map(|()| none),
        26 => s.admit(&case.flows).map(|set| [set, 0, 0]),
        27 => s.admit_beside(&case.flows).map(|set| [set, 0, 0]),
        29 => s.write_into(&mut seen.output).map(|n| [n, 0, 0]),
        31 => s.write_plan_into(&case.input, &mut seen.output).map(|n| [n, 0, 0]),
        33 => s.write_sheet_into(&mut seen.output).map(|n| [n, 0, 0]),
        other => panic!("call {other} is not known"),
    }
}

fn main() {
    let mut source = Source(BufReader::with_capacity(1 << 20, io::stdin().lock()));
    let mut cases = 0;
    while let Some((case, mut seen, given)) = source.case() {
        let result = alone(&case, &mut seen).unwrap_or_else(|| match Site::from_record(case.record) {
            Ok(site) => call(&case, site, &mut seen),
            // A record that is not in order is no Site: the C call refuses it with the same number, and gives it back as it came.
            Err(refusal) => {
                seen.site = given.site;
                Err(refusal)
            }
        });
        seen.answer = told(result);
        if seen != given {
            println!("DISAGREEMENT in call {} on {:?}: {:?}, and C gives {:?}", case.call, case.record, seen.answer, given.answer);
            std::process::exit(1);
        }
        cases += 1;
    }
    println!("rust: {cases} cases, all as the C calls");
    assert!(cases > 0, "there were no cases");
}

//! One case: a call and all that it is given, lent memory with guards on both sides, and what is seen after it.

use crate::calls::Calls;
use crate::lent::Lent;
use second::admit::Flow;
use second::answer::Answer;
use second::capi::{Blocked, Edited, PlanRead};
use second::site::Site;

#[derive(Clone, Copy, Debug, PartialEq, Eq)]
pub enum Call {
    Fault,
    Clash,
    SetLoad,
    SetReach,
    ClearReach,
    LoadTest,
    Chain,
    Class,
    Least,
    Heaviest,
    Plan,
    Search,
    Find,
    OverFull,
    ChangeLoad,
    Check,
    Share,
    ShareRepeated,
    ReadSite,
    WriteSite,
    ReadPlan,
    WritePlan,
    ReadSheet,
    WriteSheet,
    Tidy,
    Admit,
    AdmitBeside,
    PlanWords,
    CheckWords,
    ToWords,
    ToBytes,
    Mend,
    Renumber,
    Carry,
}

/// A call and what it is given. What a call does not take is left zero or empty. The sheet reader takes of the site what
/// comes beside a sheet: slots, channels, blocked positions and the rule.
#[derive(Clone)]
pub struct Case {
    pub call: Call,
    pub site: Site,
    pub numbers: [u16; 4],
    /// The limit of a search, and of what is found.
    pub limit: u64,
    /// A set of cells as a word.
    pub cells: u32,
    /// The record that is lent to be changed: the site, between guards.
    pub record: Lent<Site>,
    /// What is lent to be read: a file, a sheet, or a table to check or to write.
    pub input: Lent<u8>,
    /// What is lent to be written: a table to plan, to mend or to read into, or a file's output.
    pub output: Lent<u8>,
    /// The flows that are lent to be read.
    pub flows: Lent<Flow>,
    /// The words that are lent, to be read or to be written.
    pub words: Lent<u32>,
    /// The list of changes that is lent to be written.
    pub list: Lent<u16>,
}

/// What is seen after a call: answer, record or sizes given back, and all lent memory with its guards.
#[derive(Clone, PartialEq, Eq)]
pub struct Seen {
    pub answer: Answer,
    pub site: Site,
    /// New numbers by old ones, and old ones by new ones.
    pub numbers: [[u16; 32]; 2],
    pub record: Lent<Site>,
    pub input: Lent<u8>,
    pub output: Lent<u8>,
    pub flows: Lent<Flow>,
    pub words: Lent<u32>,
    pub list: Lent<u16>,
}

impl Case {
    pub fn of(call: Call, site: Site) -> Case {
        let (record, input, output) = (Lent::none(), Lent::none(), Lent::none());
        let (flows, words, list) = (Lent::none(), Lent::none(), Lent::none());
        Case { call, site, numbers: [0; 4], limit: 0, cells: 0, record, input, output, flows, words, list }
    }

    /// The first few numbers of the call; the others stay 0.
    pub fn numbers<const K: usize>(mut self, numbers: [u16; K]) -> Case {
        self.numbers[..K].copy_from_slice(&numbers);
        self
    }

    pub fn limit(mut self, limit: u64) -> Case {
        self.limit = limit;
        self
    }

    pub fn cells(mut self, cells: u32) -> Case {
        self.cells = cells;
        self
    }

    /// Lends the record where it stands.
    pub fn record(mut self, mark: u64) -> Case {
        let guard = Site { cells: mark as u16, ..Site::default() };
        self.record = Lent::between(&[self.site], [guard; 2], mark);
        self
    }

    pub fn input(mut self, bytes: &[u8], mark: u64) -> Case {
        self.input = Lent::new(bytes, mark);
        self
    }

    pub fn output(mut self, bytes: &[u8], mark: u64) -> Case {
        self.output = Lent::new(bytes, mark);
        self
    }

    pub fn flows(mut self, flows: &[Flow], mark: u64) -> Case {
        let number = mark as u16;
        let guard = Flow { cell: 1, burst: number, period: 1, repeats: 1, value: number };
        self.flows = Lent::between(flows, [guard; 2], mark);
        self
    }

    pub fn words(mut self, words: &[u32], mark: u64) -> Case {
        self.words = Lent::between(words, [(mark >> 8) as u32, (mark >> 16) as u32], mark);
        self
    }

    pub fn list(mut self, numbers: &[u16], mark: u64) -> Case {
        self.list = Lent::between(numbers, [(mark >> 8) as u16, (mark >> 16) as u16], mark);
        self
    }

    /// Makes the call on copies of the lent parts.
    pub fn run(&self, calls: &Calls) -> Seen {
        let (mut record, input, mut output) = (self.record.clone(), self.input.clone(), self.output.clone());
        let (flows, mut words, mut list) = (self.flows.clone(), self.words.clone(), self.list.clone());
        let (site, [x, y, z, w]) = (self.site, self.numbers);
        let (inp, ilen, out, olen) = (input.pointer(), input.len(), output.pointer_mut(), output.len());
        let (read, write, count) = (words.pointer(), words.pointer_mut(), words.len());
        let mut numbers = [[0; 32]; 2];
        let alone = |answer| (Site::default(), answer);
        // Each pointer has the length that is lent with it, and no two lent parts overlap.
        let (site, answer) = unsafe {
            match self.call {
                Call::Fault => alone((calls.fault)(site)),
                Call::Clash => alone((calls.clash)(site, x, y)),
                Call::SetLoad => pair((calls.set_load)(site, x, y)),
                Call::SetReach => pair((calls.set_reach)(site, x, y)),
                Call::ClearReach => pair((calls.clear_reach)(site, x, y)),
                Call::LoadTest => alone((calls.load_test)(site)),
                Call::Chain => alone((calls.chain)(site)),
                Call::Class => alone((calls.class)(site)),
                Call::Least => alone((calls.least)(site)),
                Call::Heaviest => alone((calls.heaviest)(site)),
                Call::Plan => alone((calls.plan)(site, out, olen)),
                Call::Search => alone((calls.search)(site, self.limit, out, olen)),
                Call::Find => alone((calls.find)(site, self.limit, out, olen)),
                Call::OverFull => alone((calls.over_full)(site, self.cells)),
                Call::ChangeLoad => {
                    let answer = (calls.change_load)(&mut *record.pointer_mut(), x, y, out, olen);
                    (record.part()[0], answer)
                }
                Call::Check => alone((calls.check)(site, inp, ilen)),
                Call::Share => alone((calls.share)(x, y, z)),
                Call::ShareRepeated => alone((calls.share_repeated)(x, y, z, w)),
                Call::ReadSite => pair((calls.read_site)(inp, ilen)),
                Call::WriteSite => alone((calls.write_site)(site, out, olen)),
                Call::ReadPlan => sizes((calls.read_plan)(inp, ilen, out, olen)),
                Call::WritePlan => alone((calls.write_plan)(site, inp, ilen, out, olen)),
                Call::ReadSheet => {
                    let (slots, channels, blocked) = (site.slots, site.channels, Blocked { bits: site.blocked });
                    pair((calls.read_sheet)(inp, ilen, slots, channels, blocked, site.rule))
                }
                Call::WriteSheet => alone((calls.write_sheet)(site, out, olen)),
                Call::Tidy => alone((calls.tidy)(inp, ilen, out, olen)),
                Call::Admit => alone((calls.admit)(site, flows.pointer(), flows.len())),
                Call::AdmitBeside => alone((calls.admit_beside)(site, flows.pointer(), flows.len())),
                Call::PlanWords => alone((calls.plan_words)(site, write, count)),
                Call::CheckWords => alone((calls.check_words)(site, read, count)),
                Call::ToWords => alone((calls.to_words)(site, inp, ilen, write, count)),
                Call::ToBytes => alone((calls.to_bytes)(site, read, count, out, olen)),
                Call::Mend => alone((calls.mend)(site, out, olen, list.pointer_mut(), list.len())),
                Call::Renumber => {
                    let found = (calls.renumber)(site);
                    numbers = [found.new_of_old, found.old_of_new];
                    (found.site, found.answer)
                }
                Call::Carry => alone((calls.carry)(site, inp, ilen, out, olen)),
            }
        };
        Seen { answer, site, numbers, record, input, output, flows, words, list }
    }

    /// Was all that may not be written left as it was: what is lent to be read, every guard, and what is lent to be
    /// written past the part that the answer speaks of?
    pub fn untouched(&self, seen: &Seen) -> bool {
        let read_only = self.input == seen.input && self.flows == seen.flows;
        let (kept, changed) = (self.bytes_kept(seen), self.changes_record(seen));
        read_only
            && seen.record.same_past(&self.record, changed as usize)
            && seen.output.part()[..kept] == self.output.part()[..kept]
            && seen.output.same_past(&self.output, self.bytes_written(seen))
            && seen.words.same_past(&self.words, self.words_written(seen))
            && seen.list.same_past(&self.list, self.numbers_written(seen))
    }

    /// How many bytes a call with this answer may write.
    fn bytes_written(&self, seen: &Seen) -> usize {
        match (self.call, seen.answer.number) {
            (Call::Plan | Call::ChangeLoad, 0 | 5)
            | (Call::ToBytes | Call::Mend | Call::Carry | Call::Search | Call::Find, 0) => self.site.table_len(),
            (Call::ReadPlan, 0) => seen.site.table_len(),
            (Call::WriteSite | Call::WritePlan | Call::WriteSheet | Call::Tidy, 0) => seen.answer.value[0] as usize,
            _ => 0,
        }
    }

    /// How many bytes from the first on a call with this answer may not write: the rows of cells lower than the one whose load
    /// changes.
    fn bytes_kept(&self, seen: &Seen) -> usize {
        match (self.call, seen.answer.number) {
            (Call::ChangeLoad, 0) => (self.numbers[0] as usize - 1) * self.site.positions(),
            _ => 0,
        }
    }

    /// Does a call with this answer change the record where it stands?
    fn changes_record(&self, seen: &Seen) -> bool {
        self.call == Call::ChangeLoad && matches!(seen.answer.number, 0 | 5)
    }

    /// How many words a call with this answer may write.
    fn words_written(&self, seen: &Seen) -> usize {
        match (self.call, seen.answer.number) {
            (Call::PlanWords, 0 | 5) | (Call::ToWords, 0) => self.site.positions(),
            _ => 0,
        }
    }

    /// How many numbers of the list a call with this answer may write: four for each change.
    fn numbers_written(&self, seen: &Seen) -> usize {
        match (self.call, seen.answer.number) {
            (Call::Mend, 0) => 4 * seen.answer.value[0] as usize,
            _ => 0,
        }
    }

    /// The case in words and hex.
    pub fn print(&self) {
        println!("call {:?}", self.call);
        println!("site cells {} slots {} channels {}", self.site.cells, self.site.slots, self.site.channels);
        println!("  loads {:?}", self.site.loads);
        println!("  reach {:08x?}", self.site.reach);
        println!("  blocked {:016x?}", self.site.blocked);
        println!("  rule {}", self.site.rule);
        println!("numbers {:?}, limit {}, cells {:08x}", self.numbers, self.limit, self.cells);
        println!("lent to read, {} bytes: {}", self.input.len(), hex(self.input.part()));
        println!("lent to write, {} bytes: {}", self.output.len(), hex(self.output.part()));
        println!("flows {:?}", self.flows.part());
        println!("words {:08x?}", self.words.part());
        println!("list {:?}", self.list.part());
    }
}

impl Seen {
    pub fn print(&self, who: &str) {
        println!("{who} answers {} {:?}", self.answer.number, self.answer.value);
        println!("  site cells {} slots {} channels {}", self.site.cells, self.site.slots, self.site.channels);
        println!("  loads {:?}", self.site.loads);
        println!("  reach {:08x?}", self.site.reach);
        println!("  blocked {:016x?}", self.site.blocked);
        println!("  rule {}", self.site.rule);
        println!("  to read, with guards: {}", hex(self.input.whole()));
        println!("  to write, with guards: {}", hex(self.output.whole()));
        println!("  words, with guards: {:08x?}", self.words.whole());
        println!("  list, with guards: {:?}", self.list.whole());
    }
}

fn pair(edited: Edited) -> (Site, Answer) {
    (edited.site, edited.answer)
}

/// The sizes of a plan read, as a site that has them alone.
fn sizes(read: PlanRead) -> (Site, Answer) {
    (Site::sized(read.cells.into(), read.slots.into(), read.channels.into()), read.answer)
}

fn hex(bytes: &[u8]) -> String {
    bytes.iter().map(|byte| format!("{byte:02X} ")).collect()
}

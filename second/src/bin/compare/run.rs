//! Runs cases on both sides, holds them to each other and counts.

use crate::calls::{LIBRARY, SECOND};
use crate::case::{Call, Case, Seen};
use crate::replay;
use second::site::Site;
use std::io::Write;

/// What `find` can say: the verdict and by which way. That none exists is never shown by the renumbered site.
const VERDICTS: [[u64; 2]; 6] = [[0, 0], [0, 2], [0, 3], [1, 1], [1, 3], [2, 3]];

/// How many cases were compared, and how often each number was the answer.
#[derive(Default)]
pub struct Run {
    pub cases: u64,
    pub given: [u64; 27],
    /// How often `find` gave each of `VERDICTS`, and `over_full` no and yes.
    pub found: [u64; VERDICTS.len()],
    pub over: [u64; 2],
    /// How often `tidy` was done, and refused with 13 and with 17.
    pub tidied: [u64; 3],
    /// Where each case goes with what the library gave, if that is asked for.
    pub replay: Option<Box<dyn Write>>,
}

impl Run {
    /// Makes the call on both sides. A disagreement is printed and ends the program.
    pub fn compare(&mut self, case: &Case) -> Seen {
        let library = case.run(&LIBRARY);
        let second = case.run(&SECOND);
        if library != second || !case.untouched(&library) || !case.untouched(&second) {
            println!("DISAGREEMENT");
            case.print();
            library.print("the library");
            second.print("the second program");
            std::process::exit(1);
        }
        if let Some(to) = &mut self.replay {
            replay::write(to.as_mut(), case, &library).expect("the cases can be written");
        }
        self.cases += 1;
        self.given[second.answer.number as usize] += 1;
        self.count_verdict(case.call, &second);
        second
    }

    fn count_verdict(&mut self, call: Call, seen: &Seen) {
        let [first, second, _] = seen.answer.value;
        match (call, seen.answer.number) {
            (Call::Find, 0) => {
                let verdict = VERDICTS.iter().position(|&verdict| verdict == [first, second]);
                self.found[verdict.expect("a verdict of `find`")] += 1;
            }
            (Call::OverFull, 0) => self.over[first as usize] += 1,
            (Call::Tidy, 0) => self.tidied[0] += 1,
            (Call::Tidy, 13) => self.tidied[1] += 1,
            (Call::Tidy, _) => self.tidied[2] += 1,
            _ => {}
        }
    }

    /// Reads bytes as a site file; a site that is accepted is judged, and written back with room and without.
    pub fn read_site(&mut self, bytes: &[u8], mark: u64) {
        let seen = self.compare(&Case::of(Call::ReadSite, Site::default()).input(bytes, mark));
        if seen.answer.number != 0 {
            return;
        }
        for call in [Call::Fault, Call::LoadTest, Call::Chain, Call::Class, Call::Least, Call::Heaviest] {
            self.compare(&Case::of(call, seen.site));
        }
        let write = Case::of(Call::WriteSite, seen.site);
        let written = self.compare(&write.clone().output(&vec![0xA5; bytes.len() + 3], mark));
        assert_eq!(&written.output.part()[..bytes.len()], bytes, "a site file read and written is the same file");
        self.compare(&write.output(&vec![0xA5; bytes.len() - 1], mark));
    }

    /// Reads bytes as a plan file into a table of a given length; a plan that is accepted is written back.
    pub fn read_plan(&mut self, bytes: &[u8], table_len: usize, mark: u64) {
        let table = vec![(mark >> 24) as u8; table_len];
        let seen = self.compare(&Case::of(Call::ReadPlan, Site::default()).input(bytes, mark).output(&table, mark));
        if seen.answer.number != 0 {
            return;
        }
        let write = Case::of(Call::WritePlan, seen.site).input(seen.output.part(), mark);
        let written = self.compare(&write.clone().output(&vec![0xA5; bytes.len() + 3], mark));
        assert_eq!(&written.output.part()[..bytes.len()], bytes, "a plan file read and written is the same file");
        self.compare(&write.output(&vec![0xA5; bytes.len() - 1], mark));
    }

    /// Reads bytes as a sheet, beside it the slots, channels, blocked positions and rule of a site; a site that is accepted is
    /// judged, and written back with room and without.
    pub fn read_sheet(&mut self, bytes: &[u8], beside: &Site, mark: u64) {
        let seen = self.compare(&Case::of(Call::ReadSheet, *beside).input(bytes, mark));
        if seen.answer.number != 0 {
            return;
        }
        self.compare(&Case::of(Call::Fault, seen.site));
        let write = Case::of(Call::WriteSheet, seen.site);
        let written = self.compare(&write.clone().output(&vec![0xA5; bytes.len() + 3], mark));
        assert_eq!(&written.output.part()[..bytes.len()], bytes, "a sheet read and written is the same sheet");
        self.compare(&write.output(&vec![0xA5; bytes.len() - 1], mark));
    }

    /// Tidies a sheet with room for any; one that is tidied, also with a byte too few and with just enough, and what comes of it
    /// once more.
    pub fn tidy(&mut self, sheet: &[u8], mark: u64) {
        let tidy = Case::of(Call::Tidy, Site::default());
        let seen = self.compare(&tidy.clone().input(sheet, mark).output(&[0xA5; 4096], mark));
        if seen.answer.number != 0 {
            return;
        }
        let tidied = &seen.output.part()[..seen.answer.value[0] as usize];
        let short = self.compare(&tidy.clone().input(sheet, mark).output(&vec![0xA5; tidied.len() - 1], mark));
        assert_eq!(short.answer.number, 13, "a byte too few is a short output");
        let again = self.compare(&tidy.input(tidied, mark).output(&vec![0xA5; tidied.len()], mark));
        assert_eq!(again.output.part(), tidied, "what is tidied is the same sheet when it is tidied again");
    }

    /// Prints how often each number, each verdict of `find` and `over_full` and each number of `tidy` was given, and says whether
    /// each was.
    pub fn report(&self) -> bool {
        for (number, times) in self.given.iter().enumerate() {
            println!("number {number} was given {times} times");
        }
        for ([verdict, way], times) in VERDICTS.iter().zip(self.found) {
            println!("find gave verdict {verdict} by way {way} {times} times");
        }
        println!("over_full gave 0 {} times and 1 {} times", self.over[0], self.over[1]);
        let [done, short, bad] = self.tidied;
        println!("tidy gave 0 {done} times, 13 {short} times and 17 {bad} times");
        self.given.iter().chain(&self.found).chain(&self.over).chain(&self.tidied).all(|&times| times > 0)
    }
}

//! Compares the proved library with the second program, call by call: answer, values, records given back and every byte
//! of lent memory, guards included.
//!
//!     compare SAMPLES                   the limits of a site, spare cells, the sample files, random cases from a fixed seed
//!     compare --seconds N --seed S      random cases only, from fresh seeds, for N seconds
//!     compare --replay                  the limits of a site alone; each case goes to standard output, for the bindings

mod admit_limits;
mod admits;
mod blocked_limits;
mod boundary;
mod calls;
mod case;
mod files;
mod find_limits;
mod finds;
mod heaviest_limits;
mod lent;
mod load_change_limits;
mod load_changes;
mod make;
mod mend_limits;
mod mends;
mod numberings;
mod random;
mod replay;
mod rule_limits;
mod run;
mod samples;
mod search_limits;
mod searches;
mod sheet_limits;
mod sheets;
mod sites;
mod spares;
mod tidies;
mod word_limits;
mod word_tables;

use random::Random;
use run::Run;
use std::io::{stdout, BufWriter};
use std::path::Path;
use std::process::ExitCode;
use std::time::{Duration, Instant};

const SEED: u64 = 2015;
const RANDOM_CASES: usize = 1_000_000;
const CASES_PER_SEED: usize = 5_000;

fn main() -> ExitCode {
    let args: Vec<String> = std::env::args().skip(1).collect();
    let args: Vec<&str> = args.iter().map(String::as_str).collect();
    match args[..] {
        [samples] if !samples.starts_with('-') => fixed(Path::new(samples)),
        ["--seconds", seconds, "--seed", seed] => match (seconds.parse(), seed.parse()) {
            (Ok(seconds), Ok(seed)) => fresh(seconds, seed),
            _ => usage(),
        },
        ["--replay"] => replayed(),
        _ => usage(),
    }
}

fn usage() -> ExitCode {
    eprintln!("usage: compare SAMPLES | compare --seconds N --seed S | compare --replay");
    ExitCode::from(2)
}

/// The limits of a site, through every call.
fn limits(run: &mut Run) {
    boundary::compare(run);
    sheet_limits::compare(run);
    tidies::compare(run);
    admit_limits::compare(run);
    word_limits::compare(run);
    mend_limits::compare(run);
    heaviest_limits::compare(run);
    blocked_limits::compare(run);
    rule_limits::compare(run);
    search_limits::compare(run);
    find_limits::compare(run);
    load_change_limits::compare(run);
}

fn replayed() -> ExitCode {
    let mut run = Run { replay: Some(Box::new(BufWriter::new(stdout()))), ..Run::default() };
    limits(&mut run);
    eprintln!("{} cases", run.cases);
    ExitCode::SUCCESS
}

fn fixed(dir: &Path) -> ExitCode {
    let mut run = Run::default();
    limits(&mut run);
    println!("boundaries: {} cases", run.cases);
    let before = run.cases;
    spares::compare(&mut run);
    println!("spare cells: {} cases", run.cases - before);
    let before = run.cases;
    heaviest_limits::every_small_site(&mut run);
    println!("five cells, whatever clashes: {} cases", run.cases - before);
    let before = run.cases;
    admit_limits::every_small_list(&mut run);
    println!("three flows on three cells: {} cases", run.cases - before);
    let before = run.cases;
    mend_limits::every_small_table(&mut run);
    println!("small tables mended: {} cases", run.cases - before);
    let before = run.cases;
    blocked_limits::every_small_table(&mut run);
    println!("small tables, whatever is blocked: {} cases", run.cases - before);
    let before = run.cases;
    rule_limits::every_small_reach(&mut run);
    println!("four cells, whoever reaches whom, under both rules: {} cases", run.cases - before);
    let before = run.cases;
    search_limits::every_small_site(&mut run);
    println!("small sites searched: {} cases", run.cases - before);
    let before = run.cases;
    find_limits::every_small_site(&mut run);
    println!("small sites, whatever is found: {} cases", run.cases - before);
    let before = run.cases;
    load_change_limits::every_small_site(&mut run);
    println!("small sites, each load changed: {} cases", run.cases - before);
    let before = run.cases;
    match samples::compare(&mut run, dir) {
        Ok(files) if files > 0 => println!("{files} sample files, cut and changed: {} cases", run.cases - before),
        Ok(_) => return fail(&format!("there are no sample files in {}", dir.display())),
        Err(error) => return fail(&format!("{}: {error}", dir.display())),
    }
    // The numbers are counted over the random cases alone.
    let mut wild = Run::default();
    let mut random = Random::new(SEED);
    for _ in 0..RANDOM_CASES {
        make::compare(&mut wild, &mut random);
    }
    println!("random, seed {SEED}: {} cases", wild.cases);
    if !wild.report() {
        return fail("a number or a verdict was never given");
    }
    println!("{} cases compared, all agree", run.cases + wild.cases);
    ExitCode::SUCCESS
}

fn fresh(seconds: u64, seed: u64) -> ExitCode {
    println!("seed {seed}");
    let mut run = Run::default();
    let end = Instant::now() + Duration::from_secs(seconds);
    let mut now = seed;
    while Instant::now() < end {
        let mut random = Random::new(now);
        for _ in 0..CASES_PER_SEED {
            make::compare(&mut run, &mut random);
        }
        now = now.wrapping_add(1);
    }
    run.report();
    println!("seeds {seed} to {}", now.wrapping_sub(1));
    println!("{} cases compared, all agree", run.cases);
    ExitCode::SUCCESS
}

fn fail(why: &str) -> ExitCode {
    println!("FAILED: {why}");
    ExitCode::FAILURE
}

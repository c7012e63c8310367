//! The second program's desk command: the commands of `duggfrask` that a proved program answers, with files by name; and
//! `second-desk make KIND SEED`, which writes a random file, or numbers for the command line, to standard output.

mod damage;
mod make;
// The generators of the comparison with the library; not all of them are needed here.
#[path = "../compare/random.rs"]
mod random;
#[allow(dead_code)]
#[path = "../compare/sites.rs"]
mod sites;

use second::desk::{self, AuditFile, Done, Ended, Input, Told};
use second::show::Form;
use second::site::RULE_1;
use std::fs;
use std::io::{self, Write};
use std::process::ExitCode;

fn main() -> ExitCode {
    let words: Vec<String> = std::env::args().skip(1).collect();
    let words: Vec<&str> = words.iter().map(String::as_str).collect();
    let told = match words[..] {
        ["make", kind, seed] => made(kind, seed),
        ["audit", ref words @ ..] => audited(words),
        ["show", ref words @ ..] => shown(words),
        ["report", ref words @ ..] => reported(words),
        ["picture", ref words @ ..] => drawn(words),
        [command, ..] if ASKED.contains(&command) || words.contains(&"--all") => asked(&words),
        _ => said(&words),
    };
    match told {
        Ok(Said::Told(Ok(Done { result, words }))) => print(&result, &words, ExitCode::SUCCESS),
        Ok(Said::Told(Err(no))) => print(&[], &no, ExitCode::FAILURE),
        Ok(Said::Ended(Ended { result, words, status })) => print(&result, &words, ExitCode::from(status)),
        Ok(Said::Wrong(line)) => print(&[], &line, ExitCode::from(2)),
        Err(error) => print(&[], &format!("second-desk: {error}\n"), ExitCode::from(2)),
    }
}

/// What a command says, or the line for one that is used wrongly.
enum Said {
    Told(Told),
    Ended(Ended),
    Wrong(String),
}

fn wrong() -> Said {
    Said::Wrong(String::from("usage: second-desk COMMAND ..; second-desk make KIND SEED\n"))
}

fn said(words: &[&str]) -> io::Result<Said> {
    let mut files = Vec::new();
    let count = match words.first() {
        Some(&("check" | "mend" | "admit" | "carry" | "load")) => 2,
        Some(&"share") => 0,
        _ => 1,
    };
    for name in words.iter().skip(1).take(count) {
        files.push(fs::read(name)?);
    }
    let file = |k: usize| Input { name: words[k + 1], bytes: &files[k] };
    Ok(Said::Told(match *words {
        ["plan", _] => desk::plan(file(0)),
        ["search", _] => desk::search(file(0), desk::TRIES_WITHOUT_A_NUMBER),
        ["search", _, "--tries", tries] => desk::search(file(0), tries.parse().unwrap_or(u64::MAX)),
        ["check", _, _] => desk::check(file(0), file(1)),
        ["mend", _, _] => desk::mend(file(0), file(1)),
        ["sheet", _] => desk::sheet(file(0)),
        ["site", _, "--slots", slots, "--channels", channels, ref more @ ..] => {
            let (slots, channels) = (number(slots), number(channels));
            let Some((list, rule)) = beside(more) else { return Ok(wrong()) };
            match list.map_or(Ok([0; 32]), |list| desk::blocked(list.as_bytes(), slots, channels)) {
                Ok(blocked) => desk::site(file(0), slots, channels, &blocked, rule),
                Err(line) => return Ok(Said::Wrong(line)),
            }
        }
        ["share", slots, burst, period] => desk::share(number(slots), number(burst), number(period), None),
        ["share", slots, burst, period, repeats] => {
            desk::share(number(slots), number(burst), number(period), Some(number(repeats)))
        }
        ["admit", _, _] => desk::admit(file(0), file(1)),
        ["admit", _, _, "--beside-loads"] => desk::admit_beside(file(0), file(1)),
        ["renumber", _] => desk::renumber(file(0)),
        ["carry", _, _] => desk::carry(file(0), file(1)),
        ["load", _, _, cell, load, "-o", site, "-p", plan] => {
            match desk::load(file(0), file(1), number(cell), number(load)) {
                Ok(made) => {
                    fs::write(site, made.site)?;
                    fs::write(plan, made.plan)?;
                    Ok(Done { result: Vec::new(), words: made.words })
                }
                Err(no) => Err(no),
            }
        }
        _ => return Ok(wrong()),
    }))
}

/// The commands that end with a status of their own.
const ASKED: [&str; 7] = ["find", "why", "room", "set", "clashes", "diff", "tidy"];

/// The most tries of `find`, `why`, `room` and `audit` where no number is given.
const TRIES: u64 = 1_000_000;

fn asked(words: &[&str]) -> io::Result<Said> {
    let count = match words[0] {
        "check" => 2,
        "diff" => 3,
        _ => 1,
    };
    let names: Vec<&str> = words[1..].iter().copied().take(count).collect();
    let files = names.iter().map(fs::read).collect::<io::Result<Vec<_>>>()?;
    if files.len() < count {
        return Ok(wrong());
    }
    let file = |k: usize| Input { name: names[k], bytes: &files[k] };
    Ok(Said::Ended(match words[..] {
        ["find", _] => desk::find(file(0), TRIES),
        ["find", _, "--tries", tries] => desk::find(file(0), most_tries(tries)),
        ["why", _] => desk::why(file(0), TRIES),
        ["room", _] => desk::room(file(0), TRIES),
        ["room", _, "--tries", tries] => desk::room(file(0), most_tries(tries)),
        ["set", _, ref edits @ ..] => desk::set(file(0), edits),
        ["clashes", _] => desk::clashes(file(0)),
        ["check", _, _, "--all"] => desk::check_all(file(0), file(1)),
        ["diff", _, _, _] => desk::diff(file(0), file(1), file(2)),
        ["tidy", _] => desk::tidy(file(0)),
        _ => return Ok(wrong()),
    }))
}

fn most_tries(word: &str) -> u64 {
    word.parse().unwrap_or(u64::MAX)
}

/// `audit FILE-OR-FOLDER.. [--tries N] [--csv FILE]`.
fn audited(words: &[&str]) -> io::Result<Said> {
    let (mut names, mut tries, mut csv, mut left) = (Vec::new(), TRIES, None, words);
    loop {
        left = match *left {
            [] => break,
            ["--tries", number, ref more @ ..] => {
                tries = most_tries(number);
                more
            }
            ["--csv", file, ref more @ ..] => {
                csv = Some(file);
                more
            }
            [name, ref more @ ..] => {
                names.extend(site_files(name)?);
                more
            }
        };
    }
    names.sort();
    names.dedup();
    let mut read = Vec::new();
    for name in &names {
        let plan = name.strip_suffix(".site").map(|stem| format!("{stem}.plan"));
        read.push((fs::read(name)?, plan.and_then(|plan| fs::read(plan).ok())));
    }
    let mut files: Vec<AuditFile> = names
        .iter()
        .zip(&read)
        .map(|(name, (site, plan))| AuditFile { site: Input { name, bytes: site }, plan: plan.as_deref() })
        .collect();
    let (end, sheet) = desk::audit(&mut files, tries);
    if let Some(csv) = csv {
        fs::write(csv, sheet)?;
    }
    Ok(Said::Ended(end))
}

/// `show SITE [PLAN] [--cells] [--csv]`. The width is what COLUMNS says, or that of no terminal.
fn shown(words: &[&str]) -> io::Result<Said> {
    let width = std::env::var("COLUMNS").ok().and_then(|width| width.parse().ok()).unwrap_or(80);
    let (mut names, mut form) = (Vec::new(), Form::Grid(width));
    for &word in words {
        match word {
            "--cells" => form = Form::Cells,
            "--csv" => form = Form::Sheet,
            name => names.push(name),
        }
    }
    let files = names.iter().map(fs::read).collect::<io::Result<Vec<_>>>()?;
    let mut inputs = names.iter().zip(&files).map(|(name, bytes)| Input { name, bytes });
    Ok(match inputs.next() {
        Some(site) => Said::Ended(desk::show(site, inputs.next(), form)),
        None => wrong(),
    })
}

/// `report SITE [PLAN] [--flows FLOWS]`. The page goes to standard output.
fn reported(words: &[&str]) -> io::Result<Said> {
    let (mut names, mut flows, mut left) = (Vec::new(), None, words);
    loop {
        left = match *left {
            [] => break,
            ["--flows", name, ref more @ ..] => {
                flows = Some((name, fs::read(name)?));
                more
            }
            [name, ref more @ ..] => {
                names.push((name, fs::read(name)?));
                more
            }
        };
    }
    let mut inputs = names.iter().map(|(name, bytes)| Input { name, bytes });
    let flows = flows.as_ref().map(|(name, bytes)| Input { name, bytes });
    Ok(match inputs.next() {
        Some(site) => Said::Ended(desk::report(site, inputs.next(), flows, TRIES)),
        None => wrong(),
    })
}

/// `picture SITE [PLAN]`
fn drawn(names: &[&str]) -> io::Result<Said> {
    let files = names.iter().map(fs::read).collect::<io::Result<Vec<_>>>()?;
    let mut inputs = names.iter().zip(&files).map(|(name, bytes)| Input { name, bytes });
    Ok(match inputs.next() {
        Some(site) => Said::Ended(desk::picture(site, inputs.next())),
        None => wrong(),
    })
}

/// A file by itself, or the site files of a folder.
fn site_files(name: &str) -> io::Result<Vec<String>> {
    if !fs::metadata(name)?.is_dir() {
        return Ok(vec![name.into()]);
    }
    let mut names = Vec::new();
    for entry in fs::read_dir(name)? {
        let path = entry?.path();
        if path.extension().is_some_and(|end| end == "site") {
            names.push(path.to_string_lossy().into_owned());
        }
    }
    Ok(names)
}

/// What else is given beside a sheet: the list of blocked positions if there is one, and the rule, which is 1 where none is
/// given.
fn beside<'a>(words: &[&'a str]) -> Option<(Option<&'a str>, u16)> {
    match *words {
        [] => Some((None, RULE_1)),
        ["--blocked", list] => Some((Some(list), RULE_1)),
        ["--rule", rule] => Some((None, number(rule))),
        ["--blocked", list, "--rule", rule] => Some((Some(list), number(rule))),
        _ => None,
    }
}

/// A number on the command line; one above 65,535 is out of range wherever it stands, as 0 is.
fn number(word: &str) -> u16 {
    word.parse().unwrap_or(0)
}

fn made(kind: &str, seed: &str) -> io::Result<Said> {
    let file = seed.parse().ok().and_then(|seed| make::make(kind, seed));
    Ok(file.map_or_else(wrong, |result| Said::Told(Ok(Done { result, words: String::new() }))))
}

fn print(result: &[u8], words: &str, status: ExitCode) -> ExitCode {
    let printed = io::stdout().write_all(result).and_then(|()| io::stderr().write_all(words.as_bytes()));
    if printed.is_ok() {
        status
    } else {
        ExitCode::from(2)
    }
}

//! Every sample file, cut at each byte, with a byte too many, and with each single byte changed to every value: read as
//! a site file and as a plan file, and written back where it is accepted. The sample sheets likewise, read as sheets; and the
//! sheets that a spreadsheet wrote likewise, tidied.

use crate::run::Run;
use second::site::Site;
use std::fs;
use std::io;
use std::path::Path;

pub fn compare(run: &mut Run, dir: &Path) -> io::Result<usize> {
    let mut files = Vec::new();
    for entry in fs::read_dir(dir)? {
        let path = entry?.path();
        if path.extension().is_some_and(|end| end == "site" || end == "plan" || end == "csv") {
            files.push(path);
        }
    }
    files.sort();
    for path in &files {
        let file = fs::read(path)?;
        if path.extension().is_some_and(|end| end == "csv") {
            one_file(&file, |bytes, mark| {
                // Six positions: some of them are blocked.
                let mut beside = Site { rule: 1 + mark as u16 / 64 % 2, ..Site::sized(1, 3, 2) };
                beside.blocked[0] = mark % 64;
                run.read_sheet(bytes, &beside, mark)
            });
        } else {
            one_file(&file, |bytes, mark| both_ways(run, bytes, mark));
        }
    }
    Ok(files.len() + exports(run, &dir.join("sheets"))?)
}

fn exports(run: &mut Run, dir: &Path) -> io::Result<usize> {
    let mut files = Vec::new();
    for entry in fs::read_dir(dir)? {
        files.push(entry?.path());
    }
    files.sort();
    for path in &files {
        one_file(&fs::read(path)?, |bytes, mark| run.tidy(bytes, mark));
    }
    Ok(files.len())
}

fn one_file(file: &[u8], mut read: impl FnMut(&[u8], u64)) {
    for cut in 0..=file.len() {
        read(&file[..cut], cut as u64);
    }
    for value in 0..=255 {
        let mut longer = file.to_vec();
        longer.push(value);
        read(&longer, 3);
        for at in 0..file.len() {
            let mut changed = file.to_vec();
            changed[at] = value;
            read(&changed, at as u64);
        }
    }
}

fn both_ways(run: &mut Run, bytes: &[u8], mark: u64) {
    run.read_site(bytes, mark);
    // 18 bytes are just enough for the plan of p1.site.
    for table_len in [18, 17, 40] {
        run.read_plan(bytes, table_len, mark);
    }
}

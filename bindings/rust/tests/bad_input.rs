//! Bad input gives an error in Rust's own way: no file, a huge file, a name that is no UTF-8, a site shared by threads, a
//! table of the wrong size.

use duggfrask::{FileError, Plan, Refusal, Site};
use std::ffi::OsStr;
use std::fs::{self, File};
use std::io::ErrorKind;
use std::os::unix::ffi::OsStrExt;
use std::path::PathBuf;
use std::thread;

fn folder(name: &str) -> PathBuf {
    let folder = std::env::temp_dir().join(format!("duggfrask-rust-{}-{name}", std::process::id()));
    fs::create_dir_all(&folder).expect("a folder");
    folder
}

fn small() -> Site {
    Site::new(3, 3, 2).unwrap().with_load(1, 5).unwrap().with_load(2, 1).unwrap().with_reach(1, 2).unwrap()
}

#[test]
fn a_path_that_is_no_file() {
    assert!(matches!(Site::read("/no/such/file"), Err(FileError::Io(e)) if e.kind() == ErrorKind::NotFound));
    assert!(matches!(Site::read("/"), Err(FileError::Io(_))));
}

#[test]
fn a_file_of_ten_gigabytes() {
    let folder = folder("large");
    let path = folder.join("large.site");
    let file = File::create(&path).unwrap();
    // A sparse file, where the file system has them; the test says nothing where it does not.
    if file.set_len(10_000_000_000).is_ok() {
        assert!(matches!(Site::read(&path), Err(FileError::Refused(Refusal::OtherKind { .. } | Refusal::BadLength { .. } | Refusal::FileEnds { .. }))));
        assert!(matches!(Plan::read(&path), Err(FileError::Refused(_))));
    }
    fs::remove_dir_all(folder).unwrap();
}

#[test]
fn a_name_that_is_no_utf8() {
    let folder = folder("name");
    let path = folder.join(OsStr::from_bytes(b"s\xff\xfe.site"));
    fs::write(&path, small().to_file().unwrap()).unwrap();
    assert_eq!(Site::read(&path).unwrap(), small());
    fs::remove_dir_all(folder).unwrap();
}

#[test]
fn a_site_shared_by_threads() {
    let site = small();
    let plan = site.plan().unwrap();
    thread::scope(|all| {
        for _ in 0..4 {
            all.spawn(|| {
                for _ in 0..200 {
                    assert_eq!(site.plan().unwrap(), plan);
                    plan.check(&site).unwrap();
                }
            });
        }
    });
}

#[test]
fn a_table_of_the_wrong_size() {
    let site = small();
    let mut short = vec![7; site.table_len() - 1];
    assert!(matches!(site.plan_into(&mut short), Err(Refusal::TableShort { .. })));
    assert!(short.iter().all(|&byte| byte == 7), "a refusal writes nothing");
    assert!(matches!(site.check(&[]), Err(Refusal::TableShort { .. })));
    let other = Site::new(3, 3, 3).unwrap();
    assert!(matches!(site.plan().unwrap().check(&other), Err(Refusal::TableShort { .. })));
}

#[test]
fn numbers_and_words() {
    let refused = small().with_load(7, 1).unwrap_err();
    assert_eq!((refused.number(), refused.values()), (2, [7, 0, 0]));
    assert_eq!(refused.to_string(), "refused 2, cell 7: a load or a flow is for a cell that the site does not have");
    let refused = Site::from_bytes(&[0; 8]).unwrap_err();
    assert!(refused.to_string().starts_with(&format!("refused {}, byte 0 of the site file: ", refused.number())));
    let error: Box<dyn std::error::Error> = Box::new(refused);
    assert!(!error.to_string().is_empty());
    assert_eq!(duggfrask::version(), duggfrask::VERSION);
}

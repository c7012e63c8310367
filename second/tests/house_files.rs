//! The two files and the listing of docs/RULES.md, byte for byte, the sample files, and each refusal of the readers and
//! writers.

use second::answer::{refuse, Outcome};
use second::files::{read_plan, read_site, write_plan, write_site};
use second::listing::listing;
use second::planner::plan;
use second::sheet::{read_sheet, write_sheet};
use second::site::Site;
use std::path::Path;

const SITE: [u8; 28] = [
    0x08, 0x00, 0x01, 0x00, 0x03, 0x00, 0x03, 0x00, 0x02, 0x00, 0x08, 0x00, 0x02, 0x00, 0x05, 0x00, 0x01, 0x00, 0x04,
    0x00, 0x06, 0x00, 0x03, 0x00, 0x02, 0x01, 0x02, 0x03,
];

const PLAN: [u8; 17] =
    [0x08, 0x00, 0x01, 0x00, 0x03, 0x00, 0x03, 0x00, 0x02, 0x00, 0x05, 0x00, 0x04, 0x00, 0x1F, 0xF8, 0x00];

const LISTING: &str = "site 3 3 2
chain yes
load holds
plan done
1 1.1 1.2 2.1 2.2 3.1
2 3.2
3 1.1 1.2 2.1 2.2
";

fn sample(name: &str) -> Vec<u8> {
    let samples = Path::new(env!("CARGO_MANIFEST_DIR")).join("../samples");
    std::fs::read(samples.join(name)).unwrap()
}

/// The site file of docs/RULES.md with some bytes changed.
fn changed(changes: &[(usize, u8)]) -> Vec<u8> {
    let mut file = SITE.to_vec();
    for &(at, byte) in changes {
        file[at] = byte;
    }
    file
}

fn plan_read(file: &[u8], len: usize) -> (Outcome<Site>, Vec<u8>) {
    let mut table = vec![9; len];
    (read_plan(file, &mut table), table)
}

#[test]
fn the_files_of_the_rules_are_the_samples() {
    assert_eq!(sample("p1.site"), SITE);
    assert_eq!(sample("p1.plan"), PLAN);
}

#[test]
fn the_sample_sheets_are_the_sites() {
    for (name, slots, channels) in [("p1", 3, 2), ("north", 8, 2), ("tunnel32", 128, 16)] {
        let sheet = sample(&format!("{name}.sheet.csv"));
        let site = read_site(&sample(&format!("{name}.site"))).unwrap();
        assert_eq!(read_sheet(&sheet, slots, channels, &[0; 32], 1), Ok(site));
        let mut out = vec![9; sheet.len()];
        assert_eq!(write_sheet(&site, &mut out), Ok(sheet.len()));
        assert_eq!(out, sheet);
    }
}

#[test]
fn the_site_file_there_and_back() {
    let site = read_site(&SITE).unwrap();
    assert_eq!((site.cells, site.slots, site.channels), (3, 3, 2));
    assert_eq!(site.loads[..4], [5, 1, 4, 0]);
    assert_eq!(site.reach[..4], [0, 0b101, 0, 0]);
    let mut out = [9; 30];
    assert_eq!(write_site(&site, &mut out), Ok(28));
    assert_eq!((&out[..28], &out[28..]), (&SITE[..], &[9, 9][..]));
    assert_eq!(write_site(&site, &mut out[..27]), refuse(13, &[28]));
}

#[test]
fn the_plan_file_there_and_back() {
    let site = read_site(&SITE).unwrap();
    let mut table = [0; 18];
    plan(&site, &mut table).unwrap();
    let mut out = [9; 20];
    assert_eq!(write_plan(&site, &table, &mut out), Ok(17));
    assert_eq!((&out[..17], &out[17..]), (&PLAN[..], &[9, 9, 9][..]));
    assert_eq!(write_plan(&site, &table[..17], &mut out), refuse(4, &[]));
    assert_eq!(write_plan(&site, &table, &mut out[..16]), refuse(13, &[17]));
    let (sizes, read) = plan_read(&PLAN, 20);
    assert_eq!(sizes, Ok(Site::sized(3, 3, 2)));
    let kept: Vec<u8> = table.iter().map(|&byte| (byte == 1) as u8).collect();
    assert_eq!((&read[..18], &read[18..]), (&kept[..], &[9, 9][..]));
}

#[test]
fn every_cut_of_both_files_is_8_at_the_record_cut() {
    for cut in 0..SITE.len() {
        let record = if cut < 10 {
            0
        } else if cut < 20 {
            10
        } else {
            20
        };
        assert_eq!(read_site(&SITE[..cut]), refuse(8, &[record]));
    }
    for cut in 0..PLAN.len() {
        let record = if cut < 10 { 0 } else { 10 };
        assert_eq!(plan_read(&PLAN[..cut], 18), (refuse(8, &[record]), vec![9; 18]));
    }
}

#[test]
fn refusals_of_the_site_reader() {
    assert_eq!(read_site(&changed(&[(4, 33)])), refuse(1, &[0]));
    assert_eq!(read_site(&changed(&[(2, 2)])), refuse(9, &[0]));
    assert_eq!(read_site(&changed(&[(2, 2), (0, 9)])), refuse(9, &[0]));
    assert_eq!(read_site(&changed(&[(0, 200)])), refuse(10, &[0]));
    assert_eq!(read_site(&changed(&[(10, 10)])), refuse(10, &[10]));
    for length in [0, 1, 5, 7] {
        assert_eq!(read_site(&changed(&[(20, length)])), refuse(10, &[20]));
    }
    assert_eq!(read_site(&changed(&[(20, 8)])), refuse(8, &[20]));
    assert_eq!(read_site(&changed(&[(25, 4)])), refuse(3, &[20]));
    assert_eq!(read_site(&changed(&[(25, 2)])), refuse(3, &[20]));
    assert_eq!(read_site(&changed(&[(27, 1)])), refuse(11, &[20]));
    assert_eq!(read_site(&changed(&[(26, 1), (27, 1)])), refuse(3, &[20]));
    // Two bytes are left after the reach: a record is due there.
    assert_eq!(read_site(&changed(&[(20, 4)])), refuse(8, &[26]));
    assert_eq!(read_site(&PLAN), refuse(9, &[10]));
}

#[test]
fn refusals_of_the_plan_reader() {
    let unwritten = vec![9; 17];
    let mut extra = PLAN.to_vec();
    extra.push(0);
    assert_eq!(plan_read(&extra, 17), (refuse(12, &[17]), unwritten.clone()));
    assert_eq!(plan_read(&PLAN, 17), (refuse(4, &[0]), unwritten.clone()));
    extra[16] = 0x04;
    assert_eq!(plan_read(&extra, 17), (refuse(14, &[10]), unwritten.clone()));
    assert_eq!(plan_read(&SITE, 17), (refuse(9, &[10]), unwritten));
}

#[test]
fn listings() {
    assert_eq!(listing(&SITE), LISTING);
    assert_eq!(listing(&SITE[..25]), "refused 8 20\n");
    assert_eq!(listing(&sample("p2.site")), "site 3 3 2\nchain yes\nload over 2 1\nplan 5 2 1\n");
    assert_eq!(listing(&sample("p7.site")), "site 5 2 1\nchain no 1 3 4\nload over 5 1\nplan 5 5 1\n");
    assert_eq!(listing(&sample("oneway.site")), "site 3 2 1\nchain no 1 2 3\nload over 3 1\nplan 5 3 1\n");
    // Cell 1 with load 0 has its number alone.
    assert!(listing(&changed(&[(14, 0)])).contains("\n1\n2 1.1\n"));
}

#[test]
fn samples_are_what_their_names_say() {
    let spare = "site 4 3 2\nchain yes\nload holds\nplan done\n1 1.1 1.2 2.1 2.2 3.1\n2 3.2\n3 1.1 1.2 2.1 2.2\n4\n";
    assert_eq!(listing(&sample("p1spare.site")), spare);
    let p3 = "site 3 2 1\nchain no 1 2 3\nload over 3 1\nplan done\n1 1.1\n2 1.1\n3 2.1\n";
    assert_eq!(listing(&sample("p3.site")), p3);
    assert!(listing(&sample("p4.site")).ends_with("\nplan 5 4 1\n"));
    assert!(listing(&sample("p6.site")).ends_with("\nplan done\n1 1.1\n2 1.1\n3 2.1\n4 2.1\n5 1.1\n"));
    let north = "site 5 8 2\nchain yes\nload holds\nplan done\n1 1.1 1.2 2.1 2.2 3.1 3.2\n";
    assert!(listing(&sample("north.site")).starts_with(north));
    let wifi = "site 5 8 2\nchain yes\nload holds\nplan done\n1 1.1 2.1 3.1 4.1 5.1 5.2\n2 6.1 6.2 7.1 7.2 8.1\n\
                3 1.1 2.1 3.1 4.1\n4 5.1 5.2 6.1 6.2 7.1 7.2 8.1\n5\n";
    assert_eq!(listing(&sample("wifi.site")), wifi);
    assert_eq!(listing(&sample("p1blocked.site")), "site 3 3 2\nchain yes\nload over 2 1\nplan 5 2 1\n");
    assert_eq!(listing(&sample("p11.site")), "site 1 1 1\nchain yes\nload holds\nplan done\n1 1.1\n");
    let tunnel = read_site(&sample("tunnel32.site")).unwrap();
    assert_eq!((tunnel.cells, tunnel.slots, tunnel.channels), (32, 128, 16));
    assert_eq!(tunnel.loads[0] + tunnel.loads[1], 2048);
    assert!(listing(&sample("tunnel32.site")).starts_with("site 32 128 16\nchain yes\nload holds\nplan done\n"));
    for cell in 1..32 {
        assert_eq!(tunnel.reach[cell - 1], 1 << cell);
    }
}

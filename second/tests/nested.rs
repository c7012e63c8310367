//! Nested sites: the worked examples, the cells that are named, and that the load test decides there.

mod common;

use common::{site, small_site};
use second::judge::{chain, load_test, nested};
use second::planner::plan;
use second::site::Site;

#[test]
fn the_worked_sites() {
    let ones = |cells, clashes: &[(usize, usize)]| site(2, 1, &vec![1; cells], clashes);
    for (site, chained, is_nested) in [
        (ones(4, &[(1, 2), (2, 3), (1, 4)]), Some((1, 3, 4)), None),
        (ones(3, &[(1, 2), (1, 3)]), None, None),
        (ones(3, &[(1, 3), (2, 3)]), Some((1, 2, 3)), Some((1, 2, 3))),
        (ones(4, &[(1, 3), (2, 4), (3, 4)]), Some((1, 2, 3)), Some((2, 3, 4))),
    ] {
        assert_eq!((chain(&site), nested(&site)), (Ok(chained), Ok(is_nested)), "{site:?}");
    }
    let spare = site(2, 1, &[1, 0, 1], &[(1, 3), (2, 3)]);
    assert_eq!(nested(&spare), Ok(None));
}

/// The first a, b, i by a look at every three cells.
fn by_all_threes(site: &Site) -> Option<(usize, usize, usize)> {
    let mut found = Vec::new();
    for i in 1..=site.count() {
        for a in 1..i {
            for b in a + 1..i {
                let loaded = [a, b, i].iter().all(|&cell| site.load(cell) > 0);
                if loaded && site.clash(a, i) && site.clash(b, i) && !site.clash(a, b) {
                    found.push((i, a, b));
                }
            }
        }
    }
    found.into_iter().min().map(|(i, a, b)| (a, b, i))
}

#[test]
fn every_site_of_four_cells() {
    let (mut only_nested, mut outside) = (0, 0);
    for clashes in 0..64 {
        for loads in 0..81 {
            let site = small_site(4, 2, clashes, loads);
            let split = nested(&site).unwrap();
            assert_eq!(split, by_all_threes(&site), "{site:?}");
            let holds = load_test(&site) == Ok(None);
            let plans = plan(&site, &mut vec![0; site.table_len()]).is_ok();
            assert!(plans || !holds, "{site:?}");
            if split.is_none() {
                assert_eq!(plans, holds, "{site:?}");
                only_nested += (chain(&site) != Ok(None)) as usize;
            } else {
                assert!(chain(&site) != Ok(None), "{site:?}");
                outside += (plans != holds) as usize;
            }
        }
    }
    assert!(only_nested > 100 && outside > 10, "{only_nested} {outside}");
}

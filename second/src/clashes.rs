//! Every clash of a site, with who reaches whom and, under rule 2, by which third cell.

use crate::answer::Outcome;
use crate::site::{Site, RULE_2};

/// Two cells that clash, the lower first: whether each reaches the other, and under rule 2 the lowest third cell that both
/// reach, if there is one.
#[derive(Clone, Copy, Debug, PartialEq, Eq)]
pub struct Clash {
    pub first: usize,
    pub second: usize,
    pub forth: bool,
    pub back: bool,
    pub third: Option<usize>,
}

/// The clashes of a site, by first cell, then second. Spare cells count as others do.
pub fn clashes(site: &Site) -> Outcome<Vec<Clash>> {
    site.sound()?;
    let mut clashes = Vec::new();
    for first in 1..=site.count() {
        for second in (first + 1..=site.count()).filter(|&second| site.clash(first, second)) {
            let (forth, back) = (site.reaches(first, second), site.reaches(second, first));
            let third = if site.rule == RULE_2 { site.third(first, second) } else { None };
            clashes.push(Clash { first, second, forth, back, third });
        }
    }
    Ok(clashes)
}

#[cfg(test)]
mod tests {
    use super::*;
    use crate::answer::refuse;

    fn clash(first: usize, second: usize, forth: bool, back: bool, third: Option<usize>) -> Clash {
        Clash { first, second, forth, back, third }
    }

    /// 1 reaches 2 and 4, 2 reaches 1, 3 reaches 4, 4 reaches 2.
    fn four(rule: u16) -> Site {
        let mut site = Site { rule, ..Site::sized(4, 2, 1) };
        for (from, to) in [(1, 2), (2, 1), (3, 4), (1, 4), (4, 2)] {
            site = site.with_reach(from, to, true).unwrap();
        }
        site
    }

    #[test]
    fn by_reach_alone() {
        let due = [
            clash(1, 2, true, true, None),
            clash(1, 4, true, false, None),
            clash(2, 4, false, true, None),
            clash(3, 4, true, false, None),
        ];
        assert_eq!(clashes(&four(1)), Ok(due.to_vec()));
        assert_eq!(clashes(&Site::sized(4, 2, 1)), Ok(vec![]));
        assert_eq!(clashes(&Site { rule: 3, ..four(1) }), refuse(24, &[]));
    }

    /// Under rule 2, 1 and 3 both reach 4, and 1 and 4 both reach 2, besides that 1 reaches 4.
    #[test]
    fn by_a_third_cell() {
        let due = [
            clash(1, 2, true, true, None),
            clash(1, 3, false, false, Some(4)),
            clash(1, 4, true, false, Some(2)),
            clash(2, 4, false, true, None),
            clash(3, 4, true, false, None),
        ];
        assert_eq!(clashes(&four(2)), Ok(due.to_vec()));
    }
}

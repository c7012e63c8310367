//! All sites at once: what is said of one site file and of the plan file beside it, and the counts over all of them.

use crate::answer::{Answer, Outcome};
use crate::checker::check;
use crate::files::{read_plan, read_site};
use crate::find::{find, Found};
use crate::judge::{chain, nested};
use crate::mender::changes_to_mend;
use crate::numbering::renumber;
use crate::room::takes;
use crate::site::Site;

/// Where a site stands: chained, else nested, else one that a numbering of all its cells makes nested, else none of these.
#[derive(Clone, Copy, Debug, PartialEq, Eq)]
pub enum Class {
    Chained,
    Nested,
    Renumbered,
    Neither,
}

/// What is said of a plan file beside a site.
#[derive(Clone, Debug, PartialEq, Eq)]
pub enum PlanSaid {
    /// The plan reader's refusal.
    Refused(Answer),
    /// It is for another size, that of this site.
    OtherSize(Site),
    Valid,
    /// The checker's refusal; the number of changes that mending would make, or its refusal 5; and whether the plan is
    /// valid when only two-way ranges clash.
    Wrong {
        first: Answer,
        changes: Outcome<usize>,
        one_way: bool,
    },
}

/// What is said of one site.
#[derive(Clone, Debug, PartialEq, Eq)]
pub struct Audited {
    pub site: Site,
    pub class: Class,
    pub found: Found,
    /// With fewer channel-slots than this no plan exists.
    pub needs: u64,
    /// With this many one does.
    pub enough: u64,
    pub plan: Option<PlanSaid>,
}

/// Audits a site file and, if there is one, the plan file beside it; or gives the refusal of the site file.
pub fn audit(site_file: &[u8], plan_file: Option<&[u8]>, limit: u64) -> Outcome<Audited> {
    let site = read_site(site_file)?;
    let found = find(&site, limit, &mut vec![0; site.table_len()])?;
    let (needs, enough) = takes(&site, &found)?;
    let plan = match plan_file {
        None => None,
        Some(bytes) => Some(plan_said(&site, bytes)?),
    };
    Ok(Audited { site, class: class(&site)?, found, needs, enough, plan })
}

pub fn class(site: &Site) -> Outcome<Class> {
    Ok(if chain(site)?.is_none() {
        Class::Chained
    } else if nested(site)?.is_none() {
        Class::Nested
    } else if renumber(site).is_ok() {
        Class::Renumbered
    } else {
        Class::Neither
    })
}

fn plan_said(site: &Site, plan_file: &[u8]) -> Outcome<PlanSaid> {
    // The largest table.
    let mut table = vec![0; 65_536];
    let planned = match read_plan(plan_file, &mut table) {
        Ok(planned) => planned,
        Err(no) => return Ok(PlanSaid::Refused(no)),
    };
    if (planned.cells, planned.slots, planned.channels) != (site.cells, site.slots, site.channels) {
        return Ok(PlanSaid::OtherSize(planned));
    }
    let Err(first) = check(site, &table) else { return Ok(PlanSaid::Valid) };
    let changes = changes_to_mend(site, &table).map(|changes| changes.len());
    Ok(PlanSaid::Wrong { first, changes, one_way: check(&two_way(site), &table).is_ok() })
}

/// The site as it is read where only two-way ranges clash: each reach is cleared that has no reach back. The rule stays.
pub fn two_way(site: &Site) -> Site {
    let mut both = *site;
    for from in 1..=site.count() {
        for to in (1..=site.count()).filter(|&to| !site.reaches(to, from)) {
            both.reach[from - 1] &= !(1 << (to - 1));
        }
    }
    both
}

/// The counts over all sites.
#[derive(Clone, Copy, Debug, Default, PartialEq, Eq)]
pub struct Totals {
    pub sites: u64,
    pub refused: u64,
    pub with_plan: u64,
    pub full: u64,
    pub not_known: u64,
    pub plans: u64,
    pub plans_valid: u64,
    pub plans_wrong: u64,
    pub plans_refused: u64,
    /// Of those that are not valid, the plans that are where only two-way ranges clash.
    pub one_way: u64,
}

impl Totals {
    pub fn count(&mut self, said: &Outcome<Audited>) {
        self.sites += 1;
        let Ok(audited) = said else {
            self.refused += 1;
            return;
        };
        match audited.found {
            found if found.is_plan() => self.with_plan += 1,
            found if found.is_full() => self.full += 1,
            _ => self.not_known += 1,
        }
        let Some(plan) = &audited.plan else { return };
        self.plans += 1;
        match plan {
            PlanSaid::Valid => self.plans_valid += 1,
            PlanSaid::Refused(_) | PlanSaid::OtherSize(_) => self.plans_refused += 1,
            PlanSaid::Wrong { one_way, .. } => {
                self.plans_wrong += 1;
                self.one_way += *one_way as u64;
            }
        }
    }

    /// Is anything refused, or not valid? Then the audit's status is 1. A site that is full is neither.
    pub fn all_well(&self) -> bool {
        self.refused == 0 && self.plans_refused == 0 && self.plans_wrong == 0
    }
}

#[cfg(test)]
mod tests {
    use super::*;
    use crate::answer::refuse;
    use crate::files::{write_plan, write_site};
    use crate::planner::plan;
    use crate::site::site_of;

    fn file(write: impl FnOnce(&mut [u8]) -> Outcome<usize>) -> Vec<u8> {
        let mut bytes = vec![0; 9000];
        let len = write(&mut bytes).unwrap();
        bytes.truncate(len);
        bytes
    }

    fn said(site: &Site, table: Option<&[u8]>) -> Audited {
        let plan = table.map(|table| file(|out| write_plan(site, table, out)));
        audit(&file(|out| write_site(site, out)), plan.as_deref(), 1000).unwrap()
    }

    #[test]
    fn where_a_site_stands() {
        let ones = [1; 4];
        for (slots, pairs, due, found) in [
            (2, &[(1, 2), (2, 3), (3, 4)][..], Class::Chained, Found::Greedy),
            (2, &[(1, 2), (2, 3), (1, 4)], Class::Nested, Found::Greedy),
            (2, &[(1, 3), (2, 4), (3, 4)], Class::Renumbered, Found::Renumbered),
            (2, &[(1, 2), (2, 3), (3, 4), (4, 1)], Class::Neither, Found::Greedy),
            (1, &[(1, 3), (2, 4), (3, 4)], Class::Renumbered, Found::FullBySet(0b101)),
        ] {
            let audited = said(&site_of(slots, 1, &ones, pairs), None);
            assert_eq!((audited.class, audited.found, audited.plan), (due, found, None), "{pairs:?}");
            assert_eq!((audited.needs, audited.enough), (2, 2));
        }
    }

    /// 1 reaches 2, one way, and 2 and 3 reach one another.
    #[test]
    fn a_clash_that_a_one_way_reading_does_not_see() {
        let site = site_of(2, 1, &[1, 1, 1], &[(1, 2), (2, 3), (3, 2)]);
        let mut planned = vec![0; 6];
        plan(&site, &mut planned).unwrap();
        assert_eq!(said(&site, Some(&planned)).plan, Some(PlanSaid::Valid));
        let wrong = |table: &[u8]| match said(&site, Some(table)).plan {
            Some(PlanSaid::Wrong { first, changes, one_way }) => (first.number, changes, one_way),
            other => panic!("{other:?}"),
        };
        // 1 and 2 both send at position 0; 2 and 3 do not.
        assert_eq!(wrong(&[1, 0, 1, 0, 0, 1]), (6, Ok(4), true));
        // 2 and 3 both send at position 1: that is a clash both ways.
        assert_eq!(wrong(&[1, 0, 0, 1, 0, 1]), (6, Ok(2), false));
        // A count that is wrong is wrong in either reading.
        assert_eq!(wrong(&[1, 0, 0, 0, 1, 0]), (7, Ok(1), false));
    }

    /// Under rule 2 a clash by a third cell is one-way where the third cell does not reach back.
    #[test]
    fn two_way_ranges_alone() {
        let site = Site { rule: 2, ..site_of(2, 1, &[1, 1, 1], &[(1, 3), (2, 3), (3, 2)]) };
        assert!(site.clash(1, 2));
        let both = two_way(&site);
        assert_eq!((both.rule, both.reach[..3].to_vec()), (2, vec![0, 0b100, 0b010]));
        assert!(!both.clash(1, 2) && both.clash(2, 3));
    }

    #[test]
    fn mending_that_finds_no_room_and_plans_that_are_none() {
        let full = site_of(1, 1, &[1, 1], &[(1, 2)]);
        let PlanSaid::Wrong { first, changes, one_way } = said(&full, Some(&[1, 1])).plan.unwrap() else { panic!() };
        assert_eq!((first.number, changes, one_way), (6, refuse(5, &[2, 1]), true));
        let site = file(|out| write_site(&full, out));
        let other = file(|out| write_plan(&Site::sized(1, 1, 1), &[1], out));
        let said = |plan: &[u8]| audit(&site, Some(plan), 0).unwrap().plan.unwrap();
        assert_eq!(said(&other), PlanSaid::OtherSize(Site::sized(1, 1, 1)));
        assert_eq!(said(&other[..9]), PlanSaid::Refused(refuse::<()>(8, &[0]).unwrap_err()));
        assert_eq!(audit(&other, None, 0), refuse(9, &[10]));
    }

    #[test]
    fn counts() {
        let (well, full) = (site_of(2, 1, &[1, 1], &[(1, 2)]), site_of(1, 1, &[1, 1], &[(1, 2)]));
        let mut totals = Totals::default();
        totals.count(&Ok(said(&well, None)));
        totals.count(&Ok(said(&full, None)));
        totals.count(&Ok(said(&well, Some(&[1, 0, 0, 1]))));
        assert!(totals.all_well(), "a full site is no fault of the file");
        totals.count(&Ok(said(&well, Some(&[1, 0, 1, 0]))));
        assert!(!totals.all_well());
        totals.count(&refuse(8, &[0]));
        let due = Totals {
            sites: 5,
            refused: 1,
            with_plan: 3,
            full: 1,
            not_known: 0,
            plans: 2,
            plans_valid: 1,
            plans_wrong: 1,
            plans_refused: 0,
            one_way: 1,
        };
        assert_eq!(totals, due);
    }
}

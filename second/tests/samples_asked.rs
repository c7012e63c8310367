//! What the desk asks of the sample files: where each site stands, what is found for it, the room that it has, and what is
//! said of plans beside it.

use second::audit::{audit, Audited, Class, PlanSaid};
use second::find::Found;
use second::room::rooms;
use std::fs;

fn sample(name: &str) -> Vec<u8> {
    fs::read(format!("../samples/{name}")).unwrap()
}

fn said(site: &str, plan: Option<&str>) -> Audited {
    audit(&sample(site), plan.map(sample).as_deref(), 1000).unwrap()
}

#[test]
fn every_site() {
    use Class::*;
    use Found::{FullBySet, Greedy};
    for (name, class, found, takes) in [
        ("drift", Nested, Greedy, 2),
        ("edge1", Chained, Greedy, 7),
        ("edge2", Chained, Greedy, 8),
        ("north", Chained, Greedy, 11),
        ("oneway", Nested, FullBySet(0b101), 3),
        ("p1", Chained, Greedy, 6),
        ("p11", Chained, Greedy, 1),
        ("p1blocked", Chained, FullBySet(0b11), 6),
        ("p1spare", Chained, Greedy, 6),
        ("p2", Chained, FullBySet(0b11), 7),
        ("p3", Renumbered, Greedy, 2),
        ("p4", Renumbered, Found::Renumbered, 2),
        ("p6", Renumbered, Greedy, 2),
        ("p7", Renumbered, Found::Renumbered, 2),
        ("tunnel32", Chained, Greedy, 2048),
        ("wifi", Chained, Greedy, 11),
    ] {
        let audited = said(&format!("{name}.site"), None);
        assert_eq!((audited.class, audited.found), (class, found), "{name}");
        assert_eq!((audited.needs, audited.enough), (takes, takes), "{name}");
    }
}

/// A nested site's room is exact; of the others only what the load test leaves is said.
#[test]
fn room_of_each_cell() {
    for (name, room) in [
        ("drift", vec![0, 0, 0, 0]),
        ("edge1", vec![1, 1, 8, 2, 3]),
        ("edge2", vec![1, 0, 8, 0, 0]),
        ("north", vec![5, 5, 5, 5, 9]),
        ("p1", vec![0, 0, 1]),
        ("p1spare", vec![0, 0, 1, 1]),
        ("p4", vec![0, 0, 0, 0]),
        ("p7", vec![0, 0, 0, 0, 0]),
        ("wifi", vec![1, 1, 1, 1, 5]),
    ] {
        let site = said(&format!("{name}.site"), None).site;
        let cells = rooms(&site, 0).unwrap().cells;
        assert_eq!(cells.iter().map(|room| room.more).collect::<Vec<_>>(), room, "{name}");
        let class = said(&format!("{name}.site"), None).class;
        let nested = matches!(class, Class::Chained | Class::Nested);
        assert_eq!(cells.iter().all(|room| room.exact), nested, "{name}");
    }
}

#[test]
fn plans_beside_sites() {
    for (site, plan) in
        [("p1", "p1"), ("edge1", "edge1"), ("edge2", "edge2"), ("edge1", "edge2"), ("wifi", "wifi"), ("north", "wifi")]
    {
        let said = said(&format!("{site}.site"), Some(&format!("{plan}.plan")));
        assert_eq!(said.plan, Some(PlanSaid::Valid), "{site} {plan}");
    }
    let wrong = |site: &str, plan: &str| match said(site, Some(plan)).plan {
        Some(PlanSaid::Wrong { first, changes, one_way }) => (first.number, changes.unwrap(), one_way),
        other => panic!("{other:?}"),
    };
    // The customer's plan has a wrong count, too, so that it is not valid in either reading.
    assert_eq!(wrong("north.site", "customer.plan"), (6, 5, false));
    // Both reach the third cell one way.
    assert_eq!(wrong("edge2.site", "edge1.plan"), (6, 2, true));
    assert!(matches!(said("p1.site", Some("customer.plan")).plan, Some(PlanSaid::OtherSize(size)) if size.cells == 5));
    assert!(matches!(said("p1.site", Some("p1.site")).plan, Some(PlanSaid::Refused(no)) if no.number == 9));
}

//! The files of a command, with their names: what a file is, as far as its first bytes show it, and how a refusal names it.

/// The files that a command may ask for.
#[derive(Clone, Copy, Debug, PartialEq, Eq)]
pub enum Kind {
    SiteFile,
    PlanFile,
    RangeSheet,
    FlowSheet,
}

impl Kind {
    fn words(self) -> &'static str {
        match self {
            Kind::SiteFile => "a site file",
            Kind::PlanFile => "a plan file",
            Kind::RangeSheet => "a range sheet",
            Kind::FlowSheet => "a sheet of flows",
        }
    }
}

/// What a file is: a sheet by its first line, whatever ends it; a house file by the kind of the record after its head, and
/// by its head alone where that is of kind 5, which only a site file has. Fewer than 14 bytes show no house file.
fn kind_of(bytes: &[u8]) -> Option<Kind> {
    if bytes.starts_with(b"cell,load") {
        return Some(Kind::RangeSheet);
    }
    if bytes.starts_with(b"cell,burst,period,repeats,value") {
        return Some(Kind::FlowSheet);
    }
    let next = bytes.get(12..14)?;
    if bytes.starts_with(&[10, 0, 5, 0]) {
        return Some(Kind::SiteFile);
    }
    if !bytes.starts_with(&[8, 0, 1, 0]) {
        return None;
    }
    match next {
        [2, 0] => Some(Kind::SiteFile),
        [4, 0] => Some(Kind::PlanFile),
        _ => None,
    }
}

/// A file, with the name that it is called by.
#[derive(Clone, Copy)]
pub struct Input<'a> {
    pub name: &'a str,
    pub bytes: &'a [u8],
}

impl Input<'_> {
    /// A refusal of this file, with its name in front, and what it is where another was asked for.
    pub fn refused(&self, asked: Kind, line: String) -> String {
        let name = self.name;
        match kind_of(self.bytes) {
            Some(kind) if kind != asked => {
                format!("{name} is {}; {} is asked for: {line}", kind.words(), asked.words())
            }
            _ => format!("{name}: {line}"),
        }
    }
}

#[cfg(test)]
mod tests {
    use super::*;

    #[test]
    fn by_the_first_bytes() {
        let head = [8, 0, 1, 0, 3, 0, 3, 0, 2, 0];
        let with = |more: &[u8]| [&head[..], more].concat();
        assert_eq!(kind_of(&with(&[8, 0, 2, 0])), Some(Kind::SiteFile));
        assert_eq!(kind_of(&with(&[5, 0, 4, 0])), Some(Kind::PlanFile));
        for other in
            [with(&[5, 0, 4]), with(&[5, 0, 3, 0]), with(&[5, 0, 4, 1]), vec![9, 0, 1, 0], vec![], b"cell".to_vec()]
        {
            assert_eq!(kind_of(&other), None, "{other:?}");
        }
        let ruled = |more: &[u8]| [&[10, 0, 5, 0, 3, 0, 3, 0, 2, 0, 2, 0][..], more].concat();
        for whole in [ruled(&[8, 0, 2, 0]), ruled(&[5, 0, 4, 0]), ruled(&[8, 0])] {
            assert_eq!(kind_of(&whole), Some(Kind::SiteFile), "{whole:?}");
        }
        for other in [
            ruled(&[8]),
            vec![8, 0, 5, 0, 3, 0, 3, 0, 2, 0, 8, 0, 2, 0],
            vec![10, 0, 1, 0, 3, 0, 3, 0, 2, 0, 2, 0, 8, 0],
        ] {
            assert_eq!(kind_of(&other), None, "{other:?}");
        }
        assert_eq!(kind_of(b"cell,load,1\n"), Some(Kind::RangeSheet));
        assert_eq!(kind_of(b"cell,burst,period,repeats,value"), Some(Kind::FlowSheet));
    }

    #[test]
    fn named() {
        let sheet = Input { name: "a b.csv", bytes: b"cell,load,1" };
        assert_eq!(sheet.refused(Kind::RangeSheet, "no\n".into()), "a b.csv: no\n");
        let line = "a b.csv is a range sheet; a sheet of flows is asked for: no\n";
        assert_eq!(sheet.refused(Kind::FlowSheet, "no\n".into()), line);
    }
}

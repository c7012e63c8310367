//! `duggfrask set`: edits of a site as they are typed, and what each makes of the site. They are applied in their order.

use crate::answer::{refuse, Answer, Outcome};
use crate::blocklist::read_list;
use crate::sheet::number;
use crate::site::{set_of, sizes_in_range, Positions, Site, MOST_POSITIONS, RULE_1, RULE_2};

/// One edit.
#[derive(Clone, Debug, PartialEq, Eq)]
pub enum Edit {
    Load {
        cell: u16,
        load: u16,
    },
    Reach {
        from: u16,
        to: u16,
    },
    Clear {
        from: u16,
        to: u16,
    },
    /// What is blocked, as a list; it takes the place of what was blocked before. Without a list nothing is blocked.
    Blocked(Option<String>),
    Rule(u16),
    Slots(u16),
    Channels(u16),
}

/// The names of the edits, each with what has to stand after it.
const NAMES: [(&str, &str); 7] = [
    ("load", "CELL=LOAD"),
    ("reach", "FROM-TO"),
    ("clear", "FROM-TO"),
    ("blocked", "a LIST or none"),
    ("rule", "R"),
    ("slots", "T"),
    ("channels", "F"),
];

/// Words that are no edits: the command is used wrongly.
#[derive(Clone, Debug, PartialEq, Eq)]
pub enum BadWords {
    /// No edit at all.
    None,
    /// A word that is no edit's name.
    NoEdit(String),
    /// An edit's name with nothing after it, and what has to stand there.
    Missing(&'static str, &'static str),
    /// An edit's name with a word after it that is not what has to stand there.
    Bad(&'static str, &'static str, String),
}

/// Reads the words of the command line: two for each edit. Numbers are plain, 0 to 65,535, without leading zeros.
pub fn read_edits(words: &[&str]) -> Result<Vec<Edit>, BadWords> {
    if words.is_empty() {
        return Err(BadWords::None);
    }
    words.chunks(2).map(read_edit).collect()
}

fn read_edit(words: &[&str]) -> Result<Edit, BadWords> {
    let Some(&(name, asked)) = NAMES.iter().find(|(name, _)| *name == words[0]) else {
        return Err(BadWords::NoEdit(words[0].into()));
    };
    let &word = words.get(1).ok_or(BadWords::Missing(name, asked))?;
    read_named(name, word).ok_or(BadWords::Bad(name, asked, word.into()))
}

fn read_named(name: &str, word: &str) -> Option<Edit> {
    let plain = || number(word.as_bytes());
    match name {
        "load" => two(word, '=').map(|(cell, load)| Edit::Load { cell, load }),
        "reach" => two(word, '-').map(|(from, to)| Edit::Reach { from, to }),
        "clear" => two(word, '-').map(|(from, to)| Edit::Clear { from, to }),
        "blocked" => Some(Edit::Blocked((word != "none").then(|| word.into()))),
        "rule" => plain().map(Edit::Rule),
        "slots" => plain().map(Edit::Slots),
        "channels" => plain().map(Edit::Channels),
        _ => None,
    }
}

/// Two numbers with a mark between.
fn two(word: &str, between: char) -> Option<(u16, u16)> {
    let (first, second) = word.split_once(between)?;
    Some((number(first.as_bytes())?, number(second.as_bytes())?))
}

/// Why an edit is refused.
#[derive(Clone, Copy, Debug, PartialEq, Eq)]
pub enum NotSet {
    Refused(Answer),
    /// A list of blocked positions that is none for this site: where its first item begins that is no item, from 0.
    BadList(usize),
}

/// The site with one edit made. The edit's own refusals: 2 of a load with the cell; 3 of a reach, set or cleared, with its
/// "from"; 24 of a rule; 1 of slots and channels, then 20.
pub fn edited(site: &Site, edit: &Edit) -> Result<Site, NotSet> {
    let changed = match edit {
        Edit::Load { cell, load } => site.with_load((*cell).into(), *load),
        Edit::Reach { from, to } => site.with_reach((*from).into(), (*to).into(), true),
        Edit::Clear { from, to } => site.with_reach((*from).into(), (*to).into(), false),
        Edit::Blocked(list) => return with_blocked(site, list.as_deref()),
        Edit::Rule(rule) => with_rule(site, *rule),
        Edit::Slots(slots) => with_sizes(site, *slots, site.channels),
        Edit::Channels(channels) => with_sizes(site, site.slots, *channels),
    };
    changed.map_err(NotSet::Refused)
}

fn with_blocked(site: &Site, list: Option<&str>) -> Result<Site, NotSet> {
    site.sound().map_err(NotSet::Refused)?;
    let none = Ok([0; 32]);
    let blocked: Positions =
        list.map_or(none, |list| read_list(list.as_bytes(), site.slots, site.channels)).map_err(NotSet::BadList)?;
    Ok(Site { blocked, ..*site })
}

fn with_rule(site: &Site, rule: u16) -> Outcome<Site> {
    site.sound()?;
    if rule != RULE_1 && rule != RULE_2 {
        return refuse(24, &[]);
    }
    Ok(Site { rule, ..*site })
}

/// The site with these slots and channels. What is blocked stays the same slots and channels, though its positions may have
/// other numbers then. 20, with the lowest position as the site has it now, where one would be gone.
fn with_sizes(site: &Site, slots: u16, channels: u16) -> Outcome<Site> {
    site.sound()?;
    sizes_in_range(site.count(), slots.into(), channels.into())?;
    let mut blocked = Vec::new();
    for position in (0..MOST_POSITIONS).filter(|&position| !site.is_open(position)) {
        let (slot, channel) = (position / site.channels as usize, position % site.channels as usize);
        if slot >= slots.into() || channel >= channels.into() {
            return refuse(20, &[position as u64]);
        }
        blocked.push(slot * channels as usize + channel);
    }
    Ok(Site { slots, channels, blocked: set_of(blocked.into_iter()), ..*site })
}

/// The site with all edits made, one after the other; or the first that is refused, counted from 0, and why.
pub fn set(site: &Site, edits: &[Edit]) -> Result<Site, (usize, NotSet)> {
    let mut now = *site;
    for (k, edit) in edits.iter().enumerate() {
        now = edited(&now, edit).map_err(|why| (k, why))?;
    }
    Ok(now)
}

#[cfg(test)]
mod tests {
    use super::*;

    fn three() -> Site {
        Site::sized(3, 4, 2)
    }

    fn read(words: &str) -> Result<Vec<Edit>, BadWords> {
        read_edits(&words.split(' ').collect::<Vec<_>>())
    }

    fn made(words: &str) -> Result<Site, (usize, NotSet)> {
        set(&three(), &read(words).unwrap())
    }

    fn refused(at: usize, number: u64, values: &[u64]) -> Result<Site, (usize, NotSet)> {
        Err((at, NotSet::Refused(refuse::<()>(number, values).unwrap_err())))
    }

    #[test]
    fn words_of_edits() {
        let due = [
            Edit::Load { cell: 2, load: 12 },
            Edit::Reach { from: 1, to: 2 },
            Edit::Clear { from: 65_535, to: 0 },
            Edit::Blocked(Some("*.2,1.1".into())),
            Edit::Blocked(None),
            Edit::Rule(2),
            Edit::Slots(0),
            Edit::Channels(65_535),
        ];
        let words = "load 2=12 reach 1-2 clear 65535-0 blocked *.2,1.1 blocked none rule 2 slots 0 channels 65535";
        assert_eq!(read(words), Ok(due.to_vec()));
    }

    #[test]
    fn words_that_are_none() {
        assert_eq!(read_edits(&[]), Err(BadWords::None));
        assert_eq!(read("laod 2=12"), Err(BadWords::NoEdit("laod".into())));
        assert_eq!(read("load"), Err(BadWords::Missing("load", "CELL=LOAD")));
        assert_eq!(read("load 2=12 slots"), Err(BadWords::Missing("slots", "T")));
        // The first that is wrong is named.
        assert_eq!(read("rule x slots"), Err(BadWords::Bad("rule", "R", "x".into())));
        assert_eq!(read("load 2=12 load 2=12 7"), Err(BadWords::NoEdit("7".into())));
        for word in ["", "2", "2=", "=12", "2:12", "2=-1", "02=1", "2=01", "2=65536", "2=1=1", "2 =1", "+2=1"] {
            assert_eq!(read_edits(&["load", word]), Err(BadWords::Bad("load", "CELL=LOAD", word.into())));
        }
        for word in ["", "1", "1-", "-1", "1-2-3", "1>2", "a-b", "1-02"] {
            assert_eq!(read_edits(&["clear", word]), Err(BadWords::Bad("clear", "FROM-TO", word.into())));
        }
    }

    #[test]
    fn one_after_the_other() {
        let site = made("load 3=65535 reach 3-1 rule 2 load 3=2 reach 1-2 clear 3-1 slots 128 channels 16").unwrap();
        let mut due = Site { rule: 2, ..Site::sized(3, 128, 16) };
        due.loads[2] = 2;
        due.reach[0] = 0b10;
        assert_eq!(site, due);
        assert_eq!(made("clear 1-2"), Ok(three()));
    }

    #[test]
    fn refusals() {
        assert_eq!(made("load 4=1"), refused(0, 2, &[4]));
        assert_eq!(made("load 1=1 load 0=1 reach 1-1"), refused(1, 2, &[0]));
        assert_eq!(made("reach 2-2"), refused(0, 3, &[2]));
        assert_eq!(made("reach 1-4"), refused(0, 3, &[1]));
        assert_eq!(made("clear 4-1"), refused(0, 3, &[4]));
        for words in ["slots 0", "slots 129", "channels 0", "channels 17"] {
            assert_eq!(made(words), refused(0, 1, &[]), "{words}");
        }
        for words in ["rule 0", "rule 3", "rule 65535"] {
            assert_eq!(made(words), refused(0, 24, &[]), "{words}");
        }
        assert_eq!(set(&Site { slots: 0, ..three() }, &read("slots 3").unwrap()), refused(0, 1, &[]));
    }

    #[test]
    fn what_is_blocked_stays_where_it_is() {
        let blocked = |words: &str| made(words).map(|site| crate::blocklist::write_list(&site));
        assert_eq!(blocked("blocked 1-2.2 blocked 3.1"), Ok("3.1".into()));
        assert_eq!(blocked("blocked 1-2.2 blocked none"), Ok("".into()));
        assert_eq!(blocked("blocked 1.2,3.1 channels 3 slots 3"), Ok("1.2,3.1".into()));
        assert_eq!(blocked("blocked 1.1,3.1 channels 1"), Ok("1.*,3.*".into()));
        // Positions 1, 4 and 6 of the site with two channels.
        assert_eq!(made("blocked 1.2,3.1,4.1 slots 3"), refused(1, 20, &[6]));
        assert_eq!(made("blocked 3.1,1.2,4.1 channels 1"), refused(1, 20, &[1]));
        assert_eq!(made("blocked 1.2,3.1 channels 17"), refused(1, 1, &[]));
        // A list is read with the sizes that the site has by then.
        assert_eq!(made("blocked 1.1,5.1"), Err((0, NotSet::BadList(4))));
        assert_eq!(blocked("slots 5 blocked 1.1,5.1"), Ok("1.1,5.1".into()));
        assert_eq!(made("slots 5 blocked x"), Err((1, NotSet::BadList(0))));
    }
}

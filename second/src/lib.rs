//! The second program: the rules of docs/RULES.md once more, in plain Rust and written from the rules alone, so that
//! the proved library can be compared with it. Each module holds one section of the rules.

pub mod admit;
pub mod answer;
pub mod audit;
pub mod blocklist;
pub mod capi;
pub mod checker;
pub mod clashes;
pub mod desk;
pub mod edits;
pub mod files;
pub mod find;
pub mod handheld;
pub mod heaviest;
pub mod judge;
pub mod line_faults;
pub mod listing;
pub mod mender;
pub mod numbering;
pub mod old_reader;
pub mod picture;
pub mod planner;
pub mod room;
pub mod search;
pub mod share;
pub mod sheet;
pub mod show;
pub mod site;
pub mod tidy;
pub mod words;

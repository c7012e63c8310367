//! Plans channel time-slots for the cells of a wireless fieldbus, and checks finished plans: the proved library duggfrask,
//! called from Rust. Every call is a method, and a refusal is an [`enum`](Refusal) with the numbers and places of
//! docs/NUMBERS.md.
//!
//! ```
//! use duggfrask::{Refusal, Site};
//!
//! let site = Site::new(3, 3, 2)?.with_load(1, 5)?.with_load(2, 1)?.with_load(3, 4)?.with_reach(1, 2)?.with_reach(3, 2)?;
//! let plan = site.plan()?;
//! plan.check(&site)?;
//! assert_eq!(plan.row(2), &[2, 2, 2, 2, 2, 1]);
//!
//! let refused = site.with_load(2, 9)?.plan().unwrap_err();
//! assert!(matches!(refused, Refusal::NoRoom { cell: 2, .. }));
//! println!("{refused}");
//! # Ok::<(), Refusal>(())
//! ```
//!
//! No call keeps anything between calls, so that a [`Site`] may be shared by threads. Without the feature `std` the crate has no
//! files by name and needs `alloc` alone.
#![cfg_attr(not(feature = "std"), no_std)]
#![warn(missing_debug_implementations)]

extern crate alloc;

mod bytes;
#[cfg(feature = "std")]
mod files;
mod flows;
mod plan;
pub mod raw;
mod refusal;
mod site;
mod words;

pub use bytes::{list, tidy, tidy_into, version, words};
#[cfg(feature = "std")]
pub use files::FileError;
pub use flows::{share, share_repeated, Share};
pub use plan::{Change, Found, Plan, Renumbered, Shown, Way};
pub use raw::{Answer, Blocked, Flow, Record};
pub use refusal::{Call, Refusal};
pub use site::{Chain, Class, Heaviest, Least, LoadTest, OverFull, Site};
pub use words::Words;

/// The version of the header that this crate was written for.
pub const VERSION: u64 = 4;

/// The most cells, slots, channels and positions of a site, bytes of a table and flows at once.
pub const MOST_CELLS: u16 = 32;
pub const MOST_SLOTS: u16 = 128;
pub const MOST_CHANNELS: u16 = 16;
pub const MOST_POSITIONS: usize = 2_048;
pub const MOST_TABLE: usize = 65_536;
pub const MOST_FLOWS: usize = 16;

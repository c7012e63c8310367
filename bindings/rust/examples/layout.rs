//! Prints size and offsets of every record, a line each, as tools/layout.c does for the header's.

use duggfrask::raw::*;
use std::mem::size_of;

macro_rules! show {
    ($name:literal $record:ty { $($field:ident),* }) => {
        println!("{} {}", $name, size_of::<$record>());
        // Zeros are a value of every record: numbers and arrays of numbers.
        let record: $record = unsafe { std::mem::zeroed() };
        let start = &record as *const $record as usize;
        $(println!("{}.{} {}", $name, stringify!($field), &record.$field as *const _ as usize - start);)*
    };
}

fn main() {
    show!("dugg_site" Record { cells, slots, channels, loads, reach, blocked, rule });
    show!("dugg_blocked" Blocked { bits });
    show!("dugg_answer" Answer { number, value });
    show!("dugg_edited" Edited { site, answer });
    show!("dugg_plan_read" PlanRead { cells, slots, channels, answer });
    show!("dugg_renumbered" Renumbered { site, new_of_old, old_of_new, answer });
    show!("dugg_flow" Flow { cell, burst, period, repeats, value });
}

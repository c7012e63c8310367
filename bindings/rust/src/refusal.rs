//! The refusals: an enum with the numbers of docs/NUMBERS.md, each with what comes with it.

use crate::raw::{self, Answer};
use core::fmt;

/// The calls, by their numbers in the header.
#[repr(u64)]
#[derive(Clone, Copy, Debug, PartialEq, Eq, Hash)]
pub enum Call {
    Fault = 1,
    Clash,
    SetLoad,
    SetReach,
    ClearReach,
    LoadTest,
    Chain,
    Class,
    Least,
    Heaviest,
    Plan,
    Search,
    Find,
    OverFull,
    Check,
    PlanWords,
    CheckWords,
    ToWords,
    ToBytes,
    Mend,
    ChangeLoad,
    Renumber,
    Carry,
    Share,
    ShareRepeated,
    Admit,
    AdmitBeside,
    ReadSite,
    WriteSite,
    ReadPlan,
    WritePlan,
    ReadSheet,
    WriteSheet,
    Tidy,
    Words,
    Why,
    List,
    Version,
}

macro_rules! refusals {
    ($($(#[$about:meta])* $number:literal $name:ident { $($field:ident),* }),* $(,)?) => {
        /// Why a call was refused. `call` is the call that refused, and the other fields are the values of docs/NUMBERS.md. In the
        /// words of that page it is what [`fmt::Display`] writes.
        ///
        /// `at` is a cell; where a file is read, the offset of the wrong record; where flows are admitted, the flow from 1.
        #[derive(Clone, Copy, Debug, PartialEq, Eq, Hash)]
        #[non_exhaustive]
        pub enum Refusal {
            $($(#[$about])* $name { call: Call, $($field: u64),* },)*
            /// A number that this version of the crate does not know.
            Other { call: Call, number: u64, value: [u64; 3] },
        }

        impl Refusal {
            /// The refusal of an answer whose number is not 0.
            pub(crate) fn of(call: Call, answer: Answer) -> Refusal {
                let mut values = answer.value.into_iter();
                let mut next = || values.next().unwrap_or(0);
                let _ = &mut next;
                match answer.number {
                    $($number => Refusal::$name { call, $($field: next()),* },)*
                    number => Refusal::Other { call, number, value: answer.value },
                }
            }

            /// The number of docs/NUMBERS.md.
            pub fn number(&self) -> u64 {
                match self {
                    $(Refusal::$name { .. } => $number,)*
                    Refusal::Other { number, .. } => *number,
                }
            }

            /// The values that come with it; 0 where there is none.
            pub fn values(&self) -> [u64; 3] {
                let mut all = [0; 3];
                match *self {
                    $(Refusal::$name { $($field,)* .. } => {
                        let values: &[u64] = &[$($field),*];
                        all[..values.len()].copy_from_slice(values);
                    })*
                    Refusal::Other { value, .. } => all = value,
                }
                all
            }

            /// The call that refused.
            pub fn call(&self) -> Call {
                match *self {
                    $(Refusal::$name { call, .. } => call,)*
                    Refusal::Other { call, .. } => call,
                }
            }
        }
    };
}

refusals! {
    /// Cells, slots or channels out of range.
    1 BadSize { at },
    /// A load or a flow for a cell that the site does not have.
    2 NoSuchCell { at },
    /// A cell that reaches itself, or one that the site does not have.
    3 BadReach { at },
    /// The table is too short, or too few words are lent.
    4 TableShort {},
    /// No room for some of a cell's fragments.
    5 NoRoom { cell, short },
    /// Two clashing cells send at one position.
    6 TwoClash { position, first, second },
    /// A cell sends more or less often than its load says.
    7 WrongCount { cell, count },
    /// The file ends too early.
    8 FileEnds { offset },
    /// A record of another kind has to stand there.
    9 OtherKind { offset },
    /// The length of a record is not the one that belongs to it.
    10 BadLength { offset },
    /// The reach pairs are out of order, or one stands twice.
    11 PairOrder { offset },
    /// The file goes on after its last record.
    12 FileGoesOn { offset },
    /// The lent output is too short: how many bytes are needed; of the mender, how many changes there are.
    13 OutputShort { needed },
    /// A bit past the last position is set.
    14 LeftOverBit { offset },
    /// Burst or period is 0, or the repeats are not 1 to 4.
    15 BadFlow { flow },
    /// The share is above 65,535.
    16 ShareTooLarge { flow },
    /// The sheet is malformed: its first bad line, from 1.
    17 BadLine { line },
    /// More than 16 flows.
    18 TooManyFlows {},
    /// The site is not nested, all its cells counted.
    19 NotNested {},
    /// A blocked position that the site does not have.
    20 NoSuchPosition { at },
    /// The record of blocked positions blocks none.
    21 BlocksNone { offset },
    /// A cell sends at a blocked position.
    22 SendsWhereBlocked { position, cell },
    /// No numbering makes the site nested.
    23 NoNumbering {},
    /// The rule is not 1 or 2.
    24 BadRule { at },
    /// More than 64 open positions, or more than 24 fragments.
    25 SearchTooLarge {},
    /// The table is not the plan of the site whose load is to change.
    26 NotThePlan {},
}

/// An answer of a call in the words of docs/NUMBERS.md, without the line's end.
pub(crate) fn write_words(f: &mut fmt::Formatter<'_>, call: Call, answer: Answer) -> fmt::Result {
    let mut text = [0; 512];
    let told = unsafe { raw::dugg_words(answer, call as u64, text.as_mut_ptr(), text.len()) };
    let end = if told.number == 0 { told.value[0] as usize } else { 0 };
    match core::str::from_utf8(&text[..end]) {
        Ok(words) if end > 0 => f.write_str(words.trim_end()),
        _ => write!(f, "refused {}", answer.number),
    }
}

impl fmt::Display for Refusal {
    fn fmt(&self, f: &mut fmt::Formatter<'_>) -> fmt::Result {
        write_words(f, self.call(), Answer { number: self.number(), value: self.values() })
    }
}

#[cfg(feature = "std")]
impl std::error::Error for Refusal {}

/// An answer as a result: its values where it is done.
#[inline]
pub(crate) fn done(call: Call, answer: Answer) -> Result<[u64; 3], Refusal> {
    if answer.number == 0 {
        return Ok(answer.value);
    }
    Err(Refusal::of(call, answer))
}

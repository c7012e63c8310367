//! "Numbers given back": the number of an answer and the values that come with it.

/// A number of the table in docs/RULES.md, with at most three values; those not named are 0.
#[repr(C)]
#[derive(Clone, Copy, Debug, Default, PartialEq, Eq)]
pub struct Answer {
    pub number: u64,
    pub value: [u64; 3],
}

/// What a call comes to: its result, or a refusal.
pub type Outcome<T> = Result<T, Answer>;

/// The answer "done" with its values.
pub fn done(values: &[u64]) -> Answer {
    answer(0, values)
}

/// A refusal with its values.
pub fn refuse<T>(number: u64, values: &[u64]) -> Outcome<T> {
    Err(answer(number, values))
}

fn answer(number: u64, values: &[u64]) -> Answer {
    let mut value = [0; 3];
    value[..values.len()].copy_from_slice(values);
    Answer { number, value }
}

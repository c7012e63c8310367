//! Tables as words: one for each position, bit i-1 for cell i.

use crate::plan::Plan;
use crate::raw;
use crate::refusal::{done, Call, Refusal};
use crate::site::Site;
use alloc::vec;
use alloc::vec::Vec;

/// A table as words, position after position. Bit i-1 of a word is set when cell i sends there.
///
/// ```
/// let site = duggfrask::Site::new(2, 2, 1)?.with_load(1, 1)?.with_load(2, 1)?.with_reach(1, 2)?;
/// let words = site.plan_words()?;
/// assert_eq!(words.as_slice(), &[0b01, 0b10]);
/// words.check(&site)?;
/// # Ok::<(), duggfrask::Refusal>(())
/// ```
#[derive(Clone, Debug, PartialEq, Eq, Hash)]
pub struct Words(pub(crate) Vec<u32>);

impl Words {
    /// Silent words, one for each position of a site.
    pub fn silent(site: &Site) -> Words {
        Words(vec![0; site.positions()])
    }

    pub fn as_slice(&self) -> &[u32] {
        &self.0
    }

    pub fn as_mut_slice(&mut self) -> &mut [u32] {
        &mut self.0
    }

    /// Whether the words are a valid table for a site; otherwise the first thing that is wrong.
    pub fn check(&self, site: &Site) -> Result<(), Refusal> {
        site.check_words(&self.0)
    }
}

impl Site {
    /// The plan of the site as words.
    pub fn plan_words(&self) -> Result<Words, Refusal> {
        let mut words = Words::silent(self);
        self.plan_words_into(&mut words.0)?;
        Ok(words)
    }

    /// The same, into lent words, one for each position.
    pub fn plan_words_into(&self, words: &mut [u32]) -> Result<(), Refusal> {
        done(Call::PlanWords, unsafe { raw::dugg_plan_words(self.0, words.as_mut_ptr(), words.len()) })?;
        Ok(())
    }

    /// Whether words are a valid table for the site.
    pub fn check_words(&self, words: &[u32]) -> Result<(), Refusal> {
        done(Call::CheckWords, unsafe { raw::dugg_check_words(self.0, words.as_ptr(), words.len()) })?;
        Ok(())
    }

    /// A table as words.
    pub fn to_words(&self, plan: &Plan) -> Result<Words, Refusal> {
        let mut words = Words::silent(self);
        self.to_words_into(&plan.table, &mut words.0)?;
        Ok(words)
    }

    /// The same, into lent words.
    pub fn to_words_into(&self, table: &[u8], words: &mut [u32]) -> Result<(), Refusal> {
        let (len, count) = (table.len(), words.len());
        done(Call::ToWords, unsafe { raw::dugg_to_words(self.0, table.as_ptr(), len, words.as_mut_ptr(), count) })?;
        Ok(())
    }

    /// Words as a table.
    pub fn to_bytes(&self, words: &Words) -> Result<Plan, Refusal> {
        let mut plan = Plan::idle(self);
        self.to_bytes_into(&words.0, &mut plan.table)?;
        Ok(plan)
    }

    /// The same, into a lent table.
    pub fn to_bytes_into(&self, words: &[u32], table: &mut [u8]) -> Result<(), Refusal> {
        let (count, len) = (words.len(), table.len());
        done(Call::ToBytes, unsafe { raw::dugg_to_bytes(self.0, words.as_ptr(), count, table.as_mut_ptr(), len) })?;
        Ok(())
    }
}

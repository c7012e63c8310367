//! Flows: their share, and which of them are admitted.

use crate::raw::{self, Flow};
use crate::refusal::{done, Call, Refusal};
use crate::site::Site;

/// What a flow needs: its share in fragments per superframe, its queue bound in fragments, its delay bound in slots.
#[derive(Clone, Copy, Debug, PartialEq, Eq, Hash)]
pub struct Share {
    pub share: u64,
    pub queue: u64,
    pub delay: u64,
}

/// What a flow needs, each fragment sent twice.
///
/// ```
/// let share = duggfrask::share(3, 3, 4)?;
/// assert_eq!((share.share, share.queue, share.delay), (6, 6, 6));
/// # Ok::<(), duggfrask::Refusal>(())
/// ```
pub fn share(slots: u16, burst: u16, period: u16) -> Result<Share, Refusal> {
    let [share, queue, delay] = done(Call::Share, unsafe { raw::dugg_share(slots, burst, period) })?;
    Ok(Share { share, queue, delay })
}

/// The same with each fragment sent 1 to 4 times.
pub fn share_repeated(slots: u16, burst: u16, period: u16, repeats: u16) -> Result<Share, Refusal> {
    let answer = unsafe { raw::dugg_share_repeated(slots, burst, period, repeats) };
    let [share, queue, delay] = done(Call::ShareRepeated, answer)?;
    Ok(Share { share, queue, delay })
}

impl Site {
    /// Which of at most 16 flows to admit on a nested site, its own loads set aside: bit k-1 for flow k.
    ///
    /// ```
    /// use duggfrask::{Flow, Site};
    /// let flow = Flow { cell: 1, burst: 1, period: 4, repeats: 1, value: 7 };
    /// assert_eq!(Site::new(1, 4, 1)?.admit(&[flow])?, 0b1);
    /// # Ok::<(), duggfrask::Refusal>(())
    /// ```
    pub fn admit(&self, flows: &[Flow]) -> Result<u64, Refusal> {
        Ok(done(Call::Admit, unsafe { raw::dugg_admit(self.0, flows.as_ptr(), flows.len()) })?[0])
    }

    /// The same on top of the loads that the site has.
    pub fn admit_beside(&self, flows: &[Flow]) -> Result<u64, Refusal> {
        Ok(done(Call::AdmitBeside, unsafe { raw::dugg_admit_beside(self.0, flows.as_ptr(), flows.len()) })?[0])
    }
}

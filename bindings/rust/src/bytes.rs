//! Site files, plan files, range sheets and the texts of the commands, from bytes and to bytes.

use crate::plan::Plan;
use crate::raw::{self, Answer, Blocked};
use crate::refusal::{done, Call, Refusal};
use crate::site::{edited, Site};
use alloc::string::String;
use alloc::vec;
use alloc::vec::Vec;

/// Asks a writer with no output for the bytes that it needs, and then with so many.
fn written(call: Call, write: impl Fn(*mut u8, usize) -> Answer) -> Result<Vec<u8>, Refusal> {
    let mut out = Vec::new();
    loop {
        match done(call, write(out.as_mut_ptr(), out.len())) {
            Ok(_) => return Ok(out),
            Err(Refusal::OutputShort { needed, .. }) if out.len() < needed as usize => out = vec![0; needed as usize],
            Err(refusal) => return Err(refusal),
        }
    }
}

/// The same with room for a text that nearly always fits: one call, and a second where it does not.
fn text(call: Call, room: usize, write: impl Fn(*mut u8, usize) -> Answer) -> Result<String, Refusal> {
    let mut out = vec![0; room];
    loop {
        match done(call, write(out.as_mut_ptr(), out.len())) {
            Ok([n, ..]) => {
                out.truncate(n as usize);
                return Ok(String::from_utf8_lossy(&out).into_owned());
            }
            Err(Refusal::OutputShort { needed, .. }) if out.len() < needed as usize => out = vec![0; needed as usize],
            Err(refusal) => return Err(refusal),
        }
    }
}

impl Site {
    /// Reads a site file.
    ///
    /// ```
    /// use duggfrask::{Refusal, Site};
    /// let site = Site::new(3, 3, 2)?.with_load(2, 1)?.with_reach(1, 2)?;
    /// assert_eq!(Site::from_bytes(&site.to_file()?)?, site);
    /// assert!(matches!(Site::from_bytes(b"no site"), Err(Refusal::FileEnds { offset: 0, .. } | Refusal::OtherKind { .. })));
    /// # Ok::<(), Refusal>(())
    /// ```
    pub fn from_bytes(file: &[u8]) -> Result<Site, Refusal> {
        edited(Call::ReadSite, unsafe { raw::dugg_read_site(file.as_ptr(), file.len()) })
    }

    /// The site file.
    pub fn to_file(&self) -> Result<Vec<u8>, Refusal> {
        written(Call::WriteSite, |out, len| unsafe { raw::dugg_write_site(self.0, out, len) })
    }

    /// Writes the site file into a lent output; how many bytes.
    pub fn write_into(&self, out: &mut [u8]) -> Result<u64, Refusal> {
        Ok(done(Call::WriteSite, unsafe { raw::dugg_write_site(self.0, out.as_mut_ptr(), out.len()) })?[0])
    }

    /// Reads a range sheet. The slots, the channels, what is blocked and the rule come beside it.
    pub fn from_sheet(sheet: &[u8], slots: u16, channels: u16, blocked: Blocked, rule: u16) -> Result<Site, Refusal> {
        let given = unsafe { raw::dugg_read_sheet(sheet.as_ptr(), sheet.len(), slots, channels, blocked, rule) };
        edited(Call::ReadSheet, given)
    }

    /// The range sheet.
    pub fn to_sheet(&self) -> Result<Vec<u8>, Refusal> {
        written(Call::WriteSheet, |out, len| unsafe { raw::dugg_write_sheet(self.0, out, len) })
    }

    /// Writes the range sheet into a lent output; how many bytes.
    pub fn write_sheet_into(&self, out: &mut [u8]) -> Result<u64, Refusal> {
        Ok(done(Call::WriteSheet, unsafe { raw::dugg_write_sheet(self.0, out.as_mut_ptr(), out.len()) })?[0])
    }

    /// What `duggfrask why` prints of the site.
    ///
    /// ```
    /// let site = duggfrask::Site::new(1, 1, 1)?.with_load(1, 1)?;
    /// assert!(site.why()?.starts_with("chained\nthe load test holds\nplanned\n"));
    /// # Ok::<(), duggfrask::Refusal>(())
    /// ```
    pub fn why(&self) -> Result<String, Refusal> {
        text(Call::Why, 65536, |out, len| unsafe { raw::dugg_why(self.0, out, len) })
    }

    /// Writes the reservations of a table as a plan file into a lent output; how many bytes.
    pub fn write_plan_into(&self, table: &[u8], out: &mut [u8]) -> Result<u64, Refusal> {
        let (table_len, len) = (table.len(), out.len());
        let answer = unsafe { raw::dugg_write_plan(self.0, table.as_ptr(), table_len, out.as_mut_ptr(), len) };
        Ok(done(Call::WritePlan, answer)?[0])
    }
}

impl Plan {
    /// Reads a plan file.
    ///
    /// ```
    /// use duggfrask::{Plan, Site};
    /// let site = Site::new(2, 2, 1)?.with_load(1, 2)?;
    /// let file = site.plan()?.to_file(&site)?;
    /// assert!(Plan::from_bytes(&file)?.sends(1, 1));
    /// # Ok::<(), duggfrask::Refusal>(())
    /// ```
    pub fn from_bytes(file: &[u8]) -> Result<Plan, Refusal> {
        let mut table = vec![0; 65536];
        let (cells, slots, channels) = Plan::read_into(file, &mut table)?;
        table.truncate(cells as usize * slots as usize * channels as usize);
        Ok(Plan { table, cells, slots, channels })
    }

    /// Reads a plan file into a lent table; its cells, slots and channels.
    pub fn read_into(file: &[u8], table: &mut [u8]) -> Result<(u16, u16, u16), Refusal> {
        let given = unsafe { raw::dugg_read_plan(file.as_ptr(), file.len(), table.as_mut_ptr(), table.len()) };
        done(Call::ReadPlan, given.answer)?;
        Ok((given.cells, given.slots, given.channels))
    }

    /// The plan file of the table, for a site.
    pub fn to_file(&self, site: &Site) -> Result<Vec<u8>, Refusal> {
        let table = &self.table;
        written(Call::WritePlan, |out, len| unsafe { raw::dugg_write_plan(site.0, table.as_ptr(), table.len(), out, len) })
    }
}

/// A sheet as spreadsheets write it, in the form that [`Site::from_sheet`] reads.
pub fn tidy(sheet: &[u8]) -> Result<Vec<u8>, Refusal> {
    written(Call::Tidy, |out, len| unsafe { raw::dugg_tidy(sheet.as_ptr(), sheet.len(), out, len) })
}

/// The same, into a lent output; how many bytes.
pub fn tidy_into(sheet: &[u8], out: &mut [u8]) -> Result<u64, Refusal> {
    Ok(done(Call::Tidy, unsafe { raw::dugg_tidy(sheet.as_ptr(), sheet.len(), out.as_mut_ptr(), out.len()) })?[0])
}

/// What `duggfrask list` prints of a site file, also of one that is refused.
pub fn list(file: &[u8]) -> Result<String, Refusal> {
    text(Call::List, 65536, |out, len| unsafe { raw::dugg_list(file.as_ptr(), file.len(), out, len) })
}

/// An answer of a call in words, as docs/NUMBERS.md has them, with the line's end.
pub fn words(answer: Answer, call: Call) -> Result<String, Refusal> {
    text(Call::Words, 512, |out, len| unsafe { raw::dugg_words(answer, call as u64, out, len) })
}

/// The version of the library that is there at run time.
pub fn version() -> u64 {
    unsafe { raw::dugg_version() }.value[0]
}

//! Files by name. Of a file no more is read than the longest of its kind has, and one byte.

use crate::plan::Plan;
use crate::refusal::Refusal;
use crate::site::Site;
use std::fmt;
use std::fs::File;
use std::io::{self, Read};
use std::path::Path;

/// Whatever is longer is refused by its first bytes.
const MOST: u64 = 65_536;

/// Why a file gave no site or plan.
#[derive(Debug)]
pub enum FileError {
    /// It can't be read.
    Io(io::Error),
    /// It is no such file.
    Refused(Refusal),
}

impl fmt::Display for FileError {
    fn fmt(&self, f: &mut fmt::Formatter<'_>) -> fmt::Result {
        match self {
            FileError::Io(error) => error.fmt(f),
            FileError::Refused(refusal) => refusal.fmt(f),
        }
    }
}

impl std::error::Error for FileError {
    fn source(&self) -> Option<&(dyn std::error::Error + 'static)> {
        match self {
            FileError::Io(error) => Some(error),
            FileError::Refused(refusal) => Some(refusal),
        }
    }
}

impl From<io::Error> for FileError {
    fn from(error: io::Error) -> FileError {
        FileError::Io(error)
    }
}

impl From<Refusal> for FileError {
    fn from(refusal: Refusal) -> FileError {
        FileError::Refused(refusal)
    }
}

fn start_of(path: &Path) -> io::Result<Vec<u8>> {
    let mut bytes = Vec::new();
    File::open(path)?.take(MOST).read_to_end(&mut bytes)?;
    Ok(bytes)
}

impl Site {
    /// Reads a site file by its name.
    ///
    /// ```no_run
    /// let site = duggfrask::Site::read("samples/p1.site")?;
    /// println!("{}", site.why()?);
    /// # Ok::<(), duggfrask::FileError>(())
    /// ```
    pub fn read(path: impl AsRef<Path>) -> Result<Site, FileError> {
        Ok(Site::from_bytes(&start_of(path.as_ref())?)?)
    }
}

impl Plan {
    /// Reads a plan file by its name.
    pub fn read(path: impl AsRef<Path>) -> Result<Plan, FileError> {
        Ok(Plan::from_bytes(&start_of(path.as_ref())?)?)
    }
}

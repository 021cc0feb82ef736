//! A record file over lent slices. [`crate::Record`] does the same with vectors of its own.
use crate::calls::{self, promise};
use crate::refusal::Refusal;
use crate::types::{ExitQueue, Finality, Settings};
use core::error::Error;
use core::fmt;
use core::ops::Range;

/// How much a record file holds. `version` is 1 or 2; version 1 has no room for the exit queue's pair, and version 2 is written.
#[derive(Clone, Copy, Debug, PartialEq, Eq)]
pub struct Header {
    pub version: usize,
    pub validators: usize,
    pub roots: usize,
    pub slashings: usize,
}

impl Header {
    /// The version that is written.
    pub const VERSION: usize = 2;

    /// How long the file is.
    pub fn file_length(&self) -> usize {
        self.roots_part().end + 8 * self.slashings
    }

    /// The part of the file that holds the roots.
    pub fn roots_part(&self) -> Range<usize> {
        let start = 352 + 16 * self.version + 80 * self.validators;
        start..start + 32 * self.roots
    }
}

/// A file that was not accepted, and where reading stopped.
#[derive(Clone, Copy, Debug, PartialEq, Eq)]
pub struct ReadRefused {
    pub refusal: Refusal,
    pub position: u64,
}

impl fmt::Display for ReadRefused {
    fn fmt(&self, f: &mut fmt::Formatter<'_>) -> fmt::Result {
        write!(f, "{}, at byte {}", self.refusal, self.position)
    }
}

impl Error for ReadRefused {}

impl From<ReadRefused> for Refusal {
    fn from(refused: ReadRefused) -> Refusal {
        refused.refusal
    }
}

#[doc = promise!(read_header)]
///
/// ```
/// use altair_close::{read_header, Refusal};
/// assert_eq!(read_header(b"not a record file"), Err(Refusal::File));
/// ```
pub fn read_header(file: &[u8]) -> Result<Header, Refusal> {
    let (found, fault) = calls::read_header(file);
    // each is below the file's length
    let [validators, roots, slashings] = [found.validators, found.roots, found.slashings].map(|n| n as usize);
    let version = file.first().copied().unwrap_or_default().into();
    Refusal::or(found.refusal, fault, || Header { version, validators, roots, slashings })
}

#[doc = promise!(read_file)]
pub fn read_file(
    file: &[u8],
    registry: &mut [u64],
    slashings: &mut [u64],
) -> Result<(Settings, Finality, ExitQueue), ReadRefused> {
    let (read, fault) = calls::read_file(file, registry, slashings);
    Refusal::or(read.refusal, fault, || (read.settings, read.finality, read.queue))
        .map_err(|refusal| ReadRefused { refusal, position: read.position })
}

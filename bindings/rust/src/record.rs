//! A record with vectors of its own.
use crate::file::{read_file, read_header, Header, ReadRefused};
use crate::store::By;
use crate::types::{Amounts, Bellatrix, Closed, DenebRules, ExitQueue, Finality, Raised, Rules, Settings};
use crate::{charged, close, deneb_close, validator, write_file, Refusal};
use std::error::Error;
use std::ops::Deref;
use std::path::Path;
use std::vec::Vec;
use std::{fmt, fs, io, vec};

/// All that a close is handed, and hands back.
#[derive(Clone, Debug, PartialEq, Eq)]
pub struct Record {
    pub settings: Settings,
    pub finality: Finality,
    /// Ten numbers a validator: [`validator`] names them.
    pub registry: Vec<u64>,
    pub slashings: Vec<u64>,
    /// 32 bytes a root.
    pub roots: Vec<u8>,
    /// The exit queue's pair; `None` has it worked out from the registry.
    pub queue: Option<ExitQueue>,
}

/// A closed record, and what the close says besides. It can be used as the record that it holds.
#[derive(Clone, Debug, PartialEq, Eq)]
pub struct ClosedRecord {
    pub record: Record,
    /// What each rule gave and took, validator by validator.
    pub amounts: Vec<Amounts>,
    pub raised: Raised,
    /// Which of the four finality tests, 1 to 4, last set the finalized checkpoint, or 0.
    pub test: u64,
}

impl Deref for ClosedRecord {
    type Target = Record;

    fn deref(&self) -> &Record {
        &self.record
    }
}

/// Why a record file was not opened: it could not be read, or it was refused.
#[derive(Debug)]
pub enum OpenError {
    Io(io::Error),
    Refused(ReadRefused),
}

impl fmt::Display for OpenError {
    fn fmt(&self, f: &mut fmt::Formatter<'_>) -> fmt::Result {
        match self {
            OpenError::Io(error) => error.fmt(f),
            OpenError::Refused(refused) => refused.fmt(f),
        }
    }
}

impl Error for OpenError {}

impl Record {
    /// The record of the file at a path.
    ///
    /// ```
    /// use altair_close::{OpenError, Record, Refusal};
    /// assert!(matches!(Record::open("/no such file"), Err(OpenError::Io(_))));
    /// assert!(matches!(Record::open("/dev/null"), Err(OpenError::Refused(no)) if no.refusal == Refusal::File));
    /// ```
    pub fn open(path: impl AsRef<Path>) -> Result<Record, OpenError> {
        Record::read(&fs::read(path).map_err(OpenError::Io)?).map_err(OpenError::Refused)
    }

    /// The record of a file.
    ///
    /// ```
    /// use altair_close::{Record, Refusal};
    /// assert_eq!(Record::read(&[0; 80]).unwrap_err().refusal, Refusal::File);
    /// ```
    pub fn read(file: &[u8]) -> Result<Record, ReadRefused> {
        // the header's own refusal comes from the read below, with the position
        let header = read_header(file).unwrap_or(Header { version: 0, validators: 0, roots: 0, slashings: 0 });
        let mut registry = vec![0; validator::LENGTH * header.validators];
        let mut slashings = vec![0; header.slashings];
        let (settings, finality, queue) = read_file(file, &mut registry, &mut slashings)?;
        let roots = file[header.roots_part()].to_vec();
        Ok(Record { settings, finality, registry, slashings, roots, queue: Some(queue) })
    }

    /// The file of the record, of version 2.
    pub fn write(&self) -> Result<Vec<u8>, Refusal> {
        let held = Header {
            version: Header::VERSION,
            validators: self.registry.len() / validator::LENGTH,
            roots: self.roots.len() / 32,
            slashings: self.slashings.len(),
        };
        let mut file = vec![0; held.file_length()];
        let queue = self.queue.as_ref();
        write_file(&self.settings, &self.finality, queue, &self.registry, &self.roots, &self.slashings, &mut file)?;
        Ok(file)
    }

    /// The closed record, as Altair; roots stay.
    pub fn close(&self) -> Result<ClosedRecord, Refusal> {
        self.close_under(Rules::ALTAIR, &Bellatrix::default())
    }

    /// The closed record under a fork, with Bellatrix's pair.
    ///
    /// ```
    /// use altair_close::{validator, Bellatrix, Finality, Record, Refusal, Rules, Settings};
    /// let settings = Settings { slots_per_historical_root: 64, epochs_per_slashings_vector: 64, ..Settings::MAINNET };
    /// let record = Record {
    ///     settings,
    ///     finality: Finality { slot: 127, ..Finality::default() },
    ///     registry: validator::new(32_000_000_000).to_vec(),
    ///     slashings: vec![0; 64],
    ///     roots: vec![0; 32 * 64],
    ///     queue: None,
    /// };
    /// assert_eq!(record.close_under(Rules::ALTAIR, &Bellatrix::default()), record.close());
    /// assert!(record.close_under(Rules::BELLATRIX, &Bellatrix::MAINNET).is_ok());
    /// assert_eq!(record.close_under(Rules::BELLATRIX, &Bellatrix::default()), Err(Refusal::Settings));
    /// ```
    pub fn close_under(&self, fork: u64, pair: &Bellatrix) -> Result<ClosedRecord, Refusal> {
        self.close_by(&Rules { settings: self.settings, fork, bellatrix: *pair })
    }

    /// The closed record by a store of settings by starting epoch, in place of the record's own; these stay in the closed record.
    ///
    /// ```
    /// use altair_close::{validator, Finality, Record, Refusal, Rules, Settings, Store};
    /// let settings = Settings { slots_per_historical_root: 64, epochs_per_slashings_vector: 64, ..Settings::MAINNET };
    /// let record = Record {
    ///     settings,
    ///     finality: Finality { slot: 127, ..Finality::default() },
    ///     registry: validator::new(32_000_000_000).to_vec(),
    ///     slashings: vec![0; 64],
    ///     roots: vec![0; 32 * 64],
    ///     queue: None,
    /// };
    /// let mut store = Store::new();
    /// assert_eq!(record.close_by(&store), Err(Refusal::NoEntry));
    /// store.add(3, &Rules::altair(&settings))?;
    /// assert_eq!(record.close_by(&store), record.close());
    /// # Ok::<(), Refusal>(())
    /// ```
    pub fn close_by<'a>(&self, by: impl Into<By<'a>>) -> Result<ClosedRecord, Refusal> {
        self.closed(|r, registry, slashings, amounts| {
            let queue = r.queue.as_ref();
            close(by, &r.finality, queue, &r.registry, &r.slashings, &r.roots, registry, slashings, amounts)
        })
    }

    /// The closed record by Deneb's rules, in place of the record's own settings; these stay in the closed record.
    pub fn close_by_deneb(&self, rules: &DenebRules) -> Result<ClosedRecord, Refusal> {
        self.closed(|r, registry, slashings, amounts| {
            let queue = r.queue.as_ref();
            deneb_close(rules, &r.finality, queue, &r.registry, &r.slashings, &r.roots, registry, slashings, amounts)
        })
    }

    /// What a close makes of it, which is lent the closing buffers.
    fn closed<F>(&self, close: F) -> Result<ClosedRecord, Refusal>
    where
        F: FnOnce(&Record, &mut [u64], &mut [u64], &mut [Amounts]) -> Result<Closed, Refusal>,
    {
        let mut registry = vec![0; self.registry.len()];
        let mut slashings = vec![0; self.slashings.len()];
        let mut amounts = vec![Amounts::default(); self.registry.len() / validator::LENGTH];
        let closed = close(self, &mut registry, &mut slashings, &mut amounts)?;
        let record = Record {
            settings: self.settings,
            finality: closed.finality,
            registry,
            slashings,
            roots: self.roots.clone(),
            queue: Some(closed.queue),
        };
        Ok(ClosedRecord { record, amounts, raised: closed.raised, test: closed.test })
    }

    /// How many validators are charged: active in the previous epoch, or slashed with the previous epoch + 1 below the withdrawable
    /// epoch; nobody at epoch 0.
    pub fn charged(&self) -> Result<u64, Refusal> {
        charged(&self.settings, self.finality.slot, &self.registry)
    }

    /// The validators' numbers, ten by ten.
    pub fn validators(&self) -> impl Iterator<Item = &[u64]> {
        self.registry.chunks_exact(validator::LENGTH)
    }
}

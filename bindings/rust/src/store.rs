//! Settings by starting epoch: a store of entries, each with the epoch from which its rules hold.
use crate::types::{Rules, Settings, ENTRY_LENGTH};

/// The numbers of an entry, tested by nobody.
///
/// ```
/// use altair_close::{entry, Rules, Settings};
/// assert_eq!(entry(7, &Rules::altair(&Settings::MAINNET))[..3], [7, 0, 32]);
/// ```
pub fn entry(start: u64, rules: &Rules) -> [u64; ENTRY_LENGTH] {
    let mut numbers = [0; ENTRY_LENGTH];
    numbers[..2].copy_from_slice(&[start, rules.fork]);
    numbers[2..21].copy_from_slice(&rules.settings.numbers());
    numbers[21..].copy_from_slice(&rules.bellatrix.numbers());
    numbers
}

/// What a close goes by: a lent store with the count of its entries in use, a [`Store`], or rules or settings alone, which are a store
/// of one entry that starts at epoch 0; settings alone are Altair's.
#[derive(Clone, Copy, Debug)]
pub enum By<'a> {
    One([u64; ENTRY_LENGTH]),
    Lent(&'a [u64], u64),
}

impl By<'_> {
    pub(crate) fn lent(&self) -> (&[u64], u64) {
        match self {
            By::One(entry) => (entry, 1),
            By::Lent(numbers, count) => (numbers, *count),
        }
    }
}

impl From<&Rules> for By<'_> {
    fn from(rules: &Rules) -> Self {
        By::One(entry(0, rules))
    }
}

impl From<&Settings> for By<'_> {
    fn from(settings: &Settings) -> Self {
        By::from(&Rules::altair(settings))
    }
}

#[cfg(feature = "std")]
pub use grown::Store;

#[cfg(feature = "std")]
mod grown {
    use super::By;
    use crate::types::{Bellatrix, Rules, Settings, ENTRY_LENGTH};
    use crate::{add_rules, read_rules, Refusal};
    use std::vec::Vec;

    impl<'a> From<&'a Store> for By<'a> {
        fn from(store: &'a Store) -> Self {
            By::Lent(&store.numbers, store.count)
        }
    }

    /// A store with numbers of its own. Entries are added behind those in use, each with a later start.
    ///
    /// ```
    /// use altair_close::{Bellatrix, Refusal, Rules, Settings, Store};
    /// let (altair, pair) = (Rules::altair(&Settings::MAINNET), Bellatrix::MAINNET);
    /// let mut store = Store::new();
    /// store.add(10, &altair)?;
    /// store.add(20, &Rules::bellatrix(&Settings::MAINNET, &pair))?;
    /// assert_eq!(store.rules_at(19), Ok(altair));
    /// assert_eq!(store.rules_at(20)?.fork, Rules::BELLATRIX);
    /// assert_eq!(store.rules_at(9), Err(Refusal::NoEntry));
    /// assert_eq!(store.add(20, &altair), Err(Refusal::LateStart));
    /// # Ok::<(), Refusal>(())
    /// ```
    #[derive(Clone, Debug, Default, PartialEq, Eq)]
    pub struct Store {
        numbers: Vec<u64>,
        count: u64,
    }

    impl Store {
        /// One without entries.
        pub fn new() -> Store {
            Store::default()
        }

        /// Adds an entry; refused, the store is as before.
        pub fn add(&mut self, start: u64, rules: &Rules) -> Result<(), Refusal> {
            let mut grown = self.numbers.clone();
            grown.resize(self.numbers.len() + ENTRY_LENGTH, 0);
            self.count = add_rules(&mut grown, self.count, start, rules)?;
            self.numbers = grown;
            Ok(())
        }

        /// The rules of the last entry whose start is not above the epoch.
        pub fn rules_at(&self, epoch: u64) -> Result<Rules, Refusal> {
            read_rules(&self.numbers, self.count, epoch)
        }

        /// The entries in use, each with its start.
        pub fn entries(&self) -> impl Iterator<Item = (u64, Rules)> + '_ {
            self.numbers.chunks_exact(ENTRY_LENGTH).take(self.count as usize).map(|entry| (entry[0], rules_of(entry)))
        }

        /// The numbers, 23 an entry.
        pub fn numbers(&self) -> &[u64] {
            &self.numbers
        }
    }

    fn rules_of(entry: &[u64]) -> Rules {
        let mut numbers = [0; ENTRY_LENGTH];
        numbers.copy_from_slice(entry);
        let ([_, fork, settings @ .., first, second], bellatrix) = (numbers, Bellatrix::of);
        Rules { settings: Settings::of(settings), fork, bellatrix: bellatrix([first, second]) }
    }
}

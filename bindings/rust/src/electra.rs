//! A record of Electra or Fulu with vectors of its own.
use crate::types::{DepositNumbers, ElectraAmounts, ElectraRules, ExitChurn, Finality, Raised};
use crate::types::{CONSOLIDATION_LENGTH, DEPOSIT_LENGTH};
use crate::{electra_close, validator, Refusal};
use std::collections::BTreeMap;
use std::ops::Deref;
use std::vec;
use std::vec::Vec;

/// All that a close of Electra or Fulu is handed, and hands back.
#[derive(Clone, Debug, PartialEq, Eq)]
pub struct ElectraRecord {
    pub rules: ElectraRules,
    pub finality: Finality,
    pub churn: ExitChurn,
    pub numbers: DepositNumbers,
    /// Ten numbers a validator: [`validator`] names them.
    pub registry: Vec<u64>,
    /// A number a validator: 1 where its credentials begin with 0x02, else 0.
    pub compounding: Vec<u64>,
    pub slashings: Vec<u64>,
    /// 32 bytes a root.
    pub roots: Vec<u8>,
    /// Five numbers a deposit: key, compounding, amount, slot, valid.
    pub deposits: Vec<u64>,
    /// Two numbers a consolidation: source, target.
    pub consolidations: Vec<u64>,
}

/// A closed record of Electra or Fulu, and what the close says besides. It can be used as the record that it holds.
#[derive(Clone, Debug, PartialEq, Eq)]
pub struct ClosedElectraRecord {
    pub record: ElectraRecord,
    /// What each rule gave and took, validator by validator; those that deposits made stand at the end.
    pub amounts: Vec<ElectraAmounts>,
    pub raised: Raised,
    /// Which of the four finality tests, 1 to 4, last set the finalized checkpoint, or 0.
    pub test: u64,
}

impl Deref for ClosedElectraRecord {
    type Target = ElectraRecord;

    fn deref(&self) -> &ElectraRecord {
        &self.record
    }
}

impl ElectraRecord {
    /// The closed record; rules and roots stay. The deposits that are left have keys of the closed record's own numbering, so that it can be
    /// closed again: the number of a validator that a deposit made, and behind those of all validators the keys that none has.
    ///
    /// ```
    /// use altair_close::*;
    /// let settings = Settings { slots_per_historical_root: 64, epochs_per_slashings_vector: 64, ..Settings::MAINNET };
    /// let record = ElectraRecord {
    ///     rules: ElectraRules { settings, bellatrix: Bellatrix::MAINNET, electra: Electra::MAINNET },
    ///     finality: Finality { slot: 31, ..Finality::default() },
    ///     churn: ExitChurn::default(),
    ///     numbers: DepositNumbers::default(),
    ///     registry: validator::new(32_000_000_000).to_vec(),
    ///     compounding: vec![0],
    ///     slashings: vec![0; 64],
    ///     roots: vec![0; 32 * 64],
    ///     deposits: vec![2, 0, 32_000_000_000, 0, 1, 1, 0, 200_000_000_000, 0, 1],
    ///     consolidations: vec![],
    /// };
    /// // 128 ETH may enter: the first does, and the second, whose key no validator has, is now number 2
    /// let closed = record.close()?;
    /// assert_eq!((closed.compounding.len(), closed.amounts[1].deposited), (2, 32_000_000_000));
    /// assert_eq!(closed.deposits, [2, 0, 200_000_000_000, 0, 1]);
    /// assert_eq!(closed.numbers.deposit_balance_to_consume, 96_000_000_000);
    /// # Ok::<(), Refusal>(())
    /// ```
    pub fn close(&self) -> Result<ClosedElectraRecord, Refusal> {
        let opened = self.registry.len() / validator::LENGTH;
        let most = opened + self.deposits.len() / DEPOSIT_LENGTH;
        let mut registry = vec![0; validator::LENGTH * most];
        let mut compounding = vec![0; most];
        let mut slashings = vec![0; self.slashings.len()];
        let mut deposits = vec![0; self.deposits.len()];
        let mut consolidations = vec![0; self.consolidations.len()];
        let mut amounts = vec![ElectraAmounts::default(); most];
        let closed = electra_close(
            &self.rules,
            &self.finality,
            &self.churn,
            &self.numbers,
            &self.registry,
            &self.compounding,
            &self.slashings,
            &self.roots,
            &self.deposits,
            &self.consolidations,
            &mut registry,
            &mut compounding,
            &mut slashings,
            &mut deposits,
            &mut consolidations,
            &mut amounts,
            &mut vec![0; most - opened],
        )?;
        let validators = closed.validators as usize;
        registry.truncate(validator::LENGTH * validators);
        compounding.truncate(validators);
        amounts.truncate(validators);
        deposits.truncate(DEPOSIT_LENGTH * closed.deposits as usize);
        consolidations.truncate(CONSOLIDATION_LENGTH * closed.consolidations as usize);
        renumber(opened as u64, &self.deposits, closed.validators, &mut deposits);
        let record = ElectraRecord {
            rules: self.rules,
            finality: closed.finality,
            churn: closed.churn,
            numbers: DepositNumbers { deposit_balance_to_consume: closed.deposit_balance_to_consume, ..self.numbers },
            registry,
            compounding,
            slashings,
            roots: self.roots.clone(),
            deposits,
            consolidations,
        };
        Ok(ClosedElectraRecord { record, amounts, raised: closed.raised, test: closed.test })
    }

    /// The validators' numbers, ten by ten.
    pub fn validators(&self) -> impl Iterator<Item = &[u64]> {
        self.registry.chunks_exact(validator::LENGTH)
    }
}

/// Writes the keys of those left in the closed record's numbering: validators that deposits made have theirs in the order of their first
/// valid deposits.
fn renumber(opened: u64, deposits: &[u64], validators: u64, left: &mut [u64]) {
    let (mut named, mut next) = (BTreeMap::new(), opened);
    for deposit in deposits.chunks_exact(DEPOSIT_LENGTH) {
        if next < validators && deposit[0] >= opened && deposit[4] == 1 && !named.contains_key(&deposit[0]) {
            named.insert(deposit[0], next);
            next += 1;
        }
    }
    for deposit in left.chunks_exact_mut(DEPOSIT_LENGTH).filter(|deposit| deposit[0] >= opened) {
        let behind = named.len() as u64 + opened;
        deposit[0] = *named.entry(deposit[0]).or_insert(behind);
    }
}

//! The whole close, and the figures of its listing.
use crate::calls::{self, promise};
use crate::fault::Answered;
use crate::refusal::Refusal;
use crate::store::By;
use crate::types::{Amounts, Closed, DenebRules, DepositNumbers, ElectraAmounts, ElectraClosed, ElectraRules};
use crate::types::{ExitChurn, ExitQueue, Finality, AMOUNTS_LENGTH, ELECTRA_AMOUNTS_LENGTH};

/// What a close books of a validator: so many u64.
pub(crate) trait Booked {
    const LENGTH: usize;
}

impl Booked for Amounts {
    const LENGTH: usize = AMOUNTS_LENGTH;
}

impl Booked for ElectraAmounts {
    const LENGTH: usize = ELECTRA_AMOUNTS_LENGTH;
}

const _: () = assert!(core::mem::size_of::<Amounts>() == 8 * AMOUNTS_LENGTH);
const _: () = assert!(core::mem::size_of::<ElectraAmounts>() == 8 * ELECTRA_AMOUNTS_LENGTH);

/// The amounts as the numbers that C writes.
pub(crate) fn as_numbers<T: Booked>(amounts: &mut [T]) -> &mut [u64] {
    // SAFETY: Amounts and ElectraAmounts are `repr(C)` of nine and of twelve u64 and nothing else, so that a slice of them is a slice of
    // so many times as many numbers.
    unsafe { core::slice::from_raw_parts_mut(amounts.as_mut_ptr().cast(), T::LENGTH * amounts.len()) }
}

#[doc = promise!(close)]
///
/// By `&Settings` it closes as Altair, by `&Rules` as their fork, by a `&Store` as its entry for the epoch. With `None` for the pair it is
/// worked out from the registry.
///
/// ```
/// use altair_close::{close, validator, Amounts, Finality, Refusal, Settings};
///
/// let settings = Settings { slots_per_historical_root: 64, epochs_per_slashings_vector: 64, ..Settings::MAINNET };
/// let finality = Finality { slot: 31, ..Finality::default() };
/// let registry = validator::new(32_000_000_000);
/// let (slashings, roots) = (vec![0; 64], vec![0; 32 * 64]);
/// let (mut closing, mut closing_slashings, mut amounts) = (vec![0; 10], vec![0; 64], vec![Amounts::default(); 1]);
/// let mut closed = |roots| {
///     close(&settings, &finality, None, &registry, &slashings, roots, &mut closing, &mut closing_slashings, &mut amounts)
/// };
/// assert_eq!(closed(&roots)?.finality.slot, 31);
/// let refused = closed(&roots[1..]).unwrap_err();
/// assert!(refused.to_string().ends_with("roots: 32 bytes a root, as many as slots_per_historical_root (2048)"));
/// assert_eq!((closing[validator::BALANCE], amounts[0].net()), (32_000_000_000, 0));
/// # Ok::<(), Refusal>(())
/// ```
#[allow(clippy::too_many_arguments)]
pub fn close<'a>(
    by: impl Into<By<'a>>,
    finality: &Finality,
    queue: Option<&ExitQueue>,
    registry: &[u64],
    slashings: &[u64],
    roots: &[u8],
    closing_registry: &mut [u64],
    closing_slashings: &mut [u64],
    amounts: &mut [Amounts],
) -> Result<Closed, Refusal> {
    let by = by.into();
    let (store, count) = by.lent();
    let queue = pair_of(queue, registry);
    let closing = (closing_registry, closing_slashings, as_numbers(amounts));
    let (answer, fault) =
        calls::close(store, count, finality, &queue, registry, slashings, roots, closing.0, closing.1, closing.2);
    answer.result(fault)
}

#[doc = promise!(deneb_close)]
///
/// With `None` for the pair it is worked out from the registry.
///
/// ```
/// use altair_close::{deneb_close, validator, Amounts, DenebRules, Finality, Refusal, Settings};
///
/// let settings = Settings { slots_per_historical_root: 64, epochs_per_slashings_vector: 64, ..Settings::MAINNET };
/// let rules = DenebRules { settings, ..DenebRules::MAINNET };
/// let finality = Finality { slot: 31, ..Finality::default() };
/// let registry = validator::new(32_000_000_000);
/// let (slashings, roots) = (vec![0; 64], vec![0; 32 * 64]);
/// let (mut closing, mut left, mut amounts) = (vec![0; 10], vec![0; 64], vec![Amounts::default(); 1]);
/// let mut closed = |rules| {
///     deneb_close(rules, &finality, None, &registry, &slashings, &roots, &mut closing, &mut left, &mut amounts)
/// };
/// assert_eq!(closed(&rules)?.finality.slot, 31);
/// assert_eq!(closed(&DenebRules { max_per_epoch_activation_churn_limit: 1 << 48, ..rules }), Err(Refusal::Settings));
/// # Ok::<(), Refusal>(())
/// ```
#[allow(clippy::too_many_arguments)]
pub fn deneb_close(
    rules: &DenebRules,
    finality: &Finality,
    queue: Option<&ExitQueue>,
    registry: &[u64],
    slashings: &[u64],
    roots: &[u8],
    closing_registry: &mut [u64],
    closing_slashings: &mut [u64],
    amounts: &mut [Amounts],
) -> Result<Closed, Refusal> {
    let queue = pair_of(queue, registry);
    let closing = (closing_registry, closing_slashings, as_numbers(amounts));
    let (answer, fault) =
        calls::deneb_close(rules, finality, &queue, registry, slashings, roots, closing.0, closing.1, closing.2);
    answer.result(fault)
}

#[doc = promise!(electra_close)]
///
/// ```
/// use altair_close::*;
///
/// let settings = Settings { slots_per_historical_root: 64, epochs_per_slashings_vector: 64, ..Settings::MAINNET };
/// let rules = ElectraRules { settings, bellatrix: Bellatrix::MAINNET, electra: Electra::MAINNET };
/// let finality = Finality { slot: 31, ..Finality::default() };
/// let registry = validator::new(32_000_000_000);
/// let (slashings, roots) = (vec![0; 64], vec![0; 32 * 64]);
/// // a new key, whose credentials compound, with 33 ETH
/// let deposit = [1, 1, 33_000_000_000, 0, 1];
/// let (mut closing, mut compounding, mut left) = (vec![0; 20], vec![0; 2], vec![0; 64]);
/// let (mut deposits, mut amounts, mut places) = (vec![0; 5], vec![ElectraAmounts::default(); 2], vec![0; 1]);
/// let closed = electra_close(
///     &rules, &finality, &ExitChurn::default(), &DepositNumbers::default(), &registry, &[0], &slashings, &roots, &deposit, &[],
///     &mut closing, &mut compounding, &mut left, &mut deposits, &mut [], &mut amounts, &mut places,
/// )?;
/// assert_eq!((closed.validators, closed.deposits, amounts[1].deposited), (2, 0, 33_000_000_000));
/// assert_eq!(closing[validator::LENGTH + validator::EFFECTIVE_BALANCE], 33_000_000_000);
/// # Ok::<(), Refusal>(())
/// ```
#[allow(clippy::too_many_arguments)]
pub fn electra_close(
    rules: &ElectraRules,
    finality: &Finality,
    churn: &ExitChurn,
    numbers: &DepositNumbers,
    registry: &[u64],
    compounding: &[u64],
    slashings: &[u64],
    roots: &[u8],
    deposits: &[u64],
    consolidations: &[u64],
    closing_registry: &mut [u64],
    closing_compounding: &mut [u64],
    closing_slashings: &mut [u64],
    closing_deposits: &mut [u64],
    closing_consolidations: &mut [u64],
    amounts: &mut [ElectraAmounts],
    places: &mut [u64],
) -> Result<ElectraClosed, Refusal> {
    let (answer, fault) = calls::electra_close(
        rules,
        finality,
        churn,
        numbers,
        registry,
        compounding,
        slashings,
        roots,
        deposits,
        consolidations,
        closing_registry,
        closing_compounding,
        closing_slashings,
        closing_deposits,
        closing_consolidations,
        as_numbers(amounts),
        places,
    );
    answer.result(fault)
}

/// The pair, or the registry's; of a registry that every call refuses before it asks for the pair, any.
pub(crate) fn pair_of(queue: Option<&ExitQueue>, registry: &[u64]) -> ExitQueue {
    queue.copied().unwrap_or_else(|| calls::exit_queue(registry).unwrap_or_default())
}

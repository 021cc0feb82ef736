//! The calls, each lent slices: what goes in stays, and what is `&mut` is written. A closing slice is as long as its opening, or as its call says.
// Written by bindings/generate from crates/exports and bindings/words.

use crate::close::pair_of;
use crate::fault::{asked, call, Fault};
use crate::raw::{self, ElectraAnswer, HeaderAnswer, ReadAnswer, RunningAnswer};
use crate::refusal::Refusal;
use crate::types::{
    Answer, Bellatrix, Clock, Deltas, DenebRules, DepositNumbers, Deposited, ElectraRules, ExitChurn, ExitQueue,
    Finality, Head, Justified, Line, Rules, Running, Settings, Total, Wait,
};
use crate::votes::Votes;

/// What the calls promise whose public functions are written by hand: their documentation begins with it.
macro_rules! promise {
    (close) => {
        "Closes by the last of the store's `count` entries whose start is not above the record's epoch: the closed record's \
         finality and pair, which totals were raised and which test finalized. Closing buffers hold the closed record and \
         amounts what each rule gave and took (enum amount). With a store of no entry lengths that a setting calls for are \
         not tested. Refused with 1, 2, 13, 3, 8, 4 or 5. After 1, 2, 13, 3 and 8 the buffers hold what they held before; \
         after 4 and 5 closing buffers hold the opening's numbers, and amounts zeros. Beside a refusal finality and pair are \
         those handed in."
    };
    (read_header) => {
        "How many validators, roots and slashings the file holds. Refused with 6."
    };
    (read_file) => {
        "Settings, finality, pair and where reading stopped. Registry and slashings hold the file's numbers; registry has ten \
         numbers a validator of the header. Refused with 6, 1, 2, 3 or 8. After a refusal registry and slashings are as they \
         were."
    };
    (close_step) => {
        "Runs step `number`: refused with 1 for a call out of turn. The first call makes every test of the whole close and, \
         refused, ends it. In a later one 1, 2, 13, 3 and 8 turn away that call alone, which may be made again; it tests the \
         record so far, and not the opening's contents again. 4 and 5 end the close. Closing buffers hold the record so far, \
         and amounts what was booked so far; they are lent again at the next call. Refused with 1, 2, 13, 3, 8, 4 or 5. After \
         4 and 5 closing buffers hold the opening's numbers, and amounts zeros; after another refusal all is as before."
    };
    (take_order) => {
        "Takes an exit order, a validator's number and a starting epoch, after the first step and before the end. orders has \
         two numbers an order, and the new one stands behind those in the list. Refused with 1 or 11. After a refusal orders \
         is as it was."
    };
    (carry_out) => {
        "The ninth call, after the eight: tries the orders in order of arrival, each on the record as it then stands, as \
         phase0's voluntary exits without the signature, and ends the close. answers has a number an order that there is room \
         for. 2 is also for a shard_committee_period of 2^48 or more; mainnet's is 256. Refused, the call may be made again. \
         closing_registry holds the record with the exits, answers 0, 9, 10 or 5 for each order that was tried and else what \
         it held. Refused with 1, 2, 13, 3 or 8. After a refusal closing_registry and answers are as they were."
    };
    (deneb_close) => {
        "Closes by Deneb's rules: the closed record's finality and pair, which totals were raised and which test finalized. \
         Closing buffers hold the closed record and amounts what each rule gave and took (enum amount). There is no store: \
         the rules are those of the record's epoch. closing_registry holds the registry. closing_slashings holds the \
         slashings. Refused with 1, 2, 3, 8, 4 or 5. After 1, 2, 3 or 8 closing_registry, closing_slashings and amounts are \
         as they were, after 4 or 5 closing buffers hold the opening's numbers, and amounts zeros."
    };
    (electra_close) => {
        "Closes an epoch of Electra or Fulu: the closed record's finality, which totals were raised and which test finalized, \
         how many validators there are then, how many deposits and consolidations are left, and the queues' three numbers. \
         compounding, deposits, consolidations and places are those of electra_process_pending_deposits and \
         electra_process_pending_consolidations. Closing buffers hold the closed record and amounts what each rule gave and \
         took, twelve numbers a validator (enum electra_amount), at their front; what stands behind it stays. A deposit that \
         is left has its five numbers, its key in the opening's numbering; validators that deposits made stand behind those \
         of the opening, in the order of their first valid deposits. Lengths: closing_registry 10 * (N + D), \
         closing_compounding N + D, amounts 12 * (N + D). Refused with 1, 2, 3, 4 or 5. After 1, 2 and 3 all buffers hold \
         what they held; after 4 and 5 closing buffers hold the opening's numbers at their front and amounts 12 * N zeros, \
         and behind them what they held. places may hold anything. Beside a refusal the answer has what was handed in: the \
         finality, the counts and the queues' numbers."
    };
}
pub(crate) use promise;

/// The number of the interface of the library that was linked: VERSION of its header. It refuses nothing.
///
/// ```
/// assert_eq!(altair_close::version(), altair_close::VERSION);
/// ```
pub fn version() -> u64 {
    // altair.h: no pointers go in
    unsafe { raw::altair_version() }
}

#[allow(clippy::too_many_arguments)]
pub(crate) fn close(
    store: &[u64],
    count: u64,
    finality: &Finality,
    queue: &ExitQueue,
    registry: &[u64],
    slashings: &[u64],
    roots: &[u8],
    closing_registry: &mut [u64],
    closing_slashings: &mut [u64],
    amounts: &mut [u64],
) -> (Answer, Fault) {
    asked!(
        altair_close,
        altair_why_close,
        store.as_ptr(),
        store.len(),
        count,
        *finality,
        *queue,
        registry.as_ptr(),
        registry.len(),
        slashings.as_ptr(),
        slashings.len(),
        roots.as_ptr(),
        roots.len(),
        closing_registry.as_mut_ptr(),
        closing_registry.len(),
        closing_slashings.as_mut_ptr(),
        closing_slashings.len(),
        amounts.as_mut_ptr(),
        amounts.len(),
    )
}

/// The rules of the last of the store's `count` entries whose start is not above the epoch. Refused with 1, 2 or 13.
pub fn read_rules(store: &[u64], count: u64, epoch: u64) -> Result<Rules, Refusal> {
    call!(altair_read_rules, altair_why_read_rules, store.as_ptr(), store.len(), count, epoch)
}

/// The count with one more: the store holds the new entry behind the `count` in use, and else what it held. Reading an
/// epoch below the start gives what it gave before. Refused with 1, 2 or 12. After a refusal store is as it was.
pub fn add_rules(store: &mut [u64], count: u64, start: u64, rules: impl Into<Rules>) -> Result<u64, Refusal> {
    let rules = rules.into();
    call!(altair_add_rules, altair_why_add_rules, store.as_mut_ptr(), store.len(), count, start, rules)
}

/// How many validators of the opening registry are charged: active in the previous epoch, or slashed with the previous
/// epoch + 1 below the withdrawable epoch; nobody at epoch 0. Refused with 1, 2 or 3.
///
/// ```
/// use altair_close::{charged, validator, Settings};
/// let registry = validator::new(32_000_000_000).repeat(5);
/// assert_eq!(charged(&Settings::MAINNET, 127, &registry), Ok(5));
/// ```
pub fn charged(settings: &Settings, state_slot: u64, registry: &[u64]) -> Result<u64, Refusal> {
    call!(altair_charged, altair_why_charged, *settings, state_slot, registry.as_ptr(), registry.len())
}

/// Whether validator `index` waits for activation: its eligibility epoch is at most the finalized epoch and it has no
/// activation epoch. If it does, how many wait ahead of it, k: with a smaller eligibility epoch, or the same one and a
/// smaller number; and closes, floor(k / m) + 1 with min_per_epoch_churn_limit as m: once so many further closes are
/// accepted, whole or by steps, each of a later epoch, it has its activation epoch. closes is 0 where m is, since then
/// no number of closes will do. Refused with 1, 2 or 3.
pub fn activation_wait(
    settings: &Settings,
    finalized_epoch: u64,
    registry: &[u64],
    index: u64,
) -> Result<Wait, Refusal> {
    call!(
        altair_activation_wait,
        altair_why_activation_wait,
        *settings,
        finalized_epoch,
        registry.as_ptr(),
        registry.len(),
        index,
    )
}

/// The numbers of the first line, of the opening's slot and registry and the closing finality. `settings` are those
/// that the close went by: of a close by a store the settings of its entry for the epoch, which read_rules reads, and
/// not the record's own. Refused with 1, 2 or 3.
pub fn listing_head(
    settings: &Settings,
    state_slot: u64,
    closing: &Finality,
    opening: &[u64],
) -> Result<Head, Refusal> {
    call!(
        altair_listing_head,
        altair_why_listing_head,
        *settings,
        state_slot,
        *closing,
        opening.as_ptr(),
        opening.len(),
    )
}

/// The numbers of validator `index`'s line, from the opening and the closing registry; 3 is asked of its own numbers in
/// either, and of no other's. A listing is only `refused 7` where one of its lines is: ask for all of them before the
/// first is printed. The close itself is not refused. Refused with 1, 3 or 7.
///
/// ```
/// use altair_close::{listing_line, validator, Refusal};
/// let (opening, closing) = (validator::new(32_000_000_000), validator::new(31_000_000_000));
/// assert_eq!(listing_line(&opening, &closing, 0)?.net_change, -1_000_000_000);
/// assert_eq!(listing_line(&opening, &closing, 1), Err(Refusal::SHAPE));
/// # Ok::<(), Refusal>(())
/// ```
pub fn listing_line(opening: &[u64], closing: &[u64], index: u64) -> Result<Line, Refusal> {
    call!(
        altair_listing_line,
        altair_why_listing_line,
        opening.as_ptr(),
        opening.len(),
        closing.as_ptr(),
        closing.len(),
        index,
    )
}

/// Closing minus opening of any two balances, from -2^63 to 2^63 - 1. Refused with 7.
///
/// ```
/// use altair_close::{net_change, Refusal};
/// assert_eq!(net_change(32_000_000_000, 31_996_800_000), Ok(-3_200_000));
/// assert_eq!(net_change(u64::MAX, 0), Err(Refusal::SignedOverflow));
/// ```
pub fn net_change(opening: u64, closing: u64) -> Result<i64, Refusal> {
    call!(altair_net_change, no, opening, closing)
}

pub(crate) fn read_header(file: &[u8]) -> (HeaderAnswer, Fault) {
    asked!(altair_read_header, no, file.as_ptr(), file.len())
}

pub(crate) fn read_file(file: &[u8], registry: &mut [u64], slashings: &mut [u64]) -> (ReadAnswer, Fault) {
    asked!(
        altair_read_file,
        altair_why_read_file,
        file.as_ptr(),
        file.len(),
        registry.as_mut_ptr(),
        registry.len(),
        slashings.as_mut_ptr(),
        slashings.len(),
    )
}

/// The record's file, of version 2: `file` is FILE_LENGTH bytes long. Refused with 1, 2, 3 or 8. After a refusal file
/// is as it was.
pub fn write_file(
    settings: &Settings,
    finality: &Finality,
    queue: Option<&ExitQueue>,
    registry: &[u64],
    roots: &[u8],
    slashings: &[u64],
    file: &mut [u8],
) -> Result<(), Refusal> {
    let queue = pair_of(queue, registry);
    call!(
        altair_write_file,
        altair_why_write_file,
        *settings,
        *finality,
        queue,
        registry.as_ptr(),
        registry.len(),
        roots.as_ptr(),
        roots.len(),
        slashings.as_ptr(),
        slashings.len(),
        file.as_mut_ptr(),
        file.len(),
    )
}

/// Closes record files that stand one behind another in `files`, of these lengths, each as if it were alone; under one
/// fork, with its pair. answers holds 0 for each file that was closed, or 6, 1, 2, 3, 8, 4 or 5; only files of version
/// 2 are taken, and 1 and 2 are also those of fork and pair. closing holds in a file's place the closed record's file;
/// after 4 and 5 the file's own bytes, after another refusal what it held before. The working lists opening_numbers and
/// closing_numbers hold anything. As a whole it is refused where the lengths do not add up to the bytes, closing has
/// another length than files, a working list has fewer bytes than the longest file, or there are not as many answers as
/// lengths. Refused with 1. After a refusal nothing is written.
#[allow(clippy::too_many_arguments)]
pub fn close_shelf(
    files: &[u8],
    lengths: &[u64],
    closing: &mut [u8],
    opening_numbers: &mut [u64],
    closing_numbers: &mut [u64],
    answers: &mut [u64],
    fork: u64,
    bellatrix: &Bellatrix,
) -> Result<(), Refusal> {
    call!(
        altair_close_shelf,
        altair_why_close_shelf,
        files.as_ptr(),
        files.len(),
        lengths.as_ptr(),
        lengths.len(),
        closing.as_mut_ptr(),
        closing.len(),
        opening_numbers.as_mut_ptr(),
        opening_numbers.len(),
        closing_numbers.as_mut_ptr(),
        closing_numbers.len(),
        answers.as_mut_ptr(),
        answers.len(),
        fork,
        *bellatrix,
    )
}

#[allow(clippy::too_many_arguments)]
pub(crate) fn close_step(
    number: u64,
    running: &Running,
    store: &[u64],
    count: u64,
    finality: &Finality,
    queue: &ExitQueue,
    registry: &[u64],
    slashings: &[u64],
    roots: &[u8],
    closing_registry: &mut [u64],
    closing_slashings: &mut [u64],
    amounts: &mut [u64],
) -> (RunningAnswer, Fault) {
    asked!(
        altair_close_step,
        altair_why_close_step,
        number,
        *running,
        store.as_ptr(),
        store.len(),
        count,
        *finality,
        *queue,
        registry.as_ptr(),
        registry.len(),
        slashings.as_ptr(),
        slashings.len(),
        roots.as_ptr(),
        roots.len(),
        closing_registry.as_mut_ptr(),
        closing_registry.len(),
        closing_slashings.as_mut_ptr(),
        closing_slashings.len(),
        amounts.as_mut_ptr(),
        amounts.len(),
    )
}

pub(crate) fn take_order(running: &Running, validator: u64, start: u64, orders: &mut [u64]) -> (RunningAnswer, Fault) {
    asked!(altair_take_order, altair_why_take_order, *running, validator, start, orders.as_mut_ptr(), orders.len())
}

pub(crate) fn carry_out(
    store: &[u64],
    count: u64,
    shard_committee_period: u64,
    running: &Running,
    closing_registry: &mut [u64],
    orders: &[u64],
    answers: &mut [u64],
) -> (RunningAnswer, Fault) {
    asked!(
        altair_carry_out,
        altair_why_carry_out,
        store.as_ptr(),
        store.len(),
        count,
        shard_committee_period,
        *running,
        closing_registry.as_mut_ptr(),
        closing_registry.len(),
        orders.as_ptr(),
        orders.len(),
        answers.as_mut_ptr(),
        answers.len(),
    )
}

/// The finality after justification, which totals were raised and which test finalized. Refused with 1, 2, 3, 4 or 5.
///
/// ```
/// use altair_close::*;
/// let mut registry = validator::new(32_000_000_000);
/// registry[validator::PREVIOUS_EPOCH_PARTICIPATION] = 7;
/// let finality = Finality { slot: 127, ..Finality::default() };
/// let after = process_justification_and_finalization(&Settings::MAINNET, &vec![0; 32 * 8192], &finality, &registry)?;
/// assert_eq!(after.finality.current_justified_checkpoint.epoch, 2);
/// # Ok::<(), Refusal>(())
/// ```
pub fn process_justification_and_finalization(
    settings: &Settings,
    roots: &[u8],
    finality: &Finality,
    registry: &[u64],
) -> Result<Justified, Refusal> {
    call!(
        altair_process_justification_and_finalization,
        altair_why_process_justification_and_finalization,
        *settings,
        roots.as_ptr(),
        roots.len(),
        *finality,
        registry.as_ptr(),
        registry.len(),
    )
}

/// closing holds the registry with the new inactivity scores. Refused with 1, 2, 3 or 5. After 1, 2 or 3 closing is as
/// it was, after 5 it holds the opening's numbers.
pub fn process_inactivity_updates(
    settings: &Settings,
    state_slot: u64,
    finalized_epoch: u64,
    opening: &[u64],
    closing: &mut [u64],
) -> Result<(), Refusal> {
    call!(
        altair_process_inactivity_updates,
        altair_why_process_inactivity_updates,
        *settings,
        state_slot,
        finalized_epoch,
        opening.as_ptr(),
        opening.len(),
        closing.as_mut_ptr(),
        closing.len(),
    )
}

/// closing holds the registry with the new balances. Refused with 1, 2, 3 or 5. After 1, 2 or 3 closing is as it was,
/// after 5 it holds the opening's numbers.
pub fn process_rewards_and_penalties(
    rules: impl Into<Rules>,
    state_slot: u64,
    finalized_epoch: u64,
    opening: &[u64],
    closing: &mut [u64],
) -> Result<(), Refusal> {
    let rules = rules.into();
    call!(
        altair_process_rewards_and_penalties,
        altair_why_process_rewards_and_penalties,
        rules,
        state_slot,
        finalized_epoch,
        opening.as_ptr(),
        opening.len(),
        closing.as_mut_ptr(),
        closing.len(),
    )
}

/// closing holds the registry after queueing, ejecting and activating; answered is the pair after the step, which
/// counts the ejections. Refused with 1, 2, 3, 8 or 5. After 1, 2, 3 or 8 closing is as it was, after 5 it holds the
/// opening's numbers.
pub fn process_registry_updates(
    settings: &Settings,
    state_slot: u64,
    finalized_epoch: u64,
    queue: Option<&ExitQueue>,
    opening: &[u64],
    closing: &mut [u64],
) -> Result<ExitQueue, Refusal> {
    let queue = pair_of(queue, opening);
    call!(
        altair_process_registry_updates,
        altair_why_process_registry_updates,
        *settings,
        state_slot,
        finalized_epoch,
        queue,
        opening.as_ptr(),
        opening.len(),
        closing.as_mut_ptr(),
        closing.len(),
    )
}

/// closing holds the registry after the registry step with a stop, a validator's number or N: from it up the opening's
/// activation epochs stay, all else is as without one; answered is the pair after the step. 1 is also for a stop above
/// N. Refused with 1, 2, 3, 8 or 5. After 1, 2, 3 or 8 closing is as it was, after 5 it holds the opening's numbers.
///
/// ```
/// use altair_close::*;
/// let mut waiting = validator::new(32_000_000_000);
/// waiting[validator::ACTIVATION_EPOCH] = u64::MAX;
/// let (opening, mut closing) = (waiting.repeat(2), [0; 20]);
/// process_registry_updates_to(1, &Settings::MAINNET, 127, 1, None, &opening, &mut closing)?;
/// assert_eq!(closing[validator::ACTIVATION_EPOCH], 8);
/// assert_eq!(closing[10 + validator::ACTIVATION_EPOCH], u64::MAX);
/// # Ok::<(), Refusal>(())
/// ```
pub fn process_registry_updates_to(
    stop: u64,
    settings: &Settings,
    state_slot: u64,
    finalized_epoch: u64,
    queue: Option<&ExitQueue>,
    opening: &[u64],
    closing: &mut [u64],
) -> Result<ExitQueue, Refusal> {
    let queue = pair_of(queue, opening);
    call!(
        altair_process_registry_updates_to,
        altair_why_process_registry_updates_to,
        stop,
        *settings,
        state_slot,
        finalized_epoch,
        queue,
        opening.as_ptr(),
        opening.len(),
        closing.as_mut_ptr(),
        closing.len(),
    )
}

/// closing holds the registry less the slashing penalties. Refused with 1, 2, 3 or 5. After 1, 2 or 3 closing is as it
/// was, after 5 it holds the opening's numbers.
pub fn process_slashings(
    rules: impl Into<Rules>,
    state_slot: u64,
    slashings: &[u64],
    opening: &[u64],
    closing: &mut [u64],
) -> Result<(), Refusal> {
    let rules = rules.into();
    call!(
        altair_process_slashings,
        altair_why_process_slashings,
        rules,
        state_slot,
        slashings.as_ptr(),
        slashings.len(),
        opening.as_ptr(),
        opening.len(),
        closing.as_mut_ptr(),
        closing.len(),
    )
}

/// closing holds the registry with the new effective balances. Refused with 1, 2, 3 or 5. After 1, 2 or 3 closing is as
/// it was, after 5 it holds the opening's numbers.
///
/// ```
/// use altair_close::*;
/// let mut opening = validator::new(32_000_000_000);
/// opening[validator::BALANCE] = 31_749_999_999;
/// let mut closing = [0; 10];
/// process_effective_balance_updates(&Settings::MAINNET, &opening, &mut closing)?;
/// assert_eq!(closing[validator::EFFECTIVE_BALANCE], 31_000_000_000);
/// # Ok::<(), Refusal>(())
/// ```
pub fn process_effective_balance_updates(
    settings: &Settings,
    opening: &[u64],
    closing: &mut [u64],
) -> Result<(), Refusal> {
    call!(
        altair_process_effective_balance_updates,
        altair_why_process_effective_balance_updates,
        *settings,
        opening.as_ptr(),
        opening.len(),
        closing.as_mut_ptr(),
        closing.len(),
    )
}

/// The slashings with the next epoch's place 0: opening and closing are slashings. Refused with 1, 2 or 3. After a
/// refusal closing is as it was.
pub fn process_slashings_reset(
    settings: &Settings,
    state_slot: u64,
    opening: &[u64],
    closing: &mut [u64],
) -> Result<(), Refusal> {
    call!(
        altair_process_slashings_reset,
        altair_why_process_slashings_reset,
        *settings,
        state_slot,
        opening.as_ptr(),
        opening.len(),
        closing.as_mut_ptr(),
        closing.len(),
    )
}

/// closing holds the registry with current flags as previous ones and none current. Refused with 1 or 3. After a
/// refusal closing is as it was.
pub fn process_participation_flag_updates(opening: &[u64], closing: &mut [u64]) -> Result<(), Refusal> {
    call!(
        altair_process_participation_flag_updates,
        altair_why_process_participation_flag_updates,
        opening.as_ptr(),
        opening.len(),
        closing.as_mut_ptr(),
        closing.len(),
    )
}

/// The largest number whose square is at most n. It refuses nothing.
///
/// ```
/// assert_eq!(altair_close::integer_sqrt(160_000_000_000), 400_000);
/// ```
pub fn integer_sqrt(n: u64) -> u64 {
    // altair.h: no pointers go in
    unsafe { raw::altair_integer_sqrt(n) }
}

/// slot / slots_per_epoch. Refused with 1 or 2.
pub fn compute_epoch_at_slot(settings: &Settings, slot: u64) -> Result<u64, Refusal> {
    call!(altair_compute_epoch_at_slot, altair_why_compute_epoch_at_slot, *settings, slot)
}

/// epoch * slots_per_epoch. Refused with 1, 2 or 5.
///
/// ```
/// use altair_close::{compute_start_slot_at_epoch, Refusal, Settings};
/// assert_eq!(compute_start_slot_at_epoch(&Settings::MAINNET, 3), Ok(96));
/// assert_eq!(compute_start_slot_at_epoch(&Settings::MAINNET, u64::MAX), Err(Refusal::Overflow));
/// ```
pub fn compute_start_slot_at_epoch(settings: &Settings, epoch: u64) -> Result<u64, Refusal> {
    call!(altair_compute_start_slot_at_epoch, altair_why_compute_start_slot_at_epoch, *settings, epoch)
}

/// epoch + 1 + max_seed_lookahead. Refused with 1, 2 or 5.
pub fn compute_activation_exit_epoch(settings: &Settings, epoch: u64) -> Result<u64, Refusal> {
    call!(altair_compute_activation_exit_epoch, altair_why_compute_activation_exit_epoch, *settings, epoch)
}

/// The epoch of the state's slot. Refused with 1, 2 or 3.
pub fn get_current_epoch(settings: &Settings, state_slot: u64) -> Result<u64, Refusal> {
    call!(altair_get_current_epoch, altair_why_get_current_epoch, *settings, state_slot)
}

/// The epoch before the state's, 0 at epoch 0. Refused with 1, 2 or 3.
pub fn get_previous_epoch(settings: &Settings, state_slot: u64) -> Result<u64, Refusal> {
    call!(altair_get_previous_epoch, altair_why_get_previous_epoch, *settings, state_slot)
}

/// Whether the validator is active in the epoch. Refused with 1 or 3.
pub fn is_active_validator(validator: &[u64], epoch: u64) -> Result<bool, Refusal> {
    call!(altair_is_active_validator, altair_why_is_active_validator, validator.as_ptr(), validator.len(), epoch)
}

/// Whether it may join the activation queue. Refused with 1, 2 or 3.
pub fn is_eligible_for_activation_queue(settings: &Settings, validator: &[u64]) -> Result<bool, Refusal> {
    call!(
        altair_is_eligible_for_activation_queue,
        altair_why_is_eligible_for_activation_queue,
        *settings,
        validator.as_ptr(),
        validator.len(),
    )
}

/// Whether it waits in the queue for activation. Refused with 1 or 3.
pub fn is_eligible_for_activation(finalized_epoch: u64, validator: &[u64]) -> Result<bool, Refusal> {
    call!(
        altair_is_eligible_for_activation,
        altair_why_is_eligible_for_activation,
        finalized_epoch,
        validator.as_ptr(),
        validator.len(),
    )
}

/// Whether it earns and pays: active in the previous epoch, or slashed and withdrawable only later. Refused with 1, 2
/// or 3.
pub fn is_eligible(settings: &Settings, state_slot: u64, validator: &[u64]) -> Result<bool, Refusal> {
    call!(altair_is_eligible, altair_why_is_eligible, *settings, state_slot, validator.as_ptr(), validator.len())
}

/// validator holds the ten numbers with delta more on the balance. Refused with 1, 3 or 5. After a refusal validator is
/// as it was.
///
/// ```
/// use altair_close::{increase_balance, validator, Refusal};
/// let mut v = validator::new(32_000_000_000);
/// assert_eq!(increase_balance(&mut v, 5), Ok(()));
/// assert_eq!(increase_balance(&mut v, u64::MAX), Err(Refusal::Overflow));
/// assert_eq!(v[validator::BALANCE], 32_000_000_005);
/// ```
pub fn increase_balance(validator: &mut [u64], delta: u64) -> Result<(), Refusal> {
    call!(altair_increase_balance, altair_why_increase_balance, validator.as_mut_ptr(), validator.len(), delta)
}

/// validator holds the ten numbers with delta less on the balance, not below 0. Refused with 1 or 3. After a refusal
/// validator is as it was.
pub fn decrease_balance(validator: &mut [u64], delta: u64) -> Result<(), Refusal> {
    call!(altair_decrease_balance, altair_why_decrease_balance, validator.as_mut_ptr(), validator.len(), delta)
}

/// Whether flag flag_index (0 source, 1 target, 2 head, up to 7) is in flags. Refused with 1.
pub fn has_flag(flags: u8, flag_index: u64) -> Result<bool, Refusal> {
    call!(altair_has_flag, altair_why_has_flag, flags, flag_index)
}

/// The flags with flag flag_index (up to 7) in them. Refused with 1.
pub fn add_flag(flags: u8, flag_index: u64) -> Result<u64, Refusal> {
    call!(altair_add_flag, altair_why_add_flag, flags, flag_index)
}

/// Whether it is unslashed, active and has the flag (0 to 2) in the epoch, the previous or the current one. Refused
/// with 1, 2 or 3.
pub fn is_unslashed_participating(
    settings: &Settings,
    state_slot: u64,
    flag_index: u64,
    epoch: u64,
    validator: &[u64],
) -> Result<bool, Refusal> {
    call!(
        altair_is_unslashed_participating,
        altair_why_is_unslashed_participating,
        *settings,
        state_slot,
        flag_index,
        epoch,
        validator.as_ptr(),
        validator.len(),
    )
}

/// The root at the slot; roots has 32 bytes a root. Refused with 1, 2, 3 or 4.
///
/// ```
/// use altair_close::{get_block_root_at_slot, Refusal, Settings};
/// let roots = vec![9; 32 * 8192];
/// assert_eq!(get_block_root_at_slot(&Settings::MAINNET, &roots, 8192, 0), Ok([9; 32]));
/// assert_eq!(get_block_root_at_slot(&Settings::MAINNET, &roots, 8193, 0), Err(Refusal::Root));
/// ```
pub fn get_block_root_at_slot(
    settings: &Settings,
    roots: &[u8],
    state_slot: u64,
    slot: u64,
) -> Result<[u8; 32], Refusal> {
    call!(
        altair_get_block_root_at_slot,
        altair_why_get_block_root_at_slot,
        *settings,
        roots.as_ptr(),
        roots.len(),
        state_slot,
        slot,
    )
}

/// The root at the epoch's first slot; roots has 32 bytes a root. Refused with 1, 2, 3, 4 or 5.
pub fn get_block_root(settings: &Settings, roots: &[u8], state_slot: u64, epoch: u64) -> Result<[u8; 32], Refusal> {
    call!(altair_get_block_root, altair_why_get_block_root, *settings, roots.as_ptr(), roots.len(), state_slot, epoch)
}

/// The effective balance of all that are active, at least one increment, and whether it was raised to it. Refused with
/// 1, 2, 3 or 5.
pub fn get_total_active_balance(settings: &Settings, state_slot: u64, registry: &[u64]) -> Result<Total, Refusal> {
    call!(
        altair_get_total_active_balance,
        altair_why_get_total_active_balance,
        *settings,
        state_slot,
        registry.as_ptr(),
        registry.len(),
    )
}

/// The effective balance of the unslashed participants of a flag (0 to 2) in the previous or current epoch, and whether
/// it was raised. Refused with 1, 2, 3 or 5.
pub fn get_participating_balance(
    settings: &Settings,
    state_slot: u64,
    flag_index: u64,
    epoch: u64,
    registry: &[u64],
) -> Result<Total, Refusal> {
    call!(
        altair_get_participating_balance,
        altair_why_get_participating_balance,
        *settings,
        state_slot,
        flag_index,
        epoch,
        registry.as_ptr(),
        registry.len(),
    )
}

/// How many may enter or leave in an epoch. Refused with 1, 2 or 3.
pub fn get_validator_churn_limit(settings: &Settings, state_slot: u64, registry: &[u64]) -> Result<u64, Refusal> {
    call!(
        altair_get_validator_churn_limit,
        altair_why_get_validator_churn_limit,
        *settings,
        state_slot,
        registry.as_ptr(),
        registry.len(),
    )
}

/// The exit queue's pair of the registry; zeros beside a refusal. Refused with 1 or 3.
///
/// ```
/// use altair_close::{exit_queue, validator, ExitQueue};
/// let mut registry = validator::new(32_000_000_000).repeat(3);
/// assert_eq!(exit_queue(&registry), Ok(ExitQueue::default()));
/// registry[validator::EXIT_EPOCH] = 9;
/// assert_eq!(exit_queue(&registry), Ok(ExitQueue { last_epoch: 9, number: 1 }));
/// ```
pub fn exit_queue(registry: &[u64]) -> Result<ExitQueue, Refusal> {
    call!(altair_exit_queue, altair_why_exit_queue, registry.as_ptr(), registry.len())
}

/// The registry with an exit and a withdrawable epoch for validator `index`; answered is the pair afterwards. A
/// validator whose exit epoch is not FAR keeps it. Else it leaves at current epoch + 1 + max_seed_lookahead or at the
/// pair's last epoch, whichever is later; one epoch more where as many as the churn limit leave then. It is
/// withdrawable min_validator_withdrawability_delay later; with delay 0 both can come out as FAR, which counts for
/// nothing in the pair. Refused with 1, 2, 3, 8 or 5. After a refusal registry is as it was.
pub fn initiate_validator_exit(
    settings: &Settings,
    state_slot: u64,
    index: u64,
    queue: Option<&ExitQueue>,
    registry: &mut [u64],
) -> Result<ExitQueue, Refusal> {
    let queue = pair_of(queue, registry);
    call!(
        altair_initiate_validator_exit,
        altair_why_initiate_validator_exit,
        *settings,
        state_slot,
        index,
        queue,
        registry.as_mut_ptr(),
        registry.len(),
    )
}

/// The base reward per increment at a total active balance. Refused with 1, 2 or 5.
///
/// ```
/// use altair_close::{get_base_reward_per_increment, Settings};
/// assert_eq!(get_base_reward_per_increment(&Settings::MAINNET, 160_000_000_000), Ok(160_000));
/// ```
pub fn get_base_reward_per_increment(settings: &Settings, total: u64) -> Result<u64, Refusal> {
    call!(altair_get_base_reward_per_increment, altair_why_get_base_reward_per_increment, *settings, total)
}

/// The validator's base reward at a total active balance. Refused with 1, 2, 3 or 5.
pub fn get_base_reward(settings: &Settings, total: u64, validator: &[u64]) -> Result<u64, Refusal> {
    call!(altair_get_base_reward, altair_why_get_base_reward, *settings, total, validator.as_ptr(), validator.len())
}

/// What validator `index` gains and loses by a flag (0 to 2). Refused with 1, 2, 3 or 5.
///
/// ```
/// use altair_close::*;
/// let mut v = validator::new(32_000_000_000);
/// v[validator::PREVIOUS_EPOCH_PARTICIPATION] = 7;
/// let registry = v.repeat(5);
/// let deltas = get_flag_index_deltas(&Settings::MAINNET, 127, 1, 1, 0, &registry);
/// assert_eq!(deltas, Ok(Deltas { reward: 2_080_000, penalty: 0 }));
/// ```
pub fn get_flag_index_deltas(
    settings: &Settings,
    state_slot: u64,
    finalized_epoch: u64,
    flag_index: u64,
    index: u64,
    registry: &[u64],
) -> Result<Deltas, Refusal> {
    call!(
        altair_get_flag_index_deltas,
        altair_why_get_flag_index_deltas,
        *settings,
        state_slot,
        finalized_epoch,
        flag_index,
        index,
        registry.as_ptr(),
        registry.len(),
    )
}

/// What the validator loses by its score; the reward is 0. Refused with 1, 2, 3 or 5.
///
/// ```
/// use altair_close::*;
/// let mut v = validator::new(32_000_000_000);
/// v[validator::INACTIVITY_SCORE] = 100;
/// let lost = |rules: Rules| get_inactivity_penalty_deltas(&rules, 127, &v).map(|d| d.penalty);
/// assert_eq!(lost(Rules::altair(&Settings::MAINNET)), Ok(15894));
/// assert_eq!(lost(Rules::bellatrix(&Settings::MAINNET, &Bellatrix::MAINNET)), Ok(47683));
/// assert_eq!(lost(Rules { fork: 2, ..Rules::altair(&Settings::MAINNET) }), Err(Refusal::SHAPE));
/// ```
pub fn get_inactivity_penalty_deltas(
    rules: impl Into<Rules>,
    state_slot: u64,
    validator: &[u64],
) -> Result<Deltas, Refusal> {
    let rules = rules.into();
    call!(
        altair_get_inactivity_penalty_deltas,
        altair_why_get_inactivity_penalty_deltas,
        rules,
        state_slot,
        validator.as_ptr(),
        validator.len(),
    )
}

/// Previous epoch less finalized epoch. Refused with 1, 2, 3 or 5.
pub fn get_finality_delay(settings: &Settings, state_slot: u64, finalized_epoch: u64) -> Result<u64, Refusal> {
    call!(altair_get_finality_delay, altair_why_get_finality_delay, *settings, state_slot, finalized_epoch)
}

/// Whether previous epoch less finalized epoch is above min_epochs_to_inactivity_penalty. Refused with 1, 2, 3 or 5.
pub fn is_in_inactivity_leak(settings: &Settings, state_slot: u64, finalized_epoch: u64) -> Result<bool, Refusal> {
    call!(altair_is_in_inactivity_leak, altair_why_is_in_inactivity_leak, *settings, state_slot, finalized_epoch)
}

/// The finality from three totals: of all that are active, and of those that hit the previous and the current target.
/// Refused with 1, 2, 3, 4 or 5.
pub fn weigh_justification_and_finalization(
    settings: &Settings,
    roots: &[u8],
    finality: &Finality,
    total: u64,
    previous: u64,
    current: u64,
) -> Result<Finality, Refusal> {
    call!(
        altair_weigh_justification_and_finalization,
        altair_why_weigh_justification_and_finalization,
        *settings,
        roots.as_ptr(),
        roots.len(),
        *finality,
        total,
        previous,
        current,
    )
}

/// Each finalized epoch that justification gives for some filling of the unknown target flags, and no other, and for
/// either target epoch whether its two-thirds test passes in all, some or no fillings. marks has one of enum mark a
/// validator; a flag that it calls unknown counts for nothing, whatever is stored. 3 is also for a mark over 3; 4 where
/// either target's root cannot be looked up, wanted or not, and that before 5, which is given where some filling
/// overflows. Up to epoch 1 the finalized epoch alone is listed, both tests pass in none, and neither 4 nor 5 is given.
/// Refused with 1, 2, 3, 4 or 5.
///
/// ```
/// use altair_close::*;
/// let settings = Settings::MINIMAL;
/// let checkpoint = |epoch| Checkpoint { epoch, ..Checkpoint::default() };
/// let finality = Finality {
///     slot: 31,
///     justification_bits: 2,
///     previous_justified_checkpoint: checkpoint(1),
///     current_justified_checkpoint: checkpoint(2),
///     ..Finality::default()
/// };
/// let registry = validator::new(32_000_000_000).repeat(5);
/// let votes = unknown_votes(&settings, &[0; 32 * 64], &finality, &registry, &[mark::BOTH_UNKNOWN; 5])?;
/// assert_eq!(votes.finalized_epochs(), [0, 1, 2]);
/// assert_eq!((votes.previous_target, votes.current_target), (Passes::InSome, Passes::InSome));
/// # Ok::<(), Refusal>(())
/// ```
pub fn unknown_votes(
    settings: &Settings,
    roots: &[u8],
    finality: &Finality,
    registry: &[u64],
    marks: &[u64],
) -> Result<Votes, Refusal> {
    call!(
        altair_unknown_votes,
        altair_why_unknown_votes,
        *settings,
        roots.as_ptr(),
        roots.len(),
        *finality,
        registry.as_ptr(),
        registry.len(),
        marks.as_ptr(),
        marks.len(),
    )
}

/// closing holds the registry after queueing, ejecting and activating, and the pair after the step. As many are
/// activated as the smaller of the churn limit and max_per_epoch_activation_churn_limit says; ejections go by the churn
/// limit. Refused with 1, 2, 3, 8 or 5. After 1, 2, 3 or 8 closing is as it was, after 5 it holds the opening's
/// numbers.
pub fn deneb_process_registry_updates(
    rules: &DenebRules,
    state_slot: u64,
    finalized_epoch: u64,
    queue: Option<&ExitQueue>,
    opening: &[u64],
    closing: &mut [u64],
) -> Result<ExitQueue, Refusal> {
    let queue = pair_of(queue, opening);
    call!(
        deneb_process_registry_updates,
        altair_why_deneb_process_registry_updates,
        *rules,
        state_slot,
        finalized_epoch,
        queue,
        opening.as_ptr(),
        opening.len(),
        closing.as_mut_ptr(),
        closing.len(),
    )
}

#[allow(clippy::too_many_arguments)]
pub(crate) fn deneb_close(
    rules: &DenebRules,
    finality: &Finality,
    queue: &ExitQueue,
    registry: &[u64],
    slashings: &[u64],
    roots: &[u8],
    closing_registry: &mut [u64],
    closing_slashings: &mut [u64],
    amounts: &mut [u64],
) -> (Answer, Fault) {
    asked!(
        deneb_close,
        altair_why_deneb_close,
        *rules,
        *finality,
        *queue,
        registry.as_ptr(),
        registry.len(),
        slashings.as_ptr(),
        slashings.len(),
        roots.as_ptr(),
        roots.len(),
        closing_registry.as_mut_ptr(),
        closing_registry.len(),
        closing_slashings.as_mut_ptr(),
        closing_slashings.len(),
        amounts.as_mut_ptr(),
        amounts.len(),
    )
}

#[allow(clippy::too_many_arguments)]
pub(crate) fn electra_close(
    rules: &ElectraRules,
    finality: &Finality,
    churn: &ExitChurn,
    numbers: &DepositNumbers,
    registry: &[u64],
    compounding: &[u64],
    slashings: &[u64],
    roots: &[u8],
    deposits: &[u64],
    consolidations: &[u64],
    closing_registry: &mut [u64],
    closing_compounding: &mut [u64],
    closing_slashings: &mut [u64],
    closing_deposits: &mut [u64],
    closing_consolidations: &mut [u64],
    amounts: &mut [u64],
    places: &mut [u64],
) -> (ElectraAnswer, Fault) {
    asked!(
        electra_close,
        altair_why_electra_close,
        *rules,
        *finality,
        *churn,
        *numbers,
        registry.as_ptr(),
        registry.len(),
        compounding.as_ptr(),
        compounding.len(),
        slashings.as_ptr(),
        slashings.len(),
        roots.as_ptr(),
        roots.len(),
        deposits.as_ptr(),
        deposits.len(),
        consolidations.as_ptr(),
        consolidations.len(),
        closing_registry.as_mut_ptr(),
        closing_registry.len(),
        closing_compounding.as_mut_ptr(),
        closing_compounding.len(),
        closing_slashings.as_mut_ptr(),
        closing_slashings.len(),
        closing_deposits.as_mut_ptr(),
        closing_deposits.len(),
        closing_consolidations.as_mut_ptr(),
        closing_consolidations.len(),
        amounts.as_mut_ptr(),
        amounts.len(),
        places.as_mut_ptr(),
        places.len(),
    )
}

/// closing holds the registry after one loop in register order: who is queued, who is ejected by balance, and who is
/// activated, of which there is no limit; answered are the exit queue's two numbers after the step. Refused with 1, 2,
/// 3 or 5. After 1, 2 or 3 closing is as it was, after 5 it holds the opening's numbers.
pub fn electra_process_registry_updates(
    rules: &ElectraRules,
    state_slot: u64,
    finalized_epoch: u64,
    churn: &ExitChurn,
    opening: &[u64],
    closing: &mut [u64],
) -> Result<ExitChurn, Refusal> {
    call!(
        electra_process_registry_updates,
        altair_why_electra_process_registry_updates,
        *rules,
        state_slot,
        finalized_epoch,
        *churn,
        opening.as_ptr(),
        opening.len(),
        closing.as_mut_ptr(),
        closing.len(),
    )
}

/// closing holds the registry less the slashing penalties, which go by whole increments. Refused with 1, 2, 3 or 5.
/// After 1, 2 or 3 closing is as it was, after 5 it holds the opening's numbers.
pub fn electra_process_slashings(
    rules: &ElectraRules,
    state_slot: u64,
    slashings: &[u64],
    opening: &[u64],
    closing: &mut [u64],
) -> Result<(), Refusal> {
    call!(
        electra_process_slashings,
        altair_why_electra_process_slashings,
        *rules,
        state_slot,
        slashings.as_ptr(),
        slashings.len(),
        opening.as_ptr(),
        opening.len(),
        closing.as_mut_ptr(),
        closing.len(),
    )
}

/// The queue of deposits worked off, as far as the finalized slot, the churn limit and max_pending_deposits_per_epoch
/// let it. compounding has a number a validator, 1 where its credentials begin with 0x02 and else 0; deposits five
/// numbers each, in the queue's order: key, compounding, amount, slot, and 1 where the signature is valid, which the
/// caller has found out. A key below N is that validator's, from N on one that no validator has, the same number for
/// the same key; it is below N + D, where D deposits are lent. At the front of the closing buffers stand the validators
/// with the new ones, their credentials, and the queue: the rest, and behind it those postponed; what stands behind
/// them stays. places is a list of D numbers to work in: it may hold anything, and holds anything afterwards. Lengths:
/// closing_registry 10 * (N + D), closing_compounding N + D. Refused with 1, 2, 3 or 5. After 1, 2 or 3
/// closing_registry, closing_compounding and closing_deposits are as they were, after 5 they hold the opening's numbers
/// at their front, and behind them what they held.
#[allow(clippy::too_many_arguments)]
pub fn electra_process_pending_deposits(
    rules: &ElectraRules,
    state_slot: u64,
    finalized_epoch: u64,
    numbers: &DepositNumbers,
    registry: &[u64],
    compounding: &[u64],
    deposits: &[u64],
    closing_registry: &mut [u64],
    closing_compounding: &mut [u64],
    closing_deposits: &mut [u64],
    places: &mut [u64],
) -> Result<Deposited, Refusal> {
    call!(
        electra_process_pending_deposits,
        altair_why_electra_process_pending_deposits,
        *rules,
        state_slot,
        finalized_epoch,
        *numbers,
        registry.as_ptr(),
        registry.len(),
        compounding.as_ptr(),
        compounding.len(),
        deposits.as_ptr(),
        deposits.len(),
        closing_registry.as_mut_ptr(),
        closing_registry.len(),
        closing_compounding.as_mut_ptr(),
        closing_compounding.len(),
        closing_deposits.as_mut_ptr(),
        closing_deposits.len(),
        places.as_mut_ptr(),
        places.len(),
    )
}

/// The queue of consolidations worked off: two numbers each, source and target, which are validators' numbers. A
/// slashed source is passed over, one that is not yet withdrawable in the next epoch stops; of another the smaller of
/// balance and effective balance goes to the target. What is left stands at the front of closing_consolidations, and
/// what stands behind it stays. closing_registry holds the registry. Refused with 1, 2, 3 or 5. After 1, 2 or 3
/// closing_registry and closing_consolidations are as they were, after 5 they hold the opening's numbers.
pub fn electra_process_pending_consolidations(
    rules: &ElectraRules,
    state_slot: u64,
    registry: &[u64],
    consolidations: &[u64],
    closing_registry: &mut [u64],
    closing_consolidations: &mut [u64],
) -> Result<u64, Refusal> {
    call!(
        electra_process_pending_consolidations,
        altair_why_electra_process_pending_consolidations,
        *rules,
        state_slot,
        registry.as_ptr(),
        registry.len(),
        consolidations.as_ptr(),
        consolidations.len(),
        closing_registry.as_mut_ptr(),
        closing_registry.len(),
        closing_consolidations.as_mut_ptr(),
        closing_consolidations.len(),
    )
}

/// closing holds the registry with the new effective balances: at most max_effective_balance_electra of a validator
/// whose compounding is 1, and min_activation_balance of another. Refused with 1, 2, 3 or 5. After 1, 2 or 3 closing is
/// as it was, after 5 it holds the opening's numbers.
pub fn electra_process_effective_balance_updates(
    rules: &ElectraRules,
    compounding: &[u64],
    opening: &[u64],
    closing: &mut [u64],
) -> Result<(), Refusal> {
    call!(
        electra_process_effective_balance_updates,
        altair_why_electra_process_effective_balance_updates,
        *rules,
        compounding.as_ptr(),
        compounding.len(),
        opening.as_ptr(),
        opening.len(),
        closing.as_mut_ptr(),
        closing.len(),
    )
}

/// How much balance may enter or leave in an epoch, in Gwei: a whole number of increments. Refused with 1, 2, 3 or 5.
pub fn electra_get_balance_churn_limit(
    rules: &ElectraRules,
    state_slot: u64,
    registry: &[u64],
) -> Result<u64, Refusal> {
    call!(
        electra_get_balance_churn_limit,
        altair_why_electra_get_balance_churn_limit,
        *rules,
        state_slot,
        registry.as_ptr(),
        registry.len(),
    )
}

/// The smaller of electra_get_balance_churn_limit and max_per_epoch_activation_exit_churn_limit, in Gwei. Refused with
/// 1, 2, 3 or 5.
pub fn electra_get_activation_exit_churn_limit(
    rules: &ElectraRules,
    state_slot: u64,
    registry: &[u64],
) -> Result<u64, Refusal> {
    call!(
        electra_get_activation_exit_churn_limit,
        altair_why_electra_get_activation_exit_churn_limit,
        *rules,
        state_slot,
        registry.as_ptr(),
        registry.len(),
    )
}

/// The largest effective balance of a validator whose compounding is 1, or 0, in Gwei. Refused with 1, 2 or 3.
pub fn electra_get_max_effective_balance(rules: &ElectraRules, compounding: u64) -> Result<u64, Refusal> {
    call!(electra_get_max_effective_balance, altair_why_electra_get_max_effective_balance, *rules, compounding)
}

/// The exit queue's two numbers once a balance leaves: the earliest exit epoch is the epoch at which it does. What does
/// not fit goes to further epochs, a churn limit each. Refused with 1, 2, 3 or 5.
pub fn electra_compute_exit_epoch_and_update_churn(
    rules: &ElectraRules,
    state_slot: u64,
    churn: &ExitChurn,
    exit_balance: u64,
    registry: &[u64],
) -> Result<ExitChurn, Refusal> {
    call!(
        electra_compute_exit_epoch_and_update_churn,
        altair_why_electra_compute_exit_epoch_and_update_churn,
        *rules,
        state_slot,
        *churn,
        exit_balance,
        registry.as_ptr(),
        registry.len(),
    )
}

/// The registry with an exit and a withdrawable epoch for validator `index`, by its effective balance; answered are the
/// exit queue's two numbers afterwards. A validator whose exit epoch is not FAR keeps it. Refused with 1, 2, 3 or 5.
/// After a refusal registry is as it was.
pub fn electra_initiate_validator_exit(
    rules: &ElectraRules,
    state_slot: u64,
    index: u64,
    churn: &ExitChurn,
    registry: &mut [u64],
) -> Result<ExitChurn, Refusal> {
    call!(
        electra_initiate_validator_exit,
        altair_why_electra_initiate_validator_exit,
        *rules,
        state_slot,
        index,
        *churn,
        registry.as_mut_ptr(),
        registry.len(),
    )
}

impl Clock {
    /// The slot of the second. Refused with 15, 2 or 14.
    ///
    /// ```
    /// use altair_close::{Clock, Refusal};
    /// assert_eq!(Clock::MAINNET.slot_at_time(1_606_824_035), Ok(1));
    /// assert_eq!(Clock::MAINNET.slot_at_time(1_606_824_022), Err(Refusal::BeforeGenesis));
    /// ```
    pub fn slot_at_time(&self, second: u64) -> Result<u64, Refusal> {
        call!(altair_slot_at_time, no, *self, second)
    }

    /// The epoch of the second. Refused with 15, 2 or 14.
    pub fn epoch_at_time(&self, second: u64) -> Result<u64, Refusal> {
        call!(altair_epoch_at_time, no, *self, second)
    }

    /// Whether the second is in the closing window, the last slot of its epoch. Refused with 15, 2 or 14.
    pub fn is_in_closing_window(&self, second: u64) -> Result<bool, Refusal> {
        call!(altair_is_in_closing_window, no, *self, second)
    }

    /// The first second of the slot. Refused with 15, 2 or 5.
    pub fn first_second_of_slot(&self, slot: u64) -> Result<u64, Refusal> {
        call!(altair_first_second_of_slot, no, *self, slot)
    }

    /// The last second of the slot. Refused with 15, 2 or 5.
    pub fn last_second_of_slot(&self, slot: u64) -> Result<u64, Refusal> {
        call!(altair_last_second_of_slot, no, *self, slot)
    }

    /// The first second of the epoch. Refused with 15, 2 or 5.
    pub fn first_second_of_epoch(&self, epoch: u64) -> Result<u64, Refusal> {
        call!(altair_first_second_of_epoch, no, *self, epoch)
    }

    /// The last second of the epoch. Refused with 15, 2 or 5.
    pub fn last_second_of_epoch(&self, epoch: u64) -> Result<u64, Refusal> {
        call!(altair_last_second_of_epoch, no, *self, epoch)
    }
}

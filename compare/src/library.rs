//! The library by the declarations of bindings/rust, whose safe functions leave out what stands beside a refusal.
use crate::{
    booked::Queue,
    convert,
    raw::{self, FinalityAnswer, QueueAnswer},
    record::{Finality, Settings},
    rules::Rules,
    types::{DenebRules, RaisedNumbers},
};

/// 0 or the refusal's number, and the finality that comes back.
pub fn answered(a: FinalityAnswer) -> (u64, Finality) {
    (a.refusal, convert::plain(&a.finality))
}

fn raised(r: RaisedNumbers) -> [u64; 3] {
    [r.active, r.previous, r.current]
}

/// 0 or the refusal's number, and the exit queue's pair that comes back.
fn queued(a: QueueAnswer) -> (u64, Queue) {
    (a.refusal, [a.queue.last_epoch, a.queue.number])
}

macro_rules! whole {
    ($(#[$doc:meta])* $name:ident, $symbol:ident, $by:pat => $kind:ty, $($lent:expr),*) => {
        $(#[$doc])*
        #[allow(clippy::too_many_arguments)]
        pub fn $name(
            $by: $kind,
            f: &Finality,
            queue: Queue,
            registry: &[u64],
            slashings: &[u64],
            roots: &[u8],
            closing_registry: &mut [u64],
            closing_slashings: &mut [u64],
            amounts: &mut [u64],
        ) -> (u64, Finality, [u64; 3], Queue, u64) {
            let a = unsafe {
                raw::$symbol(
                    $($lent,)*
                    convert::finality(f),
                    convert::queue(queue),
                    registry.as_ptr(),
                    registry.len(),
                    slashings.as_ptr(),
                    slashings.len(),
                    roots.as_ptr(),
                    roots.len(),
                    closing_registry.as_mut_ptr(),
                    closing_registry.len(),
                    closing_slashings.as_mut_ptr(),
                    closing_slashings.len(),
                    amounts.as_mut_ptr(),
                    amounts.len(),
                )
            };
            (a.refusal, convert::plain(&a.finality), raised(a.raised), [a.queue.last_epoch, a.queue.number], a.test)
        }
    };
}

whole!(
    /// Refusal, finality, which totals were raised, the pair and the finalizing test. By a store of `count` entries.
    close, altair_close, (store, count) => (&[u64], u64), store.as_ptr(), store.len(), count
);
whole!(
    /// The same by Deneb's rules.
    deneb_close, deneb_close, rules => DenebRules, rules
);

pub fn deneb_registry(
    rules: DenebRules,
    slot: u64,
    finalized: u64,
    queue: Queue,
    opening: &[u64],
    closing: &mut [u64],
) -> (u64, Queue) {
    let (a, n, b, m) = (opening.as_ptr(), opening.len(), closing.as_mut_ptr(), closing.len());
    queued(unsafe { raw::deneb_process_registry_updates(rules, slot, finalized, convert::queue(queue), a, n, b, m) })
}

/// Refusal, finality, which totals were raised and the finalizing test.
pub fn justification(s: &Settings, f: &Finality, roots: &[u8], registry: &[u64]) -> (u64, Finality, [u64; 3], u64) {
    let a = unsafe {
        raw::altair_process_justification_and_finalization(
            convert::settings(s),
            roots.as_ptr(),
            roots.len(),
            convert::finality(f),
            registry.as_ptr(),
            registry.len(),
        )
    };
    (a.refusal, convert::plain(&a.finality), raised(a.raised), a.test)
}

macro_rules! step {
    ($name:ident, $symbol:ident, $($number:ident: $kind:ty),*) => {
        pub fn $name(s: &Settings, $($number: $kind,)* opening: &[u64], closing: &mut [u64]) -> u64 {
            let (a, n, b, m) = (opening.as_ptr(), opening.len(), closing.as_mut_ptr(), closing.len());
            unsafe { raw::$symbol(convert::settings(s), $($number,)* a, n, b, m) }
        }
    };
}

step!(inactivity, altair_process_inactivity_updates, slot: u64, finalized: u64);
step!(effective_balances, altair_process_effective_balance_updates,);
step!(slashings_reset, altair_process_slashings_reset, slot: u64);

/// The registry step, or with a stop the step to it.
pub fn registry(
    stop: Option<u64>,
    s: &Settings,
    slot: u64,
    finalized: u64,
    queue: Queue,
    opening: &[u64],
    closing: &mut [u64],
) -> (u64, Queue) {
    let (a, n, b, m) = (opening.as_ptr(), opening.len(), closing.as_mut_ptr(), closing.len());
    let (s, queue) = (convert::settings(s), convert::queue(queue));
    queued(unsafe {
        match stop {
            None => raw::altair_process_registry_updates(s, slot, finalized, queue, a, n, b, m),
            Some(stop) => raw::altair_process_registry_updates_to(stop, s, slot, finalized, queue, a, n, b, m),
        }
    })
}

pub fn exit(s: &Settings, slot: u64, index: u64, queue: Queue, registry: &mut [u64]) -> (u64, Queue) {
    let (at, n) = (registry.as_mut_ptr(), registry.len());
    queued(unsafe {
        raw::altair_initiate_validator_exit(convert::settings(s), slot, index, convert::queue(queue), at, n)
    })
}

pub fn exit_queue(registry: &[u64]) -> (u64, Queue) {
    queued(unsafe { raw::altair_exit_queue(registry.as_ptr(), registry.len()) })
}

pub fn rewards(s: &Settings, rules: Rules, slot: u64, finalized: u64, opening: &[u64], closing: &mut [u64]) -> u64 {
    let (a, n, b, m) = (opening.as_ptr(), opening.len(), closing.as_mut_ptr(), closing.len());
    unsafe {
        raw::altair_process_rewards_and_penalties(
            convert::rules(s, rules.fork, rules.pair),
            slot,
            finalized,
            a,
            n,
            b,
            m,
        )
    }
}

pub fn slashings(
    s: &Settings,
    rules: Rules,
    slot: u64,
    slashings: &[u64],
    opening: &[u64],
    closing: &mut [u64],
) -> u64 {
    let (a, n, b, m) = (opening.as_ptr(), opening.len(), closing.as_mut_ptr(), closing.len());
    let (l, k) = (slashings.as_ptr(), slashings.len());
    unsafe { raw::altair_process_slashings(convert::rules(s, rules.fork, rules.pair), slot, l, k, a, n, b, m) }
}

pub fn participation_flags(opening: &[u64], closing: &mut [u64]) -> u64 {
    let (a, n, b, m) = (opening.as_ptr(), opening.len(), closing.as_mut_ptr(), closing.len());
    unsafe { raw::altair_process_participation_flag_updates(a, n, b, m) }
}

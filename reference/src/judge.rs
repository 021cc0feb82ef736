//! The Rust itself: the four files, run on a record. Refusal 4 is `SlotOutOfRange` or a panic on the lines that build it, 5 is
//! `Error::Overflow` or an arithmetic panic. Anything else is unexpected, and shows as a difference.
mod caught;
mod leaves;
mod state;

pub use caught::{install_hook, overflow_is_checked, unexpected_text, UNEXPECTED};
pub use leaves::{answer, leaf};

use crate::{
    altair,
    calls::{steps, Call, Case, Operation, Outcome},
    error::Error,
    raised,
    record::{at, Finality, Record, Settings},
    refusals,
    state_transition::Context,
};
use caught::{judged, unexpected};
use leaves::with_roots;
use state::{context_of, finality_of, registry_of, state_of, State};
use std::time::{Duration, Instant};

fn step<const S: usize, const L: usize>(
    state: &mut State<S, L>,
    context: &Context,
    which: Operation,
) -> Result<(), Error> {
    match which {
        Operation::Justification => altair::process_justification_and_finalization(state, context),
        Operation::Inactivity => altair::process_inactivity_updates(state, context),
        Operation::Rewards => altair::process_rewards_and_penalties(state, context),
        Operation::Registry => altair::process_registry_updates(state, context),
        Operation::Slashings => altair::process_slashings(state, context),
        Operation::EffectiveBalances => {
            altair::process_effective_balance_updates(state, context);
            Ok(())
        }
        Operation::SlashingsReset => {
            altair::process_slashings_reset(state, context);
            Ok(())
        }
        Operation::ParticipationFlags => altair::process_participation_flag_updates(state),
        Operation::Close => steps().try_for_each(|each| step(state, context, each)),
    }
}

/// Finality, registry and slashings after an operation, or the number of its failure.
pub type After = Result<(Finality, Vec<u64>, Vec<u64>), u64>;

fn run<const S: usize, const L: usize>(
    r: &Record,
    work: impl FnOnce(&mut State<S, L>, &Context) -> Result<(), Error>,
) -> After {
    let mut state = state_of::<S, L>(r);
    let context = context_of(&r.settings);
    judged(|| work(&mut state, &context))?;
    Ok((finality_of(&state), registry_of(&state), state.slashings.to_vec()))
}

/// The pairs (S, L) for which the Rust is compiled.
macro_rules! pairs {
    ($($s:literal $l:literal),*) => {
        pub const PAIRS: &[(u64, u64)] = &[$(($s, $l)),*];

        fn run_step(pair: (u64, u64), r: &Record, which: Operation) -> After {
            match pair {
                $(($s, $l) => run::<$s, $l>(r, |state, context| step(state, context, which)),)*
                _ => no_pair(r),
            }
        }

        fn run_whole(pair: (u64, u64), r: &Record) -> After {
            match pair {
                $(($s, $l) => run::<$s, $l>(r, altair::epoch_processing::process_epoch),)*
                _ => no_pair(r),
            }
        }

        fn run_booked(pair: (u64, u64), r: &Record) -> Result<Vec<u64>, u64> {
            match pair {
                $(($s, $l) => booked_at::<$s, $l>(r),)*
                _ => no_pair(r),
            }
        }

        fn run_roots(pair: (u64, u64), c: &Case, r: &Record) -> Result<Vec<u64>, u64> {
            match pair {
                $(($s, $l) => with_roots::<$s, $l>(c, r),)*
                _ => no_pair(r),
            }
        }
    };
}

pairs!(1 1, 1 2, 2 1, 3 5, 8 4, 16 16, 64 64, 8192 8192, 1 65536, 65536 1, 65536 65536);

fn no_pair<T>(r: &Record) -> Result<T, u64> {
    let (s, l) = (r.settings[at::S], r.settings[at::L]);
    Err(unexpected(format!("the Rust is not compiled for S = {s}, L = {l}: add the pair in reference/src/judge.rs")))
}

/// The pair at which the Rust is run: S matters where roots are lent, L where slashings are, and nothing else asks.
fn pair_for(s: &Settings, roots: bool, slashings: bool) -> (u64, u64) {
    let fits = |&&(a, b): &&(u64, u64)| (!roots || a == s[at::S]) && (!slashings || b == s[at::L]);
    PAIRS.iter().find(fits).copied().unwrap_or((0, 0))
}

/// The record at that pair, with zeros in place of what is not lent: the Rust's state has all of its parts.
fn fitted(r: &Record, (s, l): (u64, u64), roots: bool, slashings: bool, registry: bool) -> Record {
    Record {
        settings: r.settings,
        finality: r.finality,
        registry: if registry { r.registry.clone() } else { Vec::new() },
        roots: if roots { r.roots.clone() } else { vec![0; 32 * s as usize] },
        slashings: if slashings { r.slashings.clone() } else { vec![0; l as usize] },
    }
}

/// A step or the close on what it is lent.
pub fn outcome(c: &Call, operation: Operation) -> Outcome {
    let r = &c.record;
    let mut out = Outcome {
        refusal: refusals::operation(c, operation),
        finality: r.finality,
        raised: [0; 3],
        registry: c.closing_registry.clone(),
        slashings: c.closing_slashings.clone(),
    };
    if out.refusal != 0 {
        return out;
    }
    let roots = matches!(operation, Operation::Justification | Operation::Close);
    let slashings = matches!(operation, Operation::Slashings | Operation::SlashingsReset | Operation::Close);
    let pair = pair_for(&r.settings, roots, slashings);
    let handed = fitted(r, pair, roots, slashings, operation != Operation::SlashingsReset);
    let after = match run_step(pair, &handed, operation) {
        Ok(after) => after,
        Err(refusal) => {
            out.refusal = refusal;
            (r.finality, r.registry.clone(), r.slashings.clone())
        }
    };
    if roots {
        out.finality = after.0;
    }
    if roots && out.refusal == 0 {
        out.raised = raised::totals(&r.settings, r.finality.slot, &r.registry);
    }
    if operation.writes_registry() {
        out.registry = after.1;
    }
    if operation.writes_slashings() {
        out.slashings = after.2;
    }
    out
}

/// The nine amounts of every validator of a record whose close is accepted: the Rust's deltas on the state after its inactivity step,
/// reward by reward, each penalty as far as there is balance; then what its slashings step takes. The balances that the cut amounts lead
/// to must be those that the Rust's rewards step leaves.
pub fn booked(r: &Record) -> Result<Vec<u64>, u64> {
    run_booked(pair_for(&r.settings, true, true), r)
}

fn booked_at<const S: usize, const L: usize>(r: &Record) -> Result<Vec<u64>, u64> {
    let mut state = state_of::<S, L>(r);
    let context = context_of(&r.settings);
    let mut amounts = vec![0; 9 * r.validators()];
    let mut balances = state.balances.to_vec();
    let mut same = true;
    judged(|| {
        step(&mut state, &context, Operation::Justification)?;
        step(&mut state, &context, Operation::Inactivity)?;
        if altair::get_current_epoch(&state, &context) > 0 {
            let flags = (0..3).map(|flag| altair::get_flag_index_deltas(&state, flag, &context));
            let inactivity = std::iter::once_with(|| altair::get_inactivity_penalty_deltas(&state, &context));
            for (k, deltas) in flags.chain(inactivity).enumerate() {
                let (rewards, penalties) = deltas?;
                for (i, balance) in balances.iter_mut().enumerate() {
                    *balance += rewards[i];
                    let taken = penalties[i].min(*balance);
                    *balance -= taken;
                    (amounts[9 * i + 2 * k], amounts[9 * i + 2 * k + 1]) = (rewards[i], taken);
                }
            }
        }
        step(&mut state, &context, Operation::Rewards)?;
        same = balances == state.balances.to_vec();
        step(&mut state, &context, Operation::Registry)?;
        step(&mut state, &context, Operation::Slashings)
    })?;
    if !same {
        return Err(unexpected("the cut deltas do not lead to the balances of the rewards step".to_string()));
    }
    for (i, balance) in state.balances.iter().enumerate() {
        amounts[9 * i + 8] = balances[i] - balance;
    }
    Ok(amounts)
}

/// process_epoch itself, with the steps that are left out, on a record that passed the tests. Asked only where S is at least
/// slots_per_epoch: below that the historical roots step divides by 0.
pub fn whole(r: &Record) -> After {
    run_whole(pair_for(&r.settings, true, true), r)
}

/// The close of a record of mainnet's S and L that passed the tests, and how long the eight steps took, without the making and the
/// reading of the state.
pub fn timed(r: &Record) -> (After, Duration) {
    let mut spent = Duration::ZERO;
    let after = run::<8192, 8192>(r, |state, context| {
        let start = Instant::now();
        let done = step(state, context, Operation::Close);
        spent = start.elapsed();
        done
    });
    (after, spent)
}

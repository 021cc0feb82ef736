//! Leaves of the Rust, on a state that their arguments stand in.
use super::{
    caught::judged,
    fitted, pair_for, run_roots,
    state::{context_of, finality_of, registry_of, state_of, State},
};
use crate::{
    altair,
    calls::{finality_words, root_words, Answer, Case, Leaf, Lent, Number},
    error::Error,
    integer_sqrt::IntegerSquareRoot,
    phase0, raised,
    record::{of, Record},
    refusals,
    state_transition::Context,
};

pub fn answer(c: &Case) -> Answer {
    let refusal = refusals::leaf(c);
    if refusal != 0 {
        return Answer { refusal, words: Vec::new() };
    }
    match leaf(c) {
        Ok(words) => Answer { refusal: 0, words },
        Err(refusal) => Answer { refusal, words: Vec::new() },
    }
}

/// The state that a leaf's arguments stand in: one validator where an entry is lent.
fn record_for(c: &Case) -> Record {
    let mut finality = c.finality;
    for (kind, &n) in c.leaf.shape().numbers.iter().zip(&c.numbers) {
        match kind {
            Number::StateSlot => finality.slot = n,
            Number::FinalizedEpoch => finality.finalized.epoch = n,
            _ => (),
        }
    }
    let registry = if c.leaf.shape().lent == Lent::Nothing { Vec::new() } else { c.registry.clone() };
    Record { settings: c.settings, finality, registry, roots: c.roots.clone(), slashings: Vec::new() }
}

/// A leaf whose arguments passed the tests. S matters to the root lookups alone: all others run at S = L = 1.
pub fn leaf(c: &Case) -> Result<Vec<u64>, u64> {
    let roots = c.leaf.shape().roots;
    let pair = pair_for(&c.settings, roots, false);
    let r = fitted(&record_for(c), pair, roots, false, true);
    if roots {
        return run_roots(pair, c, &r);
    }
    let mut state = state_of::<1, 1>(&r);
    let context = context_of(&c.settings);
    judged(|| plain(c, &mut state, &context))
}

fn truth(b: bool) -> Vec<u64> {
    vec![u64::from(b)]
}

fn unchanged_but(before: &[u64], after: &[u64], places: &[usize]) -> Vec<u64> {
    let same = before.len() == after.len() && (0..before.len()).all(|k| places.contains(&k) || before[k] == after[k]);
    assert!(same, "a leaf of the Rust wrote elsewhere");
    places.iter().map(|&k| after[k]).collect()
}

fn plain(c: &Case, state: &mut State<1, 1>, context: &Context) -> Result<Vec<u64>, Error> {
    let n = &c.numbers;
    let entry = |state: &State<1, 1>| state.validators[0].clone();
    Ok(match c.leaf {
        Leaf::HasFlag => truth(altair::has_flag(n[0] as u8, n[1] as usize)),
        Leaf::AddFlag => vec![altair::add_flag(n[0] as u8, n[1] as usize).into()],
        Leaf::IsActiveValidator => truth(phase0::helpers::is_active_validator(&entry(state), n[0])),
        Leaf::IsEligibleForActivationQueue => {
            truth(phase0::helpers::is_eligible_for_activation_queue(&entry(state), context))
        }
        Leaf::IsEligibleForActivation => truth(phase0::helpers::is_eligible_for_activation(state, &entry(state))),
        Leaf::IsEligible => truth(altair::get_eligible_validator_indices(state, context).any(|i| i == 0)),
        Leaf::IsUnslashedParticipating => {
            truth(altair::get_unslashed_participating_indices(state, n[1] as usize, n[2], context)?.contains(&0))
        }
        Leaf::ComputeEpochAtSlot => vec![phase0::helpers::compute_epoch_at_slot(n[0], context)],
        Leaf::ComputeStartSlotAtEpoch => vec![phase0::helpers::compute_start_slot_at_epoch(n[0], context)],
        Leaf::ComputeActivationExitEpoch => vec![phase0::helpers::compute_activation_exit_epoch(n[0], context)],
        Leaf::GetCurrentEpoch => vec![altair::get_current_epoch(state, context)],
        Leaf::GetPreviousEpoch => vec![altair::get_previous_epoch(state, context)],
        Leaf::GetFinalityDelay => vec![phase0::epoch_processing::get_finality_delay(state, context)],
        Leaf::IsInInactivityLeak => truth(altair::is_in_inactivity_leak(state, context)),
        Leaf::GetTotalActiveBalance => {
            vec![altair::get_total_active_balance(state, context)?, raised::active(&c.settings, n[0], &c.registry)]
        }
        Leaf::GetParticipatingBalance => {
            let members = altair::get_unslashed_participating_indices(state, n[1] as usize, n[2], context)?;
            let raised = raised::participating(&c.settings, n[0], &c.registry, n[1], n[2]);
            vec![altair::get_total_balance(state, &members, context)?, raised]
        }
        Leaf::GetValidatorChurnLimit => vec![phase0::helpers::get_validator_churn_limit(state, context) as u64],
        // rewards and penalties are nobody's at the genesis epoch
        Leaf::Charged if altair::get_current_epoch(state, context) == 0 => vec![0],
        Leaf::Charged => vec![altair::get_eligible_validator_indices(state, context).count() as u64],
        Leaf::IncreaseBalance => {
            altair::increase_balance(state, 0, n[0]);
            unchanged_but(&c.registry, &registry_of(state), &[of::BALANCE])
        }
        Leaf::DecreaseBalance => {
            altair::decrease_balance(state, 0, n[0]);
            unchanged_but(&c.registry, &registry_of(state), &[of::BALANCE])
        }
        Leaf::InitiateValidatorExit => {
            let index = n[1] as usize;
            altair::initiate_validator_exit(state, index, context)?;
            unchanged_but(&c.registry, &registry_of(state), &[10 * index + of::EXIT, 10 * index + of::WITHDRAWABLE])
        }
        Leaf::GetBaseRewardPerIncrement => {
            vec![altair::with_total(n[0], || altair::get_base_reward_per_increment(state, context))?]
        }
        Leaf::GetBaseReward => vec![altair::with_total(n[0], || altair::get_base_reward(state, 0, context))?],
        Leaf::GetFlagIndexDeltas => {
            let index = n[3] as usize;
            let (rewards, penalties) =
                altair::with_only(index, || altair::get_flag_index_deltas(state, n[2] as usize, context))?;
            vec![rewards[index], penalties[index]]
        }
        Leaf::GetInactivityPenaltyDeltas => {
            let (rewards, penalties) = altair::get_inactivity_penalty_deltas(state, context)?;
            vec![rewards[0], penalties[0]]
        }
        Leaf::IntegerSqrt => vec![n[0].integer_sqrt()],
        Leaf::GetBlockRootAtSlot | Leaf::GetBlockRoot | Leaf::WeighJustificationAndFinalization => {
            unreachable!("run with roots")
        }
    })
}

pub fn with_roots<const S: usize, const L: usize>(c: &Case, r: &Record) -> Result<Vec<u64>, u64> {
    let mut state = state_of::<S, L>(r);
    let context = context_of(&c.settings);
    let n = &c.numbers;
    judged(|| match c.leaf {
        Leaf::GetBlockRootAtSlot => Ok(root_words(altair::get_block_root_at_slot(&state, n[1])?.as_ref())),
        Leaf::GetBlockRoot => Ok(root_words(altair::get_block_root(&state, n[1], &context)?.as_ref())),
        _ => {
            altair::weigh_justification_and_finalization(&mut state, n[0], n[1], n[2], &context)?;
            Ok(finality_words(&finality_of(&state)))
        }
    })
}

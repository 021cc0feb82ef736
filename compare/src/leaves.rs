//! The library's leaves on the questions of the reference.
use crate::{
    booked::Queue,
    convert,
    library::{self, answered},
    raw::{self, DeltasAnswer, NumberAnswer, RootAnswer, TotalAnswer, TruthAnswer},
    rules::Rules,
};
use reference::{
    booked,
    calls::{finality_words, root_words, Answer, Case, Leaf},
    record::of,
};

/// What a leaf answers, and what the lent numbers hold afterwards.
#[derive(Debug, PartialEq, Eq)]
pub struct Told {
    pub answer: Answer,
    pub lent: Vec<u64>,
}

/// What the library must tell where the Rust answers this: zeros beside a refusal (the weighing hands the old finality back, the exit the
/// old pair), and nothing written but the words that are.
pub fn called_for(c: &Case, queue: Queue, rust: Answer) -> Told {
    if c.leaf == Leaf::InitiateValidatorExit {
        return exit_called_for(c, queue, rust);
    }
    let mut lent = c.registry.clone();
    let mut answer = rust;
    if answer.refusal != 0 {
        answer.words = match c.leaf {
            Leaf::WeighJustificationAndFinalization => finality_words(&c.finality),
            _ => vec![0; words(c.leaf)],
        };
    }
    if let Some(places) = written(c) {
        if answer.refusal == 0 {
            places.iter().zip(&answer.words).for_each(|(&k, &x)| lent[k] = x);
        }
        answer.words.clear();
    }
    Told { answer, lent }
}

/// The exit: 8 after 3 for a pair that is not the registry's, and the pair afterwards.
fn exit_called_for(c: &Case, queue: Queue, rust: Answer) -> Told {
    let mut lent = c.registry.clone();
    let refusal = match rust.refusal {
        number @ 1..=3 => number,
        _ if queue != booked::queue(&c.registry) => 8,
        number => number,
    };
    if refusal == 0 {
        let entry = 10 * c.numbers[1] as usize;
        (lent[entry + of::EXIT], lent[entry + of::WITHDRAWABLE]) = (rust.words[0], rust.words[1]);
    }
    let words = if refusal == 0 { booked::queue(&lent) } else { queue }.to_vec();
    Told { answer: Answer { refusal, words }, lent }
}

/// The places that a leaf writes, where it writes: its answer is there and not handed back.
fn written(c: &Case) -> Option<Vec<usize>> {
    match c.leaf {
        Leaf::IncreaseBalance | Leaf::DecreaseBalance => Some(vec![of::BALANCE]),
        _ => None,
    }
}

fn words(leaf: Leaf) -> usize {
    match leaf {
        Leaf::GetBlockRootAtSlot | Leaf::GetBlockRoot => 4,
        Leaf::GetFlagIndexDeltas | Leaf::GetInactivityPenaltyDeltas => 2,
        Leaf::GetTotalActiveBalance | Leaf::GetParticipatingBalance => 2,
        _ => 1,
    }
}

impl From<NumberAnswer> for Answer {
    fn from(n: NumberAnswer) -> Self {
        Answer { refusal: n.refusal, words: vec![n.value] }
    }
}

impl From<TotalAnswer> for Answer {
    fn from(t: TotalAnswer) -> Self {
        Answer { refusal: t.refusal, words: vec![t.balance, t.raised] }
    }
}

impl From<TruthAnswer> for Answer {
    fn from(t: TruthAnswer) -> Self {
        Answer { refusal: t.refusal, words: vec![t.value] }
    }
}

impl From<DeltasAnswer> for Answer {
    fn from(d: DeltasAnswer) -> Self {
        Answer { refusal: d.refusal, words: vec![d.reward, d.penalty] }
    }
}

impl From<RootAnswer> for Answer {
    fn from(r: RootAnswer) -> Self {
        Answer { refusal: r.refusal, words: root_words(&r.root) }
    }
}

pub fn told(c: &Case, queue: Queue, rules: Rules) -> Told {
    let mut lent = c.registry.clone();
    let answer = unsafe { asked(c, queue, rules, &mut lent) };
    Told { answer, lent }
}

unsafe fn asked(c: &Case, queue: Queue, rules: Rules, lent: &mut [u64]) -> Answer {
    let s = || convert::settings(&c.settings);
    let x = &c.numbers;
    let n = lent.len();
    let (entry, out) = (lent.as_ptr(), lent.as_mut_ptr());
    let (roots, r) = (c.roots.as_ptr(), c.roots.len());
    let wrote = |refusal| Answer { refusal, words: Vec::new() };
    match c.leaf {
        Leaf::HasFlag => raw::altair_has_flag(x[0] as u8, x[1]).into(),
        Leaf::AddFlag => raw::altair_add_flag(x[0] as u8, x[1]).into(),
        Leaf::IsActiveValidator => raw::altair_is_active_validator(entry, n, x[0]).into(),
        Leaf::IsEligibleForActivationQueue => raw::altair_is_eligible_for_activation_queue(s(), entry, n).into(),
        Leaf::IsEligibleForActivation => raw::altair_is_eligible_for_activation(x[0], entry, n).into(),
        Leaf::IsEligible => raw::altair_is_eligible(s(), x[0], entry, n).into(),
        Leaf::IsUnslashedParticipating => {
            raw::altair_is_unslashed_participating(s(), x[0], x[1], x[2], entry, n).into()
        }
        Leaf::ComputeEpochAtSlot => raw::altair_compute_epoch_at_slot(s(), x[0]).into(),
        Leaf::ComputeStartSlotAtEpoch => raw::altair_compute_start_slot_at_epoch(s(), x[0]).into(),
        Leaf::ComputeActivationExitEpoch => raw::altair_compute_activation_exit_epoch(s(), x[0]).into(),
        Leaf::GetCurrentEpoch => raw::altair_get_current_epoch(s(), x[0]).into(),
        Leaf::GetPreviousEpoch => raw::altair_get_previous_epoch(s(), x[0]).into(),
        Leaf::GetFinalityDelay => raw::altair_get_finality_delay(s(), x[0], x[1]).into(),
        Leaf::IsInInactivityLeak => raw::altair_is_in_inactivity_leak(s(), x[0], x[1]).into(),
        Leaf::GetBlockRootAtSlot => raw::altair_get_block_root_at_slot(s(), roots, r, x[0], x[1]).into(),
        Leaf::GetBlockRoot => raw::altair_get_block_root(s(), roots, r, x[0], x[1]).into(),
        Leaf::GetTotalActiveBalance => raw::altair_get_total_active_balance(s(), x[0], entry, n).into(),
        Leaf::GetParticipatingBalance => raw::altair_get_participating_balance(s(), x[0], x[1], x[2], entry, n).into(),
        Leaf::GetValidatorChurnLimit => raw::altair_get_validator_churn_limit(s(), x[0], entry, n).into(),
        Leaf::Charged => raw::altair_charged(s(), x[0], entry, n).into(),
        Leaf::IncreaseBalance => wrote(raw::altair_increase_balance(out, n, x[0])),
        Leaf::DecreaseBalance => wrote(raw::altair_decrease_balance(out, n, x[0])),
        Leaf::InitiateValidatorExit => {
            let (refusal, queue) = library::exit(&c.settings, x[0], x[1], queue, lent);
            Answer { refusal, words: queue.to_vec() }
        }
        Leaf::GetBaseRewardPerIncrement => raw::altair_get_base_reward_per_increment(s(), x[0]).into(),
        Leaf::GetBaseReward => raw::altair_get_base_reward(s(), x[0], entry, n).into(),
        Leaf::GetFlagIndexDeltas => raw::altair_get_flag_index_deltas(s(), x[0], x[1], x[2], x[3], entry, n).into(),
        Leaf::GetInactivityPenaltyDeltas => raw::altair_get_inactivity_penalty_deltas(
            convert::rules(&c.settings, rules.fork, rules.pair),
            x[0],
            entry,
            n,
        )
        .into(),
        Leaf::WeighJustificationAndFinalization => {
            let f = convert::finality(&c.finality);
            let (refusal, f) =
                answered(raw::altair_weigh_justification_and_finalization(s(), roots, r, f, x[0], x[1], x[2]));
            Answer { refusal, words: finality_words(&f) }
        }
        Leaf::IntegerSqrt => Answer { refusal: 0, words: vec![raw::altair_integer_sqrt(x[0])] },
    }
}

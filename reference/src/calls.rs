//! What is asked of the Rust and of what is held to it: the eight steps, the close and the leaves.
use crate::record::{Finality, Record, Settings};

macro_rules! operations {
    ($($operation:ident $name:literal)*) => {
        #[derive(Debug, Clone, Copy, PartialEq, Eq)]
        pub enum Operation { $($operation),* }

        pub const OPERATIONS: [Operation; 9] = [$(Operation::$operation),*];

        impl Operation {
            pub fn name(self) -> &'static str {
                match self {
                    $(Operation::$operation => $name),*
                }
            }
        }
    };
}

// the eight steps in the order of Altair beacon-chain.md, then the whole close
operations! {
    Justification "justification"
    Inactivity "inactivity"
    Rewards "rewards"
    Registry "registry"
    Slashings "slashings"
    EffectiveBalances "effective-balances"
    SlashingsReset "slashings-reset"
    ParticipationFlags "participation-flags"
    Close "close"
}

/// The eight steps.
pub fn steps() -> impl Iterator<Item = Operation> {
    OPERATIONS.into_iter().take(8)
}

impl Operation {
    /// Lent a closing registry.
    pub fn writes_registry(self) -> bool {
        !matches!(self, Operation::Justification | Operation::SlashingsReset)
    }

    /// Lent closing slashings.
    pub fn writes_slashings(self) -> bool {
        matches!(self, Operation::SlashingsReset | Operation::Close)
    }
}

/// A record with closing buffers of any contents and length.
#[derive(Debug, Clone, PartialEq, Eq)]
pub struct Call {
    pub record: Record,
    pub closing_registry: Vec<u64>,
    pub closing_slashings: Vec<u64>,
}

/// What comes back, and what the closing buffers hold afterwards. A buffer that the operation is not lent is as it was.
#[derive(Debug, Clone, PartialEq, Eq)]
pub struct Outcome {
    pub refusal: u64,
    pub finality: Finality,
    /// of justification and of the close: which totals were raised
    pub raised: [u64; 3],
    pub registry: Vec<u64>,
    pub slashings: Vec<u64>,
}

/// What reading a file answers. `None` where it is refused.
#[derive(Debug, Clone, PartialEq, Eq)]
pub struct ReadOutcome {
    pub refusal: u64,
    pub position: u64,
    pub record: Option<Record>,
}

/// What a leaf's number means, and so what the tests ask of it.
#[derive(Debug, Clone, Copy, PartialEq, Eq)]
pub enum Number {
    /// 0 to 255, as the Rust's `u8`
    Flags,
    /// has_flag and add_flag: at most 7
    AnyFlagIndex,
    /// at most 2
    FlagIndex,
    /// below N
    Index,
    /// the state's slot
    StateSlot,
    FinalizedEpoch,
    /// the previous or the current one
    ParticipationEpoch,
    /// a total to divide by
    Total,
    Slot,
    Epoch,
    Amount,
}

#[derive(Debug, Clone, Copy, PartialEq, Eq)]
pub enum Lent {
    Nothing,
    Entry,
    Registry,
}

/// What a leaf is handed, in this order: settings, roots, finality, numbers, then an entry or a registry.
pub struct Shape {
    pub name: &'static str,
    pub settings: bool,
    pub roots: bool,
    pub finality: bool,
    pub numbers: &'static [Number],
    pub lent: Lent,
    /// what the answer holds besides the refusal's number
    pub answer: &'static str,
    /// the refusals that it can give
    pub refusals: &'static [u64],
}

macro_rules! leaves {
    ($($leaf:ident $number:literal $name:literal $settings:literal $roots:literal $finality:literal [$($n:ident),*] $lent:ident $answer:literal [$($r:literal),*])*) => {
        #[derive(Debug, Clone, Copy, PartialEq, Eq)]
        pub enum Leaf { $($leaf = $number),* }

        pub const LEAVES: &[Leaf] = &[$(Leaf::$leaf),*];

        impl Leaf {
            pub fn shape(self) -> &'static Shape {
                match self {
                    $(Leaf::$leaf => &Shape {
                        name: $name,
                        settings: $settings == 1,
                        roots: $roots == 1,
                        finality: $finality == 1,
                        numbers: &[$(Number::$n),*],
                        lent: Lent::$lent,
                        answer: $answer,
                        refusals: &[$($r),*],
                    }),*
                }
            }
        }
    };
}

// number, name, settings, roots, finality, numbers, entry or registry, answer, refusals
leaves! {
    HasFlag 1 "has_flag" 0 0 0 [Flags, AnyFlagIndex] Nothing "0 or 1" [1]
    AddFlag 2 "add_flag" 0 0 0 [Flags, AnyFlagIndex] Nothing "flags" [1]
    IsActiveValidator 3 "is_active_validator" 0 0 0 [Epoch] Entry "0 or 1" [1, 3]
    IsEligibleForActivationQueue 4 "is_eligible_for_activation_queue" 1 0 0 [] Entry "0 or 1" [1, 2, 3]
    IsEligibleForActivation 5 "is_eligible_for_activation" 0 0 0 [FinalizedEpoch] Entry "0 or 1" [1, 3]
    IsEligible 6 "is_eligible" 1 0 0 [StateSlot] Entry "0 or 1" [1, 2, 3]
    IsUnslashedParticipating 7 "is_unslashed_participating" 1 0 0 [StateSlot, FlagIndex, ParticipationEpoch] Entry "0 or 1" [1, 2, 3]
    ComputeEpochAtSlot 8 "compute_epoch_at_slot" 1 0 0 [Slot] Nothing "epoch" [1, 2]
    ComputeStartSlotAtEpoch 9 "compute_start_slot_at_epoch" 1 0 0 [Epoch] Nothing "slot" [1, 2, 5]
    ComputeActivationExitEpoch 10 "compute_activation_exit_epoch" 1 0 0 [Epoch] Nothing "epoch" [1, 2, 5]
    GetCurrentEpoch 11 "get_current_epoch" 1 0 0 [StateSlot] Nothing "epoch" [1, 2, 3]
    GetPreviousEpoch 12 "get_previous_epoch" 1 0 0 [StateSlot] Nothing "epoch" [1, 2, 3]
    GetFinalityDelay 13 "get_finality_delay" 1 0 0 [StateSlot, FinalizedEpoch] Nothing "epochs" [1, 2, 3, 5]
    IsInInactivityLeak 14 "is_in_inactivity_leak" 1 0 0 [StateSlot, FinalizedEpoch] Nothing "0 or 1" [1, 2, 3, 5]
    GetBlockRootAtSlot 15 "get_block_root_at_slot" 1 1 0 [StateSlot, Slot] Nothing "root" [1, 2, 3, 4]
    GetBlockRoot 16 "get_block_root" 1 1 0 [StateSlot, Epoch] Nothing "root" [1, 2, 3, 4, 5]
    GetTotalActiveBalance 17 "get_total_active_balance" 1 0 0 [StateSlot] Registry "total, raised" [1, 2, 3, 5]
    GetParticipatingBalance 18 "get_participating_balance" 1 0 0 [StateSlot, FlagIndex, ParticipationEpoch] Registry "total, raised" [1, 2, 3, 5]
    GetValidatorChurnLimit 19 "get_validator_churn_limit" 1 0 0 [StateSlot] Registry "limit" [1, 2, 3]
    Charged 20 "charged" 1 0 0 [StateSlot] Registry "count" [1, 2, 3]
    IncreaseBalance 21 "increase_balance" 0 0 0 [Amount] Entry "balance" [1, 3, 5]
    DecreaseBalance 22 "decrease_balance" 0 0 0 [Amount] Entry "balance" [1, 3]
    InitiateValidatorExit 23 "initiate_validator_exit" 1 0 0 [StateSlot, Index] Registry "exit epoch, withdrawable epoch" [1, 2, 3, 5]
    GetBaseRewardPerIncrement 24 "get_base_reward_per_increment" 1 0 0 [Total] Nothing "reward" [1, 2, 5]
    GetBaseReward 25 "get_base_reward" 1 0 0 [Total] Entry "reward" [1, 2, 3, 5]
    GetFlagIndexDeltas 26 "get_flag_index_deltas" 1 0 0 [StateSlot, FinalizedEpoch, FlagIndex, Index] Registry "reward, penalty" [1, 2, 3, 5]
    GetInactivityPenaltyDeltas 27 "get_inactivity_penalty_deltas" 1 0 0 [StateSlot] Entry "reward, penalty" [1, 2, 3, 5]
    WeighJustificationAndFinalization 28 "weigh_justification_and_finalization" 1 1 1 [Amount, Amount, Amount] Nothing "finality" [1, 2, 3, 4, 5]
    IntegerSqrt 29 "integer_sqrt" 0 0 0 [Amount] Nothing "root" []
}

/// A question to a leaf. Parts that it is not handed are zeros and empty.
#[derive(Debug, Clone, PartialEq, Eq)]
pub struct Case {
    pub leaf: Leaf,
    pub settings: Settings,
    pub roots: Vec<u8>,
    pub finality: Finality,
    pub numbers: Vec<u64>,
    /// one validator's numbers, or the registry's
    pub registry: Vec<u64>,
}

/// 0 or the refusal's number, and the words of the answer where it is 0. What is lent holds what it held, but for the words
/// that the answer names.
#[derive(Debug, Clone, PartialEq, Eq)]
pub struct Answer {
    pub refusal: u64,
    pub words: Vec<u64>,
}

/// 32 bytes as four words, little-endian.
pub fn root_words(root: &[u8]) -> Vec<u64> {
    root.chunks(8).map(|c| u64::from_le_bytes(c.try_into().expect("eight bytes"))).collect()
}

/// Slot, bits, then an epoch and four words of root for each checkpoint.
pub fn finality_words(f: &Finality) -> Vec<u64> {
    let mut words = vec![f.slot, f.bits];
    for c in [&f.previous, &f.current, &f.finalized] {
        words.push(c.epoch);
        words.extend(root_words(&c.root));
    }
    words
}

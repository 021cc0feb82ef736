//! Stand-in for state_transition: `Result`, and the fields of `Context` that the four files read.
use crate::primitives::{Epoch, Gwei, Slot, Version};

pub type Result<T> = std::result::Result<T, crate::Error>;

#[derive(Debug, Clone, Default)]
pub struct Context {
    // the nineteen settings of document 01
    pub slots_per_epoch: Slot,
    pub slots_per_historical_root: Slot,
    pub epochs_per_slashings_vector: Epoch,
    pub effective_balance_increment: Gwei,
    pub max_effective_balance: Gwei,
    pub hysteresis_quotient: u64,
    pub hysteresis_downward_multiplier: u64,
    pub hysteresis_upward_multiplier: u64,
    pub base_reward_factor: u64,
    pub min_epochs_to_inactivity_penalty: Epoch,
    pub inactivity_score_bias: u64,
    pub inactivity_score_recovery_rate: u64,
    pub inactivity_penalty_quotient_altair: u64,
    pub proportional_slashing_multiplier_altair: u64,
    pub max_seed_lookahead: Epoch,
    pub min_validator_withdrawability_delay: Epoch,
    pub ejection_balance: Gwei,
    pub min_per_epoch_churn_limit: u64,
    pub churn_limit_quotient: u64,
    // read only by functions that are left out, or by the four steps of process_epoch that are left out
    pub epochs_per_eth1_voting_period: Epoch,
    pub epochs_per_historical_vector: Epoch,
    pub epochs_per_sync_committee_period: Epoch,
    pub genesis_fork_version: Version,
    pub inactivity_penalty_quotient: u64,
    pub max_committees_per_slot: u64,
    pub min_attestation_inclusion_delay: Slot,
    pub min_seed_lookahead: Epoch,
    pub min_slashing_penalty_quotient: u64,
    pub min_slashing_penalty_quotient_altair: u64,
    pub proportional_slashing_multiplier: u64,
    pub proposer_reward_quotient: u64,
    pub shuffle_round_count: u64,
    pub sync_committee_size: usize,
    pub target_committee_size: u64,
    pub whistleblower_reward_quotient: u64,
}

//! From a record to the Rust's state and context, and back.
use crate::{
    altair, phase0,
    phase0::{operations, validator::Validator},
    record::{at, of, Checkpoint, Finality, Record, Settings},
    ssz::prelude::{Bitvector, ByteVector, List, Node, Vector},
    state_transition::Context,
};

/// The state: all parameters but S and L are mainnet's, or 1 where no record carries what they measure.
pub type State<const S: usize, const L: usize> =
    phase0::beacon_state::BeaconState<S, 16_777_216, 2048, 1_099_511_627_776, 1, L, 2048, 1>;

pub fn context_of(s: &Settings) -> Context {
    Context {
        slots_per_epoch: s[at::SLOTS_PER_EPOCH],
        slots_per_historical_root: s[at::S],
        epochs_per_slashings_vector: s[at::L],
        effective_balance_increment: s[at::INCREMENT],
        max_effective_balance: s[at::MAX_EFFECTIVE],
        hysteresis_quotient: s[at::HYSTERESIS_QUOTIENT],
        hysteresis_downward_multiplier: s[at::DOWNWARD],
        hysteresis_upward_multiplier: s[at::UPWARD],
        base_reward_factor: s[at::BASE_REWARD_FACTOR],
        min_epochs_to_inactivity_penalty: s[at::LEAK_AFTER],
        inactivity_score_bias: s[at::BIAS],
        inactivity_score_recovery_rate: s[at::RECOVERY],
        inactivity_penalty_quotient_altair: s[at::PENALTY_QUOTIENT],
        proportional_slashing_multiplier_altair: s[at::MULTIPLIER],
        max_seed_lookahead: s[at::LOOKAHEAD],
        min_validator_withdrawability_delay: s[at::DELAY],
        ejection_balance: s[at::EJECTION],
        min_per_epoch_churn_limit: s[at::MIN_CHURN],
        churn_limit_quotient: s[at::CHURN_QUOTIENT],
        // for the steps of process_epoch that are left out
        epochs_per_eth1_voting_period: 64,
        epochs_per_historical_vector: 1,
        epochs_per_sync_committee_period: u64::MAX,
        ..Context::default()
    }
}

fn list<T, const N: usize>(items: Vec<T>) -> List<T, N> {
    List::try_from(items).unwrap_or_else(|_| panic!("more than {N} items"))
}

fn vector<T, const N: usize>(items: Vec<T>) -> Vector<T, N> {
    Vector::try_from(items).unwrap_or_else(|_| panic!("not {N} items"))
}

fn column<T, const N: usize>(registry: &[u64], place: usize, read: impl Fn(u64) -> T) -> List<T, N> {
    list(registry.chunks_exact(10).map(|e| read(e[place])).collect())
}

/// A record that has passed the tests.
pub fn state_of<const S: usize, const L: usize>(r: &Record) -> State<S, L> {
    let validator = |e: &[u64]| Validator {
        public_key: Default::default(),
        effective_balance: e[of::EFFECTIVE],
        slashed: e[of::SLASHED] == 1,
        activation_eligibility_epoch: e[of::ELIGIBILITY],
        activation_epoch: e[of::ACTIVATION],
        exit_epoch: e[of::EXIT],
        withdrawable_epoch: e[of::WITHDRAWABLE],
    };
    let checkpoint = |c: &Checkpoint| operations::Checkpoint { epoch: c.epoch, root: Node(c.root) };
    let committee = || altair::sync::SyncCommittee {
        public_keys: vector(vec![Default::default()]),
        aggregate_public_key: Default::default(),
    };
    let flags = |n| u8::try_from(n).expect("flags that passed test 3");
    State {
        genesis_validators_root: Node::default(),
        slot: r.finality.slot,
        fork: Default::default(),
        block_roots: vector(r.roots.chunks_exact(32).map(|c| Node(c.try_into().expect("32 bytes"))).collect()),
        state_roots: Default::default(),
        historical_roots: List::default(),
        eth1_data_votes: List::default(),
        validators: list(r.registry.chunks_exact(10).map(validator).collect()),
        balances: column(&r.registry, of::BALANCE, |n| n),
        randao_mixes: vector(vec![ByteVector::default()]),
        slashings: vector(r.slashings.clone()),
        previous_epoch_participation: column(&r.registry, of::PREVIOUS, flags),
        current_epoch_participation: column(&r.registry, of::CURRENT, flags),
        justification_bits: Bitvector(std::array::from_fn(|i| r.finality.bits >> i & 1 == 1)),
        previous_justified_checkpoint: checkpoint(&r.finality.previous),
        current_justified_checkpoint: checkpoint(&r.finality.current),
        finalized_checkpoint: checkpoint(&r.finality.finalized),
        inactivity_scores: column(&r.registry, of::SCORE, |n| n),
        current_sync_committee: committee(),
        next_sync_committee: committee(),
        previous_epoch_attestations: List::default(),
        current_epoch_attestations: List::default(),
    }
}

pub fn finality_of<const S: usize, const L: usize>(state: &State<S, L>) -> Finality {
    let checkpoint = |c: &operations::Checkpoint| Checkpoint { epoch: c.epoch, root: c.root.0 };
    Finality {
        slot: state.slot,
        bits: state.justification_bits.0.iter().rev().fold(0, |n, &bit| 2 * n + u64::from(bit)),
        previous: checkpoint(&state.previous_justified_checkpoint),
        current: checkpoint(&state.current_justified_checkpoint),
        finalized: checkpoint(&state.finalized_checkpoint),
    }
}

pub fn registry_of<const S: usize, const L: usize>(state: &State<S, L>) -> Vec<u64> {
    let entry = |(i, v): (usize, &Validator)| {
        [
            v.effective_balance,
            u64::from(v.slashed),
            v.activation_eligibility_epoch,
            v.activation_epoch,
            v.exit_epoch,
            v.withdrawable_epoch,
            state.balances[i],
            state.previous_epoch_participation[i].into(),
            state.current_epoch_participation[i].into(),
            state.inactivity_scores[i],
        ]
    };
    state.validators.iter().enumerate().flat_map(entry).collect()
}

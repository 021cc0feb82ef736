//! Stand-in for the module altair: Altair's own functions where it has one, and phase0's otherwise.
use crate::{
    primitives::{Gwei, ValidatorIndex},
    state_transition::{Context, Result},
};
use std::cell::Cell;

pub use self::{beacon_state::BeaconState, epoch_processing::*, helpers::*};
pub use crate::phase0::{
    epoch_processing::{
        is_in_inactivity_leak, process_effective_balance_updates, process_eth1_data_reset,
        process_historical_roots_update, process_randao_mixes_reset, process_registry_updates, process_slashings_reset,
        weigh_justification_and_finalization,
    },
    helpers::{
        compute_shuffled_index, decrease_balance, get_active_validator_indices, get_beacon_proposer_index,
        get_block_root, get_block_root_at_slot, get_current_epoch, get_previous_epoch, get_seed, get_total_balance,
        increase_balance, initiate_validator_exit,
    },
    operations::AttestationData,
};

pub mod beacon_state {
    pub use crate::phase0::beacon_state::BeaconState;
}

pub mod sync {
    use crate::{primitives::BlsPublicKey, ssz::prelude::Vector};

    #[derive(Debug, Clone, PartialEq, Eq)]
    pub struct SyncCommittee<const SYNC_COMMITTEE_SIZE: usize> {
        pub public_keys: Vector<BlsPublicKey, SYNC_COMMITTEE_SIZE>,
        pub aggregate_public_key: BlsPublicKey,
    }
}

#[allow(warnings, clippy::all)]
pub mod constants {
    include!(concat!(env!("ETHEREUM_CONSENSUS"), "/src/altair/constants.rs"));
}

#[allow(warnings, clippy::all)]
pub mod helpers {
    use crate::integer_sqrt;
    include!(concat!(env!("ETHEREUM_CONSENSUS"), "/src/altair/helpers.rs"));
}

#[allow(warnings, clippy::all)]
pub mod epoch_processing {
    include!(concat!(env!("ETHEREUM_CONSENSUS"), "/src/altair/epoch_processing.rs"));
}

thread_local! {
    /// A total that a leaf is handed, in place of the one worked out of the registry.
    static TOTAL: Cell<Option<Gwei>> = const { Cell::new(None) };
    /// The one validator for which a delta leaf answers.
    static ONLY: Cell<Option<ValidatorIndex>> = const { Cell::new(None) };
}

/// Puts a thread-local back to `None`, also when `run` panics.
struct Reset<T: 'static>(&'static std::thread::LocalKey<Cell<Option<T>>>);

impl<T> Drop for Reset<T> {
    fn drop(&mut self) {
        self.0.set(None);
    }
}

/// `run` with every total of the active balance answered by `total`.
pub fn with_total<R>(total: Gwei, run: impl FnOnce() -> R) -> R {
    TOTAL.set(Some(total));
    let _reset = Reset(&TOTAL);
    run()
}

/// `run` with no validator eligible but `index`, where that one is.
pub fn with_only<R>(index: ValidatorIndex, run: impl FnOnce() -> R) -> R {
    ONLY.set(Some(index));
    let _reset = Reset(&ONLY);
    run()
}

/// A function that the four files call, over a state of any sizes.
macro_rules! over_states {
    ($name:ident<$a:lifetime>($state:ident, $context:ident) -> $answer:ty $body:block) => {
        pub fn $name<
            $a,
            const S: usize,
            const A: usize,
            const B: usize,
            const C: usize,
            const D: usize,
            const L: usize,
            const E: usize,
            const F: usize,
        >(
            $state: &$a BeaconState<S, A, B, C, D, L, E, F>,
            $context: &Context,
        ) -> $answer $body
    };
}

// phase0's, or the total that a leaf is handed
over_states!(get_total_active_balance<'a>(state, context) -> Result<Gwei> {
    match TOTAL.get() {
        Some(total) => Ok(total),
        None => crate::phase0::helpers::get_total_active_balance(state, context),
    }
});

// phase0's, less all but one where a leaf asks for one validator
over_states!(get_eligible_validator_indices<'a>(state, context) -> impl Iterator<Item = ValidatorIndex> + 'a {
    let only = ONLY.get();
    crate::phase0::helpers::get_eligible_validator_indices(state, context)
        .filter(move |&i| only.is_none_or(|one| one == i))
});

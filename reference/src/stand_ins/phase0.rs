//! Stand-in for the module phase0: the types that the four files name, around the two files themselves.

pub mod beacon_block {
    use crate::primitives::{BlsSignature, ValidatorIndex};

    pub struct BeaconBlock {
        pub proposer_index: ValidatorIndex,
    }

    pub struct SignedBeaconBlock<
        const MAX_PROPOSER_SLASHINGS: usize,
        const MAX_VALIDATORS_PER_COMMITTEE: usize,
        const MAX_ATTESTER_SLASHINGS: usize,
        const MAX_ATTESTATIONS: usize,
        const MAX_DEPOSITS: usize,
        const MAX_VOLUNTARY_EXITS: usize,
    > {
        pub message: BeaconBlock,
        pub signature: BlsSignature,
    }
}

pub mod validator {
    use crate::primitives::{BlsPublicKey, Epoch, Gwei};

    /// validator.rs without the credentials.
    #[derive(Debug, Clone, PartialEq, Eq)]
    pub struct Validator {
        pub public_key: BlsPublicKey,
        pub effective_balance: Gwei,
        pub slashed: bool,
        pub activation_eligibility_epoch: Epoch,
        pub activation_epoch: Epoch,
        pub exit_epoch: Epoch,
        pub withdrawable_epoch: Epoch,
    }
}

pub mod operations {
    use crate::{
        primitives::{BlsSignature, CommitteeIndex, Epoch, Root, Slot, ValidatorIndex},
        ssz::prelude::*,
    };

    #[derive(Debug, Clone, PartialEq, Eq)]
    pub struct Checkpoint {
        pub epoch: Epoch,
        pub root: Root,
    }

    #[derive(Debug, Clone, PartialEq, Eq)]
    pub struct AttestationData {
        pub slot: Slot,
        pub index: CommitteeIndex,
        pub beacon_block_root: Root,
        pub source: Checkpoint,
        pub target: Checkpoint,
    }

    pub struct IndexedAttestation<const MAX_VALIDATORS_PER_COMMITTEE: usize> {
        pub attesting_indices: List<ValidatorIndex, MAX_VALIDATORS_PER_COMMITTEE>,
        pub data: AttestationData,
        pub signature: BlsSignature,
    }

    #[derive(Debug, Clone, PartialEq, Eq)]
    pub struct PendingAttestation<const MAX_VALIDATORS_PER_COMMITTEE: usize> {
        pub aggregation_bits: Bitlist<MAX_VALIDATORS_PER_COMMITTEE>,
        pub data: AttestationData,
        pub inclusion_delay: Slot,
        pub proposer_index: ValidatorIndex,
    }

    pub struct Attestation<const MAX_VALIDATORS_PER_COMMITTEE: usize> {
        pub aggregation_bits: Bitlist<MAX_VALIDATORS_PER_COMMITTEE>,
        pub data: AttestationData,
        pub signature: BlsSignature,
    }
}

pub mod beacon_state {
    use super::{
        constants::JUSTIFICATION_BITS_LENGTH,
        operations::{Checkpoint, PendingAttestation},
        validator::Validator,
    };
    use crate::{
        altair::sync::SyncCommittee,
        primitives::{Bytes32, Epoch, Gwei, ParticipationFlags, Root, Slot, Version},
        ssz::prelude::*,
    };

    #[derive(Debug, Clone, Default, PartialEq, Eq)]
    pub struct Fork {
        pub previous_version: Version,
        pub current_version: Version,
        pub epoch: Epoch,
    }

    pub struct ForkData {
        pub current_version: Version,
        pub genesis_validators_root: Root,
    }

    pub struct HistoricalSummary {
        pub block_summary_root: Root,
        pub state_summary_root: Root,
    }

    /// A part of the state that no record carries.
    #[derive(Debug, Clone, Default, PartialEq, Eq)]
    pub struct NotCarried;

    /// One state for both modules: the fields of altair/beacon_state.rs as far as the four files read or write them, and
    /// phase0's two lists of attestations, always empty. The last parameter is PENDING_ATTESTATIONS_BOUND to phase0 and
    /// SYNC_COMMITTEE_SIZE to altair.
    #[derive(Debug, Clone, PartialEq, Eq)]
    pub struct BeaconState<
        const SLOTS_PER_HISTORICAL_ROOT: usize,
        const HISTORICAL_ROOTS_LIMIT: usize,
        const ETH1_DATA_VOTES_BOUND: usize,
        const VALIDATOR_REGISTRY_LIMIT: usize,
        const EPOCHS_PER_HISTORICAL_VECTOR: usize,
        const EPOCHS_PER_SLASHINGS_VECTOR: usize,
        const MAX_VALIDATORS_PER_COMMITTEE: usize,
        const LAST: usize,
    > {
        pub genesis_validators_root: Root,
        pub slot: Slot,
        pub fork: Fork,
        pub block_roots: Vector<Root, SLOTS_PER_HISTORICAL_ROOT>,
        pub state_roots: NotCarried,
        pub historical_roots: List<Root, HISTORICAL_ROOTS_LIMIT>,
        pub eth1_data_votes: List<NotCarried, ETH1_DATA_VOTES_BOUND>,
        pub validators: List<Validator, VALIDATOR_REGISTRY_LIMIT>,
        pub balances: List<Gwei, VALIDATOR_REGISTRY_LIMIT>,
        pub randao_mixes: Vector<Bytes32, EPOCHS_PER_HISTORICAL_VECTOR>,
        pub slashings: Vector<Gwei, EPOCHS_PER_SLASHINGS_VECTOR>,
        pub previous_epoch_participation: List<ParticipationFlags, VALIDATOR_REGISTRY_LIMIT>,
        pub current_epoch_participation: List<ParticipationFlags, VALIDATOR_REGISTRY_LIMIT>,
        pub justification_bits: Bitvector<JUSTIFICATION_BITS_LENGTH>,
        pub previous_justified_checkpoint: Checkpoint,
        pub current_justified_checkpoint: Checkpoint,
        pub finalized_checkpoint: Checkpoint,
        pub inactivity_scores: List<u64, VALIDATOR_REGISTRY_LIMIT>,
        pub current_sync_committee: SyncCommittee<LAST>,
        pub next_sync_committee: SyncCommittee<LAST>,
        pub previous_epoch_attestations: List<PendingAttestation<MAX_VALIDATORS_PER_COMMITTEE>, LAST>,
        pub current_epoch_attestations: List<PendingAttestation<MAX_VALIDATORS_PER_COMMITTEE>, LAST>,
    }
}

/// What constants.rs passes on from a file that is not published here.
pub mod networking {
    pub const ATTESTATION_PROPAGATION_SLOT_RANGE: () = ();
    pub const ATTESTATION_SUBNET_COUNT: () = ();
    pub const GOSSIP_MAX_SIZE: () = ();
    pub const MAXIMUM_GOSSIP_CLOCK_DISPARITY: () = ();
    pub const MAX_CHUNK_SIZE: () = ();
    pub const MAX_REQUEST_BLOCKS: () = ();
    pub const MIN_EPOCHS_FOR_BLOCK_REQUESTS: () = ();
    pub const RESP_TIMEOUT: () = ();
    pub const TTFB_TIMEOUT: () = ();
}

#[allow(warnings, clippy::all)]
pub mod constants {
    include!(concat!(env!("ETHEREUM_CONSENSUS"), "/src/phase0/constants.rs"));
}

#[allow(warnings, clippy::all)]
pub mod helpers {
    include!(concat!(env!("ETHEREUM_CONSENSUS"), "/src/phase0/helpers.rs"));
}

#[allow(warnings, clippy::all)]
pub mod epoch_processing {
    use crate::integer_sqrt;
    include!(concat!(env!("ETHEREUM_CONSENSUS"), "/src/phase0/epoch_processing.rs"));
}

//! Stand-in for the error types: the cases that the four files build, and the conversions that their `?` asks.
use crate::{
    crypto,
    phase0::operations::Checkpoint,
    primitives::{Epoch, Slot, ValidatorIndex},
    ssz::prelude::{BoundError, MerkleizationError},
};

#[derive(Debug)]
pub enum Error {
    Overflow,
    SlotOutOfRange { requested: Slot, lower_bound: Slot, upper_bound: Slot },
    InvalidEpoch { requested: Epoch, previous: Epoch, current: Epoch },
    OutOfBounds { requested: usize, bound: usize },
    InvalidShufflingIndex { index: usize, total: usize },
    CollectionCannotBeEmpty,
    InvalidOperation(InvalidOperation),
    Merkleization(MerkleizationError),
    Bound(BoundError),
    Crypto(crypto::Error),
}

#[derive(Debug)]
pub enum InvalidOperation {
    Attestation(InvalidAttestation),
    IndexedAttestation(InvalidIndexedAttestation),
}

#[derive(Debug)]
pub enum InvalidAttestation {
    Bitfield { expected_length: usize, length: usize },
    InvalidSource { expected: Checkpoint, source_checkpoint: Checkpoint, current: Epoch },
}

#[derive(Debug)]
pub enum InvalidIndexedAttestation {
    AttestingIndicesEmpty,
    AttestingIndicesNotSorted,
    DuplicateIndices(Vec<ValidatorIndex>),
    InvalidIndex(ValidatorIndex),
}

pub fn invalid_operation_error(e: InvalidOperation) -> Error {
    Error::InvalidOperation(e)
}

impl From<MerkleizationError> for Error {
    fn from(e: MerkleizationError) -> Self {
        Error::Merkleization(e)
    }
}

impl From<BoundError> for Error {
    fn from(e: BoundError) -> Self {
        Error::Bound(e)
    }
}

impl From<crypto::Error> for Error {
    fn from(e: crypto::Error) -> Self {
        Error::Crypto(e)
    }
}

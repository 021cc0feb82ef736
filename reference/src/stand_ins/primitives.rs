//! Stand-in for primitives.rs: its aliases and constants, without what its `derive`s ask for.
use crate::ssz::prelude::{ByteVector, Node};
pub use crate::{
    crypto::{PublicKey as BlsPublicKey, Signature as BlsSignature},
    domains::DomainType,
};

pub type Root = Node;
pub type Slot = u64;
pub type Epoch = u64;
pub type CommitteeIndex = usize;
pub type ValidatorIndex = usize;
pub type Gwei = u64;
pub type Version = [u8; 4];
pub type ForkDigest = [u8; 4];
pub type Domain = [u8; 32];
pub type Bytes32 = ByteVector<32>;
pub type ParticipationFlags = u8;
pub type ShuffledIndices = Vec<usize>;

pub const GENESIS_EPOCH: Epoch = 0;
pub const FAR_FUTURE_EPOCH: Epoch = Epoch::MAX;

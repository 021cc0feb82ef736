//! Stand-in for hashing and signatures. Nothing in scope calls these; a call panics and would show as unexpected.
use crate::ssz::prelude::ByteVector;

#[derive(Debug, Clone, PartialEq, Eq)]
pub struct Error;

#[derive(Debug, Clone, Default, PartialEq, Eq)]
pub struct PublicKey;

#[derive(Debug, Clone, Default, PartialEq, Eq)]
pub struct Signature;

pub fn hash<D: AsRef<[u8]>>(_data: D) -> ByteVector<32> {
    unimplemented!("hashing is not carried")
}

pub fn fast_aggregate_verify(_keys: &[&PublicKey], _message: &[u8], _signature: &Signature) -> Result<(), Error> {
    unimplemented!("signatures are not carried")
}

pub fn eth_aggregate_public_keys(_keys: &[PublicKey]) -> Result<PublicKey, Error> {
    unimplemented!("signatures are not carried")
}

//! Stand-in for signing. Nothing in scope calls these.
use crate::{
    crypto::{PublicKey, Signature},
    primitives::{Domain, Root},
    state_transition::Result,
};

pub fn compute_signing_root<T>(_data: &T, _domain: Domain) -> Result<Root> {
    unimplemented!("signatures are not carried")
}

pub fn verify_signed_data<T>(_data: &T, _signature: &Signature, _key: &PublicKey, _domain: Domain) -> Result<()> {
    unimplemented!("signatures are not carried")
}

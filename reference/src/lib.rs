//! The Rust of ethereum-consensus as the judge of the epoch close: reference/README.md says what this is and is not.

// What the four files name under `crate::`, and the files themselves.
#[allow(dead_code)]
#[path = "stand_ins/altair.rs"]
mod altair;
#[allow(dead_code)]
#[path = "stand_ins/crypto.rs"]
mod crypto;
#[allow(dead_code)]
#[path = "stand_ins/domains.rs"]
mod domains;
#[allow(dead_code)]
#[path = "stand_ins/error.rs"]
mod error;
#[allow(dead_code)]
#[path = "stand_ins/integer_sqrt.rs"]
mod integer_sqrt;
#[allow(dead_code)]
#[path = "stand_ins/phase0.rs"]
mod phase0;
#[allow(dead_code)]
#[path = "stand_ins/primitives.rs"]
mod primitives;
#[allow(dead_code)]
#[path = "stand_ins/signing.rs"]
mod signing;
#[allow(dead_code)]
#[path = "stand_ins/ssz.rs"]
mod ssz;
#[allow(dead_code)]
#[path = "stand_ins/state_transition.rs"]
mod state_transition;
use error::Error;

pub mod booked;
pub mod calls;
pub mod figures;
pub mod generate;
pub mod generate_leaves;
pub mod judge;
pub mod raised;
pub mod random;
pub mod record;
pub mod refusals;
pub mod report;
pub mod stored;
pub mod vectors;

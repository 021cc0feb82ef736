//! The Altair epoch close: Ethereum's eight epoch steps on a ledger's record, proved to give what Altair's rules define.
//!
//! This crate is a safe wrapper of the static library libaltair.a, which `make` makes. Slices go in, a `Result` comes
//! out; a refused call says why by its [`Refusal`]. Every function is proved for every input: nothing traps, and nothing
//! but the `&mut` slices is written. A record file closed:
//!
//! ```
//! use altair_close::{validator, Finality, Record, Settings};
//!
//! let settings = Settings { slots_per_epoch: 8, slots_per_historical_root: 64, epochs_per_slashings_vector: 64, ..Settings::MAINNET };
//! let record = Record {
//!     settings,
//!     finality: Finality { slot: 31, ..Finality::default() },
//!     registry: validator::new(32_000_000_000).repeat(5),
//!     slashings: vec![0; 64],
//!     roots: vec![0; 32 * 64],
//!     queue: None,
//! };
//! let file = record.write()?;
//! let closed = Record::read(&file)?.close()?;
//! assert_eq!(closed.registry[validator::BALANCE], 31_996_800_000);
//! assert_eq!(closed.amounts[0].target_taken, 2_080_000);
//! # Ok::<(), altair_close::Refusal>(())
//! ```
//!
//! What altair.h asks of a caller, the compiler sees to here: a slice is as long and as aligned as it says, one that is written overlaps
//! no other, and no other thread has it. Neither of these is accepted:
//!
//! ```compile_fail,E0502
//! let mut registry = altair_close::validator::new(32_000_000_000);
//! altair_close::process_participation_flag_updates(&registry[..], &mut registry[..]);
//! ```
//!
//! ```compile_fail,E0506
//! let (opening, mut closing) = (altair_close::validator::new(32_000_000_000), [0; 10]);
//! std::thread::scope(|threads| {
//!     threads.spawn(|| altair_close::process_participation_flag_updates(&opening, &mut closing));
//!     closing[0] = 1;
//! });
//! ```
//!
//! Without the feature `std`, which is on by default, the crate is `no_std` and allocates nothing: what has vectors of its own
//! ([`Record`], [`ElectraRecord`], [`Desk`], [`Store`], [`close_files`]) is then left out.
#![no_std]
#[cfg(feature = "std")]
extern crate std;

#[cfg_attr(not(feature = "std"), allow(dead_code))]
#[rustfmt::skip] // bindings/generate writes it
mod calls;
mod close;
#[cfg(feature = "std")]
mod desk;
#[cfg(feature = "std")]
mod electra;
mod fault;
mod file;
#[cfg_attr(not(feature = "std"), allow(dead_code))]
#[rustfmt::skip] // bindings/generate writes it
mod raw;
#[cfg(feature = "std")]
mod record;
#[rustfmt::skip] // bindings/generate writes it
mod refusal;
mod rules;
#[cfg(feature = "std")]
mod shelf;
mod store;
#[rustfmt::skip] // bindings/generate writes it
mod types;
mod votes;

pub use calls::*;
pub use close::{close, deneb_close, electra_close};
#[cfg(feature = "std")]
pub use desk::{Desk, NotDone};
#[cfg(feature = "std")]
pub use electra::{ClosedElectraRecord, ElectraRecord};
pub use fault::Fault;
pub use file::{read_file, read_header, Header, ReadRefused};
#[cfg(feature = "std")]
pub use record::{ClosedRecord, OpenError, Record};
pub use refusal::Refusal;
#[cfg(feature = "std")]
pub use shelf::close_files;
pub use store::*;
pub use types::*;
pub use votes::{Passes, Votes};

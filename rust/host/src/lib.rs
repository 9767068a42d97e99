//! The proved lock manager for one table of 256 records, called from Rust on a
//! block of bytes that the host lends.
//!
//! A request asks for all its locks at once and is queued; the front of the
//! queue may always run. Work is metered in fuel and paid by the tenant that
//! made the call. The ten calls are methods of [`Locks`]; each gives an
//! [`Outcome`]: an [`Answer`] or a [`Refusal`], and the units burnt. A Begin that
//! is Blocked tells the record that held it up; [`Locks::held`] counts the
//! records held.
//!
//! ```
//! use damsonpouch::{Answer, Locks, Refusal, State, BLOCK_LENGTH};
//!
//! # fn main() -> Result<(), Refusal> {
//! let mut block = [0; BLOCK_LENGTH];
//! let mut locks = Locks::over(&mut block);
//! locks.open(&[2, 2, 0, 0, 0, 0, 0, 0, 0, 0, 0, 0, 0, 0, 0, 0]).answer?;
//! locks.grant(1, 40).answer?;
//!
//! match locks.begin(1, 0, &[], &[10]).answer? {
//!     Answer::Entry { state: State::Free, tenant, serial, .. } => {
//!         // record 10 is this request's alone
//!         locks.finish(tenant, serial).answer?;
//!     }
//!     Answer::Entry { clash: Some(record), .. } => println!("wait for record {}", record),
//!     other => println!("not yet: {}", other),
//! }
//! # Ok(())
//! # }
//! ```
//!
//! What the calls do is written in Rattle and proved, and comes as the static
//! library `libdamsonpouch.a`, for x86-64. This crate declares its functions
//! and gives them Rust's types; `unsafe` stands in one file of it alone,
//! `src/linked.rs`. The rules of the calls, their prices and the order of their
//! refusals are in `docs/CALLS.md` of the repository; how to build and link, and
//! the block's layout, in `docs/HOST.md`.

#![deny(missing_docs)]
#![deny(unsafe_code)]
#![deny(unsafe_op_in_unsafe_fn)]

#[allow(unsafe_code)]
mod linked;
mod locks;
mod outcome;
mod refusal;

pub use locks::{held, is_sound, Locks, BLOCK_LENGTH, TENANTS};
pub use outcome::{Answer, Held, Name, Outcome, State};
pub use refusal::Refusal;

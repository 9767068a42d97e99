//! Event files: made from a seed, and turned to readable text and back.
//!
//! - `encode`: one record to bytes.
//! - `text`: readable text to bytes; `back`: bytes to readable text.
//! - `blocklines`: text that drives a block of Item 1, for whoever keeps one.
//! - `blockkinds`: the kinds of generated block case, made of a sound state
//!   (`compose`), a call that suits it (`aim`, `scenes`, `clashscenes`,
//!   `stuckscenes`), and a clause of a sound block broken by itself (`breaks`).
//! - `kinds`: the kinds of generated file, and `long`: long files to measure
//!   with. Each is made with `random` (the numbers) and `sheet` (the file so far
//!   with the state it leads to).
//! - `beside`: the proved listing and the second program's, line by line.
//! - `show`: a listing with the state after each call.
//! - `comments`: what a text says of its calls.
//! - `hint`: what an input seems to be that is neither text nor events.
//! - `program`: how the programs end.

mod aim;
pub mod back;
pub mod beside;
pub mod blockkinds;
pub mod blocklines;
mod boundary;
pub mod breaks;
mod clash;
pub mod clashscenes;
pub mod comments;
mod compose;
mod damaged;
mod early;
pub mod encode;
pub mod hint;
pub mod kinds;
mod load;
pub mod long;
mod overlap;
pub mod program;
pub mod random;
mod refusals;
pub mod scenes;
mod sheet;
pub mod show;
mod stuck;
pub mod stuckscenes;
pub mod text;
mod worst;

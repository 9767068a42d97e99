//! A run as a page that a student steps through, and the lesson's pages.
//!
//! - `steps`: an event file and its proved listing, as steps: the line, the
//!   call, what its units were paid for (`bill`), and what it changed.
//! - `html`: the page, made of those steps (`json`) and of the files in
//!   `assets`, which are all that runs in the browser.
//! - `lesson`: the chapters of the lesson as such pages, with `markdown` for
//!   their text.
//! - `whole`: a page's file, which is there whole or not at all.
//!
//! The lines are the proved program's. The state is the second program's, which
//! says where it would have written another line. The browser keeps no rules:
//! it follows the changes.

pub mod bill;
pub mod html;
mod json;
pub mod lesson;
pub mod markdown;
pub mod steps;
pub mod whole;

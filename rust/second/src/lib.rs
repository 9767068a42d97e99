//! The lock queue and its fuel, over a plain list.
//!
//! This is the second program of the comparison: it keeps no counters and no
//! bit maps. The queue is a list of requests, and every verdict is a pairwise
//! comparison of requests in that list. "Document 01" in a comment means the
//! page of scope and precise rules, and an "Item" is one of document 02's change
//! requests. These two pages decide every rule here.

pub mod answer;
pub mod block;
pub mod listing;
pub mod price;
pub mod reader;
pub mod request;
pub mod table;

pub use answer::{Answer, Outcome, Refusal};
pub use listing::{apply, listing};
pub use reader::{Event, FileRefusal, Reader};
pub use request::{Entry, Request, State};
pub use table::{Held, Meter, Table};

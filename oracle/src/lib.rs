//! The reference that the lowerer is compared with: egglog 3.0.0's own functions, run on the word records of document 01.
//!
//! The functions are not in this folder. build.rs cuts them from the source's files (`cut/plan.rs` names the lines), and
//! `source` includes them over the `stand_ins`. Around them, `signature`, `written` and `flat` read and write records, and
//! `calls`, `bytes` and `program` are the public calls with the tests of document 01 in their order. `prepared` runs the same
//! functions on rules decoded ahead of time.

mod bytes;
mod calls;
mod flat;
pub mod prepared;
mod program;
mod reader;
mod refusal;
mod signature;
mod source;
mod stand_ins;
mod words;
mod written;

pub use bytes::{Answer, free_vars_bytes, lower_bytes, settle_bytes};
pub use calls::{Lowered, free_vars, lower, settle, to_core_rule};
pub use program::program;
pub use refusal::{Cause, Refusal};

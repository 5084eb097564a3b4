//! The lowering of policy rules, as the key service calls it.
//!
//! The work is done by `libtulgarent.a`, whose every function is proved to meet its contract. This crate makes its three
//! functions safe to call and turns its answers into Rust's:
//!
//! | Call | Takes | Gives |
//! |---|---|---|
//! | [`lower`] | a written rule, and the counters of fresh variables | the rule flattened and settled |
//! | [`settle`] | a flat rule | the rule settled |
//! | [`free_vars`] | a flat rule | the free variables of its actions, ascending |
//!
//! There are two ways to call them. A [`Lowerer`] owns a signature, its counters and all memory, and hands out results.
//! The functions of this module are lent every slice by the caller and allocate nothing. Records are slices of [`Word`],
//! of `u32`, or of bytes, four bytes a word, lowest byte first, at any alignment.
//!
//! A rule is accepted, or turned back with a [`Refusal`], which leaves output and counters as they were. Scratch may hold
//! anything before and after a call. Output past the words written is untouched.
//!
#![cfg_attr(feature = "alloc", doc = "```")]
#![cfg_attr(not(feature = "alloc"), doc = "```ignore")]
//! use tulgarent::{Lowerer, Refusal, SignatureParts, Sort, Word};
//!
//! // Four heads, of which head 0 is value-eq; name 0 is a global; unions may become sets.
//! let parts = SignatureParts {
//!     globals: 1,
//!     value_eq: 0,
//!     union_to_set: true,
//!     sorts: &[Sort::Primitive, Sort::Function, Sort::Constructor, Sort::Function],
//! };
//! let mut lowerer = Lowerer::new(&parts.words().collect::<Vec<Word>>())?;
//!
//! // One fact, (= x1 x0), and no actions; in the notation of `Word`: rule/1/0 =/2 x1 x0.
//! let rule = [0x0400_1000_u32, 0x0800_0002, 0x4000_0001, 0x4000_0000];
//! let lowered = lowerer.lower(&rule)?;
//! assert_eq!(lowered.to_string(), "rule/0/1 let x1 x0");
//! assert_eq!((lowered.replacements, lowered.passes), (1, 1));
//! assert_eq!(Word::slice_bits(lowered.words), [0x0400_0001, 0x0200_0001, 0x4000_0001, 0x4000_0000]);
//!
//! // An action that reads x1, which no fact binds.
//! let unbound = [0x0400_0001_u32, 0x0200_0008, 0x4000_0001];
//! assert_eq!(lowerer.lower(&unbound), Err(Refusal::Unbound { place: 2 }));
//! # Ok::<(), Refusal>(())
//! ```
//!
//! # Without std
//!
//! The crate uses `core`, and with the feature `alloc`, which is on unless turned off, also `alloc` for [`Lowerer`]. An
//! owner with arrays inside would be some 100 KB that a function returns by way of its stack; where nothing may be
//! allocated, the functions over lent slices leave the caller to say where the memory stands.
//!
//! Nothing here panics. Only memory that runs out while a [`Lowerer`] is made or copied ends the program, as it does
//! everywhere in Rust.

#![no_std]
// Without `alloc` there is no `Lowerer` for the pages to lead to.
#![cfg_attr(not(feature = "alloc"), allow(rustdoc::broken_intra_doc_links))]
#![deny(unsafe_code, missing_docs)]
#![deny(clippy::unwrap_used, clippy::expect_used, clippy::panic, clippy::indexing_slicing)]
#![deny(clippy::arithmetic_side_effects)]

#[cfg(feature = "alloc")]
extern crate alloc;

// The only module that may: the calls across, and words seen as bytes.
#[allow(unsafe_code)]
mod abi;
mod answer;
mod calls;
#[cfg(feature = "alloc")]
mod lowerer;
mod refusal;
mod signature;
mod sizes;
mod text;
mod word;

pub use abi::Element;
pub use answer::{Answer, Lowered};
pub use calls::{Counters, Flat, Output, Scratch, Signature, Written, free_vars, lower, raw, settle};
#[cfg(feature = "alloc")]
pub use lowerer::Lowerer;
pub use refusal::Refusal;
pub use signature::{SignatureParts, Sort};
pub use sizes::{
    FLAT_WORDS, RESULT_WORDS, SCRATCH_BYTES, SCRATCH_WORDS, WORD_BYTES, WRITTEN_WORDS, room_for_free_vars,
    room_to_lower, room_to_settle,
};
pub use text::Record;
pub use word::{Action, Kind, Word};

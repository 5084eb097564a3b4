//! What the program `compare` is made of, for the fuzz target too: cases, running one on both sides, and telling what differs.

#![deny(unsafe_code)]

pub mod case;
pub mod draw;
pub mod figures;
pub mod floors;
pub mod grammar;
#[allow(unsafe_code)]
pub mod interrupt;
pub mod kinds;
pub mod memory;
pub mod program;
pub mod progress;
pub mod records;
pub mod replay;
pub mod report;
pub mod run;
pub mod shrink;
pub mod sides;
pub mod tampering;
pub mod texts;
pub mod trial;
pub mod vectors;
pub mod words;
pub mod wrong;

//! What the cut code leans on and the listed files lack: our own, small, and with number types where the source has
//! strings.

pub(crate) mod ast;
pub(crate) mod collections;
pub(crate) mod numbers;
pub(crate) mod typechecking;

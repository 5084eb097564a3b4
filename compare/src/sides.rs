//! What is compared with the Rust: the archive, or a wrong copy of the Rust.

use tulgarent::{Answer, Counters, Flat, Output, Scratch, Signature, Written, raw};

/// The three calls over byte slices.
pub trait Side {
    fn lower(
        &self,
        signature: &[u8],
        rule: &[u8],
        counters: &mut [u8],
        output: &mut [u8],
        scratch: &mut [u8],
    ) -> Answer;
    fn settle(&self, signature: &[u8], rule: &[u8], output: &mut [u8], scratch: &mut [u8]) -> Answer;
    fn free_vars(&self, signature: &[u8], rule: &[u8], output: &mut [u8]) -> Answer;
}

/// The lowerer as the key service calls it.
pub struct Archive;

impl Side for Archive {
    fn lower(
        &self,
        signature: &[u8],
        rule: &[u8],
        counters: &mut [u8],
        output: &mut [u8],
        scratch: &mut [u8],
    ) -> Answer {
        raw::lower(Signature(signature), Written(rule), Counters(counters), Output(output), Scratch(scratch))
    }

    fn settle(&self, signature: &[u8], rule: &[u8], output: &mut [u8], scratch: &mut [u8]) -> Answer {
        raw::settle(Signature(signature), Flat(rule), Output(output), Scratch(scratch))
    }

    fn free_vars(&self, signature: &[u8], rule: &[u8], output: &mut [u8]) -> Answer {
        raw::free_vars(Signature(signature), Flat(rule), Output(output))
    }
}

/// The Rust's answer as the archive's: every copy of the Rust has a type of its own for it.
macro_rules! answer {
    ($given:expr) => {{
        let given = $given;
        Answer {
            number: given.number,
            place: given.place,
            words: given.words,
            replacements: given.replacements,
            passes: given.passes,
        }
    }};
}
pub(crate) use answer;

/// A wrong copy of the Rust: a crate of its own, of the oracle's own files.
macro_rules! wrong_side {
    ($(#[$doc:meta])* $side:ident, $copy:ident) => {
        $(#[$doc])*
        pub struct $side;

        impl Side for $side {
            fn lower(
                &self,
                signature: &[u8],
                rule: &[u8],
                counters: &mut [u8],
                output: &mut [u8],
                scratch: &mut [u8],
            ) -> Answer {
                answer!($copy::lower_bytes(signature, rule, counters, output, scratch.len()))
            }

            fn settle(&self, signature: &[u8], rule: &[u8], output: &mut [u8], scratch: &mut [u8]) -> Answer {
                answer!($copy::settle_bytes(signature, rule, output, scratch.len()))
            }

            fn free_vars(&self, signature: &[u8], rule: &[u8], output: &mut [u8]) -> Answer {
                answer!($copy::free_vars_bytes(signature, rule, output))
            }
        }
    };
}

wrong_side!(
    /// Replaces inside existing actions too.
    ReplacesInActions,
    replaces_in_actions
);
wrong_side!(
    /// Takes body counts after the arguments.
    BodyCountsAfterArguments,
    body_counts_after_arguments
);
wrong_side!(
    /// Puts new equalities behind the atoms.
    EqualitiesBehind,
    equalities_behind
);

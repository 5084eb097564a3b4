//! The Rust, and something done to what it leaves behind: a mistake around the source's functions, not in them.

use crate::case::Call;
use crate::sides::{Side, answer};
use tulgarent::Answer;

/// What a call was lent and what it left.
pub struct Left<'a> {
    pub call: Call,
    pub signature: &'a [u8],
    pub rule: &'a [u8],
    pub answer: Answer,
    /// Empty but for lower.
    pub counters: &'a mut [u8],
    pub output: &'a mut [u8],
}

pub struct Tampering(pub fn(&mut Left));

impl Tampering {
    fn with(&self, mut left: Left) -> Answer {
        self.0(&mut left);
        left.answer
    }
}

impl Side for Tampering {
    fn lower(
        &self,
        signature: &[u8],
        rule: &[u8],
        counters: &mut [u8],
        output: &mut [u8],
        scratch: &mut [u8],
    ) -> Answer {
        let answer = answer!(oracle::lower_bytes(signature, rule, counters, output, scratch.len()));
        self.with(Left { call: Call::Lower, signature, rule, answer, counters, output })
    }

    fn settle(&self, signature: &[u8], rule: &[u8], output: &mut [u8], scratch: &mut [u8]) -> Answer {
        let answer = answer!(oracle::settle_bytes(signature, rule, output, scratch.len()));
        self.with(Left { call: Call::Settle, signature, rule, answer, counters: &mut [], output })
    }

    fn free_vars(&self, signature: &[u8], rule: &[u8], output: &mut [u8]) -> Answer {
        let answer = answer!(oracle::free_vars_bytes(signature, rule, output));
        self.with(Left { call: Call::FreeVars, signature, rule, answer, counters: &mut [], output })
    }
}

//! A case: one call with all that is lent to it.

use crate::draw::Draw;
use crate::words::{self, SCRATCH_WORDS, hex};
use std::fmt;

#[derive(Debug, Clone, Copy, PartialEq, Eq)]
pub enum Call {
    Lower,
    Settle,
    FreeVars,
}

impl Call {
    pub fn name(self) -> &'static str {
        match self {
            Call::Lower => "lower",
            Call::Settle => "settle",
            Call::FreeVars => "free variables",
        }
    }
}

impl fmt::Display for Call {
    fn fmt(&self, f: &mut fmt::Formatter<'_>) -> fmt::Result {
        f.write_str(self.name())
    }
}

/// One for each slice, in the order in which they are lent.
#[derive(Debug, Clone, Copy, PartialEq, Eq, Default)]
pub struct Five<T> {
    pub signature: T,
    pub rule: T,
    pub counters: T,
    pub output: T,
    pub scratch: T,
}

impl<T: fmt::Display> fmt::Display for Five<T> {
    fn fmt(&self, f: &mut fmt::Formatter<'_>) -> fmt::Result {
        let Five { signature, rule, counters, output, scratch } = self;
        write!(f, "{signature} {rule} {counters} {output} {scratch}")
    }
}

#[derive(Debug, Clone, PartialEq, Eq)]
pub struct Case {
    pub call: Call,
    pub signature: Vec<u32>,
    pub rule: Vec<u32>,
    /// Only lower takes them.
    pub counters: Vec<u32>,
    /// Words of output lent.
    pub output: usize,
    /// Words of scratch lent.
    pub scratch: usize,
    /// Bytes that a slice has past its last whole word.
    pub ragged: Five<u8>,
    /// How far a slice stands from an aligned address.
    pub offsets: Five<u8>,
    /// Chooses what output and scratch hold before the call.
    pub dirt: u32,
}

impl Case {
    /// Enough of everything is lent, and slices are aligned.
    pub fn new(call: Call, signature: Vec<u32>, rule: Vec<u32>) -> Case {
        let counters = if call == Call::Lower { vec![0; signature.len().saturating_sub(4)] } else { Vec::new() };
        let output = ample_output(call, rule.len());
        let scratch = if call == Call::FreeVars { 0 } else { SCRATCH_WORDS };
        Case {
            call,
            signature,
            rule,
            counters,
            output,
            scratch,
            ragged: Five::default(),
            offsets: Five::default(),
            dirt: 0,
        }
    }

    /// Slices stand anywhere, and output and scratch hold anything.
    pub fn lay_out(&mut self, draw: &mut Draw) {
        let mut offset = || draw.below(8) as u8;
        self.offsets =
            Five { signature: offset(), rule: offset(), counters: offset(), output: offset(), scratch: offset() };
        self.dirt = draw.word();
    }

    /// Bytes of each slice.
    pub fn lengths(&self) -> Five<usize> {
        let bytes = |words: usize, more: u8| 4 * words + usize::from(more);
        Five {
            signature: bytes(self.signature.len(), self.ragged.signature),
            rule: bytes(self.rule.len(), self.ragged.rule),
            counters: bytes(self.counters.len(), self.ragged.counters),
            output: bytes(self.output, self.ragged.output),
            scratch: bytes(self.scratch, self.ragged.scratch),
        }
    }

    pub fn signature_bytes(&self) -> Vec<u8> {
        padded(&self.signature, self.ragged.signature)
    }

    pub fn rule_bytes(&self) -> Vec<u8> {
        padded(&self.rule, self.ragged.rule)
    }

    pub fn counters_bytes(&self) -> Vec<u8> {
        padded(&self.counters, self.ragged.counters)
    }
}

/// Words of output that hold any result of a rule of so many words.
pub fn ample_output(call: Call, rule: usize) -> usize {
    match call {
        Call::Lower => 4 * rule,
        Call::Settle => 2 * rule,
        Call::FreeVars => rule,
    }
}

fn padded(words: &[u32], more: u8) -> Vec<u8> {
    let mut bytes = words::bytes(words);
    bytes.resize(bytes.len() + usize::from(more), 0);
    bytes
}

impl fmt::Display for Case {
    fn fmt(&self, f: &mut fmt::Formatter<'_>) -> fmt::Result {
        writeln!(f, "  call       {}", self.call)?;
        writeln!(f, "  signature  {}", hex(&self.signature))?;
        writeln!(f, "  rule       {}", hex(&self.rule))?;
        if self.call == Call::Lower {
            writeln!(f, "  counters   {}", hex(&self.counters))?;
        }
        writeln!(f, "  lent       {} words of output, {} of scratch", self.output, self.scratch)?;
        if self.ragged != Five::default() {
            writeln!(f, "  ragged by  {}", self.ragged)?;
        }
        write!(f, "  laid out   at offsets {}, dirt {}", self.offsets, self.dirt)
    }
}

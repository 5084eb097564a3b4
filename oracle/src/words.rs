//! Words: kind and payload, each way, and document 01's limits.

use crate::stand_ins::ast::Literal;
use crate::stand_ins::numbers::{Head, Leaf};

/// Names, heads, and the numbers in a rule header are below this.
pub(crate) const NAMES: u32 = 4_096;
/// Literals, and the counts of fresh variables, are below this.
pub(crate) const COUNTS: u32 = 65_536;
/// An expression word stands inside fewer calls than this.
pub(crate) const CALLS: usize = 32;
pub(crate) const WRITTEN_WORDS: usize = 512;
pub(crate) const FLAT_WORDS: usize = 1_024;
pub(crate) const SCRATCH_WORDS: usize = 16_384;
/// Words of a signature before its heads.
pub(crate) const SIGNATURE_FRONT: usize = 4;

pub(crate) const LET: u32 = 1;
pub(crate) const SET: u32 = 2;
pub(crate) const DELETE: u32 = 3;
pub(crate) const SUBSUME: u32 = 4;
pub(crate) const UNION: u32 = 5;
pub(crate) const PANIC: u32 = 6;
pub(crate) const CALL: u32 = 7;
pub(crate) const EXPRESSION: u32 = 8;

/// A word by its kind. The payload is split into its parts and not yet tested.
#[derive(Debug, Clone, Copy)]
pub(crate) enum Word {
    Fresh {
        head: u32,
        count: u32,
    },
    Name(u32),
    Literal(u32),
    Call {
        head: u32,
        count: u32,
    },
    Equality {
        count: u32,
    },
    Header {
        body: u32,
        actions: u32,
    },
    Action(u32),
    Signature(u32),
    /// Kind 8 and up, the word 0 among them: no record has one.
    None,
}

impl Word {
    pub(crate) fn of(word: u32) -> Word {
        let kind = word.leading_zeros();
        let payload = word & !(0x8000_0000_u32.checked_shr(kind).unwrap_or(0));
        match kind {
            0 => Word::Fresh { head: payload / COUNTS, count: payload % COUNTS },
            1 => Word::Name(payload),
            2 => Word::Literal(payload),
            3 => Word::Call { head: payload / COUNTS, count: payload % COUNTS },
            4 => Word::Equality { count: payload },
            5 => Word::Header { body: payload / NAMES, actions: payload % NAMES },
            6 => Word::Action(payload),
            7 => Word::Signature(payload),
            _ => Word::None,
        }
    }
}

pub(crate) fn leaf_word(leaf: &Leaf) -> u32 {
    match *leaf {
        Leaf::Name(name) => 0x4000_0000 + u32::from(name),
        Leaf::Fresh { head, count } => 0x8000_0000 + u32::from(head) * COUNTS + count,
    }
}

pub(crate) fn literal_word(literal: &Literal) -> u32 {
    0x2000_0000 + u32::from(literal.number())
}

pub(crate) fn call_word(head: &Head, count: usize) -> u32 {
    0x1000_0000 + u32::from(head.number) * COUNTS + small(count)
}

pub(crate) fn equality_word(count: usize) -> u32 {
    0x0800_0000 + small(count)
}

pub(crate) fn header_word(body: usize, actions: usize) -> u32 {
    0x0400_0000 + small(body) * NAMES + small(actions)
}

pub(crate) fn action_word(code: u32) -> u32 {
    0x0200_0000 + code
}

/// Counts in a result are bounded by the record's length, far below what a word holds.
fn small(count: usize) -> u32 {
    u16::try_from(count).map(u32::from).expect("a record's counts fit its words")
}

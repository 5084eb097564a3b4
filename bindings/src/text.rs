//! The notation of words, and of records: words with one space between. [`Word`] has the table.

use crate::answer::Lowered;
use crate::word::{Action, Kind, Word};
use core::fmt;

/// Words to be shown, with one space between.
///
/// ```
/// use tulgarent::{Record, Word};
///
/// let rule = [0x0400_1000, 0x0800_0002, 0x4000_0001, 0x2000_0000];
/// assert_eq!(Record(Word::slice(&rule)).to_string(), "rule/1/0 =/2 x1 ()");
/// ```
#[derive(Debug, Clone, Copy, PartialEq, Eq, Hash)]
pub struct Record<'a>(pub &'a [Word]);

impl fmt::Display for Record<'_> {
    fn fmt(&self, f: &mut fmt::Formatter<'_>) -> fmt::Result {
        self.0.iter().enumerate().try_for_each(|(index, word)| {
            let space = if index == 0 { "" } else { " " };
            write!(f, "{space}{word}")
        })
    }
}

/// The words of the result.
impl fmt::Display for Lowered<'_> {
    fn fmt(&self, f: &mut fmt::Formatter<'_>) -> fmt::Result {
        Record(self.words).fmt(f)
    }
}

impl fmt::Display for Word {
    fn fmt(&self, f: &mut fmt::Formatter<'_>) -> fmt::Result {
        match self.kind() {
            Some(Kind::Fresh { head, count }) => write!(f, "@{head}.{count}"),
            Some(Kind::Name(number)) => write!(f, "x{number}"),
            Some(Kind::Literal(0)) => write!(f, "()"),
            Some(Kind::Literal(number)) => write!(f, "#{number}"),
            Some(Kind::Head { head, count }) => write!(f, "f{head}/{count}"),
            Some(Kind::Equality { count }) => write!(f, "=/{count}"),
            Some(Kind::Header { body, actions }) => write!(f, "rule/{body}/{actions}"),
            Some(Kind::Action(action)) => write!(f, "{action}"),
            Some(Kind::Signature(number)) => write!(f, "s{number}"),
            None => write!(f, "?{self:08x}"),
        }
    }
}

/// Shown with the notation, since that is what one looks for where a test fails.
impl fmt::Debug for Word {
    fn fmt(&self, f: &mut fmt::Formatter<'_>) -> fmt::Result {
        write!(f, "Word({self})")
    }
}

impl fmt::Display for Action {
    fn fmt(&self, f: &mut fmt::Formatter<'_>) -> fmt::Result {
        f.write_str(match self {
            Action::Let => "let",
            Action::Set => "set",
            Action::Delete => "delete",
            Action::Subsume => "subsume",
            Action::Union => "union",
            Action::Panic => "panic",
            Action::Call => "call",
            Action::Expression => "expr",
        })
    }
}

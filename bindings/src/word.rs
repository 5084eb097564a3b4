//! Words by their kinds: to build them, and to take them apart.

use core::fmt;

/// Names, heads and the two counts of a rule header have so many bits.
const SHORT_BITS: u32 = 12;
const SHORT_MASK: u32 = (1 << SHORT_BITS) - 1;
/// Literals and counts have so many.
const LONG_BITS: u32 = 16;
const LONG_MASK: u32 = (1 << LONG_BITS) - 1;

/// The first one bit of a word of each kind, the kind being the count of zero bits before it.
const FRESH: u32 = 0x8000_0000;
const NAME: u32 = 0x4000_0000;
const LITERAL: u32 = 0x2000_0000;
const HEAD: u32 = 0x1000_0000;
const EQUALITY: u32 = 0x0800_0000;
const HEADER: u32 = 0x0400_0000;
const ACTION: u32 = 0x0200_0000;
const SIGNATURE: u32 = 0x0100_0000;

/// A word of a record.
///
/// Every `u32` is a word, also one that no record may hold: [`Word::kind`] tells. Words are ordered by their bits, which
/// is the order of [`free_vars`](crate::free_vars). They are shown in a short notation:
///
/// | Word | Shown | Built by |
/// |---|---|---|
/// | fresh variable of head 3, count 0 | `@3.0` | [`Word::fresh`] |
/// | name 12 | `x12` | [`Word::name`] |
/// | literal 7; literal 0, which is Unit | `#7`; `()` | [`Word::literal`], [`Word::UNIT`] |
/// | head 3 with 2 words or expressions under it | `f3/2` | [`Word::head`] |
/// | equality of 2 | `=/2` | [`Word::EQUALITY`], [`Word::equality`] |
/// | header of 2 facts or atoms and 1 action | `rule/2/1` | [`Word::header`] |
/// | actions 1 to 8 | `let` `set` `delete` `subsume` `union` `panic` `call` `expr` | [`Word::action`] |
/// | signature word 5 | `s5` | [`Word::signature`] |
/// | any other word | `?` and its eight digits | [`Word::from_bits`] |
///
/// ```
/// use tulgarent::{Kind, Word};
///
/// let word = Word::head(3, 2).ok_or("there is no such head")?;
/// assert_eq!(word.bits(), 0x1003_0002);
/// assert_eq!(word.kind(), Some(Kind::Head { head: 3, count: 2 }));
/// assert_eq!(word.to_string(), "f3/2");
///
/// // Names end at 4,095.
/// assert_eq!(Word::name(4_096), None);
/// assert_eq!(Word::from_bits(0x4000_1000).to_string(), "?40001000");
/// # Ok::<(), &str>(())
/// ```
#[derive(Clone, Copy, PartialEq, Eq, PartialOrd, Ord, Hash)]
#[repr(transparent)]
pub struct Word(u32);

/// A word taken apart. [`Kind::word`] puts it together again.
#[derive(Debug, Clone, Copy, PartialEq, Eq, Hash)]
pub enum Kind {
    /// Kind 0: a fresh variable.
    Fresh {
        /// The head of the call that it stands for, at most 4,095.
        head: u16,
        /// The counter of that head when the variable was taken.
        count: u16,
    },
    /// Kind 1: a name, at most 4,095. Those below the signature's G are globals, the others variables.
    Name(u16),
    /// Kind 2: a literal.
    Literal(u16),
    /// Kind 3: a head, before what stands under it.
    Head {
        /// The head, at most 4,095.
        head: u16,
        /// How many expressions stand under it in a written rule, how many terms in a flat one.
        count: u16,
    },
    /// Kind 4: an equality.
    Equality {
        /// 2 in every rule that is accepted; below 2 to the 27th.
        count: u32,
    },
    /// Kind 5: the header of a rule.
    Header {
        /// Facts of a written rule or atoms of a flat one, at most 4,095.
        body: u16,
        /// Actions, at most 4,095.
        actions: u16,
    },
    /// Kind 6: an action.
    Action(Action),
    /// Kind 7: a word of a signature, below 2 to the 24th.
    Signature(u32),
}

/// What an action does. The value of each is its code.
#[derive(Debug, Clone, Copy, PartialEq, Eq, Hash)]
pub enum Action {
    /// Binds a name, in a flat rule a variable or a global's name.
    Let = 1,
    /// Gives a head's table an output for some inputs.
    Set = 2,
    /// Takes a row out of a head's table.
    Delete = 3,
    /// Marks a row of a head's table as subsumed.
    Subsume = 4,
    /// Makes two values one.
    Union = 5,
    /// Tells of something that must not be, by a literal.
    Panic = 6,
    /// Binds the answer of a call; only in flat rules.
    Call = 7,
    /// Evaluates an expression; only in written rules.
    Expression = 8,
}

impl Word {
    /// Literal 0, Unit.
    pub const UNIT: Word = Word(LITERAL);
    /// The equality of two, the only one that rules may hold.
    pub const EQUALITY: Word = Word(EQUALITY | 2);

    /// The word with these bits, whatever they are.
    #[must_use]
    pub const fn from_bits(bits: u32) -> Word {
        Word(bits)
    }

    /// The word as the archive takes it.
    #[must_use]
    pub const fn bits(self) -> u32 {
        self.0
    }

    /// A fresh variable, if the head is at most 4,095.
    #[must_use]
    pub const fn fresh(head: u16, count: u16) -> Option<Word> {
        with_head(FRESH, head, count)
    }

    /// A name, if it is at most 4,095.
    #[must_use]
    pub const fn name(number: u16) -> Option<Word> {
        below(NAME, number as u32, SHORT_MASK)
    }

    /// A literal.
    #[must_use]
    pub const fn literal(number: u16) -> Word {
        Word(LITERAL | number as u32)
    }

    /// A head with so many words or expressions under it, if the head is at most 4,095.
    #[must_use]
    pub const fn head(head: u16, count: u16) -> Option<Word> {
        with_head(HEAD, head, count)
    }

    /// An equality of so many, if they are below 2 to the 27th. [`Word::EQUALITY`] is the one that rules hold.
    #[must_use]
    pub const fn equality(count: u32) -> Option<Word> {
        below(EQUALITY, count, EQUALITY - 1)
    }

    /// A rule's header, if both counts are at most 4,095.
    #[must_use]
    pub const fn header(body: u16, actions: u16) -> Option<Word> {
        let (body, actions) = (body as u32, actions as u32);
        if body > SHORT_MASK || actions > SHORT_MASK {
            return None;
        }
        Some(Word(HEADER | (body << SHORT_BITS) | actions))
    }

    /// An action's word.
    #[must_use]
    pub const fn action(action: Action) -> Word {
        Word(ACTION | action.code())
    }

    /// A word of a signature, if the number is below 2 to the 24th.
    #[must_use]
    pub const fn signature(number: u32) -> Option<Word> {
        below(SIGNATURE, number, SIGNATURE - 1)
    }

    /// What the word is, or none if no record may hold it.
    #[must_use]
    pub const fn kind(self) -> Option<Kind> {
        let (head, count) = (((self.0 >> LONG_BITS) & SHORT_MASK) as u16, (self.0 & LONG_MASK) as u16);
        let kind = match self.0.leading_zeros() {
            0 => Kind::Fresh { head, count },
            1 => Kind::Name(count),
            2 => Kind::Literal(count),
            3 => Kind::Head { head, count },
            4 => Kind::Equality { count: self.0 ^ EQUALITY },
            5 => Kind::Header {
                body: ((self.0 >> SHORT_BITS) & SHORT_MASK) as u16,
                actions: (self.0 & SHORT_MASK) as u16,
            },
            6 => match Action::from_code(self.0 ^ ACTION) {
                Some(action) => Kind::Action(action),
                None => return None,
            },
            7 => Kind::Signature(self.0 ^ SIGNATURE),
            _ => return None,
        };
        // A number too large for its kind has lost bits above, so putting it together again gives another word or none.
        match kind.word() {
            Some(word) if word.0 == self.0 => Some(kind),
            _ => None,
        }
    }

    /// Words where bits stand; nothing is copied.
    ///
    /// ```
    /// use tulgarent::Word;
    ///
    /// assert_eq!(Word::slice(&[0x4000_0001, 0x2000_0000]), [Word::from_bits(0x4000_0001), Word::UNIT]);
    /// ```
    #[must_use]
    pub const fn slice(bits: &[u32]) -> &[Word] {
        crate::abi::words_in(bits)
    }

    /// The bits of words where they stand; nothing is copied.
    ///
    /// ```
    /// use tulgarent::Word;
    ///
    /// assert_eq!(Word::slice_bits(&[Word::EQUALITY, Word::UNIT]), [0x0800_0002, 0x2000_0000]);
    /// ```
    #[must_use]
    pub const fn slice_bits(words: &[Word]) -> &[u32] {
        crate::abi::bits_in(words)
    }
}

impl Kind {
    /// The word, or none if a number is larger than its kind allows.
    ///
    /// ```
    /// use tulgarent::{Kind, Word};
    ///
    /// assert_eq!(Kind::Literal(0).word(), Some(Word::UNIT));
    /// assert_eq!(Kind::Header { body: 4_096, actions: 0 }.word(), None);
    /// ```
    #[must_use]
    pub const fn word(self) -> Option<Word> {
        match self {
            Kind::Fresh { head, count } => Word::fresh(head, count),
            Kind::Name(number) => Word::name(number),
            Kind::Literal(number) => Some(Word::literal(number)),
            Kind::Head { head, count } => Word::head(head, count),
            Kind::Equality { count } => Word::equality(count),
            Kind::Header { body, actions } => Word::header(body, actions),
            Kind::Action(action) => Some(Word::action(action)),
            Kind::Signature(number) => Word::signature(number),
        }
    }
}

impl Action {
    /// All of them, by code.
    pub const ALL: [Action; 8] = [
        Action::Let,
        Action::Set,
        Action::Delete,
        Action::Subsume,
        Action::Union,
        Action::Panic,
        Action::Call,
        Action::Expression,
    ];

    /// 1 to 8.
    #[must_use]
    pub const fn code(self) -> u32 {
        self as u32
    }

    /// The action of this code.
    ///
    /// ```
    /// use tulgarent::Action;
    ///
    /// assert_eq!(Action::from_code(5), Some(Action::Union));
    /// assert_eq!(Action::from_code(0), None);
    /// ```
    #[must_use]
    pub const fn from_code(code: u32) -> Option<Action> {
        Some(match code {
            1 => Action::Let,
            2 => Action::Set,
            3 => Action::Delete,
            4 => Action::Subsume,
            5 => Action::Union,
            6 => Action::Panic,
            7 => Action::Call,
            8 => Action::Expression,
            _ => return None,
        })
    }
}

/// Fresh variables and heads differ in their first bit alone.
const fn with_head(first: u32, head: u16, count: u16) -> Option<Word> {
    below(first, ((head as u32) << LONG_BITS) | count as u32, (SHORT_MASK << LONG_BITS) | LONG_MASK)
}

const fn below(first: u32, payload: u32, most: u32) -> Option<Word> {
    if payload > most { None } else { Some(Word(first | payload)) }
}

impl From<u32> for Word {
    fn from(bits: u32) -> Word {
        Word(bits)
    }
}

impl From<Word> for u32 {
    fn from(word: Word) -> u32 {
        word.0
    }
}

impl fmt::LowerHex for Word {
    fn fmt(&self, f: &mut fmt::Formatter<'_>) -> fmt::Result {
        fmt::LowerHex::fmt(&self.0, f)
    }
}

//! An owner of all that the calls are lent.

use crate::abi::{self, Element, bytes_of, bytes_of_mut};
use crate::answer::Lowered;
use crate::refusal::Refusal;
use crate::sizes::{RESULT_WORDS, SCRATCH_WORDS, WORD_BYTES};
use crate::word::Word;
use alloc::{vec, vec::Vec};
use core::fmt;

/// A rule of no facts and no actions: every good signature accepts it.
const EMPTY_RULE: [u32; 1] = [0x0400_0000];
/// A signature has so many words before its heads.
const BEFORE_HEADS: usize = 4;

/// A signature with its counters, and memory for every call.
///
/// It allocates when it is made, 72 KiB and 8 bytes for each head, and never again. Rules may be slices of [`Word`], of
/// `u32`, or of bytes. A result stands in the lowerer until the next call.
///
/// ```
/// use tulgarent::{Lowerer, Refusal, SignatureParts, Sort, Word};
///
/// let parts = SignatureParts {
///     globals: 1,
///     value_eq: 0,
///     union_to_set: true,
///     sorts: &[Sort::Primitive, Sort::Function, Sort::Constructor, Sort::Function],
/// };
/// let signature: Vec<Word> = parts.words().collect();
/// let mut lowerer = Lowerer::new(&signature)?;
///
/// // One fact, (f1 x1), and no actions. Each call of f1 takes a fresh variable of its own.
/// let rule = [0x0400_1000_u32, 0x1001_0001, 0x4000_0001];
/// assert_eq!(lowerer.lower(&rule)?.to_string(), "rule/1/0 f1/2 x1 @1.0");
/// assert_eq!(lowerer.lower(&rule)?.to_string(), "rule/1/0 f1/2 x1 @1.1");
/// assert_eq!(lowerer.counters(), [0, 2, 0, 0]);
///
/// // An action that reads x1, which no fact binds: refused, and the counters stay.
/// let unbound = [0x0400_0001_u32, 0x0200_0008, 0x4000_0001];
/// assert_eq!(lowerer.lower(&unbound), Err(Refusal::Unbound { place: 2 }));
/// assert_eq!(lowerer.counters(), [0, 2, 0, 0]);
/// # Ok::<(), Refusal>(())
/// ```
#[derive(Clone)]
pub struct Lowerer {
    signature: Vec<Word>,
    counters: Vec<u32>,
    output: Vec<Word>,
    scratch: Vec<u32>,
}

impl Lowerer {
    /// A lowerer for this signature, all counters at 0.
    ///
    /// ```
    /// use tulgarent::{Lowerer, Refusal};
    ///
    /// // One head, which is value-eq, and a function: it would have to be a primitive.
    /// let signature = [0x0100_0001_u32, 0x0100_0000, 0x0100_0000, 0x0100_0000, 0x0100_0000];
    /// assert_eq!(Lowerer::new(&signature).err(), Some(Refusal::Signature { place: 2 }));
    /// ```
    ///
    /// # Errors
    /// Refusal 1, and over bytes 14.
    pub fn new<T: Element>(signature: &[T]) -> Result<Lowerer, Refusal> {
        // The archive itself tests the signature.
        match abi::free_vars(bytes_of(signature), bytes_of(&EMPTY_RULE), &mut []).refusal() {
            Some(refusal) => Err(refusal),
            None => Ok(Lowerer::of_good(owned(signature))),
        }
    }

    /// A lowerer that goes on from counters that were kept. Entries past the signature's heads are left out.
    ///
    /// Counters only ever move on, so that no fresh variable is given out twice. Whoever stores them stores those of
    /// after the last rule.
    ///
    /// ```
    /// use tulgarent::Lowerer;
    ///
    /// // A primitive, which is value-eq, and a function.
    /// let signature = [0x0100_0002_u32, 0x0100_0000, 0x0100_0000, 0x0100_0000, 0x0100_0002, 0x0100_0000];
    /// let mut lowerer = Lowerer::with_counters(&signature, &[0, 41])?;
    /// // One fact, (f1), and no actions.
    /// assert_eq!(lowerer.lower(&[0x0400_1000_u32, 0x1001_0000])?.to_string(), "rule/1/0 f1/1 @1.41");
    /// assert_eq!(lowerer.counters(), [0, 42]);
    /// # Ok::<(), tulgarent::Refusal>(())
    /// ```
    ///
    /// # Errors
    /// Refusals 1 and 2, and over bytes 14.
    pub fn with_counters<T: Element>(signature: &[T], counters: &[u32]) -> Result<Lowerer, Refusal> {
        let lowerer = Lowerer::new(signature)?;
        match counters.get(..lowerer.counters.len()) {
            Some(counters) => Ok(Lowerer { counters: counters.to_vec(), ..lowerer }),
            None => Err(Refusal::Counters),
        }
    }

    fn of_good(signature: Vec<Word>) -> Lowerer {
        let heads = signature.len().saturating_sub(BEFORE_HEADS);
        Lowerer {
            signature,
            counters: vec![0; heads],
            output: vec![Word::UNIT; RESULT_WORDS],
            scratch: vec![0; SCRATCH_WORDS],
        }
    }

    /// The signature.
    #[must_use]
    pub fn signature(&self) -> &[Word] {
        &self.signature
    }

    /// For each head the count that its next fresh variable takes.
    #[must_use]
    pub fn counters(&self) -> &[u32] {
        &self.counters
    }

    /// Lowers a written rule and settles it, as [`crate::lower`] does. The counters move on if it is accepted.
    ///
    /// ```
    /// use tulgarent::Lowerer;
    ///
    /// // A primitive, which is value-eq, and a function.
    /// let signature = [0x0100_0002_u32, 0x0100_0000, 0x0100_0000, 0x0100_0000, 0x0100_0002, 0x0100_0000];
    /// // (= x1 (f1 #7)), with an action (let x2 x1).
    /// let rule = [
    ///     0x0400_1001_u32, 0x0800_0002, 0x4000_0001, 0x1001_0001, 0x2000_0007, 0x0200_0001, 0x4000_0002, 0x4000_0001,
    /// ];
    /// let mut lowerer = Lowerer::new(&signature)?;
    /// let lowered = lowerer.lower(&rule)?;
    /// assert_eq!(lowered.to_string(), "rule/1/2 f1/2 #7 @1.0 let x1 @1.0 let x2 x1");
    /// assert_eq!((lowered.replacements, lowered.passes), (1, 1));
    /// # Ok::<(), tulgarent::Refusal>(())
    /// ```
    ///
    /// # Errors
    /// Refusals 4 to 9, and over bytes 14. The counters are then as they were.
    pub fn lower<T: Element>(&mut self, rule: &[T]) -> Result<Lowered<'_>, Refusal> {
        abi::lower(
            bytes_of(&self.signature),
            bytes_of(rule),
            bytes_of_mut(&mut self.counters),
            bytes_of_mut(&mut self.output),
            bytes_of_mut(&mut self.scratch),
        )
        .lowered(&self.output)
    }

    /// Settles a flat rule, as [`crate::settle`] does. The counters stay.
    ///
    /// ```
    /// use tulgarent::Lowerer;
    ///
    /// // A primitive, which is value-eq, and a function.
    /// let signature = [0x0100_0002_u32, 0x0100_0000, 0x0100_0000, 0x0100_0000, 0x0100_0002, 0x0100_0000];
    /// // (= x1 #7) and (f1 x1 x2), where x2 is the output.
    /// let rule = [0x0400_2000_u32, 0x0800_0002, 0x4000_0001, 0x2000_0007, 0x1001_0002, 0x4000_0001, 0x4000_0002];
    /// let mut lowerer = Lowerer::new(&signature)?;
    /// assert_eq!(lowerer.settle(&rule)?.to_string(), "rule/1/1 f1/2 #7 x2 let x1 #7");
    /// # Ok::<(), tulgarent::Refusal>(())
    /// ```
    ///
    /// # Errors
    /// Refusals 4, 5, 11 and 12, and over bytes 14.
    pub fn settle<T: Element>(&mut self, rule: &[T]) -> Result<Lowered<'_>, Refusal> {
        abi::settle(
            bytes_of(&self.signature),
            bytes_of(rule),
            bytes_of_mut(&mut self.output),
            bytes_of_mut(&mut self.scratch),
        )
        .lowered(&self.output)
    }

    /// The free variables of a flat rule's actions in ascending order, as [`crate::free_vars`] gives them. The counters
    /// stay.
    ///
    /// ```
    /// use tulgarent::{Lowerer, Record};
    ///
    /// // One head, a primitive, which is value-eq; no globals.
    /// let signature = [0x0100_0001_u32, 0x0100_0000, 0x0100_0000, 0x0100_0000, 0x0100_0002];
    /// // (union x7 x3)
    /// let rule = [0x0400_0001_u32, 0x0200_0005, 0x4000_0007, 0x4000_0003];
    /// let mut lowerer = Lowerer::new(&signature)?;
    /// assert_eq!(Record(lowerer.free_vars(&rule)?).to_string(), "x3 x7");
    /// # Ok::<(), tulgarent::Refusal>(())
    /// ```
    ///
    /// # Errors
    /// Refusals 4, 5, 11 and 12, and over bytes 14.
    pub fn free_vars<T: Element>(&mut self, rule: &[T]) -> Result<&[Word], Refusal> {
        abi::free_vars(bytes_of(&self.signature), bytes_of(rule), bytes_of_mut(&mut self.output)).written(&self.output)
    }
}

/// The words of a record that is whole words.
fn owned<T: Element>(record: &[T]) -> Vec<Word> {
    let words = bytes_of(record).chunks_exact(WORD_BYTES).filter_map(|bytes| bytes.try_into().ok());
    words.map(|bytes| Word::from_bits(u32::from_le_bytes(bytes))).collect()
}

/// Without the memory that is only worked in.
impl fmt::Debug for Lowerer {
    fn fmt(&self, f: &mut fmt::Formatter<'_>) -> fmt::Result {
        let mut shown = f.debug_struct("Lowerer");
        shown.field("signature", &self.signature).field("counters", &self.counters).finish_non_exhaustive()
    }
}

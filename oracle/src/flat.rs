//! Reading a flat rule (4, 5, 11, 12), and writing one.

use crate::reader::{Reader, fit_call, fit_leaf, fit_literal};
use crate::refusal::{Cause, Refusal};
use crate::signature::Signature;
use crate::source::core::{
    GenericAtom, GenericAtomTerm, GenericCoreAction, GenericCoreActions, GenericCoreRule, HeadOrEq, Query,
};
use crate::stand_ins::ast::{Change, Literal, Span};
use crate::stand_ins::numbers::{Head, Leaf};
use crate::words::{
    CALL, DELETE, FLAT_WORDS, LET, PANIC, SET, SUBSUME, UNION, Word, action_word, call_word, equality_word,
    header_word, leaf_word, literal_word,
};

type Term = GenericAtomTerm<Leaf>;
type Action = GenericCoreAction<Head, Leaf>;
/// As it is before settling: equalities may stand among the atoms.
pub(crate) type FlatRule = GenericCoreRule<HeadOrEq<Head>, Head, Leaf>;

pub(crate) fn read(signature: &Signature, words: &[u32]) -> Result<FlatRule, Refusal> {
    let mut reader = Reader::new(signature, words, FLAT_WORDS)?;
    let (atoms, actions) = reader.header()?;
    let atoms = reader.several(atoms, atom)?;
    let head = reader.several(actions, action)?;
    reader.end()?;
    Ok(GenericCoreRule { span: Span(0), body: Query { atoms }, head: GenericCoreActions(head) })
}

/// The first word of an atom, fit in kind and payload.
enum Opening {
    Head(u16, u32),
    Equality(u32),
}

fn atom(reader: &mut Reader) -> Result<GenericAtom<HeadOrEq<Head>, Leaf>, Refusal> {
    let heads = reader.signature.heads();
    // An equality of any count is taken here, since a wrong count is no 5.
    let (place, opening) = reader.take(|word| match word {
        Word::Equality { count } => Some(Opening::Equality(count)),
        _ => fit_call(word, heads).map(|(head, count)| Opening::Head(head, count)),
    })?;
    let (head, count) = match opening {
        Opening::Head(_, 0) => return Err(Cause::NoTerms.at(place)),
        Opening::Head(number, count) => (HeadOrEq::Head(Head { number, place }), count),
        Opening::Equality(2) => (HeadOrEq::Eq, 2),
        Opening::Equality(_) => return Err(Cause::EqualityCount.at(place)),
    };
    Ok(GenericAtom { span: Span(place), head, args: reader.several(count, term)? })
}

fn action(reader: &mut Reader) -> Result<Action, Refusal> {
    let (place, code) = reader.take(|word| match word {
        Word::Action(code @ LET..=CALL) => Some(code),
        _ => None,
    })?;
    let span = Span(place);
    Ok(match code {
        LET => Action::LetAtomTerm(span, target(reader)?, term(reader)?),
        SET => {
            let (head, args) = call(reader)?;
            Action::Set(span, head, args, term(reader)?)
        }
        DELETE => change(reader, span, Change::Delete)?,
        SUBSUME => change(reader, span, Change::Subsume)?,
        UNION => Action::Union(span, term(reader)?, term(reader)?),
        PANIC => Action::Panic(span, reader.literal()?.number().to_string()),
        _ => {
            let target = target(reader)?;
            let (head, args) = call(reader)?;
            Action::Let(span, target, head, args)
        }
    })
}

fn change(reader: &mut Reader, span: Span, change: Change) -> Result<Action, Refusal> {
    let (head, args) = call(reader)?;
    Ok(Action::Change(span, change, head, args))
}

fn call(reader: &mut Reader) -> Result<(Head, Vec<Term>), Refusal> {
    let (head, count) = reader.call()?;
    Ok((head, reader.several(count, term)?))
}

/// A variable, or a global's name.
fn target(reader: &mut Reader) -> Result<Leaf, Refusal> {
    let heads = reader.signature.heads();
    Ok(reader.take(|word| fit_leaf(word, heads))?.1)
}

/// A word that can stand as a term, before the signature tells variables from globals.
enum TermWord {
    Leaf(Leaf),
    Literal(Literal),
}

fn term(reader: &mut Reader) -> Result<Term, Refusal> {
    let heads = reader.signature.heads();
    let (place, word) = reader
        .take(|word| fit_leaf(word, heads).map(TermWord::Leaf).or_else(|| fit_literal(word).map(TermWord::Literal)))?;
    let span = Span(place);
    Ok(match word {
        TermWord::Literal(literal) => Term::Literal(span, literal),
        TermWord::Leaf(leaf @ Leaf::Name(name)) if reader.signature.type_info.names_global(name) => {
            Term::Global(span, leaf)
        }
        TermWord::Leaf(leaf) => Term::Var(span, leaf),
    })
}

/// The words of a rule whose equalities are gone.
pub(crate) fn settled_words(rule: &GenericCoreRule<Head, Head, Leaf>) -> Vec<u32> {
    words_of(rule, call_word)
}

/// The words of a rule that was not settled.
pub(crate) fn flat_words(rule: &FlatRule) -> Vec<u32> {
    words_of(rule, |head, count| match head {
        HeadOrEq::Head(head) => call_word(head, count),
        HeadOrEq::Eq => equality_word(count),
    })
}

fn words_of<H>(rule: &GenericCoreRule<H, Head, Leaf>, atom_word: impl Fn(&H, usize) -> u32) -> Vec<u32> {
    let atoms = &rule.body.atoms;
    let actions = &rule.head.0;
    let mut words = vec![header_word(atoms.len(), actions.len())];
    for atom in atoms {
        words.push(atom_word(&atom.head, atom.args.len()));
        words.extend(atom.args.iter().map(term_word));
    }
    for action in actions {
        words.extend(action_words(action));
    }
    words
}

fn action_words(action: &Action) -> Vec<u32> {
    match action {
        Action::LetAtomTerm(_, target, term) => vec![action_word(LET), leaf_word(target), term_word(term)],
        Action::Set(_, head, args, value) => {
            let mut words = call_words(vec![action_word(SET)], head, args);
            words.push(term_word(value));
            words
        }
        Action::Change(_, Change::Delete, head, args) => call_words(vec![action_word(DELETE)], head, args),
        Action::Change(_, Change::Subsume, head, args) => call_words(vec![action_word(SUBSUME)], head, args),
        Action::Union(_, left, right) => vec![action_word(UNION), term_word(left), term_word(right)],
        Action::Panic(_, message) => vec![action_word(PANIC), panic_word(message)],
        Action::Let(_, target, head, args) => call_words(vec![action_word(CALL), leaf_word(target)], head, args),
    }
}

fn call_words(mut words: Vec<u32>, head: &Head, args: &[Term]) -> Vec<u32> {
    words.push(call_word(head, args.len()));
    words.extend(args.iter().map(term_word));
    words
}

fn term_word(term: &Term) -> u32 {
    match term {
        Term::Var(_, leaf) | Term::Global(_, leaf) => leaf_word(leaf),
        Term::Literal(_, literal) => literal_word(literal),
    }
}

/// The readers above spell the literal's number as the message.
fn panic_word(message: &str) -> u32 {
    literal_word(&Literal::of(message.parse().expect("a panic's message is its literal's number")))
}

//! Reading a written rule (4, 5, 6).

use crate::reader::{Reader, fit_call, fit_literal, fit_name};
use crate::refusal::{Cause, Refusal};
use crate::signature::Signature;
use crate::stand_ins::ast::{
    Change, GenericAction, GenericActions, GenericExpr, GenericFact, GenericRule, Literal, Span,
};
use crate::stand_ins::numbers::{Head, Leaf};
use crate::words::{CALLS, DELETE, EXPRESSION, LET, PANIC, SET, SUBSUME, UNION, WRITTEN_WORDS, Word};

type Expr = GenericExpr<Head, Leaf>;

pub(crate) fn read(signature: &Signature, words: &[u32]) -> Result<GenericRule<Head, Leaf>, Refusal> {
    let mut reader = Reader::new(signature, words, WRITTEN_WORDS)?;
    let (facts, actions) = reader.header()?;
    let body = reader.several(facts, fact)?;
    let head = reader.several(actions, action)?;
    reader.end()?;
    Ok(GenericRule { span: Span(0), body, head: GenericActions(head) })
}

/// The first word of a fact: the equality sign, or an expression's.
enum Opening {
    Equality,
    Expression(ExprWord),
}

/// A word with which an expression begins.
enum ExprWord {
    Name(Leaf),
    Literal(Literal),
    Call(u16, u32),
}

fn fact(reader: &mut Reader) -> Result<GenericFact<Head, Leaf>, Refusal> {
    let heads = reader.signature.heads();
    let (place, opening) = reader.take(|word| match word {
        Word::Equality { count: 2 } => Some(Opening::Equality),
        _ => fit_expr(word, heads).map(Opening::Expression),
    })?;
    Ok(match opening {
        Opening::Equality => GenericFact::Eq(Span(place), expr(reader)?, expr(reader)?),
        Opening::Expression(word) => GenericFact::Fact(rest_of_expr(reader, place, word, 0)?),
    })
}

fn action(reader: &mut Reader) -> Result<GenericAction<Head, Leaf>, Refusal> {
    let (place, code) = reader.take(|word| match word {
        Word::Action(code @ (LET..=PANIC | EXPRESSION)) => Some(code),
        _ => None,
    })?;
    let span = Span(place);
    Ok(match code {
        LET => GenericAction::Let(span, reader.name()?, expr(reader)?),
        SET => {
            let (head, args) = call(reader)?;
            GenericAction::Set(span, head, args, expr(reader)?)
        }
        DELETE => change(reader, span, Change::Delete)?,
        SUBSUME => change(reader, span, Change::Subsume)?,
        UNION => GenericAction::Union(span, expr(reader)?, expr(reader)?),
        PANIC => GenericAction::Panic(span, reader.literal()?.number().to_string()),
        _ => GenericAction::Expr(span, expr(reader)?),
    })
}

fn change(reader: &mut Reader, span: Span, change: Change) -> Result<GenericAction<Head, Leaf>, Refusal> {
    let (head, args) = call(reader)?;
    Ok(GenericAction::Change(span, change, head, args))
}

/// The kind 3 word of set, delete and subsume is no call itself, so each argument may be as deep as an expression can be.
fn call(reader: &mut Reader) -> Result<(Head, Vec<Expr>), Refusal> {
    let (head, count) = reader.call()?;
    Ok((head, reader.several(count, expr)?))
}

fn expr(reader: &mut Reader) -> Result<Expr, Refusal> {
    expr_inside(reader, 0)
}

/// An expression that stands inside so many calls.
fn expr_inside(reader: &mut Reader, calls: usize) -> Result<Expr, Refusal> {
    let heads = reader.signature.heads();
    let (place, word) = reader.take(|word| fit_expr(word, heads))?;
    // After the word was found to fit: at one place, 5 comes before 6.
    if calls == CALLS {
        return Err(Cause::Depth.at(place));
    }
    rest_of_expr(reader, place, word, calls)
}

fn rest_of_expr(reader: &mut Reader, place: usize, word: ExprWord, calls: usize) -> Result<Expr, Refusal> {
    let span = Span(place);
    Ok(match word {
        ExprWord::Name(name) => Expr::Var(span, name),
        ExprWord::Literal(literal) => Expr::Lit(span, literal),
        ExprWord::Call(number, count) => {
            let args = reader.several(count, |reader| expr_inside(reader, calls + 1))?;
            Expr::Call(span, Head { number, place }, args)
        }
    })
}

fn fit_expr(word: Word, heads: usize) -> Option<ExprWord> {
    fit_name(word)
        .map(ExprWord::Name)
        .or_else(|| fit_literal(word).map(ExprWord::Literal))
        .or_else(|| fit_call(word, heads).map(|(head, count)| ExprWord::Call(head, count)))
}

//! Spans, literals, expressions, facts, actions and rules, in the shapes that the cut code takes apart and builds.

use std::num::NonZeroU16;

/// Index of the word in the record that a construct began with.
#[derive(Debug, Clone, PartialEq, Eq, Hash)]
pub(crate) struct Span(pub(crate) usize);

/// A literal's number. Number 0 is Unit and has no second spelling, so equal literals are equal numbers.
#[derive(Debug, Clone, PartialEq, Eq, Hash)]
pub(crate) enum Literal {
    Unit,
    Number(NonZeroU16),
}

impl Literal {
    pub(crate) fn of(number: u16) -> Literal {
        NonZeroU16::new(number).map_or(Literal::Unit, Literal::Number)
    }

    pub(crate) fn number(&self) -> u16 {
        match self {
            Literal::Unit => 0,
            Literal::Number(number) => number.get(),
        }
    }
}

#[derive(Debug, Clone, Copy, PartialEq, Eq, Hash)]
pub(crate) enum Change {
    Delete,
    Subsume,
}

#[derive(Debug, Clone)]
pub(crate) enum GenericExpr<Head, Leaf> {
    Var(Span, Leaf),
    Call(Span, Head, Vec<GenericExpr<Head, Leaf>>),
    Lit(Span, Literal),
}

#[derive(Debug, Clone)]
pub(crate) enum GenericFact<Head, Leaf> {
    Eq(Span, GenericExpr<Head, Leaf>, GenericExpr<Head, Leaf>),
    Fact(GenericExpr<Head, Leaf>),
}

#[derive(Debug, Clone)]
pub(crate) enum GenericAction<Head, Leaf> {
    Let(Span, Leaf, GenericExpr<Head, Leaf>),
    Set(Span, Head, Vec<GenericExpr<Head, Leaf>>, GenericExpr<Head, Leaf>),
    Change(Span, Change, Head, Vec<GenericExpr<Head, Leaf>>),
    Union(Span, GenericExpr<Head, Leaf>, GenericExpr<Head, Leaf>),
    /// The message, here the literal's number in decimal digits.
    Panic(Span, String),
    Expr(Span, GenericExpr<Head, Leaf>),
}

#[derive(Debug, Clone)]
pub(crate) struct GenericActions<Head, Leaf>(pub(crate) Vec<GenericAction<Head, Leaf>>);

#[derive(Debug, Clone)]
pub(crate) struct GenericRule<Head, Leaf> {
    pub(crate) span: Span,
    pub(crate) body: Vec<GenericFact<Head, Leaf>>,
    pub(crate) head: GenericActions<Head, Leaf>,
}

//! What the signature says about names and heads, and the two type errors of lowering.

use super::ast::Span;
use crate::refusal::{Cause, Refusal};

#[derive(Debug, Clone)]
pub(crate) struct TypeInfo {
    globals: u16,
    constructors: Vec<bool>,
}

impl TypeInfo {
    /// Names below `globals` are globals; `constructors` has an entry a head.
    pub(crate) fn new(globals: u16, constructors: Vec<bool>) -> TypeInfo {
        TypeInfo { globals, constructors }
    }

    /// How many heads there are.
    pub(crate) fn heads(&self) -> usize {
        self.constructors.len()
    }

    pub(crate) fn names_global(&self, name: u16) -> bool {
        name < self.globals
    }

    /// The source asks by spelling. Only a name is spelt as a number.
    pub(crate) fn is_global(&self, spelling: &str) -> bool {
        spelling.parse().is_ok_and(|name| self.names_global(name))
    }

    pub(crate) fn is_constructor(&self, head: u16) -> bool {
        self.constructors[usize::from(head)]
    }
}

/// The spelling comes first, then where it stands: for `Unbound` the name, for `AlreadyDefined` the action.
#[derive(Debug, Clone)]
#[expect(dead_code, reason = "the cut code gives the spelling; a refusal has no text to put it in")]
pub(crate) enum TypeError {
    Unbound(String, Span),
    AlreadyDefined(String, Span),
}

impl From<TypeError> for Refusal {
    fn from(error: TypeError) -> Refusal {
        match error {
            TypeError::Unbound(_, Span(place)) => Cause::Unbound.at(place),
            TypeError::AlreadyDefined(_, Span(place)) => Cause::AlreadyDefined.at(place),
        }
    }
}

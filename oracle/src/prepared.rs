//! The source's functions on rules that were decoded ahead of time, so that they can be timed alone: no record is read or
//! written here, and a generator goes on from rule to rule as the source's own does.

use crate::calls::ascending;
use crate::flat::{self, FlatRule};
use crate::refusal::Refusal;
use crate::signature::Signature;
use crate::source::core::GenericCoreRule;
use crate::source::util::HashSet;
use crate::stand_ins::ast::GenericRule;
use crate::stand_ins::numbers::{Head, Leaf, PairGen};
use crate::written;

/// A signature, decoded.
pub struct Decoded(Signature);

/// A written rule as the source's parser would hand it over.
pub struct Written(GenericRule<Head, Leaf>);

/// A flat rule before settling.
#[derive(Clone)]
pub struct Flat(FlatRule);

/// A rule after settling, in the source's own form.
pub struct Settled(GenericCoreRule<Head, Head, Leaf>);

/// The free variables of a head, in the source's own form.
pub struct FreeVars(HashSet<Leaf>);

/// The source's generator of fresh variables.
pub struct Generator(PairGen);

impl Decoded {
    pub fn new(signature: &[u32]) -> Result<Decoded, Refusal> {
        Signature::read(signature).map(Decoded)
    }

    pub fn written(&self, rule: &[u32]) -> Result<Written, Refusal> {
        written::read(&self.0, rule).map(Written)
    }

    pub fn flat(&self, rule: &[u32]) -> Result<Flat, Refusal> {
        flat::read(&self.0, rule).map(Flat)
    }

    /// With all counters at zero.
    pub fn generator(&self) -> Generator {
        Generator(PairGen::new(&vec![0; self.0.heads()]))
    }

    /// `to_canonicalized_core_rule` and nothing else. No counter may come to its end (9): nothing here would say so.
    pub fn lower(&self, rule: &Written, generator: &mut Generator) -> Result<Settled, Refusal> {
        let signature = &self.0;
        let lowered = rule.0.to_canonicalized_core_rule(
            &signature.type_info,
            &mut generator.0,
            signature.union_to_set,
            signature.value_eq(),
            |_| Ok(()),
        );
        Ok(Settled(lowered?))
    }

    /// `canonicalize` and `remove_dup_vars` and nothing else.
    pub fn settle(&self, rule: Flat) -> Settled {
        Settled(rule.0.canonicalize(self.0.value_eq()).remove_dup_vars(self.0.value_eq()))
    }
}

impl Flat {
    /// `get_free_vars` and nothing else.
    pub fn free_vars(&self) -> FreeVars {
        FreeVars(self.0.head.get_free_vars())
    }
}

impl Settled {
    pub fn words(&self) -> Vec<u32> {
        flat::settled_words(&self.0)
    }
}

impl FreeVars {
    /// Ascending.
    pub fn words(&self) -> Vec<u32> {
        ascending(&self.0)
    }
}

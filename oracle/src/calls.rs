//! The three calls over words, without what only byte slices have: ragged slices (14), scratch (3) and output (10).

use crate::flat::{self, FlatRule};
use crate::refusal::{Cause, Refusal};
use crate::signature::Signature;
use crate::source::core::{GenericCoreRule, GenericRuleExt};
use crate::source::util::HashSet;
use crate::stand_ins::collections::counting_maps;
use crate::stand_ins::numbers::{Head, Leaf, PairGen};
use crate::words::leaf_word;
use crate::written;

/// A rule after settling.
#[derive(Debug, Clone, PartialEq, Eq)]
pub struct Lowered {
    pub words: Vec<u32>,
    /// How many actions settling put before those that were there: it puts one there for each replacement.
    pub replacements: usize,
    /// How often `remove_dup_vars` ran, by the maps it made for its groups.
    pub passes: usize,
}

/// Lowers a written rule and settles it. The counters move only if the rule is accepted.
pub fn lower(signature: &[u32], rule: &[u32], counters: &mut [u32]) -> Result<Lowered, Refusal> {
    let signature = Signature::read(signature)?;
    signature.ask_counters(counters.len())?;
    let (lowered, after) = lowered(&signature, rule, counters)?;
    counters[..after.len()].copy_from_slice(&after);
    Ok(lowered)
}

/// Lowers a written rule and leaves it unsettled, equalities among its atoms; the counters stay.
pub fn to_core_rule(signature: &[u32], rule: &[u32], counters: &[u32]) -> Result<Vec<u32>, Refusal> {
    let signature = Signature::read(signature)?;
    signature.ask_counters(counters.len())?;
    let rule = written::read(&signature, rule)?;
    let mut generator = PairGen::new(&counters[..signature.heads()]);
    let flat = rule.to_core_rule(&signature.type_info, &mut generator, signature.union_to_set);
    generator.finish().map_err(|place| Cause::Exhausted.at(place))?;
    Ok(flat::flat_words(&flat?))
}

/// Settles a flat rule.
pub fn settle(signature: &[u32], rule: &[u32]) -> Result<Lowered, Refusal> {
    settled(&Signature::read(signature)?, rule)
}

/// The free variables of a flat rule's head, ascending.
pub fn free_vars(signature: &[u32], rule: &[u32]) -> Result<Vec<u32>, Refusal> {
    freed(&Signature::read(signature)?, rule)
}

/// The lowered rule, and the counters after it as far as there are heads.
pub(crate) fn lowered(signature: &Signature, rule: &[u32], counters: &[u32]) -> Result<(Lowered, Vec<u32>), Refusal> {
    let rule = written::read(signature, rule)?;
    let mut generator = PairGen::new(&counters[..signature.heads()]);
    let mut actions = 0;
    let (answer, passes) = counting_maps(|| {
        let see_flat = |flat: &FlatRule| {
            actions = flat.head.0.len();
            Ok(())
        };
        rule.to_canonicalized_core_rule(
            &signature.type_info,
            &mut generator,
            signature.union_to_set,
            signature.value_eq(),
            see_flat,
        )
    });
    // Before the type error: a counter found at its end was met first, see `PairGen`.
    let after = generator.finish().map_err(|place| Cause::Exhausted.at(place))?;
    Ok((counted(&answer?, actions, passes), after))
}

pub(crate) fn settled(signature: &Signature, rule: &[u32]) -> Result<Lowered, Refusal> {
    let flat = flat::read(signature, rule)?;
    let actions = flat.head.0.len();
    let (rule, passes) =
        counting_maps(|| flat.canonicalize(signature.value_eq()).remove_dup_vars(signature.value_eq()));
    Ok(counted(&rule, actions, passes))
}

pub(crate) fn freed(signature: &Signature, rule: &[u32]) -> Result<Vec<u32>, Refusal> {
    let flat = flat::read(signature, rule)?;
    Ok(ascending(&flat.head.get_free_vars()))
}

pub(crate) fn ascending(variables: &HashSet<Leaf>) -> Vec<u32> {
    let mut words: Vec<u32> = variables.iter().map(leaf_word).collect();
    words.sort_unstable();
    words
}

/// `actions` is how many there were before settling.
fn counted(rule: &GenericCoreRule<Head, Head, Leaf>, actions: usize, passes: usize) -> Lowered {
    Lowered { words: flat::settled_words(rule), replacements: rule.head.0.len() - actions, passes }
}

//! The source's own code, as build.rs cut it. Only the imports are ours: they lead the cut names to the stand-ins.

// The cuts take whole blocks, so a block may hold more than the oracle calls, and the crate's own lints are not the source's.
#![allow(dead_code, clippy::all)]

pub(crate) mod util {
    use crate::stand_ins::collections::{hashbrown, indexmap, rustc_hash};

    include!(concat!(env!("OUT_DIR"), "/util.rs"));
}

pub(crate) mod ast {
    use super::core::{GenericAtom, GenericAtomTerm, GenericExprExt, HeadOrEq, Query};
    use super::util::FreshGen;
    use crate::stand_ins::ast::{GenericActions, GenericExpr, GenericFact};
    use crate::stand_ins::typechecking::TypeInfo;
    use std::fmt::{Display, Formatter};
    use std::hash::Hash;

    include!(concat!(env!("OUT_DIR"), "/ast.rs"));
}

pub(crate) mod core {
    use super::ast::{CorrespondingVar, Facts, MappedActions, MappedExpr, MappedExprExt};
    use super::util::{FreshGen, HashMap, HashSet, IndexMap, IndexSet};
    use crate::stand_ins::ast::{Change, GenericAction, GenericActions, GenericExpr, GenericRule, Literal, Span};
    use crate::stand_ins::typechecking::{TypeError, TypeInfo};
    use std::fmt::{Debug, Display};
    use std::hash::{Hash, Hasher};
    use std::marker::PhantomData;

    include!(concat!(env!("OUT_DIR"), "/core.rs"));
}

pub(crate) mod chain {
    use super::core::{GenericAtomTerm, GenericCoreRule, GenericRuleExt, HeadOrEq};
    use super::util::FreshGen;
    use crate::stand_ins::ast::GenericRule;
    use crate::stand_ins::numbers::{Head, Leaf};
    use crate::stand_ins::typechecking::{TypeError, TypeInfo};

    impl GenericRule<Head, Leaf> {
        /// The source's chain, its last two names handed in: it makes `value_eq` from its own type information, and its
        /// `grounded_check` is no part of the reference. What stands in for that check sees the flat rule between
        /// lowering and settling.
        pub(crate) fn to_canonicalized_core_rule(
            &self,
            typeinfo: &TypeInfo,
            fresh_gen: &mut impl FreshGen<Head, Leaf>,
            union_to_set_optimization: bool,
            value_eq: impl Fn(&GenericAtomTerm<Leaf>, &GenericAtomTerm<Leaf>) -> Head,
            grounded_check: impl FnOnce(&GenericCoreRule<HeadOrEq<Head>, Head, Leaf>) -> Result<(), TypeError>,
        ) -> Result<GenericCoreRule<Head, Head, Leaf>, TypeError> {
            include!(concat!(env!("OUT_DIR"), "/chain.rs"))
        }
    }
}

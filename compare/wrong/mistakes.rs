//! Document 01's three mistakes of drafts, as edits of the source.

use super::cutter::Edit;

/// The file that the edits below are of.
pub const CORE_FILE: &str = "src/core.rs";

/// The edits that the wrong copy of this name is made by.
pub fn named(name: &str) -> &'static [Edit] {
    match name {
        "replaces_in_actions" => REPLACES_IN_ACTIONS,
        "body_counts_after_arguments" => BODY_COUNTS_AFTER_ARGUMENTS,
        "equalities_behind" => EQUALITIES_BEHIND,
        _ => panic!("no mistake is called {name}"),
    }
}

/// `subst` of actions puts the binding before them and leaves them as they are. Here it goes into them, too.
const REPLACES_IN_ACTIONS: &[Edit] = &[Edit {
    line: 523,
    from: "let existing_actions = std::mem::take(&mut self.0);",
    to: "let mut existing_actions = std::mem::take(&mut self.0);
        let replace = |term: &mut GenericAtomTerm<Leaf>| {
            if let GenericAtomTerm::Var(_, variable) = term {
                if let Some(other) = subst.get(variable) {
                    *term = other.clone();
                }
            }
        };
        for action in &mut existing_actions {
            match action {
                GenericCoreAction::Let(_, _, _, terms) | GenericCoreAction::Change(_, _, _, terms) => {
                    terms.iter_mut().for_each(replace);
                }
                GenericCoreAction::LetAtomTerm(_, _, term) => replace(term),
                GenericCoreAction::Set(_, _, terms, value) => terms.iter_mut().chain([value]).for_each(replace),
                GenericCoreAction::Union(_, left, right) => [left, right].into_iter().for_each(replace),
                GenericCoreAction::Panic(..) => (),
            }
        }",
}];

/// `to_query` of a call takes the fresh variable first. Here it takes it when the arguments are walked.
const BODY_COUNTS_AFTER_ARGUMENTS: &[Edit] = &[
    Edit { line: 823, from: "let fresh = fresh_gen.fresh(f);", to: "" },
    Edit { line: 834, from: "let args = {", to: "let fresh = fresh_gen.fresh(f);\nlet args = {" },
];

/// `remove_dup_vars` puts the equalities that it found before the atoms. Here they go behind them.
///
/// There, a value-eq atom that settling adds may come behind one that a user wrote, and bring on the same equality in
/// every pass. So the passes are counted, in the rule's span, which nothing else asks, and the copy gives up after more
/// than any rule has.
const EQUALITIES_BEHIND: &[Edit] = &[
    Edit { line: 1064, from: "new_atoms.is_empty()", to: "new_atoms.is_empty() || self.span.0 > 1_025" },
    Edit { line: 1067, from: "let atoms:", to: "let found = new_atoms.len();\nlet mut atoms:" },
    Edit { line: 1074, from: ".collect();", to: ".collect();\natoms.rotate_left(found);" },
    Edit { line: 1077, from: "span: self.span,", to: "span: Span(self.span.0 + 1)," },
];

//! Which lines of egglog 3.0.0 the oracle runs, and the three lines that are edited.

use super::cutter::{Cut, Edit, Form, Module};
use std::ffi::OsString;
use std::path::{Path, PathBuf};

/// Names the folder that holds src/core.rs and the other files; a relative path is read from the repository's root, which
/// is the folder above the oracle's. The gate reads it so too.
pub const SOURCE_VARIABLE: &str = "TULGARENT_SOURCE";

const DEFAULT_SOURCE: &str = "../shared/docs/src";

pub fn source_folder(named: Option<OsString>, oracle: &Path) -> PathBuf {
    oracle.join("..").join(named.unwrap_or_else(|| DEFAULT_SOURCE.into()))
}

/// The files that src/source.rs includes.
pub const MODULES: &[Module] = &[
    Module { name: "util.rs", form: Form::Items, cuts: UTIL },
    Module { name: "ast.rs", form: Form::Items, cuts: AST },
    Module { name: "core.rs", form: Form::Items, cuts: CORE },
    Module { name: "chain.rs", form: Form::Block, cuts: CHAIN },
];

/// The hashed collections under their aliases, and the trait of the fresh names. Line 6 is left out: it names a type that
/// std has with other parameters, and nothing here uses it.
const UTIL: &[Cut] = &[
    verbatim("src/util.rs", 3, 5, "pub(crate) type BuildHasher", "BuildHasher>;", 0x3384_0412_ae3a_081b),
    verbatim("src/util.rs", 7, 8, "pub type IndexMap", "BuildHasher>;", 0x3af4_c215_1e05_5945),
    verbatim("src/util.rs", 55, 58, "///", "}", 0x9aa1_e951_a840_60cd),
];

/// The mapped expression; then facts with their `to_query`, what the mapped forms need, and how a mapped expression gives
/// its term.
const AST: &[Cut] = &[
    verbatim("src/ast/expr.rs", 49, 53, "///", "Leaf>;", 0x58e1_bac7_ca47_043a),
    verbatim("src/ast/mod.rs", 1460, 1542, "pub(crate) type MappedFact", "}", 0x0fce_7374_3374_1dc4),
    verbatim("src/ast/mod.rs", 1549, 1549, "pub(crate) type MappedActions", "Leaf>;", 0x175d_f1db_c0c7_b8da),
    verbatim("src/ast/mod.rs", 1628, 1657, "pub(crate) trait MappedExprExt", "}", 0x928c_cb78_0d88_ea54),
];

/// Terms, atoms, queries, core actions and rules with their functions. What is left out between the cuts is resolved
/// calls, spellings, type constraints, and what makes expressions of terms.
const CORE: &[Cut] = &[
    verbatim("src/core.rs", 23, 27, "#[derive(", "}", 0xd4b4_5f98_3b17_ec85),
    verbatim("src/core.rs", 37, 41, "impl<Head> HeadOrEq", "}", 0xb37b_ea39_e9a3_fad6),
    verbatim("src/core.rs", 217, 224, "///", "}", 0x68b9_6bfa_cc63_b8fd),
    verbatim("src/core.rs", 241, 276, "#[derive(", "}", 0x1c28_146c_e844_2847),
    verbatim("src/core.rs", 281, 289, "impl<Leaf> GenericAtomTerm", "}", 0x5a9e_a1ab_6d1b_69dd),
    verbatim("src/core.rs", 321, 326, "#[derive(", "}", 0x61b3_0daa_7fcf_ce3b),
    verbatim("src/core.rs", 336, 362, "impl<Head, Leaf> GenericAtom<", "}", 0x9d33_4f4c_4071_096b),
    verbatim("src/core.rs", 377, 388, "#[derive(", "}", 0xe4e1_e5e5_b60f_0c99),
    verbatim("src/core.rs", 411, 422, "impl<Head, Leaf> Query<", "}", 0x8ddc_0b54_c49a_7c73),
    verbatim("src/core.rs", 484, 497, "#[derive(", "}", 0x0ead_f1ea_efd6_cd15),
    verbatim("src/core.rs", 501, 502, "#[derive(", ");", 0xbb7e_6351_99eb_c725),
    verbatim("src/core.rs", 505, 909, "impl<Head, Leaf> Default for GenericCoreActions", "}", 0xc809_d10f_0f6f_c221),
    verbatim("src/core.rs", 913, 1008, "impl<Head1, Head2, Leaf> GenericCoreRule", "}", 0x5999_c533_0782_e329),
    Cut {
        file: "src/core.rs",
        first: 1010,
        last: 1085,
        opens: "fn equiv_groups_to_eq_constraints",
        closes: "}",
        checksum: 0xc709_71e8_cd67_9056,
        edits: GROUPS_IN_ORDER,
    },
    verbatim("src/core.rs", 1087, 1125, "pub(crate) trait GenericRuleExt", "}", 0x3a18_239e_b6c0_67db),
];

/// The groups of a merge pass follow their first atoms: their map becomes the insertion-ordered one of util.rs. All that
/// is edited.
const GROUPS_IN_ORDER: &[Edit] = &[
    Edit { line: 1011, from: "HashMap", to: "IndexMap" },
    Edit { line: 1050, from: "HashMap", to: "IndexMap" },
    Edit { line: 1051, from: "HashMap", to: "IndexMap" },
];

/// What `to_canonicalized_core_rule` does once it has its value-eq.
const CHAIN: &[Cut] =
    &[verbatim("src/core.rs", 1152, 1163, "let rule = self.to_core_rule", "Ok(rule)", 0x0db0_1dab_e23d_63b0)];

const fn verbatim(
    file: &'static str,
    first: usize,
    last: usize,
    opens: &'static str,
    closes: &'static str,
    checksum: u64,
) -> Cut {
    Cut { file, first, last, opens, closes, checksum, edits: &[] }
}

//! Cuts the source as the oracle does, with one mistake put in: the package's name says which.
//!
//! A wrong copy is the oracle's own files over that cut, so it differs from the oracle in the mistake and in nothing else.

#[path = "../../oracle/cut/cutter.rs"]
mod cutter;
mod mistakes;
#[path = "../../oracle/cut/plan.rs"]
mod plan;

use cutter::{Cut, Edit, Module};
use mistakes::CORE_FILE;
use std::env;
use std::path::{Path, PathBuf};
use std::process::ExitCode;

/// From a wrong copy's folder.
const ORACLE: &str = "../../../oracle";

fn main() -> ExitCode {
    let oracle = folder("CARGO_MANIFEST_DIR").join(ORACLE);
    let source = plan::source_folder(env::var_os(plan::SOURCE_VARIABLE), &oracle);
    say_what_to_watch(&oracle, &source);
    let name = env::var("CARGO_PKG_NAME").expect("cargo sets CARGO_PKG_NAME");
    let modules: Vec<Module> =
        plan::MODULES.iter().map(|module| with_mistake(module, mistakes::named(&name))).collect();
    match cutter::cut_all(&modules, &source, &folder("OUT_DIR")) {
        Ok(()) => ExitCode::SUCCESS,
        Err(misfit) => {
            eprintln!("{misfit}");
            eprintln!("in {}; {} may name another folder", source.display(), plan::SOURCE_VARIABLE);
            ExitCode::FAILURE
        }
    }
}

/// Cargo sets these for every build script.
fn folder(variable: &str) -> PathBuf {
    env::var_os(variable).map(PathBuf::from).unwrap_or_else(|| panic!("cargo sets {variable}"))
}

fn say_what_to_watch(oracle: &Path, source: &Path) {
    println!("cargo:rerun-if-env-changed={}", plan::SOURCE_VARIABLE);
    for ours in ["../build.rs", "../mistakes.rs"] {
        println!("cargo:rerun-if-changed={ours}");
    }
    for cutting in ["cut/cutter.rs", "cut/plan.rs"] {
        println!("cargo:rerun-if-changed={}", oracle.join(cutting).display());
    }
    for file in cutter::files(plan::MODULES) {
        println!("cargo:rerun-if-changed={}", source.join(file).display());
    }
}

fn with_mistake(module: &Module, mistake: &[Edit]) -> Module {
    let cuts: Vec<Cut> = module.cuts.iter().map(|cut| Cut { edits: edits_with(cut, mistake), ..*cut }).collect();
    // The plan's lists live as long as the program; so may these, in a program as short as this.
    Module { cuts: cuts.leak(), ..*module }
}

/// The cut's own edits, and those of the mistake whose lines it has.
fn edits_with(cut: &Cut, mistake: &[Edit]) -> &'static [Edit] {
    let ours = mistake.iter().filter(|edit| cut.file == CORE_FILE && (cut.first..=cut.last).contains(&edit.line));
    cut.edits.iter().chain(ours).map(|edit| Edit { ..*edit }).collect::<Vec<_>>().leak()
}

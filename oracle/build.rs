//! Cuts the source's functions into OUT_DIR before the crate is compiled. Nothing is fetched: the source's files must be
//! at hand, in the folder that TULGARENT_SOURCE names or in the default one.

#[path = "cut/cutter.rs"]
mod cutter;
#[path = "cut/plan.rs"]
mod plan;

use std::env;
use std::path::{Path, PathBuf};
use std::process::ExitCode;

fn main() -> ExitCode {
    let source = plan::source_folder(env::var_os(plan::SOURCE_VARIABLE), &folder("CARGO_MANIFEST_DIR"));
    say_what_to_watch(&source);
    match cutter::cut_all(plan::MODULES, &source, &folder("OUT_DIR")) {
        Ok(()) => ExitCode::SUCCESS,
        Err(misfit) => {
            eprintln!("{misfit}");
            eprintln!(
                "in {}; {} may name the folder with src/core.rs of egglog 3.0.0",
                source.display(),
                plan::SOURCE_VARIABLE
            );
            ExitCode::FAILURE
        }
    }
}

/// Cargo sets these two for every build script.
fn folder(variable: &str) -> PathBuf {
    env::var_os(variable).map(PathBuf::from).unwrap_or_else(|| panic!("cargo sets {variable}"))
}

fn say_what_to_watch(source: &Path) {
    println!("cargo:rerun-if-env-changed={}", plan::SOURCE_VARIABLE);
    for ours in ["build.rs", "cut/cutter.rs", "cut/plan.rs"] {
        println!("cargo:rerun-if-changed={ours}");
    }
    for file in cutter::files(plan::MODULES) {
        println!("cargo:rerun-if-changed={}", source.join(file).display());
    }
}

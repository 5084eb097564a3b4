//! The cutter takes the source as it is, edits three lines of it, and stops where the source is another.

#[path = "../cut/cutter.rs"]
mod cutter;
#[path = "../cut/plan.rs"]
mod plan;

use std::fs;
use std::path::{Path, PathBuf};

fn source() -> PathBuf {
    plan::source_folder(std::env::var_os(plan::SOURCE_VARIABLE), Path::new(env!("CARGO_MANIFEST_DIR")))
}

/// An empty folder for one test.
fn fresh_folder(name: &str) -> PathBuf {
    let folder = Path::new(env!("CARGO_TARGET_TMPDIR")).join(name);
    if folder.exists() {
        fs::remove_dir_all(&folder).expect("an old folder goes");
    }
    fs::create_dir_all(&folder).expect("a new folder comes");
    folder
}

/// A copy of the files that are cut, one of them changed.
fn changed_copy(name: &str, file: &str, change: impl FnOnce(&mut Vec<String>)) -> PathBuf {
    let folder = fresh_folder(name);
    for path in cutter::files(plan::MODULES) {
        let to = folder.join(path);
        fs::create_dir_all(to.parent().expect("a file in a folder")).expect("its folder");
        fs::copy(source().join(path), to).expect("a copy");
    }
    let path = folder.join(file);
    let mut lines: Vec<String> = fs::read_to_string(&path).expect("the copy").lines().map(String::from).collect();
    change(&mut lines);
    fs::write(&path, lines.join("\n") + "\n").expect("the changed copy");
    folder
}

/// What the cutter says about a source so changed.
fn refusal(name: &str, file: &str, change: impl FnOnce(&mut Vec<String>)) -> String {
    let folder = changed_copy(name, file, change);
    let out = fresh_folder(&format!("{name}-out"));
    let misfit = cutter::cut_all(plan::MODULES, &folder, &out).expect_err("a changed source is not cut");
    misfit.to_string()
}

#[test]
fn an_unchanged_copy_is_cut() {
    let folder = changed_copy("unchanged", "src/core.rs", |_| ());
    let out = fresh_folder("unchanged-out");
    cutter::cut_all(plan::MODULES, &folder, &out).expect("the source as it is");
    for module in plan::MODULES {
        assert!(out.join(module.name).exists());
    }
}

#[test]
fn three_lines_are_edited_by_a_word_each() {
    let out = fresh_folder("edited-out");
    cutter::cut_all(plan::MODULES, &source(), &out).expect("the source as it is");
    let cut = fs::read_to_string(out.join("core.rs")).expect("the cut");
    let core = fs::read_to_string(source().join("src/core.rs")).expect("the source");
    let unknown: Vec<&str> = cut.lines().filter(|line| !core.lines().any(|known| known == *line)).collect();
    assert_eq!(unknown.len(), 3);
    for line in unknown {
        assert_eq!(line.matches("IndexMap").count(), 1);
        assert!(core.lines().any(|known| known == line.replace("IndexMap", "HashMap")));
    }
}

#[test]
fn a_changed_first_line_is_named() {
    let message = refusal("first", "src/core.rs", |lines| lines[1_087 - 1] = "pub trait Other {".into());
    assert!(message.starts_with("src/core.rs:1087: "), "{message}");
}

#[test]
fn a_changed_last_line_is_named() {
    let message = refusal("last", "src/util.rs", |lines| lines[58 - 1] = "    // not the end".into());
    assert!(message.starts_with("src/util.rs:58: "), "{message}");
}

#[test]
fn a_changed_line_to_edit_is_named() {
    let message = refusal("edit", "src/core.rs", |lines| lines[1_050 - 1] = "        let mut groups =".into());
    assert!(message.starts_with("src/core.rs:1050: "), "{message}");
}

#[test]
fn any_other_changed_line_is_found_in_its_cut() {
    let message = refusal("inner", "src/core.rs", |lines| {
        let line = &mut lines[1_021 - 1];
        *line = line.replace("1..", "0..");
    });
    assert!(message.starts_with("src/core.rs:1010: lines 1010 to 1085 "), "{message}");
    let message = refusal("moved", "src/ast/mod.rs", |lines| lines.insert(1_500, String::new()));
    assert!(message.starts_with("src/ast/mod.rs:"), "{message}");
}

#[test]
fn a_file_that_ends_early_or_is_missing_is_named() {
    let message = refusal("short", "src/core.rs", |lines| lines.truncate(100));
    assert!(message.starts_with("src/core.rs:100: "), "{message}");
    let folder = fresh_folder("missing");
    let misfit = cutter::cut_all(plan::MODULES, &folder, &folder).expect_err("nothing to cut");
    assert!(misfit.to_string().contains("util.rs"), "{misfit}");
}

#[test]
fn lines_outside_the_cuts_may_change() {
    let folder = changed_copy("outside", "src/core.rs", |lines| lines[0] = "//! Another first line.".into());
    let out = fresh_folder("outside-out");
    cutter::cut_all(plan::MODULES, &folder, &out).expect("no cut has this line");
}

#[test]
fn the_folder_is_the_named_one_or_the_default() {
    let oracle = Path::new("/r/oracle");
    assert_eq!(plan::source_folder(None, oracle), Path::new("/r/oracle/../../shared/docs/src"));
    assert_eq!(plan::source_folder(Some("/s".into()), oracle), Path::new("/s"));
    assert_eq!(plan::source_folder(Some("s".into()), oracle), Path::new("/r/oracle/../s"));
}

//! Cuts runs of lines out of files, and refuses where a file is not what the plan expects.
//!
//! A cut is known by its first and last line, by a checksum over all its lines, and by the words that its edits replace.
//! So a source of another version, or a changed one, stops the build instead of becoming another oracle.

use std::collections::BTreeSet;
use std::fmt;
use std::fs;
use std::io;
use std::path::{Path, PathBuf};

/// A file that the crate includes, made of cuts in their order.
pub struct Module {
    pub name: &'static str,
    pub form: Form,
    pub cuts: &'static [Cut],
}

/// What the cut lines are where they are included.
#[derive(Clone, Copy, PartialEq, Eq)]
pub enum Form {
    Items,
    /// Statements of a function: put between braces, since only one expression can be included.
    Block,
}

/// Lines `first` to `last` of a file, counted from 1, both included.
pub struct Cut {
    /// Path below the source folder.
    pub file: &'static str,
    pub first: usize,
    pub last: usize,
    /// How the first line begins, indentation aside.
    pub opens: &'static str,
    /// How the last line ends.
    pub closes: &'static str,
    /// FNV-1a (64 bits) of the lines, each with a line feed.
    pub checksum: u64,
    pub edits: &'static [Edit],
}

/// On this line `from` stands exactly once and is replaced by `to`.
pub struct Edit {
    pub line: usize,
    pub from: &'static str,
    pub to: &'static str,
}

/// Why nothing was cut.
#[derive(Debug)]
pub enum Misfit {
    File { path: PathBuf, error: io::Error },
    Line { file: &'static str, line: usize, reason: String },
    Lines { file: &'static str, first: usize, last: usize, expected: u64, found: u64 },
}

impl fmt::Display for Misfit {
    fn fmt(&self, f: &mut fmt::Formatter<'_>) -> fmt::Result {
        match self {
            Misfit::File { path, error } => write!(f, "{}: {error}", path.display()),
            Misfit::Line { file, line, reason } => write!(f, "{file}:{line}: {reason}"),
            Misfit::Lines { file, first, last, expected, found } => write!(
                f,
                "{file}:{first}: lines {first} to {last} are not those expected (checksum {found:#018x}, expected {expected:#018x})"
            ),
        }
    }
}

/// Writes every module into `out`, or leaves at the first misfit.
pub fn cut_all(modules: &[Module], source: &Path, out: &Path) -> Result<(), Misfit> {
    for module in modules {
        let path = out.join(module.name);
        let text = module_text(module, source)?;
        fs::write(&path, text).map_err(|error| Misfit::File { path, error })?;
    }
    Ok(())
}

/// The files that the modules are cut from, each once.
pub fn files(modules: &[Module]) -> BTreeSet<&'static str> {
    modules.iter().flat_map(|module| module.cuts).map(|cut| cut.file).collect()
}

fn module_text(module: &Module, source: &Path) -> Result<String, Misfit> {
    let mut text = String::new();
    for cut in module.cuts {
        text.push_str(&cut_text(cut, &read(&source.join(cut.file))?)?);
        text.push('\n');
    }
    Ok(match module.form {
        Form::Items => text,
        Form::Block => format!("{{\n{text}}}\n"),
    })
}

fn read(path: &Path) -> Result<String, Misfit> {
    fs::read_to_string(path).map_err(|error| Misfit::File { path: path.to_owned(), error })
}

/// The lines of one cut after every test, edits made.
fn cut_text(cut: &Cut, file: &str) -> Result<String, Misfit> {
    let lines = lines_of(cut, file)?;
    check_ends(cut, &lines)?;
    let mut edited: Vec<String> = lines.iter().map(|line| line.to_string()).collect();
    for edit in cut.edits {
        let line = &mut edited[edit.line - cut.first];
        check_edit(cut, edit, line)?;
        *line = line.replace(edit.from, edit.to);
    }
    // Last, so that a misfit that can name its line does.
    check_all(cut, &lines)?;
    Ok(edited.iter().map(|line| format!("{line}\n")).collect())
}

fn lines_of<'a>(cut: &Cut, file: &'a str) -> Result<Vec<&'a str>, Misfit> {
    let all: Vec<&str> = file.lines().collect();
    match all.get(cut.first - 1..cut.last) {
        Some(lines) => Ok(lines.to_vec()),
        None => Err(misfit(cut, all.len(), format!("the file ends here, before line {}", cut.last))),
    }
}

fn check_ends(cut: &Cut, lines: &[&str]) -> Result<(), Misfit> {
    if !lines[0].trim_start().starts_with(cut.opens) {
        Err(misfit(cut, cut.first, format!("expected a line that begins with `{}`", cut.opens)))
    } else if !lines[lines.len() - 1].ends_with(cut.closes) {
        Err(misfit(cut, cut.last, format!("expected a line that ends with `{}`", cut.closes)))
    } else {
        Ok(())
    }
}

fn check_edit(cut: &Cut, edit: &Edit, line: &str) -> Result<(), Misfit> {
    match line.matches(edit.from).count() {
        1 => Ok(()),
        n => Err(misfit(cut, edit.line, format!("expected `{}` once to edit it, found it {n} times", edit.from))),
    }
}

fn check_all(cut: &Cut, lines: &[&str]) -> Result<(), Misfit> {
    let found = checksum(lines);
    if found == cut.checksum {
        return Ok(());
    }
    Err(Misfit::Lines { file: cut.file, first: cut.first, last: cut.last, expected: cut.checksum, found })
}

fn misfit(cut: &Cut, line: usize, reason: String) -> Misfit {
    Misfit::Line { file: cut.file, line, reason }
}

/// FNV-1a over the lines, each ended by a line feed whatever ended it in the file.
fn checksum(lines: &[&str]) -> u64 {
    let bytes = lines.iter().flat_map(|line| line.bytes().chain(Some(b'\n')));
    bytes.fold(0xcbf2_9ce4_8422_2325, |sum, byte| (sum ^ u64::from(byte)).wrapping_mul(0x0000_0100_0000_01b3))
}

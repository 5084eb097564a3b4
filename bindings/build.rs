//! Finds the archive, looks at what it was compiled for, and has it linked. Nothing is built or fetched here: the archive
//! is proved and compiled by `rt`.

use std::path::{Path, PathBuf};
use std::process::ExitCode;
use std::{env, fs};

/// Names the folder that holds the archive; a relative path is read from this crate's folder.
const ARCHIVE_VARIABLE: &str = "TULGARENT_ARCHIVE";
/// Where `tools/build.sh` puts it.
const DEFAULT_FOLDER: &str = "../target/staticlib";
const ARCHIVE: &str = "libtulgarent.a";

fn main() -> ExitCode {
    println!("cargo::rerun-if-env-changed={ARCHIVE_VARIABLE}");
    match link() {
        Ok(()) => ExitCode::SUCCESS,
        Err(message) => {
            message.lines().for_each(|line| println!("cargo::error={line}"));
            ExitCode::FAILURE
        }
    }
}

fn link() -> Result<(), String> {
    let folder = archive_folder();
    let archive = folder.join(ARCHIVE);
    println!("cargo::rerun-if-changed={}", archive.display());
    let bytes = fs::read(&archive).map_err(|error| how_to_make(&archive, &error.to_string()))?;
    let build = Build::of_cargo();
    fits(&bytes, &build)
        .map_err(|held| format!("{} {held}, and this build is for {}", archive.display(), build.target))?;
    println!("cargo::rustc-link-search=native={}", folder.display());
    println!("cargo::rustc-link-lib=static=tulgarent");
    // For crates that link C with it: their build scripts find it as DEP_TULGARENT_ARCHIVE.
    println!("cargo::metadata=archive={}", archive.display());
    // For this crate's own test that does so.
    println!("cargo::rustc-env=TULGARENT_ARCHIVE_FILE={}", archive.display());
    Ok(())
}

fn archive_folder() -> PathBuf {
    let folder = env::var_os(ARCHIVE_VARIABLE).unwrap_or_else(|| DEFAULT_FOLDER.into());
    // Cargo runs this in the crate's folder and says which that is; without cargo, it is the folder at hand.
    Path::new(&env::var_os("CARGO_MANIFEST_DIR").unwrap_or_default()).join(folder)
}

fn how_to_make(archive: &Path, error: &str) -> String {
    format!(
        "{} can't be read: {error}\nmake it with `tools/build.sh archive` at the repository's root,\n\
         or let {ARCHIVE_VARIABLE} name the folder that holds {ARCHIVE}",
        archive.display()
    )
}

/// What this build is for, as cargo says it.
pub struct Build {
    /// The whole name, for the message.
    pub target: String,
    pub machine: String,
    pub system: String,
    pub pointer_width: String,
}

impl Build {
    fn of_cargo() -> Build {
        let said = |name| env::var(name).unwrap_or_default();
        Build {
            target: said("TARGET"),
            machine: said("CARGO_CFG_TARGET_ARCH"),
            system: said("CARGO_CFG_TARGET_OS"),
            pointer_width: said("CARGO_CFG_TARGET_POINTER_WIDTH"),
        }
    }
}

/// Whether the archive can be linked into this build, and if not, what it holds.
pub fn fits(archive: &[u8], build: &Build) -> Result<(), String> {
    let Some(object) = members(archive).find(|member| member.starts_with(b"\x7fELF")) else {
        return Err("is no archive of ELF objects".into());
    };
    let machine = machine(object)?;
    // Rust has targets of the same machine with pointers of 32 bits, and others that have no system at all.
    if machine == build.machine && build.system == "linux" && build.pointer_width == "64" {
        return Ok(());
    }
    Err(format!("holds code for {machine} Linux with pointers of 64 bits"))
}

/// The machine of an object, by the name that cargo has for it. Lengths go over as 64 bits, so only such machines count.
fn machine(object: &[u8]) -> Result<&'static str, String> {
    // After the mark come the class (2 for 64 bits) and the order of bytes (1 for lowest first); the machine is at 18.
    if object.get(4..6) != Some(&[2, 1]) {
        return Err("holds code for a machine that is not 64 bits, lowest byte first".into());
    }
    match object.get(18..20) {
        Some([62, 0]) => Ok("x86_64"),
        Some([183, 0]) => Ok("aarch64"),
        Some([243, 0]) => Ok("riscv64"),
        _ => Err("holds code for a machine that this crate does not know".into()),
    }
}

/// The files in an archive: each behind a header of 60 bytes, its length in decimal at 48, at an even place.
fn members(archive: &[u8]) -> impl Iterator<Item = &[u8]> {
    let mut rest = archive.strip_prefix(b"!<arch>\n").unwrap_or_default();
    std::iter::from_fn(move || {
        let (header, from) = rest.split_at_checked(60)?;
        let length: usize = std::str::from_utf8(header.get(48..58)?).ok()?.trim_end().parse().ok()?;
        let member = from.get(..length)?;
        rest = from.get(length.next_multiple_of(2)..).unwrap_or_default();
        Some(member)
    })
}

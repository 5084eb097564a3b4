//! The build script tells an archive that fits from one that does not, and says why.

#[allow(dead_code)]
#[path = "../build.rs"]
mod build_script;

use build_script::{Build, fits};

const LINUX: [&str; 3] = ["x86_64", "linux", "64"];

fn build([machine, system, pointer_width]: [&str; 3]) -> Build {
    let owned = String::from;
    Build { target: owned("test"), machine: owned(machine), system: owned(system), pointer_width: owned(pointer_width) }
}

fn shipped() -> Vec<u8> {
    std::fs::read(env!("TULGARENT_ARCHIVE_FILE")).expect("the archive that this test is linked with is there")
}

/// An archive of a symbol table of odd length and an object with this class, order of bytes and machine.
fn archive(class: u8, order: u8, machine: u16) -> Vec<u8> {
    let member = |name: &str, bytes: &[u8]| {
        let padding = if bytes.len() % 2 == 1 { "\n" } else { "" };
        let header = format!("{name:<16}{:<12}{:<6}{:<6}{:<8}{:<10}`\n", 0, 0, 0, 644, bytes.len());
        [header.as_bytes(), bytes, padding.as_bytes()].concat()
    };
    let mut object = [b"\x7fELF".as_slice(), &[class, order], &[0; 58]].concat();
    object[18..20].copy_from_slice(&machine.to_le_bytes());
    [b"!<arch>\n".to_vec(), member("/", b"odd"), member("some.o/", &object)].concat()
}

fn says(archive: &[u8], target: [&str; 3], part: &str) {
    let why = fits(archive, &build(target)).expect_err("it does not fit");
    assert!(why.contains(part), "{why}");
}

#[test]
fn the_archive_of_this_build_fits() {
    assert_eq!(fits(&shipped(), &build(LINUX)), Ok(()));
    assert_eq!(fits(&archive(2, 1, 62), &build(LINUX)), Ok(()));
    assert_eq!(fits(&archive(2, 1, 183), &build(["aarch64", "linux", "64"])), Ok(()));
}

#[test]
fn other_targets_are_told_what_it_is_for() {
    let shipped = shipped();
    for target in
        [["aarch64", "linux", "64"], ["x86_64", "windows", "64"], ["x86_64", "none", "64"], ["x86_64", "linux", "32"]]
    {
        says(&shipped, target, "holds code for x86_64 Linux with pointers of 64 bits");
    }
    says(&archive(2, 1, 183), LINUX, "holds code for aarch64 Linux with pointers of 64 bits");
}

#[test]
fn other_objects_are_told_apart() {
    says(&archive(2, 1, 22), LINUX, "a machine that this crate does not know");
    says(&archive(1, 1, 62), LINUX, "not 64 bits, lowest byte first");
    says(&archive(2, 2, 62), LINUX, "not 64 bits, lowest byte first");
}

/// Whatever the file holds, there is an answer and no panic.
#[test]
fn what_is_no_archive_is_told_apart() {
    for bytes in [b"".as_slice(), b"!<arch>\n", b"!<thin>\n/", b"\x7fELF", &[0xff; 200]] {
        says(bytes, LINUX, "no archive of ELF objects");
    }
    let whole = archive(2, 1, 62);
    for length in 0..whole.len() {
        says(&whole[..length], LINUX, "no archive of ELF objects");
    }
    for place in 0..whole.len() {
        for byte in [0, b'9', 0xff] {
            let mut damaged = whole.clone();
            damaged[place] = byte;
            let _ = fits(&damaged, &build(LINUX));
        }
    }
}

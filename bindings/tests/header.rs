//! The header for C says what the archive is: a C program that includes it is compiled, linked and run.

use std::path::Path;
use std::process::Command;

const EXPECTED: &str = "ok 17 3 2\n04001004\n10010002\n40000001\n80010001\n02000001\n80010000\n80010001\n02000001\n\
    40000003\n80010001\n02000001\n40000002\n80010000\n02000002\n10030001\n40000001\n40000003\n";

#[test]
fn a_c_program_lowers_p1() {
    let folder = Path::new(env!("CARGO_MANIFEST_DIR"));
    let program = Path::new(env!("CARGO_TARGET_TMPDIR")).join("lower_rule_in_c");
    let compiled = Command::new("cc")
        .args(["-std=c99", "-Wall", "-Wextra", "-Wpedantic", "-Werror", "-I"])
        .arg(folder.join("../include"))
        .arg(folder.join("tests/c/lower_rule.c"))
        .arg(env!("TULGARENT_ARCHIVE_FILE"))
        .arg("-o")
        .arg(&program)
        .output()
        .expect("cc runs, as it does to link Rust");
    assert!(compiled.status.success(), "{}", String::from_utf8_lossy(&compiled.stderr));
    let run = Command::new(&program).output().expect("the program runs");
    assert_eq!(String::from_utf8_lossy(&run.stdout), EXPECTED);
}

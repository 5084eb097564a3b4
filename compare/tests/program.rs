//! The program as a process of its own.

use std::io::{BufRead, BufReader};
use std::process::{Command, Stdio};

/// Control-C in the middle of a run: what was compared so far is told, and the status says that this was not all.
#[test]
fn an_interrupted_run_prints_its_figures() {
    let mut run = Command::new(env!("CARGO_BIN_EXE_compare"))
        .args(["--quick", "--announce"])
        .stdout(Stdio::piped())
        .stderr(Stdio::piped())
        .spawn()
        .expect("the program starts");
    let mut announced = BufReader::new(run.stderr.take().expect("it has a pipe")).lines();
    // With the first case announced, the run is on its way.
    assert!(announced.next().is_some());
    let interrupt = Command::new("kill").args(["-INT", &run.id().to_string()]).status();
    assert!(interrupt.expect("kill can be run").success());
    let cases = 1 + announced.count();
    let output = run.wait_with_output().expect("it ends");
    let text = String::from_utf8(output.stdout).expect("it prints text");
    assert_eq!(output.status.code(), Some(130));
    assert!(text.lines().next().is_some_and(|line| line.ends_with("no difference so far, interrupted.")), "{text}");
    assert!(text.contains("\n| trials | ") && text.contains("\n| Of each call | "), "{text}");
    assert!(cases < 1_000_000, "it ended long before its last case");
}

/// What the gate goes by: the status, and the last line.
#[test]
fn wrong_copies_are_counted() {
    let wrong = |name: &str| {
        let output = Command::new(env!("CARGO_BIN_EXE_compare")).args(["--wrong", name]).output();
        let output = output.expect("the program runs");
        (output.status.code(), String::from_utf8(output.stdout).expect("it prints text"))
    };
    let (status, text) = wrong("byte_past_words");
    assert_eq!((status, text.lines().last()), (Some(0), Some("1 of 1 wrong copies caught")));
    assert!(!text.contains("DIFFERENCE"), "that word is for differences of the archive");
    let (status, text) = wrong("no_such_name");
    assert_eq!((status, text.lines().last()), (Some(1), Some("0 of 0 wrong copies caught")));
}

fn beside_the_rust(file: &str) -> (Option<i32>, String, String) {
    let output = Command::new(env!("CARGO_BIN_EXE_compare")).args(["--program", file]).output();
    let output = output.expect("the program runs");
    let [printed, said] = [output.stdout, output.stderr].map(|text| String::from_utf8(text).expect("it prints text"));
    (output.status.code(), printed, said)
}

/// `cat` prints the text again, and `false` nothing at all: neither is the program lower.
#[test]
fn another_program_than_lower_differs() {
    for (file, ending) in [("cat", None), ("false", Some("exit status: 1"))] {
        let (status, text, _) = beside_the_rust(file);
        assert_eq!(status, Some(1), "{text}");
        assert!(text.starts_with("DIFFERENCE: text 0: P1, '\\x00' (byte 0) in place 1 of line 1\n"), "{text}");
        assert!(text.ends_with(&format!("\nagain with: compare --text 0 --seed 1 | {file}\n")), "{text}");
        assert!(ending.is_none_or(|ending| text.contains(ending)), "{text}");
    }
}

#[test]
fn a_program_that_is_not_there_is_named() {
    let (status, text, said) = beside_the_rust("no/such/lower");
    assert_eq!((status, text.as_str()), (Some(2), ""));
    assert!(said.starts_with("no/such/lower can't be run: "), "{said}");
}

/// What is told of a difference can be had again.
#[test]
fn a_text_is_written_by_its_number() {
    let text = |number: &str| {
        let output = Command::new(env!("CARGO_BIN_EXE_compare")).args(["--text", number]).output();
        let output = output.expect("the program runs");
        (output.status.code(), output.stdout)
    };
    let (status, first) = text("0");
    assert_eq!((status, first.len(), &first[..9]), (Some(0), 189, b"\x001000004\n".as_slice()));
    assert_eq!(text("1000000"), (Some(2), Vec::new()));
}

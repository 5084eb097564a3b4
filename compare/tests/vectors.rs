//! Files of listed answers, handed to the program as a process of its own.

use std::fs;
use std::path::Path;
use std::process::Command;

const TRIALS: &str = concat!(env!("CARGO_MANIFEST_DIR"), "/vectors/trials.txt");

/// Status, standard output and standard error.
fn run(file: &str) -> (Option<i32>, String, String) {
    let output = Command::new(env!("CARGO_BIN_EXE_compare")).args(["--vectors", file]).output();
    let output = output.expect("the program runs");
    let [printed, said] = [output.stdout, output.stderr].map(|text| String::from_utf8(text).expect("it prints text"));
    (output.status.code(), printed, said)
}

/// A file of this text; each test has a name of its own for it.
fn written(name: &str, text: &str) -> String {
    let file = Path::new(env!("CARGO_TARGET_TMPDIR")).join(name);
    fs::write(&file, text).expect("it can be written");
    file.to_str().expect("it is text").to_owned()
}

/// The trials with one text in them changed, which is there once.
fn changed(name: &str, old: &str, new: &str) -> String {
    let trials = fs::read_to_string(TRIALS).expect("they are there");
    assert_eq!(trials.matches(old).count(), 1, "{old}");
    written(name, &trials.replace(old, new))
}

fn line_of(file: &str, text: &str) -> usize {
    let found = fs::read_to_string(file).expect("it is there").lines().position(|line| line.contains(text));
    1 + found.expect("a line has it")
}

#[test]
fn the_trials_agree() {
    let (status, text, said) = run(TRIALS);
    assert_eq!((status, said.as_str()), (Some(0), ""), "{text}");
    assert_eq!(text.lines().count(), 1, "{text}");
    assert!(text.starts_with(&format!("{TRIALS}: ")) && text.contains(" answers, no difference (lower "), "{text}");
}

/// Each answer is wrong in one thing, which is told with the line that it stands in.
#[test]
fn a_wrong_answer_is_told() {
    for (name, old, new, thing) in [
        ("number", "=> refused 7 4", "=> refused 8 4", "number"),
        ("place", "=> refused 7 4", "=> refused 7 5", "place"),
        ("counts", "=> ok 9 0 3", "=> ok 9 0 2", "counts"),
        ("words", "out=0401f000,10010002,40000001,8001001e", "out=0401f000,10010002,40000001,8001001d", "words"),
        ("counters", "counters=5,8,7,9", "counters=5,8,8,9", "counters"),
    ] {
        let file = changed(name, old, new);
        let (status, text, said) = run(&file);
        assert_eq!((status, said.as_str()), (Some(1), ""), "{text}");
        let start = format!("DIFFERENCE: {file}:{}: {thing}", line_of(TRIALS, old));
        assert!(text.starts_with(&start), "{text}");
        let lines: Vec<&str> = text.lines().collect();
        let [_, call, expected, found, last] = lines[..] else { panic!("{text}") };
        assert!(call.starts_with("  call      ") && found.starts_with("  found     "), "{text}");
        assert_ne!(expected.strip_prefix("  expected  "), found.strip_prefix("  found     "), "{text}");
        assert!(last.starts_with(&format!("{file}: ")), "{text}");
        assert!(last.contains(&format!(" answers, 1 differ: {thing} 1 (agree: lower ")), "{text}");
    }
}

/// Nothing is run of a file with such a line.
#[test]
fn a_line_that_cant_be_read_is_named() {
    let file = changed("unread", "=> refused 7 4", "=> refused 7");
    let (status, text, said) = run(&file);
    assert_eq!((status, text.as_str()), (Some(2), ""));
    let told = "expected its place, a decimal number, behind `refused`; found \"\"";
    assert_eq!(said, format!("{file}:{}: {told}\n", line_of(TRIALS, "=> refused 7 4")));
}

/// What was not run is no pass, though nothing differs.
#[test]
fn what_this_build_does_not_have_is_no_pass() {
    let lent = "sig= room=0 counters= rule= scratch=0";
    let lines = [
        "lower LENT => refused 1 0",
        "lower LENT list=0,1 => refused 1 0",
        "explain LENT variable=40000001 => refused 1 0",
        "explain LENT variable=40000002 => refused 1 0",
    ];
    let file = written("not_run", &lines.join("\n").replace("LENT", lent));
    let (status, text, said) = run(&file);
    let told = [
        &format!("{file}: 1 answer, no difference (lower 1)."),
        "not run: 1 line lends a list",
        "not run: 2 lines make the call explain, which this build does not know",
        "",
    ];
    assert_eq!((status, text.as_str(), said.as_str()), (Some(1), told.join("\n").as_str(), ""));
}

#[test]
fn a_file_without_answers_is_none() {
    let file = written("empty", "# nothing\n\n");
    assert_eq!(run(&file), (Some(2), String::new(), format!("{file}: expected listed answers; found none\n")));
    let (status, text, said) = run("no/such/file");
    assert_eq!((status, text.as_str()), (Some(2), ""));
    assert!(said.starts_with("no/such/file can't be read: "), "{said}");
}

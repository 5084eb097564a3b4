//! Runs the archive and the Rust on the same inputs, and compares all that a call gives: number, place and counts, every
//! byte of the output and of the counters, and that nothing else changed. README.md has the commands.

#![forbid(unsafe_code)]

use compare::figures::Figures;
use compare::kinds::{Extent, Kind};
use compare::report::{grouped, report};
use compare::run::{PATIENCE, Run, Shown, Stop};
use compare::sides::Archive;
use compare::vectors::List;
use compare::{floors, interrupt, program, replay, texts, wrong};
use std::path::Path;
use std::process::ExitCode;
use std::{fs, io};

const USAGE: &str = "\
compare --quick                    a bounded run with a fixed seed, for the gate
compare --long                     more than 10 million cases; figures for docs/COMPARISON.md
compare --wrong [NAME]             shows that wrong copies of the Rust are caught
compare --case KIND NUMBER         one case, and what both sides give for it
compare --program FILE             what the program lower (this file) prints for many texts, beside the Rust
compare --text NUMBER              one of these texts, to standard output
compare --vectors FILE             the calls that are listed in FILE, beside the answers listed there
compare --write-replay FILE COUNT  a list of cases with the Rust's answers
each with --seed N behind it, where another seed than 1 is wanted;
--quick and --long also with --announce at the end, which names each case before it is run";

const SEED: u64 = 1;

/// The status that shells give to what Control-C ended.
const INTERRUPTED: u8 = 130;

fn main() -> ExitCode {
    let mut arguments: Vec<String> = std::env::args().skip(1).collect();
    let announce = arguments.pop_if(|last| last == "--announce").is_some();
    let Some(seed) = take_seed(&mut arguments) else { return usage() };
    let arguments: Vec<&str> = arguments.iter().map(String::as_str).collect();
    match arguments[..] {
        ["--quick"] => compare("Quick", Extent::Quick, seed, announce),
        ["--long"] => compare("Long", Extent::Long, seed, announce),
        ["--wrong"] => code(wrong::all_caught(None, seed)),
        ["--wrong", name] => code(wrong::all_caught(Some(name), seed)),
        ["--case", kind, number] => show_case(kind, number, seed),
        ["--program", file] => compare_program(file, seed),
        ["--text", number] => write_text(number, seed),
        ["--vectors", file] => compare_listed(file, seed),
        ["--write-replay", file, count] => write_replay(file, count, seed),
        _ => usage(),
    }
}

/// Takes `--seed N` off the end.
fn take_seed(arguments: &mut Vec<String>) -> Option<u64> {
    match arguments.len().checked_sub(2).map(|at| (at, arguments[at].as_str())) {
        Some((at, "--seed")) => {
            let seed = arguments[at + 1].parse().ok();
            arguments.truncate(at);
            seed
        }
        _ => Some(SEED),
    }
}

fn usage() -> ExitCode {
    eprintln!("{USAGE}");
    ExitCode::from(2)
}

fn code(good: bool) -> ExitCode {
    if good { ExitCode::SUCCESS } else { ExitCode::FAILURE }
}

fn compare(name: &str, extent: Extent, seed: u64, announce: bool) -> ExitCode {
    interrupt::watch();
    let mut run = Run::new(&Archive, seed);
    run.announce = announce;
    let mut figures = Figures::new();
    match run.all(extent, &mut figures) {
        Ok(()) => {
            print!("{}", report(name, seed, "no difference", &figures));
            came_to_the_ends(&figures)
        }
        Err(Stop::Interrupted) => {
            print!("{}", report(name, seed, "no difference so far, interrupted", &figures));
            ExitCode::from(INTERRUPTED)
        }
        Err(Stop::Differed(failure)) => {
            let again = format!("compare --case {} {} --seed {seed}", failure.kind, failure.index);
            println!("DIFFERENCE: {}\nagain with: {again}", run.told(failure, PATIENCE));
            ExitCode::FAILURE
        }
    }
}

fn came_to_the_ends(figures: &Figures) -> ExitCode {
    nothing_missing(
        "\nThe cases fall short of what a run must reach (src/floors.rs):",
        &floors::missing(&figures.calls),
    )
}

fn nothing_missing(heading: &str, missing: &[String]) -> ExitCode {
    if !missing.is_empty() {
        println!("{heading}");
    }
    missing.iter().for_each(|line| println!("  {line}"));
    code(missing.is_empty())
}

fn show_case(kind: &str, number: &str, seed: u64) -> ExitCode {
    let asked = Kind::named(kind).zip(number.parse().ok());
    let Some((kind, index, case)) = asked.and_then(|(kind, index)| Some((kind, index, kind.case(seed, index)?))) else {
        eprintln!("there is no such case");
        return ExitCode::from(2);
    };
    let mut run = Run::new(&Archive, seed);
    let (expected, found, failure) = run.both(kind.name, index, &case);
    println!("{} {index}: {}\n{case}", kind.name, kind.what);
    println!("  the Rust   {}", Shown(&expected, case.call));
    println!("  this side  {}", Shown(&found, case.call));
    let agree = failure.is_none();
    if let Some(failure) = failure {
        println!("DIFFERENCE: {}", run.told(failure, PATIENCE));
    }
    code(agree)
}

fn compare_program(file: &str, seed: u64) -> ExitCode {
    match program::beside_the_rust(file, &texts::all(seed)) {
        Ok(answers) => {
            println!("Program beside the Rust: {answers}.");
            nothing_missing("The texts fall short of what they must bring about (src/program.rs):", &answers.missing())
        }
        Err(program::Stop::Differed(difference)) => {
            let again = format!("compare --text {} --seed {seed} | {file}", difference.index);
            println!("DIFFERENCE: {difference}\nagain with: {again}");
            ExitCode::FAILURE
        }
        Err(program::Stop::Failed(error)) => {
            eprintln!("{file} can't be run: {error}; `tools/build.sh` makes target/bin/lower");
            ExitCode::from(2)
        }
    }
}

fn write_text(number: &str, seed: u64) -> ExitCode {
    let texts = texts::all(seed);
    let Some(text) = number.parse::<usize>().ok().and_then(|number| texts.get(number)) else {
        eprintln!("there is no such text");
        return ExitCode::from(2);
    };
    eprintln!("{}", text.made);
    code(program::hand_over(io::stdout(), text).is_ok())
}

fn compare_listed(file: &str, seed: u64) -> ExitCode {
    let list = match read_list(file) {
        Ok(list) => list,
        Err(why) => {
            eprintln!("{why}");
            return ExitCode::from(2);
        }
    };
    let findings = list.run(&Archive, seed);
    for finding in &findings.told {
        println!("DIFFERENCE: {file}:{}: {finding}", finding.line());
    }
    println!("{file}: {findings}.");
    let not_run = list.not_run();
    not_run.iter().for_each(|line| println!("{line}"));
    code(findings.agree() && not_run.is_empty())
}

fn read_list(file: &str) -> Result<List, String> {
    let text = fs::read_to_string(file).map_err(|error| format!("{file} can't be read: {error}"))?;
    match List::read(&text) {
        Ok(list) if list.is_empty() => Err(format!("{file}: expected listed answers; found none")),
        Ok(list) => Ok(list),
        Err((line, unread)) => Err(format!("{file}:{line}: {unread}")),
    }
}

fn write_replay(file: &str, count: &str, seed: u64) -> ExitCode {
    let Ok(count) = count.parse() else { return usage() };
    match replay::write_replay(Path::new(file), count, seed) {
        Ok(written) => {
            println!("{} cases in {file}", grouped(written as u64));
            ExitCode::SUCCESS
        }
        Err(error) => {
            eprintln!("{file}: {error}");
            ExitCode::FAILURE
        }
    }
}

//! Beside the fuzzer: writes inputs for it to begin with, and shows what an input is.

use compare::case::Case;
use compare::kinds::KINDS;
use compare::run::{Run, Shown};
use compare::sides::Archive;
use compare::trial::Bench;
use fuzz::input::{case_of, input_of};
use std::error::Error;
use std::fs;
use std::path::Path;

const USAGE: &str = "\
tools seeds FOLDER COUNT   writes inputs of so many cases of each kind of compare's
tools show FILE            what case an input is, and what both sides give for it";

/// Listed cases go from small to large; these are spread over the first of them.
const STEP: u64 = 97;
/// No input is longer: run.sh tells the fuzzer so.
const LONGEST: usize = 8_192;

fn main() -> Result<(), Box<dyn Error>> {
    let arguments: Vec<String> = std::env::args().skip(1).collect();
    match arguments.iter().map(String::as_str).collect::<Vec<_>>()[..] {
        ["seeds", folder, count] => seeds(Path::new(folder), count.parse()?),
        ["show", file] => {
            show(&fs::read(file)?);
            Ok(())
        }
        _ => Err(USAGE.into()),
    }
}

fn seeds(folder: &Path, count: u64) -> Result<(), Box<dyn Error>> {
    fs::create_dir_all(folder)?;
    for kind in KINDS {
        let step = if kind.listed_count().is_some_and(|listed| listed > STEP * count) { STEP } else { 1 };
        for index in (0..count).map(|number| number * step) {
            let Some(input) = kind.case(1, index).map(|case| input_of(&case)) else { break };
            if input.len() <= LONGEST {
                fs::write(folder.join(format!("{}-{index}", kind.name)), input)?;
            }
        }
    }
    Ok(())
}

fn show(input: &[u8]) {
    let case: Case = case_of(input, &Bench::new());
    println!("{case}");
    let (expected, found, failure) = Run::new(&Archive, 0).both("fuzz", 0, &case);
    println!("  the Rust   {}", Shown(&expected, case.call));
    println!("  this side  {}", Shown(&found, case.call));
    if let Some(failure) = failure {
        println!("  DIFFERENCE: {}", failure.difference);
    }
}

//! Times the archive beside the Rust on the same rules, in one process. README.md has the commands.

#![deny(unsafe_code)]

// The only module that may: it asks the system for a clock.
#[allow(unsafe_code)]
mod clock;
// The comparison's own files: one way to draw rules serves both.
#[allow(dead_code, reason = "the comparison uses the rest")]
#[path = "../../compare/src/draw.rs"]
mod draw;
mod families;
mod picture;
mod places;
#[allow(dead_code, reason = "the comparison uses the rest")]
#[path = "../../compare/src/records.rs"]
mod records;
mod sides;
mod table;
mod timing;
#[allow(dead_code, reason = "the comparison uses the rest")]
#[path = "../../compare/src/words.rs"]
mod words;

use families::Family;
use std::io;
use std::path::Path;
use std::process::ExitCode;
use table::Tables;
use timing::Row;

const USAGE: &str = "\
bench                      the ten families by which speed is judged: a table
bench --more               further families, the worst one last
bench --all [--publish]    both tables and the picture: target/bench/speed.md and .svg
bench --draw T [--publish] the picture from the tables of file T, without a run
bench --only FAMILY        one family of either
bench --profile FAMILY N   this side alone, N times through the family, untimed: for a profiler
--publish writes docs/speed.svg, and behind --all the tables of docs/SPEED.md too";

fn main() -> ExitCode {
    let arguments: Vec<String> = std::env::args().skip(1).collect();
    let arguments: Vec<&str> = arguments.iter().map(String::as_str).collect();
    match arguments[..] {
        [] => show(&measured(&[families::ten()])),
        ["--more"] => show(&worst_last(measured(&[families::more()]))),
        ["--all"] => all(false),
        ["--all", "--publish"] => all(true),
        ["--draw", file] => told(places::redraw(Path::new(file), false)),
        ["--draw", file, "--publish"] => told(places::redraw(Path::new(file), true)),
        ["--only", family] => named(family).map_or_else(usage, |family| show(&measured(&[vec![family]]))),
        ["--profile", family, times] => match (named(family), times.parse()) {
            (Some(family), Ok(times)) => profile(&family, times),
            _ => usage(),
        },
        _ => usage(),
    }
}

fn usage() -> ExitCode {
    let names: Vec<&str> = families::ten().iter().chain(&families::more()).map(|family| family.name).collect();
    eprintln!("{USAGE}\nfamilies: {}", names.join("; "));
    ExitCode::from(2)
}

fn named(name: &str) -> Option<Family> {
    families::ten().into_iter().chain(families::more()).find(|family| family.name == name)
}

/// One table after the other. Whoever waits sees how far it is.
fn measured(groups: &[Vec<Family>]) -> Tables {
    let all: usize = groups.iter().map(Vec::len).sum();
    let (mut at, mut rounds) = (0, usize::MAX);
    let mut row = |family: &Family| -> Row {
        at += 1;
        eprintln!("{at:2} of {all}  {}", family.name);
        let (row, taken) = timing::measured(family);
        rounds = rounds.min(taken);
        row
    };
    let tables = groups.iter().map(|families| families.iter().map(&mut row).collect()).collect();
    Tables::new(rounds, tables)
}

/// In the last table the family where this side does worst stands last, where it is seen.
fn worst_last(mut tables: Tables) -> Tables {
    if let Some(rows) = tables.tables.last_mut() {
        rows.sort_by(|one, other| other.ratio.total_cmp(&one.ratio));
    }
    tables
}

fn show(tables: &Tables) -> ExitCode {
    print!("{}", tables.printed());
    ExitCode::SUCCESS
}

fn all(publish: bool) -> ExitCode {
    let tables = worst_last(measured(&[families::ten(), families::more()]));
    show(&tables);
    told(places::save(&tables).and_then(|()| if publish { places::publish(&tables) } else { Ok(()) }))
}

fn told(done: io::Result<()>) -> ExitCode {
    let Err(error) = done else { return ExitCode::SUCCESS };
    eprintln!("{error}");
    ExitCode::FAILURE
}

fn profile(family: &Family, times: usize) -> ExitCode {
    let mut ours = sides::Ours::new(family);
    for _ in 0..times {
        ours.clear();
        ours.part(0..family.rules.len());
    }
    ExitCode::SUCCESS
}

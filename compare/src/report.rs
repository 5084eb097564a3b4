//! Figures as text: the tables of docs/COMPARISON.md.

use crate::figures::{Figure, Figures, NUMBERS, Tally};
use crate::floors::{FLOORS, NUMBERS_OF};
use std::fmt::Write;
use std::time::{Duration, SystemTime, UNIX_EPOCH};

/// A run's figures by kind and by call. `end` says how it ended.
pub fn report(name: &str, seed: u64, end: &str, figures: &Figures) -> String {
    let mut all = Tally::new("all");
    figures.kinds.iter().for_each(|tally| all.add(tally));
    let opening = opening(&format!("{name} run"), &format!(", seed {seed}"), all.cases, all.time, end);
    format!("{opening}\n{}\n{}", by_kind(&figures.kinds, &all), by_call(&figures.calls, true))
}

/// The first line: what was run, when, how much, and how it ended.
pub fn opening(name: &str, seed: &str, cases: u64, time: Duration, end: &str) -> String {
    let today = date(SystemTime::now());
    format!("{name}, {today}{seed}: {} cases in {} s, {end}.\n", grouped(cases), time.as_secs())
}

fn by_kind(kinds: &[Tally], all: &Tally) -> String {
    let mut text =
        "| Kind | Cases | Accepted | Longest rule accepted | Longest result | Most replacements | Most passes \
                    | Seconds |\n|---|---|---|---|---|---|---|---|\n"
            .to_owned();
    for tally in kinds.iter().chain([all]) {
        let figures = [Figure::Rule, Figure::Result, Figure::Replacements, Figure::Passes];
        let cells = [tally.cases, tally.accepted].into_iter().chain(figures.map(|figure| tally.largest(figure)));
        let cells: Vec<String> = cells.map(grouped).collect();
        let seconds = tally.time.as_secs_f64();
        writeln!(text, "| {} | {} | {seconds:.1} |", tally.name, cells.join(" | ")).expect(TAKES_ALL);
    }
    text
}

/// How often each answer was given, and the largest of each figure, with or without their floors.
pub fn by_call(calls: &[Tally; 3], with_floors: bool) -> String {
    let names = calls.each_ref().map(|tally| tally.name.to_owned());
    let mut text = row("Of each call", names);
    text.push_str("|---|---|---|---|\n");
    text.push_str(&row("cases", calls.each_ref().map(|tally| grouped(tally.cases))));
    text.push_str(&row("accepted", calls.each_ref().map(|tally| grouped(tally.accepted))));
    for number in 1..NUMBERS {
        let given = std::array::from_fn(|call| {
            if NUMBERS_OF[call].contains(&number) { grouped(calls[call].refused[number]) } else { String::new() }
        });
        if given.iter().any(|cell| !cell.is_empty()) {
            text.push_str(&row(&format!("refused by {number}"), given));
        }
    }
    for (figure, floors) in FLOORS {
        let cells = std::array::from_fn(|call| match (grouped(calls[call].largest(*figure)), floors[call]) {
            (_, 0) => String::new(),
            (largest, floor) if with_floors => format!("{largest} (floor {})", grouped(floor)),
            (largest, _) => largest,
        });
        text.push_str(&row(&figure.to_string(), cells));
    }
    text
}

fn row(name: &str, cells: [String; 3]) -> String {
    format!("| {name} | {} |\n", cells.join(" | "))
}

const TAKES_ALL: &str = "a string takes all that is written";

/// With a comma after each three digits.
pub fn grouped(number: u64) -> String {
    let digits = number.to_string();
    let mut text = String::new();
    for (at, digit) in digits.chars().enumerate() {
        if at > 0 && (digits.len() - at).is_multiple_of(3) {
            text.push(',');
        }
        text.push(digit);
    }
    text
}

/// Year, month and day in UTC.
fn date(time: SystemTime) -> String {
    let days = time.duration_since(UNIX_EPOCH).map_or(0, |since| since.as_secs() / 86_400);
    let (year, month, day) = civil(days);
    format!("{year}-{month:02}-{day:02}")
}

/// Years are counted from March, so that the leap day is the last of its year; an era is 400 of them.
fn civil(days: u64) -> (u64, u64, u64) {
    let days = days + 719_468;
    let (era, day_of_era) = (days / 146_097, days % 146_097);
    let year_of_era = (day_of_era - day_of_era / 1_460 + day_of_era / 36_524 - day_of_era / 146_096) / 365;
    let day_of_year = day_of_era - (365 * year_of_era + year_of_era / 4 - year_of_era / 100);
    let from_march = (5 * day_of_year + 2) / 153;
    let day = day_of_year - (153 * from_march + 2) / 5 + 1;
    let month = if from_march < 10 { from_march + 3 } else { from_march - 9 };
    (era * 400 + year_of_era + u64::from(month <= 2), month, day)
}

#[cfg(test)]
mod tests {
    use super::{civil, grouped, report};
    use crate::case::{Call, Case};
    use crate::figures::Figures;
    use tulgarent::Answer;

    #[test]
    fn digits_are_grouped() {
        assert_eq!([0, 999, 1_000, 12_345_678].map(grouped), ["0", "999", "1,000", "12,345,678"]);
    }

    #[test]
    fn days_are_dates() {
        assert_eq!(civil(0), (1970, 1, 1));
        assert_eq!(civil(11_016), (2000, 2, 29));
        assert_eq!(civil(11_017), (2000, 3, 1));
        assert_eq!(civil(20_819), (2027, 1, 1));
    }

    #[test]
    fn a_report_has_kinds_calls_and_floors() {
        let mut figures = Figures::new();
        figures.begin("some");
        let answer = Answer { number: 10, place: 1_021, words: 0, replacements: 0, passes: 0 };
        figures.count(&Case::new(Call::FreeVars, Vec::new(), Vec::new()), &answer);
        let text = report("Quick", 3, "no difference", &figures);
        assert!(text.contains(", seed 3: 1 cases in 0 s, no difference.\n"));
        assert!(text.contains("| some | 1 | 0 | 0 | 0 | 0 | 0 | 0.0 |\n"));
        assert!(text.contains("| refused by 10 | 0 | 0 | 1 |\n"));
        assert!(text.contains("| furthest place of 10 | 0 (floor 2,042) | 0 (floor 2,043) | 1,021 (floor 1,021) |\n"));
        assert!(text.contains("| furthest place of 6 | 0 (floor 511) |  |  |\n"));
        assert!(text.lines().all(|line| line.len() < 160), "lines of documents are short");
    }
}

//! The tables, in markdown: printed for the eye, saved as docs/SPEED.md has them, and read back from either.

use crate::timing::Row;
use std::time::{SystemTime, UNIX_EPOCH};

const COLUMNS: usize = 10;
const HEADER: [&str; COLUMNS] = [
    "Family",
    "What",
    "Words",
    "Replacements",
    "Passes",
    "Rust ns a rule",
    "ns a word",
    "Tulgarent ns a rule",
    "ns a word",
    "Ratio",
];
/// Columns of text; the others are numbers.
const TEXT: usize = 2;
/// Ends what is said of machine and day in the line above the tables.
const ROUNDS: &str = "; at least ";

const TIMED: &str = "\
Rust: `to_canonicalized_core_rule` alone, on rules decoded ahead (flat rules: `canonicalize` and `remove_dup_vars`, or
  `get_free_vars`). Neither decoding nor encoding is timed; freeing what it returns is. Its maps are std's with a hash
  of the shape of Fx, see oracle/README.md.
Tulgarent: the whole exported call: every test of signature and rule, lowering, settling, and writing the words.
Both: one process, one thread, release; rounds by turns, the least time of each part of a round, by the wall's clock or
  the thread's; counters cleared before each round, untimed; scratch is not cleared. Both gave the same words for
  every rule before it was timed. Ratio: how many times as long the Rust takes.
";

/// What one run measured: where and when, and one table after the other.
#[derive(Debug, PartialEq)]
pub struct Tables {
    /// The machine and the day, and how often.
    pub when: String,
    pub tables: Vec<Vec<Row>>,
}

impl Tables {
    /// Of a run that ends now.
    pub fn new(rounds: usize, tables: Vec<Vec<Row>>) -> Tables {
        Tables { when: format!("{}, {}{ROUNDS}{rounds} rounds a family.", machine(), today()), tables }
    }

    /// For whoever waits for it: columns stand below each other.
    pub fn printed(&self) -> String {
        let tables: Vec<String> = self.tables.iter().map(|rows| padded(rows)).collect();
        format!("{}\n{TIMED}\n{}", self.when, tables.join("\n"))
    }

    /// For docs/SPEED.md, whose lines are to be short.
    pub fn saved(&self) -> String {
        let tables: Vec<String> = self.tables.iter().map(|rows| plain(rows)).collect();
        format!("{}\n\n{}", self.when, tables.join("\n"))
    }

    /// The tables of a text, which may have more in it.
    pub fn read(text: &str) -> Option<Tables> {
        let when = text.lines().find(|line| line.contains(ROUNDS))?.to_string();
        let mut tables = Vec::new();
        let mut lines = text.lines();
        while lines.by_ref().any(is_header) {
            // The line below the header is a rule.
            let rows = lines.by_ref().skip(1).take_while(|line| line.starts_with('|'));
            tables.push(rows.map(row).collect::<Option<Vec<Row>>>()?);
        }
        (!tables.is_empty()).then_some(Tables { when, tables })
    }

    /// A text with these tables in the place of those that it has, one by one, and where and when. None if it has not as many.
    pub fn put_into(&self, text: &str) -> Option<String> {
        let mut left = self.tables.iter();
        let (mut lines, mut put) = (text.lines().peekable(), String::new());
        while let Some(line) = lines.next() {
            if is_header(line) {
                put += &plain(left.next()?);
                while lines.next_if(|line| line.starts_with('|')).is_some() {}
            } else {
                put += if line.contains(ROUNDS) { &self.when } else { line };
                put.push('\n');
            }
        }
        left.next().is_none().then_some(put)
    }

    /// Machine and day, without how often.
    pub fn where_and_when(&self) -> &str {
        self.when.split(ROUNDS).next().unwrap_or_default()
    }
}

fn split(line: &str) -> Vec<&str> {
    line.trim().trim_matches('|').split('|').map(str::trim).collect()
}

fn is_header(line: &str) -> bool {
    line.starts_with('|') && split(line) == HEADER
}

fn row(line: &str) -> Option<Row> {
    let cells: [&str; COLUMNS] = split(line).try_into().ok()?;
    let [name, what, words, replacements, passes, rust, _, ours, _, ratio] = cells;
    let number = |cell: &str| cell.replace(',', "").parse::<f64>().ok();
    Some(Row {
        name: name.to_string(),
        what: what.to_string(),
        words: number(words)?,
        replacements: number(replacements)?,
        passes: number(passes)?,
        rust: number(rust)?,
        ours: number(ours)?,
        ratio: number(ratio)?,
    })
}

fn plain(rows: &[Row]) -> String {
    let rule = format!("|{}\n", "---|".repeat(COLUMNS));
    let line = |cells: [String; COLUMNS]| format!("| {} |\n", cells.join(" | "));
    let rows = rows.iter().map(|row| line(cells(row)));
    [line(HEADER.map(String::from)), rule].into_iter().chain(rows).collect()
}

fn padded(rows: &[Row]) -> String {
    let cells: Vec<[String; COLUMNS]> = rows.iter().map(cells).collect();
    let header = HEADER.map(String::from);
    let width = |column: usize| cells.iter().chain([&header]).map(|row| row[column].chars().count()).max().unwrap_or(0);
    let widths: [usize; COLUMNS] = std::array::from_fn(width);
    let rule: Vec<String> = widths.iter().map(|&width| "-".repeat(width)).collect();
    let lines = [line(&header, &widths), format!("| {} |\n", rule.join(" | "))];
    lines.into_iter().chain(cells.iter().map(|row| line(row, &widths))).collect()
}

/// Text to the left, numbers to the right.
fn line(cells: &[String; COLUMNS], widths: &[usize; COLUMNS]) -> String {
    let pad = |(at, (cell, &width)): (usize, (&String, &usize))| {
        if at < TEXT { format!("{cell:width$}") } else { format!("{cell:>width$}") }
    };
    let padded: Vec<String> = cells.iter().zip(widths).enumerate().map(pad).collect();
    format!("| {} |\n", padded.join(" | "))
}

fn cells(row: &Row) -> [String; COLUMNS] {
    [
        row.name.clone(),
        row.what.clone(),
        short(row.words),
        short(row.replacements),
        short(row.passes),
        grouped(row.rust),
        a_word(row.rust / row.words),
        grouped(row.ours),
        a_word(row.ours / row.words),
        ratio(row.ratio),
    ]
}

/// Whole numbers as such, means with one digit.
fn short(number: f64) -> String {
    if number.fract() == 0.0 { format!("{number:.0}") } else { format!("{number:.1}") }
}

/// Three digits or more that count.
fn a_word(number: f64) -> String {
    if number < 99.95 { format!("{number:.1}") } else { grouped(number) }
}

/// Two digits or more that count.
pub fn ratio(number: f64) -> String {
    let digits = if number >= 10.0 {
        0
    } else if number >= 1.0 {
        1
    } else {
        2
    };
    format!("{number:.digits$}")
}

/// With a comma every three digits.
fn grouped(number: f64) -> String {
    let digits = format!("{number:.0}");
    let mut text = String::new();
    for (at, digit) in digits.chars().enumerate() {
        if at > 0 && (digits.len() - at).is_multiple_of(3) {
            text.push(',');
        }
        text.push(digit);
    }
    text
}

fn machine() -> String {
    let told = std::fs::read_to_string("/proc/cpuinfo").unwrap_or_default();
    let model = told.lines().find_map(|line| line.strip_prefix("model name")?.split_once(": ")).map(|(_, model)| model);
    model.unwrap_or("unknown machine").to_string()
}

/// Year, month and day.
fn today() -> String {
    let seconds = SystemTime::now().duration_since(UNIX_EPOCH).map_or(0, |since| since.as_secs());
    let (mut days, mut year) = (seconds / 86_400, 1970);
    while days >= days_of(year) {
        days -= days_of(year);
        year += 1;
    }
    let february = days_of(year) - 337;
    let mut month = 1;
    for length in [31, february, 31, 30, 31, 30, 31, 31, 30, 31, 30] {
        if days < length {
            break;
        }
        days -= length;
        month += 1;
    }
    format!("{year}-{month:02}-{:02}", days + 1)
}

fn days_of(year: u64) -> u64 {
    if year.is_multiple_of(4) && (!year.is_multiple_of(100) || year.is_multiple_of(400)) { 366 } else { 365 }
}

#[cfg(test)]
mod tests {
    use super::*;

    fn some(name: &str, rust: f64, ours: f64) -> Row {
        let what = "a rule".to_string();
        let ratio = rust / ours;
        Row { name: name.to_string(), what, words: 34.5, replacements: 2.5, passes: 1.0, rust, ours, ratio }
    }

    fn two() -> Tables {
        let tables =
            vec![vec![some("a", 6_370.0, 455.0), some("b", 12_000_000.0, 500_000.0)], vec![some("c", 4.0, 200.0)]];
        Tables::new(60, tables)
    }

    #[test]
    fn what_is_printed_or_saved_reads_back() {
        assert_eq!(Tables::read(&two().saved()), Some(two()));
        assert_eq!(Tables::read(&two().printed()), Some(two()));
        assert_eq!(Tables::read("no table"), None);
    }

    #[test]
    fn tables_are_put_where_tables_are() {
        let old = Tables { when: "Some machine; at least 3 rounds a family.".to_string(), ..two() };
        let page = format!("# Page\n\n{}\n| Other | table |\n|---|---|\n| 1 | 2 |\n", old.saved());
        let put = two().put_into(&page).expect("the page has two tables");
        assert_eq!(Tables::read(&put), Some(two()));
        assert_eq!(put.replace(&two().when, &old.when), page);
        assert_eq!(two().put_into(&old.saved().replace("Ratio", "Rate")), None);
    }

    #[test]
    fn numbers_are_grouped() {
        assert_eq!([7.0, 999.6, 12_293_568.0].map(grouped), ["7", "1,000", "12,293,568"]);
        assert_eq!([0.011, 6.32, 148.4].map(ratio), ["0.01", "6.3", "148"]);
    }
}

//! The program lower beside the Rust: it is run once for each text, and what it prints is compared byte by byte.

use crate::progress::Progress;
use crate::report::grouped;
use crate::texts::Text;
use std::collections::BTreeMap;
use std::fmt;
use std::io::{self, ErrorKind, Write};
use std::process::{Command, Output, Stdio};
use std::thread;
use std::time::Duration;

/// Long enough for the program to have read one piece of a text before the next is there. Were it not, the text would be
/// read in fewer pieces, with the same answer.
const PAUSE: Duration = Duration::from_millis(1);

/// Why a run ended before its last text.
pub enum Stop {
    Differed(Box<Difference>),
    /// The program can't be run, or not be written to.
    Failed(io::Error),
}

/// A text for which the program does not do what the Rust does.
pub struct Difference {
    pub index: usize,
    text: Text,
    expected: String,
    found: Output,
}

/// How many texts have each answer: the number of a refusal, or 0 where the rule is accepted.
#[derive(Default)]
pub struct Answers(BTreeMap<u64, u64>);

/// What the texts must bring about: every number that the program can give. With counters at zero and as much output,
/// scratch and whole words as any rule asks for, 2, 3, 9, 10 and 14 are none of them; 11 and 12 are of flat rules.
const FLOORS: [u64; 8] = [0, 1, 4, 5, 6, 7, 8, 13];

/// Runs the program on all texts, up to the first difference.
pub fn beside_the_rust(program: &str, texts: &[Text]) -> Result<Answers, Stop> {
    let mut answers = Answers::default();
    let mut progress = Progress::new();
    for (index, text) in texts.iter().enumerate() {
        let expected = oracle::program(&text.bytes);
        let found = run(program, text).map_err(Stop::Failed)?;
        answers.count(&expected);
        if !agree(&expected, &found) {
            return Err(Stop::Differed(Box::new(Difference { index, text: text.clone(), expected, found })));
        }
        progress.step(|done| format!("{} texts", grouped(done)));
    }
    Ok(answers)
}

/// The program says on standard error what it could not do, so nothing may stand there.
fn agree(expected: &str, found: &Output) -> bool {
    found.stdout == expected.as_bytes() && found.stderr.is_empty() && found.status.success()
}

/// The program as a process that reads this text. It is written by a thread, since a program that prints before it has read
/// all would else wait for us as we wait for it.
fn run(program: &str, text: &Text) -> io::Result<Output> {
    let mut command = Command::new(program);
    let mut child = command.stdin(Stdio::piped()).stdout(Stdio::piped()).stderr(Stdio::piped()).spawn()?;
    let input = child.stdin.take().expect("it has a pipe");
    thread::scope(|scope| {
        let writer = scope.spawn(|| hand_over(input, text));
        let output = child.wait_with_output();
        writer.join().expect("writing does not panic")?;
        output
    })
}

/// Writes the text, piece by piece, and closes the pipe if it is one. A program may stop reading before the end: what it
/// prints says whether it should.
pub fn hand_over(mut input: impl Write, text: &Text) -> io::Result<()> {
    for (count, piece) in text.bytes.chunks(text.piece).enumerate() {
        if count > 0 {
            thread::sleep(PAUSE);
        }
        match input.write_all(piece).and_then(|()| input.flush()) {
            Err(error) if error.kind() == ErrorKind::BrokenPipe => return Ok(()),
            written => written?,
        }
    }
    Ok(())
}

impl Answers {
    fn count(&mut self, printed: &str) {
        *self.0.entry(number(printed)).or_default() += 1;
    }

    /// The answers that no text had though one should, a line each.
    pub fn missing(&self) -> Vec<String> {
        let unmet = FLOORS.iter().filter(|number| !self.0.contains_key(number));
        unmet
            .map(|&number| {
                if number == 0 { "no text was accepted".to_owned() } else { format!("no text was refused by {number}") }
            })
            .collect()
    }
}

/// The number of the refusal that is printed, or 0.
fn number(printed: &str) -> u64 {
    let refused = printed.strip_prefix("refused ").and_then(|rest| rest.split(' ').next());
    refused.map_or(0, |number| number.parse().expect("a refusal has a number"))
}

impl fmt::Display for Answers {
    fn fmt(&self, f: &mut fmt::Formatter<'_>) -> fmt::Result {
        let all: u64 = self.0.values().sum();
        let accepted = self.0.get(&0).copied().unwrap_or(0);
        write!(f, "{} texts, no difference ({} accepted; refused:", grouped(all), grouped(accepted))?;
        let refusals: Vec<String> = self.0.iter().filter(|(number, _)| **number > 0).map(refused).collect();
        write!(f, " {})", refusals.join(", "))
    }
}

fn refused((number, &count): (&u64, &u64)) -> String {
    format!("{} by {number}", grouped(count))
}

impl fmt::Display for Difference {
    fn fmt(&self, f: &mut fmt::Formatter<'_>) -> fmt::Result {
        let Difference { index, text, expected, found } = self;
        let (expected, printed) = (expected.as_bytes(), &found.stdout[..]);
        let first = expected.iter().zip(printed).take_while(|(ours, theirs)| ours == theirs).count();
        writeln!(f, "text {index}: {}", text.made)?;
        writeln!(f, "  the text     {}", Around(&text.bytes, text.place))?;
        writeln!(f, "  the Rust     {}", Around(expected, first))?;
        write!(f, "  the program  {}", Around(printed, first))?;
        if expected != printed {
            write!(f, "\n  what is printed differs from byte {first} on")?;
        }
        if !found.stderr.is_empty() {
            write!(f, "\n  on standard error the program says {}", Around(&found.stderr, 0))?;
        }
        if !found.status.success() {
            write!(f, "\n  the program ended with {}", found.status)?;
        }
        Ok(())
    }
}

/// Bytes as they would be written in a program: those around a place, and how many there are in all.
struct Around<'a>(&'a [u8], usize);

/// How many bytes are shown before the place, and from it on.
const BEFORE: usize = 27;
const FROM: usize = 54;

impl fmt::Display for Around<'_> {
    fn fmt(&self, f: &mut fmt::Formatter<'_>) -> fmt::Result {
        let Around(bytes, place) = *self;
        let start = place.min(bytes.len()).saturating_sub(BEFORE);
        let end = bytes.len().min(place + FROM);
        let [left, right] = [start > 0, end < bytes.len()].map(|cut| if cut { ".." } else { "" });
        let shown = bytes[start..end].escape_ascii();
        write!(f, "{left}\"{shown}\"{right} ({} bytes", grouped(bytes.len() as u64))?;
        if start > 0 { write!(f, ", shown from byte {start} on)") } else { f.write_str(")") }
    }
}

#[cfg(test)]
mod tests {
    use super::{Answers, Around, FLOORS, Stop, beside_the_rust, run};
    use crate::texts;

    #[test]
    fn answers_are_counted_by_their_numbers() {
        let mut answers = Answers::default();
        let printed = ["ok 1 0 1\n04000000\n", "refused 13 4613\n", "refused 5 0\n", "refused 13 1\n"];
        printed.iter().for_each(|text| answers.count(text));
        assert_eq!(answers.to_string(), "4 texts, no difference (1 accepted; refused: 1 by 5, 2 by 13)");
        let unmet = [1, 4, 6, 7, 8].map(|number| format!("no text was refused by {number}"));
        assert_eq!(answers.missing(), unmet);
        assert_eq!(Answers::default().missing().len(), FLOORS.len());
        assert_eq!(Answers::default().missing()[0], "no text was accepted");
    }

    /// The texts alone decide which answers are met, so this needs no program.
    #[test]
    fn the_texts_bring_about_every_answer() {
        let mut answers = Answers::default();
        texts::all(2).iter().for_each(|text| answers.count(&oracle::program(&text.bytes)));
        assert_eq!(answers.missing(), [""; 0]);
    }

    #[test]
    fn bytes_are_shown_around_their_place() {
        assert_eq!(Around(b"01G\xff\n", 2).to_string(), r#""01G\xff\n" (5 bytes)"#);
        let long = [b'a'; 1_234];
        let shown = format!("..\"{}\".. (1,234 bytes, shown from byte 73 on)", "a".repeat(81));
        assert_eq!(Around(&long, 100).to_string(), shown);
        assert_eq!(Around(b"", 7).to_string(), "\"\" (0 bytes)");
    }

    /// More than pipes hold, handed to a program that prints while it reads, and to one that reads nothing.
    #[test]
    fn long_texts_pass_through_pipes() {
        let texts = texts::all(1);
        let longest = texts.iter().max_by_key(|text| text.bytes.len()).expect("there are texts");
        assert!(longest.bytes.len() > 2 * 65_536);
        assert_eq!(run("cat", longest).expect("it runs").stdout, longest.bytes);
        assert_eq!(run("true", longest).expect("it runs").stdout, b"");
    }

    #[test]
    fn pieces_make_up_the_text() {
        let texts = texts::all(1);
        let mut in_pieces = texts.iter().filter(|text| text.piece < text.bytes.len());
        assert!(in_pieces.clone().count() >= 10);
        assert!(in_pieces.all(|text| run("cat", text).expect("it runs").stdout == text.bytes));
    }

    #[test]
    fn a_program_that_prints_nothing_differs() {
        let Err(Stop::Differed(difference)) = beside_the_rust("true", &texts::all(1)) else { panic!("it differs") };
        assert_eq!(difference.index, 0);
        let told = difference.to_string();
        assert!(told.starts_with(r"text 0: P1, '\x00' (byte 0) in place 1 of line 1"), "{told}");
        assert!(told.contains("\n  the Rust     \"refused 13 1\\n\" (13 bytes)\n"), "{told}");
    }
}

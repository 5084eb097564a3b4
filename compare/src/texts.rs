//! Texts for the program lower, which reads lines where the calls read words: its line reader is what no call has. So most
//! texts ask which bytes are digits, what they are worth, and where a line and the list of lines end.

use crate::case::Call;
use crate::draw::Draw;
use crate::kinds::{Extent, Kind};
use crate::records::Signature;
use crate::report::grouped;
use crate::words::{EXPRESSION, FUNCTION, NAMES, PANIC, PRIMITIVE, action, call, header, literal};
use std::ops::{ControlFlow, Range};

/// Eight digits and a line feed.
const LINE: usize = 9;
const DIGITS: &[u8; 16] = b"0123456789abcdef";
/// The longest signature and the longest rule.
const MOST_LINES: usize = 4_612;

/// What the program is handed on standard input.
#[derive(Debug, Clone, PartialEq, Eq)]
pub struct Text {
    pub bytes: Vec<u8>,
    /// How it was made.
    pub made: String,
    /// The byte that it is about.
    pub place: usize,
    /// It is handed over in pieces of at most so many bytes, with pauses between.
    pub piece: usize,
}

impl Text {
    fn new(bytes: Vec<u8>, made: String, place: usize) -> Text {
        Text { bytes, made, place, piece: usize::MAX }
    }
}

/// All of them, in a fixed order. The seed fixes those by chance, which are the last.
pub fn all(seed: u64) -> Vec<Text> {
    let listed = [every_byte(), every_digit(), counting(), every_length(), trials(), many_lines(), in_pieces()];
    let mut texts = listed.concat();
    texts.extend(by_chance(seed));
    texts
}

fn lines(words: &[u32]) -> Vec<u8> {
    words.iter().flat_map(|word| format!("{word:08x}\n").into_bytes()).collect()
}

/// 01's trials, signature and rule. Some lend the calls less than others do, which no text can say: those are the same here.
fn trial_records() -> Vec<Vec<u32>> {
    let mut records = Vec::new();
    let kind = Kind::named("trials").expect("it is the first kind");
    let _ = kind.each(0, Extent::Quick, &mut |_, case| {
        let record = [case.signature, case.rule].concat();
        if !records.contains(&record) {
            records.push(record);
        }
        ControlFlow::Continue(())
    });
    records
}

fn p1() -> Vec<u8> {
    lines(&trial_records()[0])
}

/// P1 with each byte there is in each place of its first line, of one in the middle, and of its last.
///
/// The first line's last digit says where the rule begins; the other two are names, of which the first is printed again
/// and the second must be one that a fact binds.
fn every_byte() -> Vec<Text> {
    let p1 = p1();
    let count = p1.len() / LINE;
    let mut texts = Vec::new();
    for line in [0, count / 2, count - 1] {
        for place in 0..LINE {
            texts.extend((0..=u8::MAX).map(|byte| with_byte(&p1, "P1", line * LINE + place, byte)));
        }
    }
    texts
}

fn with_byte(good: &[u8], name: &str, at: usize, byte: u8) -> Text {
    let mut bytes = good.to_vec();
    bytes[at] = byte;
    Text::new(bytes, format!("{name}, '{}' (byte {byte}) in {}", byte.escape_ascii(), place_of(at)), at)
}

/// Where a byte stands if all lines before it are good, counted from 1 as the program counts lines.
fn place_of(at: usize) -> String {
    format!("place {} of line {}", at % LINE + 1, grouped((at / LINE + 1) as u64))
}

/// Each digit in each place of a call's word and of a literal's.
///
/// This shows values, since both words are printed again: with as many heads as there may be, any three digits behind the
/// first are a head, and any last four a literal. The first digit is the kind; those that no word of a written rule begins
/// with are refused alike, whatever they are worth.
fn every_digit() -> Vec<Text> {
    let rule = [header(0, 1), action(EXPRESSION), call(0x123, 1), literal(0x4567)];
    let good = lines(&[signature_of(NAMES as usize), rule.to_vec()].concat());
    let count = good.len() / LINE;
    let mut texts = Vec::new();
    for line in [count - 2, count - 1] {
        for place in 0..LINE - 1 {
            texts.extend(DIGITS.iter().map(|&digit| with_byte(&good, "4,096 heads", line * LINE + place, digit)));
        }
    }
    texts
}

fn signature_of(heads: usize) -> Vec<u32> {
    let mut sorts = vec![FUNCTION; heads];
    sorts[0] = PRIMITIVE;
    Signature { globals: 0, value_eq: 0, union_to_set: true, sorts }.words()
}

/// Each digit as a number of lines: of heads, of facts or of actions, in every place where so many fit.
///
/// A reader and a printer that mistake two digits for one another print a word again as it was. Here only a digit read with
/// its own value is accepted, since as many lines follow as it says.
fn counting() -> Vec<Text> {
    let mut texts = Vec::new();
    for shift in [0, 4, 8, 12] {
        for count in (0..16).map(|digit| digit << shift) {
            if (1..=NAMES as usize).contains(&count) {
                texts.push(counted(&format!("{count} heads"), count, &[header(0, 0)]));
            }
            if (0..512).contains(&count) {
                let rule = [vec![header(count, 0)], vec![literal(1); count]].concat();
                texts.push(counted(&format!("{count} facts"), 1, &rule));
            }
            if (0..256).contains(&count) {
                let rule = [vec![header(0, count)], [action(PANIC), literal(1)].repeat(count)].concat();
                texts.push(counted(&format!("{count} actions"), 1, &rule));
            }
        }
    }
    texts
}

fn counted(made: &str, heads: usize, rule: &[u32]) -> Text {
    Text::new(lines(&[&signature_of(heads), rule].concat()), made.to_owned(), 0)
}

/// Each beginning of P1, and P1 with a little behind it.
fn every_length() -> Vec<Text> {
    let p1 = p1();
    let mut texts = beginnings(&p1, "P1", 0..p1.len() + 1);
    for tail in ["\n", "0", "\r", "\0", " ", "\u{1a}", "00000000\n", "40000001\n", "40000001\r\n", "40000001", "\n\n"] {
        let bytes = [&p1, tail.as_bytes()].concat();
        texts.push(Text::new(bytes, format!("P1, behind it \"{}\"", tail.escape_debug()), p1.len()));
    }
    texts
}

fn beginnings(bytes: &[u8], name: &str, lengths: Range<usize>) -> Vec<Text> {
    lengths
        .map(|length| Text::new(bytes[..length].to_vec(), format!("{name}, its first {length} bytes"), length))
        .collect()
}

fn trials() -> Vec<Text> {
    let texts = trial_records().into_iter().enumerate();
    texts.map(|(index, record)| Text::new(lines(&record), format!("trial {}", index + 1), 0)).collect()
}

/// So many good lines: the longest signature, and a rule of one fact a line, as many as a rule may have.
fn good_lines(count: usize) -> Vec<u8> {
    let signature = signature_of(NAMES as usize);
    let facts = (count - signature.len() - 1).min(511);
    let mut words = [signature, vec![header(facts, 0)]].concat();
    words.resize(count, literal(1));
    lines(&words)
}

/// As many lines as are read, one less, one more, and many more than the program has room for. Then the last one that is
/// read and the one behind it, bad or unfinished; and bad lines before too many, since the first of them is told.
fn many_lines() -> Vec<Text> {
    let mut texts: Vec<Text> = [MOST_LINES - 1, MOST_LINES, MOST_LINES + 1, 2 * MOST_LINES, 20_000]
        .map(|count| {
            Text::new(good_lines(count), format!("{} good lines", grouped(count as u64)), LINE * count.min(MOST_LINES))
        })
        .into();
    for count in [MOST_LINES, MOST_LINES + 1] {
        let (good, name) = (good_lines(count), format!("{} lines", grouped(count as u64)));
        texts.extend(beginnings(&good, &name, LINE * (count - 1) + 1..LINE * count));
        texts.push(with_byte(&good, &name, LINE * (count - 1), b'g'));
        texts.push(with_byte(&good, &name, LINE * count - 1, b'0'));
    }
    let over = good_lines(MOST_LINES + 1);
    texts.extend([0, LINE * MOST_LINES - 1].map(|at| with_byte(&over, "4,613 lines", at, b'\r')));
    texts
}

/// P1 and too many lines as whoever writes slowly hands them over: a read may end anywhere, and is not the end of input.
fn in_pieces() -> Vec<Text> {
    let many = good_lines(MOST_LINES + 1);
    let small = [1, 2, 5, 8, 9, 10, 64, 188].map(|piece| (p1(), "P1", piece));
    let full = LINE * MOST_LINES;
    let large = [4_096, full - 1, full, full + 1].map(|piece| (many.clone(), "4,613 lines", piece));
    let texts = small.into_iter().chain(large);
    let text = |(bytes, name, piece)| {
        let made = format!("{name}, in pieces of at most {} bytes", grouped(piece as u64));
        Text { piece, ..Text::new(bytes, made, 0) }
    };
    texts.map(text).collect()
}

/// Kinds whose cases are taken as text, and how many of each.
const DRAWN: &[&str] =
    &["written", "written-long", "written-limits", "growing", "late-faults", "loops", "signatures", "damaged"];
const OF_EACH: usize = 64;

/// Signatures and written rules by chance, every second of them with one byte that is not as it was.
fn by_chance(seed: u64) -> impl Iterator<Item = Text> {
    DRAWN.iter().flat_map(move |name| {
        let kind = Kind::named(name).expect("there is such a kind");
        let cases = (0..).filter_map(move |index| kind.case(seed, index).map(|case| (index, case)));
        let written = cases.filter(|(_, case)| case.call == Call::Lower).take(OF_EACH).enumerate();
        written.map(move |(count, (index, case))| {
            let bytes = lines(&[case.signature, case.rule].concat());
            let text = Text::new(bytes, format!("case {name} {index} of seed {seed}"), 0);
            let mut draw = Draw::of_case(seed, &format!("{name} as text"), index);
            if count % 2 == 0 { text } else { spoilt(&mut draw, text) }
        })
    })
}

/// One byte of it changed, dropped, doubled, or put in uppercase.
fn spoilt(draw: &mut Draw, text: Text) -> Text {
    let Text { bytes, made, .. } = &text;
    if bytes.is_empty() {
        return text;
    }
    let at = draw.between(0, bytes.len() - 1);
    match draw.below(4) {
        0 => with_byte(bytes, made, at, draw.word() as u8),
        1 => {
            let rest = [&bytes[..at], &bytes[at + 1..]].concat();
            Text::new(rest, format!("{made}, the byte dropped in {}", place_of(at)), at)
        }
        2 => {
            let more = [&bytes[..=at], &bytes[at..]].concat();
            Text::new(more, format!("{made}, the byte doubled in {}", place_of(at)), at)
        }
        _ => with_capital(draw, &text, at),
    }
}

/// A letter in uppercase or, since many texts have none, a capital in this place.
fn with_capital(draw: &mut Draw, text: &Text, at: usize) -> Text {
    let Text { bytes, made, .. } = text;
    let letters: Vec<usize> = (0..bytes.len()).filter(|&at| bytes[at].is_ascii_lowercase()).collect();
    if letters.is_empty() {
        return with_byte(bytes, made, at, draw.pick(b"ABCDEF"));
    }
    let at = draw.pick(&letters);
    with_byte(bytes, made, at, bytes[at].to_ascii_uppercase())
}

#[cfg(test)]
mod tests {
    use super::{DIGITS, DRAWN, LINE, OF_EACH, Text, all, every_digit};
    use oracle::program;

    #[test]
    fn the_seed_fixes_those_by_chance_alone() {
        let (one, two) = (all(1), all(2));
        assert_eq!(one, all(1));
        let listed = one.len() - DRAWN.len() * OF_EACH;
        assert_eq!(one[..listed], two[..listed]);
        assert_ne!(one[listed..], two[listed..]);
    }

    type Program = fn(&[u8]) -> String;

    /// Programs whose readers are wrong, each in one thing.
    const WRONG_READERS: &[(&str, Program)] = &[
        ("capitals are digits", |text| program(&text.to_ascii_lowercase())),
        ("g is 0", |text| program(&replaced(text, b'g', b'0'))),
        ("what follows 9 is 10", |text| program(&replaced(text, b':', b'a'))),
        ("what precedes a is 9", |text| program(&replaced(text, b'`', b'9'))),
        ("the highest bit is not read", |text| program(&text.iter().map(|byte| byte & 0x7f).collect::<Vec<_>>())),
        ("carriage returns are line feeds", |text| program(&replaced(text, b'\r', b'\n'))),
        ("carriage returns are dropped", |text| program(&without(text, b'\r'))),
        ("empty lines are dropped", |text| program(&without_empty_lines(text))),
        ("a zero byte ends the text", |text| program(text.split(|&byte| byte == 0).next().unwrap_or_default())),
        ("an unfinished line is dropped", |text| program(&text[..text.len() - text.len() % LINE])),
        ("the last line feed may be missing", |text| program(&finished(text))),
        ("line 4,613 is not seen", |text| program(&text[..text.len().min(4_612 * LINE)])),
        ("line 4,612 is too many", |text| {
            if text.len() == 4_612 * LINE { "refused 13 4612\n".to_owned() } else { program(text) }
        }),
        ("e and f are exchanged, read and printed", |text| {
            let printed = program(&exchanged(text, b'e', b'f'));
            let (first, words) = printed.split_once('\n').expect("a line is printed");
            let words = exchanged(words.as_bytes(), b'e', b'f');
            format!("{first}\n{}", String::from_utf8(words).expect("digits"))
        }),
    ];

    fn replaced(text: &[u8], old: u8, new: u8) -> Vec<u8> {
        text.iter().map(|&byte| if byte == old { new } else { byte }).collect()
    }

    fn exchanged(text: &[u8], one: u8, other: u8) -> Vec<u8> {
        let exchange = |&byte: &u8| match byte {
            _ if byte == one => other,
            _ if byte == other => one,
            _ => byte,
        };
        text.iter().map(exchange).collect()
    }

    fn without(text: &[u8], left_out: u8) -> Vec<u8> {
        text.iter().copied().filter(|&byte| byte != left_out).collect()
    }

    fn without_empty_lines(text: &[u8]) -> Vec<u8> {
        let lines = text.split_inclusive(|&byte| byte == b'\n');
        lines.filter(|line| *line != b"\n").collect::<Vec<_>>().concat()
    }

    fn finished(text: &[u8]) -> Vec<u8> {
        let missing = text.len() % LINE == LINE - 1;
        [text, if missing { b"\n" } else { b"" }].concat()
    }

    #[test]
    fn wrong_readers_are_told() {
        let texts = all(1);
        for (name, wrong) in WRONG_READERS {
            assert!(texts.iter().any(|text| wrong(&text.bytes) != program(&text.bytes)), "{name}");
        }
    }

    /// A reader that takes one digit for another, in one place of each line, is told by the text with that digit there. In
    /// the first place all digits are refused alike that no word of a written rule begins with.
    #[test]
    fn each_digit_is_told_from_each_other() {
        let texts = every_digit();
        for place in 1..LINE - 1 {
            for digit in DIGITS {
                let here = |text: &&Text| text.place % LINE == place && text.bytes[text.place] == *digit;
                let texts: Vec<_> = texts.iter().filter(here).collect();
                assert_eq!(texts.len(), 2);
                for other in DIGITS.iter().filter(|other| *other != digit) {
                    let told = |text: &&Text| {
                        let mut wrong = text.bytes.clone();
                        let places = wrong.iter_mut().skip(place).step_by(LINE);
                        places.filter(|byte| **byte == *digit).for_each(|byte| *byte = *other);
                        program(&wrong) != program(&text.bytes)
                    };
                    assert!(texts.iter().any(told), "{} for {} in place {place}", *other as char, *digit as char);
                }
            }
        }
    }
}

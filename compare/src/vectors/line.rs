//! A line of listed answers: a call with all that is lent to it, and what it must leave behind.
//!
//! Lines are read strictly. What is written down wrong would else be compared as something that nobody wrote.

use crate::case::{Call, Case, Five};
use crate::memory::LONGEST_WORDS;
use crate::trial::Stated;
use std::fmt;
use std::str::FromStr;
use tulgarent::Answer;

/// The calls of this build, as lines name them.
pub const CALLS: [(Call, &str); 3] = [(Call::Lower, "lower"), (Call::Settle, "settle"), (Call::FreeVars, "free_vars")];

pub fn name_of(call: Call) -> &'static str {
    CALLS[call as usize].1
}

/// The field that a call's rule stands in: written and flat rules have different ones.
pub fn rule_field(call: Call) -> &'static str {
    if call == Call::Lower { "rule" } else { "flat" }
}

/// What a line that can be read comes to.
#[derive(Debug, PartialEq, Eq)]
pub enum Line {
    Listed(Case, Stated),
    NotRun(NotRun),
}

/// Why a line is not run: it asks for something that this build does not have.
#[derive(Debug, Clone, PartialEq, Eq)]
pub enum NotRun {
    /// Literals that mean the same.
    List,
    Call(String),
    Field(Call, String),
}

impl NotRun {
    /// Says it of so many lines.
    pub fn told(&self, count: usize) -> String {
        let (lines, lend, make, have) =
            if count == 1 { ("line", "lends", "makes", "has") } else { ("lines", "lend", "make", "have") };
        let why = match self {
            NotRun::List => format!("{lend} a list"),
            NotRun::Call(name) => format!("{make} the call {name}, which this build does not know"),
            NotRun::Field(call, field) => {
                format!("of {} {have} the field {field}, which this build does not know", name_of(*call))
            }
        };
        format!("not run: {count} {lines} {why}")
    }
}

/// Why a line can't be read.
#[derive(Debug, PartialEq, Eq)]
pub struct Unread {
    expected: String,
    found: String,
}

/// How much of a text is told that is not what was expected.
const TOLD: usize = 40;

impl Unread {
    fn new(expected: impl Into<String>, text: &str) -> Unread {
        let start: String = text.chars().take(TOLD).collect();
        let cut = if start.len() < text.len() { ".." } else { "" };
        Unread { expected: expected.into(), found: format!("\"{}\"{cut}", start.escape_debug()) }
    }
}

impl fmt::Display for Unread {
    fn fmt(&self, f: &mut fmt::Formatter<'_>) -> fmt::Result {
        write!(f, "expected {}; found {}", self.expected, self.found)
    }
}

/// Reads a line that is neither empty nor a comment.
pub fn read(line: &str) -> Result<Line, Unread> {
    let Some((made, answer)) = line.split_once(" => ") else {
        return Err(Unread::new("a call, ` => ` and its answer", line));
    };
    let mut tokens = made.split(' ');
    let name = tokens.next().unwrap_or_default();
    if name.is_empty() || !name.bytes().all(|byte| byte.is_ascii_lowercase() || byte == b'_') {
        return Err(Unread::new("the name of a call, in lowercase letters", name));
    }
    let fields = Fields::read(tokens)?;
    let (answer, given) = read_answer(answer)?;
    match CALLS.iter().find(|(_, known)| *known == name) {
        Some(&(call, _)) => of_call(call, fields, answer, given),
        None => Ok(Line::NotRun(NotRun::Call(name.to_owned()))),
    }
}

/// What is known is taken out of the fields, so that what is left is not.
fn of_call(call: Call, mut fields: Fields, answer: Answer, mut given: Fields) -> Result<Line, Unread> {
    let case = read_case(call, &mut fields)?;
    let list = if call == Call::FreeVars { None } else { fields.take("list") };
    let list = numbers::<u32>("list", list.unwrap_or_default())?;
    let stated = read_stated(&case, answer, &mut given)?;
    Ok(match fields.0.first().or(given.0.first()) {
        Some((field, _)) => Line::NotRun(NotRun::Field(call, (*field).to_owned())),
        None if !list.is_empty() => Line::NotRun(NotRun::List),
        None => Line::Listed(case, stated),
    })
}

fn read_case(call: Call, fields: &mut Fields) -> Result<Case, Unread> {
    let signature = words("sig", fields.must("sig")?)?;
    let output = lent("room", fields.must("room")?)?;
    let counters = if call == Call::Lower { numbers("counters", fields.must("counters")?)? } else { Vec::new() };
    let rule = words(rule_field(call), fields.must(rule_field(call))?)?;
    let scratch = if call == Call::FreeVars { 0 } else { lent("scratch", fields.must("scratch")?)? };
    let ragged = fields.take("ragged").map_or(Ok(Five::default()), |text| read_ragged(call, text))?;
    Ok(Case { counters, output, scratch, ragged, ..Case::new(call, signature, rule) })
}

/// `FIELD:BYTES`: this field's slice has so many bytes past its last whole word.
fn read_ragged(call: Call, text: &str) -> Result<Five<u8>, Unread> {
    let mut ragged = Five::default();
    let (field, bytes) = text.split_once(':').unwrap_or((text, ""));
    let slice = match field {
        "sig" => Some(&mut ragged.signature),
        "counters" if call == Call::Lower => Some(&mut ragged.counters),
        "room" => Some(&mut ragged.output),
        "scratch" if call != Call::FreeVars => Some(&mut ragged.scratch),
        _ if field == rule_field(call) => Some(&mut ragged.rule),
        _ => None,
    };
    match slice.zip(number(bytes).filter(|bytes| (1..4).contains(bytes))) {
        Some((slice, bytes)) => *slice = bytes,
        None => {
            return Err(Unread::new("in ragged a field whose slice is lent, a colon, and 1, 2 or 3 bytes", text));
        }
    }
    Ok(ragged)
}

/// `ok COUNT COUNT COUNT` and fields, or `refused NUMBER PLACE` and nothing more.
fn read_answer(text: &str) -> Result<(Answer, Fields<'_>), Unread> {
    let mut tokens = text.split(' ');
    let kind = tokens.next().unwrap_or_default();
    let mut figure = |what: &str| {
        let token = tokens.next().unwrap_or_default();
        number(token).ok_or_else(|| Unread::new(format!("{what}, a decimal number, behind `{kind}`"), token))
    };
    let accepted = match kind {
        "ok" => {
            let [words, replacements, passes] = [figure("a count")?, figure("a count")?, figure("a count")?];
            Answer { words, replacements, passes, ..Answer::default() }
        }
        "refused" => {
            let (number, place) = (figure("the number of a refusal")?, figure("its place")?);
            let more: Vec<&str> = tokens.collect();
            return match (number, more.first()) {
                (0, _) => Err(Unread::new("the number of a refusal, from 1 up", "0")),
                (_, Some(more)) => Err(Unread::new("nothing behind the place of a refusal", more)),
                (number, None) => Ok((Answer { number, place, ..Answer::default() }, Fields(Vec::new()))),
            };
        }
        _ => return Err(Unread::new("`ok` or `refused` behind the arrow", kind)),
    };
    Ok((accepted, Fields::read(tokens)?))
}

/// What an accepted call must leave. A line that contradicts itself is none that any archive could keep to.
fn read_stated(case: &Case, answer: Answer, given: &mut Fields) -> Result<Stated, Unread> {
    if answer.number > 0 {
        return Ok(Stated { answer, words: Vec::new(), counters: Vec::new() });
    }
    let words = words("out", given.must("out")?)?;
    let lower = case.call == Call::Lower;
    let counters = if lower { numbers("counters", given.must("counters")?)? } else { Vec::new() };
    let contradiction = |expected, found| Err(Unread { expected, found });
    if words.len() as u64 != answer.words {
        let expected = format!("as many words in out as the first count says, {}", answer.words);
        contradiction(expected, words.len().to_string())
    } else if words.len() > case.output {
        contradiction(format!("no more words in out than there is room for, {}", case.output), words.len().to_string())
    } else if counters.len() != case.counters.len() {
        let expected = format!("as many counters after the call as before it, {}", case.counters.len());
        contradiction(expected, counters.len().to_string())
    } else {
        Ok(Stated { answer, words, counters })
    }
}

/// `field=value`, each field once.
struct Fields<'a>(Vec<(&'a str, &'a str)>);

impl<'a> Fields<'a> {
    fn read(tokens: impl Iterator<Item = &'a str>) -> Result<Fields<'a>, Unread> {
        let mut fields = Fields(Vec::new());
        for token in tokens {
            match token.split_once('=') {
                Some((field, _)) if fields.0.iter().any(|(known, _)| *known == field) => {
                    return Err(Unread::new(format!("the field {field} once"), token));
                }
                Some((field, value)) if !field.is_empty() => fields.0.push((field, value)),
                _ => return Err(Unread::new("`field=value`, one space before it", token)),
            }
        }
        Ok(fields)
    }

    fn take(&mut self, field: &str) -> Option<&'a str> {
        let at = self.0.iter().position(|(known, _)| *known == field)?;
        Some(self.0.remove(at).1)
    }

    fn must(&mut self, field: &str) -> Result<&'a str, Unread> {
        let there: Vec<&str> = self.0.iter().map(|(field, _)| *field).collect();
        self.take(field).ok_or_else(|| Unread::new(format!("the field {field}"), &there.join(" ")))
    }
}

/// A number as it would be printed: no sign, no zero in front.
fn number<T: FromStr + ToString>(text: &str) -> Option<T> {
    text.parse().ok().filter(|number: &T| number.to_string() == text)
}

fn word(text: &str) -> Option<u32> {
    u32::from_str_radix(text, 16).ok().filter(|word| format!("{word:08x}") == text)
}

/// Items joined by commas; no text is no item.
fn items<T>(text: &str, item: fn(&str) -> Option<T>, expected: impl Fn() -> String) -> Result<Vec<T>, Unread> {
    let parts = text.split(',').filter(|_| !text.is_empty());
    parts.map(|part| item(part).ok_or_else(|| Unread::new(expected(), part))).collect()
}

fn words(field: &str, text: &str) -> Result<Vec<u32>, Unread> {
    items(text, word, || format!("in {field} words of eight lowercase hexadecimal digits, joined by commas"))
}

fn numbers<T: FromStr + ToString>(field: &str, text: &str) -> Result<Vec<T>, Unread> {
    items(text, number, || format!("in {field} decimal numbers of 32 bits, joined by commas"))
}

/// Words of output or scratch.
fn lent(field: &str, text: &str) -> Result<usize, Unread> {
    let words = number(text).filter(|words| *words <= LONGEST_WORDS);
    words.ok_or_else(|| Unread::new(format!("in {field} a number of words, at most {LONGEST_WORDS}"), text))
}

#[cfg(test)]
mod tests {
    use super::{Line, NotRun, read};
    use crate::case::{Call, Case, Five};
    use crate::trial::Stated;
    use tulgarent::Answer;

    const CALL: &str = "lower sig=01000001,01000000 room=3 counters=7,4294967295 rule=04000000 list= scratch=16384";

    fn listed(line: &str) -> (Case, Stated) {
        match read(line) {
            Ok(Line::Listed(case, stated)) => (case, stated),
            other => panic!("{line}: {other:?}"),
        }
    }

    #[test]
    fn what_is_lent_and_what_must_come_of_it_are_read() {
        let (case, stated) = listed(&format!("{CALL} => ok 2 1 4 out=04000000,80010000 counters=8,0"));
        let lent = Case::new(Call::Lower, vec![0x0100_0001, 0x0100_0000], vec![0x0400_0000]);
        assert_eq!(case, Case { counters: vec![7, u32::MAX], output: 3, scratch: 16_384, ..lent });
        let answer = Answer { words: 2, replacements: 1, passes: 4, ..Answer::default() };
        assert_eq!(stated, Stated { answer, words: vec![0x0400_0000, 0x8001_0000], counters: vec![8, 0] });

        let (case, stated) = listed("free_vars flat= room=0 sig= ragged=flat:3 => refused 14 0");
        let ragged = Five { rule: 3, ..Five::default() };
        assert_eq!(case, Case { ragged, ..Case::new(Call::FreeVars, vec![], vec![]) });
        let answer = Answer { number: 14, ..Answer::default() };
        assert_eq!(stated, Stated { answer, words: vec![], counters: vec![] });

        let (case, stated) = listed("settle sig= room=5 flat= scratch=9 => ok 0 0 1 out=");
        assert_eq!((case.call, case.output, case.scratch), (Call::Settle, 5, 9));
        assert_eq!((stated.answer.passes, stated.words), (1, vec![]));
    }

    #[test]
    fn what_this_build_does_not_have_is_named() {
        let not_run = |line: &str| match read(line) {
            Ok(Line::NotRun(why)) => why.told(2),
            other => panic!("{line}: {other:?}"),
        };
        let lends = CALL.replace("list=", "list=0,1,1");
        assert_eq!(not_run(&format!("{lends} => refused 16 2")), "not run: 2 lines lend a list");
        let explain = CALL.replace("lower", "explain");
        let unknown = "not run: 2 lines make the call explain, which this build does not know";
        assert_eq!(not_run(&format!("{explain} variable=40000001 => ok 0 0 0 out=")), unknown);
        let unknown = "not run: 2 lines of lower have the field depth, which this build does not know";
        assert_eq!(not_run(&format!("{CALL} depth=3 => refused 4 0")), unknown);
        let unknown = "not run: 2 lines of free_vars have the field list, which this build does not know";
        assert_eq!(not_run("free_vars sig= room=0 flat= list= => refused 1 0"), unknown);
        let unknown = "not run: 2 lines of settle have the field report, which this build does not know";
        assert_eq!(not_run("settle sig= room=0 flat= scratch=0 => ok 0 0 0 out= report="), unknown);
        assert_eq!(NotRun::List.told(1), "not run: 1 line lends a list");
    }

    #[test]
    fn what_is_not_a_line_is_told() {
        let call = "free_vars sig=01000001 room=2 flat=04000000";
        for (line, told) in [
            (call.to_owned(), "a call, ` => ` and its answer; found \"free_vars sig=01000001 room=2 flat=04000\".."),
            ("Lower sig= => refused 1 0".to_owned(), "the name of a call, in lowercase letters; found \"Lower\""),
            (format!("{call}  => refused 1 0"), "`field=value`, one space before it; found \"\""),
            (format!("{call} room=3 => refused 1 0"), "the field room once; found \"room=3\""),
            (format!("{call} => maybe 1 0"), "`ok` or `refused` behind the arrow; found \"maybe\""),
            (format!("{call} => refused 0 0"), "the number of a refusal, from 1 up; found \"0\""),
            (format!("{call} => refused 1 01"), "its place, a decimal number, behind `refused`; found \"01\""),
            (format!("{call} => refused 1 0 0"), "nothing behind the place of a refusal; found \"0\""),
            (format!("{call} => ok 1 0 out="), "a count, a decimal number, behind `ok`; found \"out=\""),
            (format!("{call} => ok 0 0 0"), "the field out; found \"\""),
            (format!("{call} => ok 1 0 0 out="), "as many words in out as the first count says, 1; found 0"),
            (format!("{CALL} => ok 0 0 0 out= counters=8"), "as many counters after the call as before it, 2; found 1"),
            (
                format!("{call} => ok 3 0 0 out=40000001,40000002,40000003"),
                "no more words in out than there is room for, 2; found 3",
            ),
            (
                format!("{call} ragged=scratch:1 => refused 14 0"),
                "in ragged a field whose slice is lent, a colon, and 1, 2 or 3 bytes; found \"scratch:1\"",
            ),
            (call.replace("room=2", "room=16448") + " => refused 1 0", "in room a number of words, at most 16447"),
            (call.replace("room=2 ", "") + " => refused 1 0", "the field room; found \"flat\""),
        ] {
            let unread = read(&line).expect_err(&line).to_string();
            assert!(unread.starts_with(&format!("expected {told}")), "{line}: {unread}");
        }
    }

    #[test]
    fn words_have_eight_lowercase_digits() {
        let wrong = ["0400000", "004000000", "0400000G", "0400000A", "+4000000", " 4000000", "04000000,", ",04000000"];
        for text in wrong {
            let line = format!("free_vars sig= room=0 flat={text} => refused 1 0");
            assert!(read(&line).is_err(), "{line}");
        }
        for text in ["+1", "01", "-1", "1,", "4294967296", "a"] {
            let line = CALL.replace("counters=7", &format!("counters={text}"));
            assert!(read(&format!("{line} => refused 1 0")).is_err(), "{line}");
        }
    }
}

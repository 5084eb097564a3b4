//! Words by their kinds: built, taken apart, shown.

mod common;

use common::random;
use tulgarent::{Action, Kind, Record, SignatureParts, Sort, Word};

/// Document 01's sums, each with the word and what it is shown as.
#[test]
fn every_kind_is_built_and_shown() {
    let kinds = [
        (Kind::Fresh { head: 3, count: 0 }, 0x8000_0000 + 3 * 65_536, "@3.0"),
        (Kind::Fresh { head: 4_095, count: 65_535 }, 0x8000_0000 + 4_095 * 65_536 + 65_535, "@4095.65535"),
        (Kind::Name(12), 0x4000_0000 + 12, "x12"),
        (Kind::Name(4_095), 0x4000_0000 + 4_095, "x4095"),
        (Kind::Literal(0), 0x2000_0000, "()"),
        (Kind::Literal(7), 0x2000_0000 + 7, "#7"),
        (Kind::Literal(65_535), 0x2000_0000 + 65_535, "#65535"),
        (Kind::Head { head: 3, count: 2 }, 0x1000_0000 + 3 * 65_536 + 2, "f3/2"),
        (Kind::Head { head: 4_095, count: 65_535 }, 0x1fff_ffff, "f4095/65535"),
        (Kind::Equality { count: 2 }, 0x0800_0000 + 2, "=/2"),
        (Kind::Equality { count: 0x07ff_ffff }, 0x0fff_ffff, "=/134217727"),
        (Kind::Header { body: 2, actions: 1 }, 0x0400_0000 + 2 * 4_096 + 1, "rule/2/1"),
        (Kind::Header { body: 4_095, actions: 4_095 }, 0x04ff_ffff, "rule/4095/4095"),
        (Kind::Signature(5), 0x0100_0000 + 5, "s5"),
        (Kind::Signature(0x00ff_ffff), 0x01ff_ffff, "s16777215"),
    ];
    for (kind, bits, shown) in kinds {
        let word = Word::from_bits(bits);
        assert_eq!(kind.word(), Some(word));
        assert_eq!(word.kind(), Some(kind));
        assert_eq!(word.to_string(), shown);
        assert_eq!(format!("{word:?}"), format!("Word({shown})"));
        assert_eq!((u32::from(word), Word::from(bits)), (bits, word));
    }
}

#[test]
fn actions_are_shown_by_name() {
    let shown = ["let", "set", "delete", "subsume", "union", "panic", "call", "expr"];
    for ((action, code), name) in Action::ALL.into_iter().zip(1..).zip(shown) {
        let word = Word::action(action);
        assert_eq!((word.bits(), action.code()), (0x0200_0000 + code, code));
        assert_eq!(Action::from_code(code), Some(action));
        assert_eq!(word.kind(), Some(Kind::Action(action)));
        assert_eq!(word.to_string(), name);
    }
    assert_eq!([0, 9, u32::MAX].map(Action::from_code), [None; 3]);
}

#[test]
fn constants_are_words() {
    assert_eq!(Word::UNIT, Word::literal(0));
    assert_eq!(Some(Word::EQUALITY), Word::equality(2));
}

#[test]
fn numbers_too_large_build_nothing() {
    for large in [4_096, 8_191, 32_768, 65_535] {
        assert_eq!(Word::name(large), None);
        assert_eq!([Word::fresh(large, 0), Word::head(large, 0)], [None; 2]);
        assert_eq!([Word::header(large, 0), Word::header(0, large), Word::header(large, large)], [None; 3]);
    }
    assert_eq!([Word::equality(0x0800_0000), Word::equality(u32::MAX)], [None; 2]);
    assert_eq!([Word::signature(0x0100_0000), Word::signature(u32::MAX)], [None; 2]);
}

#[test]
fn words_that_no_record_holds_are_shown_by_their_digits() {
    // Kinds past 7, then the least and the largest payload that does not fit each kind.
    let none = [
        0x0000_0000,
        0x0000_0001,
        0x0080_0000,
        0x00ff_ffff,
        0x9000_0000,
        0xffff_ffff,
        0x4000_1000,
        0x7fff_ffff,
        0x2001_0000,
        0x3fff_ffff,
        0x0500_0000,
        0x07ff_ffff,
        0x0200_0000,
        0x0200_0009,
        0x03ff_ffff,
    ];
    for bits in none {
        let word = Word::from_bits(bits);
        assert_eq!(word.kind(), None, "{bits:08x}");
        assert_eq!(word.to_string(), format!("?{bits:08x}"));
    }
}

/// Document 01 read once more, by arithmetic: the kind and the numbers of a word that a record may hold.
fn expected(bits: u32) -> Option<Kind> {
    let number = bits.leading_zeros();
    let payload = if number > 7 { return None } else { bits - (1 << (31 - number)) };
    let (head, count) = (payload / 65_536, payload % 65_536);
    let (body, actions) = (payload / 4_096, payload % 4_096);
    let short = |number: u32| u16::try_from(number).ok().filter(|&number| number < 4_096);
    let long = |number: u32| u16::try_from(number).ok();
    Some(match number {
        0 => Kind::Fresh { head: short(head)?, count: long(count)? },
        1 => Kind::Name(short(payload)?),
        2 => Kind::Literal(long(payload)?),
        3 => Kind::Head { head: short(head)?, count: long(count)? },
        4 => Kind::Equality { count: payload },
        5 => Kind::Header { body: short(body)?, actions: short(actions)? },
        6 => Kind::Action(*Action::ALL.get(usize::try_from(payload.checked_sub(1)?).ok()?)?),
        _ => Kind::Signature(payload),
    })
}

fn comes_back(bits: u32) {
    let word = Word::from_bits(bits);
    let kind = word.kind();
    assert_eq!(kind, expected(bits), "{bits:08x}");
    match kind {
        Some(kind) => assert_eq!(kind.word(), Some(word), "{bits:08x}"),
        None => assert!(word.to_string().starts_with('?'), "{bits:08x}"),
    }
}

/// Every upper half with the edges of lower halves, the lowest words of every kind, and words from a fixed seed.
#[test]
fn a_word_taken_apart_is_put_together_again() {
    for upper in 0..=u32::from(u16::MAX) {
        [0, 1, 8, 9, 0x0fff, 0x1000, 0xffff].into_iter().for_each(|lower| comes_back((upper << 16) | lower));
    }
    for kind in 0..32 {
        (0..70_000).for_each(|payload| comes_back((0x8000_0000_u32 >> kind).wrapping_add(payload)));
    }
    let mut next = random();
    for _ in 0..500_000 {
        let bits = next();
        comes_back(bits as u32);
        comes_back((bits >> 32) as u32 >> (bits % 32));
    }
}

/// No two words look alike.
#[test]
fn the_notation_tells_words_apart() {
    let edges = [0, 1, 2, 8, 9, 10, 11, 12, 110, 111, 0x0fff, 0x1000, 0xffff];
    let uppers = (0..=u32::from(u16::MAX)).step_by(17).chain((0..16).map(|bit| 1 << bit));
    let mut words: Vec<Word> =
        uppers.flat_map(|upper| edges.map(|lower| Word::from_bits((upper << 16) | lower))).collect();
    words.sort();
    words.dedup();
    let mut shown: Vec<String> = words.iter().map(Word::to_string).collect();
    shown.sort();
    shown.dedup();
    assert_eq!(shown.len(), words.len());
}

#[test]
fn records_are_words_with_spaces_between() {
    assert_eq!(Record(&[]).to_string(), "");
    assert_eq!(Record(&[Word::UNIT]).to_string(), "()");
    let p1 = common::record(common::P1);
    let shown = "rule/2/1 =/2 x2 f1/1 x1 =/2 x3 f1/1 x1 set f3/1 x1 x3";
    assert_eq!(Record(Word::slice(&p1)).to_string(), shown);
    assert_eq!(Word::slice_bits(Word::slice(&p1)), p1);
    assert_eq!(Word::slice(&[]), []);
}

#[test]
fn signatures_are_built_by_their_parts() {
    let sorts = [Sort::Primitive, Sort::Function, Sort::Constructor, Sort::Function];
    let parts = |union_to_set| SignatureParts { globals: 1, value_eq: 0, union_to_set, sorts: &sorts };
    let bits = |parts: SignatureParts| parts.words().map(Word::bits).collect::<Vec<_>>();
    assert_eq!(bits(parts(true)), common::record(common::TRIAL));
    assert_eq!(bits(parts(false)), common::record(common::FLAG_OFF));
    let large = vec![Sort::Constructor; 0x0100_0000];
    let mut words = SignatureParts { sorts: &large, ..parts(true) }.words();
    assert_eq!(words.next(), Some(Word::from_bits(0x01ff_ffff)), "more heads than a word can say");
}

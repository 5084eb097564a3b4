//! Bad input of every kind is refused by its number, and a checksum of output and counters shows that they are as they were.

mod common;

use common::{P1, TRIAL, bytes, random, record};
use tulgarent::{Answer, Counters, Flat, Output, SCRATCH_BYTES, Scratch, Signature, Written, raw};

/// The slices that a call is lent, in the order of `lower`.
#[derive(Clone)]
struct Lent {
    signature: Vec<u8>,
    rule: Vec<u8>,
    counters: Vec<u8>,
    output: Vec<u8>,
    scratch: Vec<u8>,
}

impl Lent {
    fn lower(&mut self) -> Answer {
        raw::lower(
            Signature(&self.signature),
            Written(&self.rule),
            Counters(&mut self.counters),
            Output(&mut self.output),
            Scratch(&mut self.scratch),
        )
    }
}

/// P1 with exactly as much as it needs.
fn p1() -> Lent {
    Lent {
        signature: bytes(&record(TRIAL)),
        rule: bytes(&record(P1)),
        counters: bytes(&[3, 1, 4, 1]),
        output: vec![0xa5; 4 * 17],
        scratch: vec![0x5a; SCRATCH_BYTES],
    }
}

/// FNV-1a over both slices that a refusal must leave alone.
fn checksum(lent: &Lent) -> u64 {
    let bytes = lent.output.iter().chain(&lent.counters);
    bytes.fold(0xcbf2_9ce4_8422_2325, |sum, &byte| (sum ^ u64::from(byte)).wrapping_mul(0x0000_0100_0000_01b3))
}

/// The three calls, one after the other; each must leave output and counters alone. Their numbers and places.
fn refused(mut lent: Lent) -> [(u64, u64); 3] {
    let before = checksum(&lent);
    let calls: [fn(&mut Lent) -> Answer; 3] = [
        Lent::lower,
        |l| raw::settle(Signature(&l.signature), Flat(&l.rule), Output(&mut l.output), Scratch(&mut l.scratch)),
        |l| raw::free_vars(Signature(&l.signature), Flat(&l.rule), Output(&mut l.output)),
    ];
    calls.map(|call| {
        let answer = call(&mut lent);
        assert_ne!(answer.number, 0, "accepted");
        assert_eq!((answer.words, answer.replacements, answer.passes), (0, 0, 0));
        assert_eq!(checksum(&lent), before, "a refusal changed output or counters");
        (answer.number, answer.place)
    })
}

/// The number and the place with which lowering refuses.
fn lowering_refused(lent: Lent) -> (u64, u64) {
    let mut lent = lent;
    let before = checksum(&lent);
    let answer = lent.lower();
    assert_eq!(checksum(&lent), before, "a refusal changed output or counters");
    (answer.number, answer.place)
}

#[test]
fn nothing_is_lent() {
    let none = Lent { signature: vec![], rule: vec![], counters: vec![], output: vec![], scratch: vec![] };
    assert_eq!(refused(none), [(1, 0); 3]);
}

#[test]
fn one_slice_is_empty() {
    assert_eq!(refused(Lent { signature: vec![], ..p1() }), [(1, 0); 3]);
    assert_eq!(refused(Lent { rule: vec![], ..p1() }), [(4, 0); 3]);
    assert_eq!(lowering_refused(Lent { counters: vec![], ..p1() }), (2, 0));
    assert_eq!(lowering_refused(Lent { output: vec![], ..p1() }), (10, 17));
    assert_eq!(lowering_refused(Lent { scratch: vec![], ..p1() }), (3, 0));
}

#[test]
fn one_slice_is_ragged() {
    for over in 1..4 {
        let longer = |slice: Vec<u8>| [slice, vec![0; over]].concat();
        let lent = p1();
        assert_eq!(refused(Lent { signature: longer(lent.signature), ..p1() }), [(14, 0); 3]);
        assert_eq!(refused(Lent { rule: longer(lent.rule), ..p1() }), [(14, 0); 3]);
        assert_eq!(refused(Lent { output: longer(lent.output), ..p1() }), [(14, 0); 3]);
        assert_eq!(lowering_refused(Lent { counters: longer(lent.counters), ..p1() }), (14, 0));
        assert_eq!(lowering_refused(Lent { scratch: longer(lent.scratch), ..p1() }), (14, 0));
    }
}

#[test]
fn one_slice_is_a_word_short() {
    let shorter = |slice: Vec<u8>| slice[..slice.len() - 4].to_vec();
    let lent = p1();
    assert_eq!(lowering_refused(Lent { signature: shorter(lent.signature), ..p1() }), (1, 7));
    assert_eq!(lowering_refused(Lent { rule: shorter(lent.rule), ..p1() }), (5, 12));
    assert_eq!(lowering_refused(Lent { counters: shorter(lent.counters), ..p1() }), (2, 0));
    assert_eq!(lowering_refused(Lent { output: shorter(lent.output), ..p1() }), (10, 17));
    assert_eq!(lowering_refused(Lent { scratch: shorter(lent.scratch), ..p1() }), (3, 0));
}

#[test]
fn five_megabytes_of_random_bytes() {
    let mut next = random();
    let random: Vec<u8> = (0..625_000).flat_map(|_| next().to_le_bytes()).collect();
    assert_eq!(random.len(), 5_000_000);
    assert_eq!(refused(Lent { signature: random.clone(), ..p1() }), [(1, 0); 3]);
    assert_eq!(refused(Lent { rule: random.clone(), ..p1() }), [(4, 0); 3]);
    assert_eq!(refused(Lent { signature: random.clone(), rule: random.clone(), ..p1() }), [(1, 0); 3]);
    assert_eq!(refused(Lent { rule: random[..2_048].to_vec(), ..p1() }), [(5, 0); 3]);
    // The other three may hold anything: a written rule is refused as a flat one, whatever they hold.
    let large = Lent { counters: random.clone(), output: random.clone(), scratch: random.clone(), ..p1() };
    assert_eq!(refused(Lent { rule: bytes(&record("04001000 00000000")), ..large }), [(5, 1); 3]);
}

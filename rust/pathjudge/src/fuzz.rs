//! The boundary under made-up input: the raw functions on steps that no search has, tables that nobody filled, lists whose lengths do not go together, empty slices,
//! certificates that are whole, damaged or noise. What must hold of every result is asserted.
mod made;

use crate::ffi::{self, Asked, Lent, Place, Row, Step, Trusted, ASK, FOUND, MOST_CERTIFICATES, OFFER, REFUSED, SPENT};
use crate::Refusal;
use made::{Random, World};
use std::vec;
use std::vec::Vec;

const SEED: u64 = 0x7061_7468_6a75_6467;
const FEW_CALLS: u64 = 200_000;
const MANY_CALLS: u64 = 10_000_000;
/// How many calls `many_calls` makes, if it is set.
const CALLS: &str = "PATHJUDGE_FUZZ_CALLS";
/// Budgets are mostly below this, so that some are used up.
const BUDGET: usize = 60;

#[test]
fn few_calls() {
    run(FEW_CALLS);
}

#[test]
#[ignore = "ten million calls take a while"]
fn many_calls() {
    run(std::env::var(CALLS).map_or(MANY_CALLS, |calls| calls.parse().expect("a number of calls")));
}

fn run(calls: u64) {
    let mut fuzz = Fuzz { random: Random(SEED), calls: 0, offers: 0, found: 0, refused: 0, spent: 0, deepest: 0 };
    while fuzz.calls < calls {
        fuzz.world();
    }
    std::println!(
        "{} calls; dialogues: {} offers, {} found, {} refused, {} spent; deepest path: {} intermediates",
        fuzz.calls,
        fuzz.offers,
        fuzz.found,
        fuzz.refused,
        fuzz.spent,
        fuzz.deepest
    );
    // what was asserted of offers and ends was put to the test
    assert!(fuzz.offers > 0 && fuzz.found > 0 && fuzz.refused > 0 && fuzz.spent > 0);
    assert_eq!(fuzz.deepest, MOST_CERTIFICATES - 1);
}

struct Fuzz {
    random: Random,
    calls: u64,
    // of the dialogues
    offers: u64,
    found: u64,
    refused: u64,
    spent: u64,
    deepest: usize,
}

impl Fuzz {
    /// Calls of every function with one request.
    fn world(&mut self) {
        World::new(&mut self.random).lend(|lent| {
            for _ in 0..4 {
                let rows = self.dialogue(lent);
                self.made_up(lent, &rows);
                self.made_up_table(lent);
            }
            for bytes in lent.issuers.iter().map(|bytes| bytes.as_slice()).chain([lent.end, lent.name, &[]]) {
                self.leaves(lent, bytes);
            }
        });
    }

    /// A search from its beginning on, with answers out of the air, and the table that it filled: of any length.
    fn dialogue(&mut self, lent: &Lent) -> Vec<Row> {
        let budgets = [self.random.number(BUDGET) as u64, self.random.below(BUDGET) as u64, self.random.number(BUDGET) as u64];
        self.calls += 1;
        let room = self.random.below(lent.issuers.len() + 3);
        let mut rows = vec![Row::EMPTY; room];
        let mut step = lent.begin(budgets[0], budgets[1], budgets[2], &mut rows);
        assert!(step.signatures <= budgets[0] && step.extensions <= budgets[1] && step.comparisons <= budgets[2]);
        let mut signed: Vec<(usize, usize)> = vec![];
        let mut content = false;
        loop {
            self.sound(lent, &rows, step);
            let answer = match step.phase {
                ASK => {
                    let asked = self.question(lent, &rows, step);
                    assert_eq!(asked.refusal, 0, "a question is about a certificate");
                    let answer = self.random.answer(85);
                    // whatever is answered, a key that cannot be read signs nothing
                    if answer == 0 && asked.key_refusal == 0 {
                        signed.push((asked.key, asked.certificate));
                    } else {
                        signed.clear();
                    }
                    answer
                }
                OFFER => {
                    self.offers += 1;
                    self.offer(lent, step, &signed);
                    signed.clear();
                    let answer = self.random.answer(30);
                    content = answer == 0;
                    answer
                }
                _ => break,
            };
            let before = step;
            step = self.answer(lent, &rows, step, answer);
            assert!(step.phase != FOUND || before.phase == OFFER, "a path is found only where one was offered");
        }
        match step.phase {
            FOUND => {
                self.found += 1;
                assert!(content, "a path is found only if the caller is content");
                assert_eq!(step.refusal, 0);
            }
            REFUSED => {
                self.refused += 1;
                let refusal = Refusal::from_number(step.refusal).expect("a refusal");
                assert!(refusal.number() < Refusal::MaximumSignatureChecksExceeded.number());
            }
            _ => {
                self.spent += 1;
                assert!((Refusal::MaximumSignatureChecksExceeded.number()..=Refusal::MaximumNameConstraintComparisonsExceeded.number())
                    .contains(&step.refusal));
            }
        }
        rows
    }

    /// An offer: a path of different certificates, each of which was said to be signed by the one above it, the last one by the anchor, which lacks
    /// neither its key nor its name constraints.
    fn offer(&mut self, lent: &Lent, step: Step, signed: &[(usize, usize)]) {
        let (anchors, certificates) = (lent.subjects.len(), step.depth + 1);
        self.deepest = self.deepest.max(step.depth);
        assert!(step.anchor < anchors);
        assert!(step.anchor < lent.keys.len());
        assert!(step.anchor < lent.constraints.len() || lent.bound.get(step.anchor).copied().unwrap_or(0) == 0);
        let path = &step.path[..certificates];
        assert_eq!(path[0], anchors + lent.issuers.len());
        for (place, number) in path.iter().enumerate().skip(1) {
            assert!((anchors..anchors + lent.issuers.len()).contains(number));
            assert!(!path[..place].contains(number));
        }
        let signers = path[1..].iter().copied().chain([step.anchor]);
        let mut wanted: Vec<(usize, usize)> = signers.zip(path.iter().copied()).collect();
        wanted.reverse(); // the top is asked about first
        assert!(signed.ends_with(&wanted), "every certificate of an offered path was answered with yes");
    }

    /// A step out of the air.
    fn made_up(&mut self, lent: &Lent, rows: &[Row]) {
        let step = made::step(&mut self.random, lent.issuers.len());
        let answer = self.random.answer(50);
        self.question(lent, rows, step);
        let after = self.answer(lent, rows, step, answer);
        self.sound(lent, rows, after);
    }

    /// A step and a table out of the air: what comes back need not make sense, but it comes back.
    fn made_up_table(&mut self, lent: &Lent) {
        let room = self.random.below(lent.issuers.len() + 3);
        let rows = self.random.list(room, made::row);
        let step = made::step(&mut self.random, lent.issuers.len());
        let answer = self.random.answer(50);
        self.calls += 1;
        lent.question(&rows, step);
        let after = self.answer(lent, &rows, step, answer);
        self.sound(lent, &rows, after);
    }

    fn answer(&mut self, lent: &Lent, rows: &[Row], step: Step, answer: u16) -> Step {
        self.calls += 1;
        let after = lent.answer(rows, step, answer);
        assert!(after.signatures <= step.signatures && after.extensions <= step.extensions && after.comparisons <= step.comparisons);
        after
    }

    /// What holds of every step that comes back.
    fn sound(&mut self, lent: &Lent, rows: &[Row], step: Step) {
        assert!((ASK..=SPENT).contains(&step.phase));
        assert!(step.depth < MOST_CERTIFICATES);
        if ![ASK, OFFER].contains(&step.phase) {
            let answer = self.random.next() as u16;
            assert_eq!(self.answer(lent, rows, step, answer), step, "an end stays what it is");
        }
    }

    fn question(&mut self, lent: &Lent, rows: &[Row], step: Step) -> Asked {
        self.calls += 1;
        let asked = lent.question(rows, step);
        let anchors = lent.subjects.len();
        let certificate = |number: usize| match number.checked_sub(anchors) {
            Some(number) if number < lent.issuers.len() => lent.issuers[number].as_slice(),
            _ => lent.end,
        };
        let holder = match asked.key {
            key if key < anchors => lent.keys.get(key).map_or(&[][..], |key| key.as_slice()),
            key => certificate(key),
        };
        inside(certificate(asked.certificate), &[asked.signed, asked.algorithm, asked.signature]);
        inside(holder, &[asked.key_algorithm, asked.key_bits]);
        known(asked.refusal);
        known(asked.key_refusal);
        asked
    }

    /// The functions on bytes alone.
    fn leaves(&mut self, lent: &Lent, bytes: &[u8]) {
        self.calls += 3;
        let read = ffi::read(bytes);
        known(read);
        let Trusted { subject, key, constraints, refusal, bound } = ffi::anchor(bytes);
        inside(bytes, &[subject, key, constraints]);
        known(refusal);
        assert!(bound <= 1);
        assert!(read != 0 || refusal == 0, "what can stand in a path can be trusted");
        let kind = self.random.below(4) as u8;
        let good = ffi::name(bytes, kind, lent.name);
        known(good);
        assert!(read == 0 || good == read, "what cannot be read is good for no name");
    }
}

fn inside(bytes: &[u8], places: &[Place]) {
    for place in places {
        assert!(place.of(bytes).is_some(), "{place:?} of {}", bytes.len());
    }
}

fn known(number: u16) {
    assert!(number == 0 || Refusal::from_number(number).is_some());
}

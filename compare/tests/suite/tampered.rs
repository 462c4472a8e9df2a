//! False proofs: one word of a good one is replaced, and the same check must fail on both sides. At 64, 256 and 1,024 it must be the
//! check that the word enters first. And false sums, which just those η save that the theorem counts.

use compare::calls::{compare_circuit, proof_of, proved};
use compare::case::{Case, ALPHA, BETA, GAMMA};
use compare::library;
use compare::random::{count, Random};
use compare::steps::{Answer, Answers, Pair, Step};
use second::{Check, Refusal, Verdict};

/// The entries of A, B and C, for |X| = 1, n/4 and n: every |K_M| from 128 to 1,024, no two alike in a circuit.
const COUNTS: [[usize; 3]; 3] = [[100, 500, 200], [512, 128, 256], [1024, 150, 300]];
/// The sections whose polynomials are opened first, in the order of their openings.
const OPENED_SECTIONS: [usize; 9] = [0, 1, 4, 5, 2, 10, 7, 8, 9];

const ACCEPTED: Answer = Ok(Some(Verdict::Accept));
const FAILS_ROW: Answer = Ok(Some(Verdict::Fails(Check::Row)));
const FAILS_LINE: Answer = Ok(Some(Verdict::Fails(Check::Line)));
const FAILS_MATRIX: Answer = Ok(Some(Verdict::Fails(Check::Matrix)));

/// Proofs with one false word each: the same check must fail on both sides. An opening is false only where it is asked about or only where
/// it is committed, and the other verdict is Accept.
#[test]
fn tampered_proofs() {
    let mut random = Random::new(43);
    let mut answers = Answers::default();
    for _ in 0..count(120) {
        let (case, proof) = proved(random.case(4));
        let good = Step::of_proof(&case, &proof);
        for place in 2..8 {
            for word in 0..good[place].clone().words().len() {
                let mut steps = good.clone();
                *steps[place].words()[word] = random.word();
                let mut pair = Pair::unopened();
                let [.., asked, committed] = steps.map(|step| pair.take(&step));
                match place {
                    6 => assert_eq!(committed, ACCEPTED),
                    7 => assert_eq!(asked, ACCEPTED),
                    _ => assert_eq!(asked, committed),
                }
                [asked, committed].iter().for_each(|answer| answers.add(answer));
            }
        }
    }
    answers.expect(20, &[]);
}

/// What a false opening answers.
fn fails(opening: usize) -> Answer {
    match opening {
        0..4 => FAILS_LINE,
        4 => FAILS_ROW,
        _ => FAILS_MATRIX,
    }
}

/// A word other than this one.
fn other(random: &mut Random, word: u32) -> u32 {
    plus(word, random.nonzero())
}

fn plus(a: u32, b: u32) -> u32 {
    second::add(a, b).expect("field words")
}

fn minus(a: u32, b: u32) -> u32 {
    second::subtract(a, b).expect("field words")
}

fn times(a: u32, b: u32) -> u32 {
    second::multiply(a, b).expect("field words")
}

/// A good proof, with all that is opened.
struct Good {
    steps: [Step; 8],
    /// The polynomials in the order of their openings, each with its point.
    opened: Vec<(Vec<u32>, u32)>,
    openings: [u32; 21],
    answers: Answers,
}

impl Good {
    /// The proof of a satisfied case, made on both sides; its openings are values of its polynomials, and it is accepted.
    fn new(case: &Case) -> Good {
        let outcomes = compare_circuit(case);
        let index = outcomes[0].lent.clone();
        let proof = proof_of(case, outcomes).expect("a satisfied case is proved");
        let points = [BETA, BETA, BETA, BETA, ALPHA, GAMMA, GAMMA, GAMMA, GAMMA].map(|place| case.challenges[place]);
        let messages = OPENED_SECTIONS.map(|section| proof.sections[section].clone());
        let indexes = index.into_iter().map(|polynomial| (polynomial, case.gamma()));
        let opened: Vec<(Vec<u32>, u32)> = messages.into_iter().zip(points).chain(indexes).collect();
        let values: Vec<u32> = opened.iter().map(|(polynomial, point)| evaluate(polynomial, *point)).collect();
        assert_eq!(values, proof.openings);
        let mut good =
            Good { steps: Step::of_proof(case, &proof), opened, openings: proof.openings, answers: Answers::default() };
        good.expect(&good.steps.clone(), ACCEPTED);
        good
    }

    /// Takes all steps on both sides and holds the verdict to the one expected.
    fn expect(&mut self, steps: &[Step; 8], expected: Answer) {
        let answer = Pair::verdict(steps);
        assert_eq!(answer, expected, "the verdict, then the one expected");
        self.answers.add(&answer);
    }

    /// The verdict with one opening replaced.
    fn expect_opening(&mut self, opening: usize, word: u32) {
        let mut steps = self.steps.clone();
        steps[6..].iter_mut().for_each(|step| *step.words()[opening] = word);
        self.expect(&steps, fails(opening));
    }

    /// The verdict with some words of a step replaced.
    fn expect_words(&mut self, step: usize, changes: &[(usize, u32)], expected: Answer) {
        let mut steps = self.steps.clone();
        for &(place, word) in changes {
            *steps[step].words()[place] = word;
        }
        self.expect(&steps, expected);
    }

    fn word(&self, step: usize, place: usize) -> u32 {
        *self.steps[step].clone().words()[place]
    }
}

/// A polynomial's value, which is that of both sides.
fn evaluate(polynomial: &[u32], point: u32) -> u32 {
    let value = library::evaluate(polynomial, point);
    assert_eq!(value, second::evaluate(polynomial, point), "evaluate: the library, then the second implementation");
    value.expect("field words")
}

/// Every opening replaced, then every polynomial with another first, last or random coefficient, opened anew.
fn false_openings(random: &mut Random, good: &mut Good) {
    for opening in 0..21 {
        let word = good.openings[opening];
        good.expect_opening(opening, plus(word, 1));
        good.expect_opening(opening, other(random, word));
        let (polynomial, point) = good.opened[opening].clone();
        let random_places: Vec<usize> = (0..count(3)).map(|_| random.place(polynomial.len())).collect();
        for place in [0, polynomial.len() - 1].into_iter().chain(random_places) {
            let mut changed = polynomial.clone();
            changed[place] = other(random, polynomial[place]);
            good.expect_opening(opening, evaluate(&changed, point));
        }
    }
}

/// Every σ, η, ω and δ replaced, and each of α, β, γ; then sums that keep Row and values that keep Line.
fn false_words(random: &mut Random, good: &mut Good) {
    for (step, place, expected) in [
        (1, 3, FAILS_ROW),
        (2, 0, FAILS_ROW),
        (2, 1, FAILS_ROW),
        (2, 2, FAILS_ROW),
        (2, 3, FAILS_LINE),
        (2, 4, FAILS_LINE),
        (2, 5, FAILS_LINE),
        (3, 2, FAILS_LINE),
        (4, 0, FAILS_LINE),
        (4, 1, FAILS_LINE),
        (4, 2, FAILS_LINE),
        (4, 6, FAILS_MATRIX),
        (4, 7, FAILS_MATRIX),
        (4, 8, FAILS_MATRIX),
        (5, 1, FAILS_MATRIX),
    ] {
        for _ in 0..count(2) {
            let word = match (step, place) {
                (1, 3) | (3, 2) | (5, 1) => random.outside(1024),
                _ => other(random, good.word(step, place)),
            };
            good.expect_words(step, &[(place, word)], expected);
        }
    }
    let sums = [0, 1, 2, 3].map(|place| good.word(2, place));
    let change = random.nonzero();
    let kept = [(0, plus(sums[0], change)), (2, plus(sums[2], times(change, sums[1])))];
    good.expect_words(2, &kept, FAILS_LINE);
    let [eta_a, eta_b] = [3, 4].map(|place| good.word(2, place));
    let [value_a, value_b] = [0, 1].map(|place| good.word(4, place));
    let kept = [(0, plus(value_a, times(change, eta_b))), (1, minus(value_b, times(change, eta_a)))];
    good.expect_words(4, &kept, FAILS_MATRIX);
}

/// Public words replaced: the second, the last and random ones. The first is the constant, and an opening with another is refused.
fn false_public_words(random: &mut Random, good: &mut Good, public: usize) {
    let mut opening = good.steps[0].clone();
    *opening.words()[6] = other(random, 1);
    assert_eq!(Pair::unopened().take(&opening), Err(Refusal { number: 13, position: 0 }));
    let random_places: Vec<usize> = (0..count(6)).map(|_| random.place(public)).collect();
    let places = [1, public - 1].into_iter().chain(random_places);
    for place in places.filter(|place| (1..public).contains(place)) {
        let word = other(random, good.word(0, 6 + place));
        good.expect_words(0, &[(6 + place, word)], FAILS_LINE);
    }
}

/// False proofs of circuits with |R| = |C| = size and |X| = 1, a quarter of it and all of it.
fn tampered_at(size: u32, test: u64) {
    let mut random = Random::new(test);
    for (public, counts) in [1, size / 4, size].into_iter().zip(COUNTS) {
        let case = random.case_of_counts([size, size, public], counts);
        assert_eq!(case.places(), counts.map(|count| count.next_power_of_two() as u32));
        let mut good = Good::new(&case);
        false_openings(&mut random, &mut good);
        false_words(&mut random, &mut good);
        false_public_words(&mut random, &mut good, public as usize);
        good.answers.expect(1, &[]);
    }
}

#[test]
fn tampered_at_64() {
    tampered_at(64, 80);
}

#[test]
fn tampered_at_256() {
    tampered_at(256, 81);
}

#[test]
fn tampered_at_1024() {
    tampered_at(1024, 82);
}

/// Sums that are false and keep Row, with the mask of a good proof or one that does not add to 0. Whatever η_B and η_C are, one η_A makes
/// the line claim true, and with it g1 and h1 of the good proof for this η pass; with any other they fail Line.
#[test]
fn false_sums_that_eta_saves() {
    let mut random = Random::new(83);
    for _ in 0..count(60) {
        let (mut case, proof) = proved(random.case(4));
        let sums = [0, 1, 2].map(|place| proof.sections[3][place]);
        let change = random.nonzero();
        let claimed = [plus(sums[0], change), sums[1], plus(sums[2], times(change, sums[1]))];
        for shift in [0, random.nonzero()] {
            let [_, eta_b, eta_c] = random.three();
            // the sums claim change (η_A + σ_B η_C) too much, and the mask adds to shift |C|
            let in_all = times(times(shift, case.sizes[1]), second::inverse(change).expect("not 0"));
            let saving = minus(in_all, times(sums[1], eta_c));
            for (eta_a, expected) in [(saving, ACCEPTED), (other(&mut random, saving), FAILS_LINE)] {
                case.challenges[1..=3].copy_from_slice(&[eta_a, eta_b, eta_c]);
                let (_, mut proof) = proved(case.clone());
                proof.sections[3] = claimed.to_vec();
                proof.openings[1] = plus(proof.openings[1], shift);
                let answer = Pair::verdict(&Step::of_proof(&case, &proof));
                assert_eq!(answer, expected, "the verdict, then the one expected");
            }
        }
    }
}

//! Tampered proofs of random circuits fail at the check that the changed word enters first.

use crate::arithmetic::{combination, interpolated, minus, plus, times, value_at, vanishing, P};
use crate::case::{Case, Proof};
use crate::random::{count, Random};
use second::{Check, Refusal, Verdict};

/// Random cases with full matrices, and their proofs.
fn cases(test: u64) -> Vec<(Case, Proof)> {
    let mut random = Random::new(test);
    let mut cases = Vec::new();
    while (cases.len() as u64) < count(40) {
        let sizes = random.sizes(4);
        let case = random.case(sizes, 16);
        if case.entries.iter().all(|list| !list.is_empty()) {
            let proof = case.proof().unwrap();
            cases.push((case, proof));
        }
    }
    cases
}

fn increased(word: u32, by: u64) -> u32 {
    plus(u64::from(word), by) as u32
}

#[test]
fn each_opening() {
    for (case, proof) in cases(13) {
        for place in 0..21 {
            let mut tampered = proof.clone();
            tampered.openings[place] = increased(tampered.openings[place], 1);
            let check = match place {
                0..=3 => Check::Line,
                4 => Check::Row,
                _ => Check::Matrix,
            };
            assert_eq!(case.verdict(&tampered), Ok(Verdict::Fails(check)), "opening {place}");
        }
    }
}

#[test]
fn each_sum_and_value() {
    for (case, proof) in cases(14) {
        for place in 0..3 {
            let mut tampered = proof.clone();
            tampered.sections[3][place] = increased(tampered.sections[3][place], 1);
            assert_eq!(case.verdict(&tampered), Ok(Verdict::Fails(Check::Row)));
            let mut tampered = proof.clone();
            tampered.sections[6][place] = increased(tampered.sections[6][place], P - 1);
            assert_eq!(case.verdict(&tampered), Ok(Verdict::Fails(Check::Line)));
        }
    }
}

#[test]
fn sums_that_keep_the_row_fail_the_line() {
    for (case, proof) in cases(15) {
        let mut tampered = proof.clone();
        let sums = &mut tampered.sections[3];
        sums[0] = increased(sums[0], 5);
        let change = times(5, u64::from(sums[1]));
        sums[2] = increased(sums[2], change);
        assert_eq!(case.verdict(&tampered), Ok(Verdict::Fails(Check::Line)));
    }
}

#[test]
fn values_that_keep_the_line_fail_the_matrix() {
    for (case, proof) in cases(16) {
        let beta = u64::from(case.beta);
        let public = interpolated(&case.public_words(), beta);
        let witness = times(value_at(&proof.sections[0], beta), vanishing(case.sizes[2] as usize, beta));
        let mut tampered = proof.clone();
        let values = &mut tampered.sections[6];
        let before = combination(case.eta, [0, 1, 2].map(|place| u64::from(values[place])));
        values[1] = increased(values[1], 7);
        let after = combination(case.eta, [0, 1, 2].map(|place| u64::from(values[place])));
        let change = times(minus(before, after), plus(witness, public));
        tampered.openings[1] = increased(tampered.openings[1], change);
        assert_eq!(case.verdict(&tampered), Ok(Verdict::Fails(Check::Matrix)));
    }
}

/// The last public word changed; an only one is the constant, without which no session is opened.
#[test]
fn other_public_words() {
    for (case, proof) in cases(17) {
        let [_, columns, public] = case.sizes;
        let mut other = case.clone();
        let last = &mut other.assignment[(columns - columns / public) as usize];
        *last = increased(*last, 1);
        let refused = Refusal { number: 13, position: 0 };
        let expected = if public == 1 { Err(refused) } else { Ok(Verdict::Fails(Check::Line)) };
        assert_eq!(other.verdict(&proof), expected);
    }
}

#[test]
fn other_challenges() {
    for (case, proof) in cases(18) {
        let gamma = Case { gamma: 0, ..case.clone() };
        let delta = Case { delta: [1, 2, 3], ..case.clone() };
        let eta = Case { eta: [1, 2, 3], ..case.clone() };
        let alone = case.largest_places() == 1;
        let matrix = if alone { Verdict::Accept } else { Verdict::Fails(Check::Matrix) };
        assert_eq!(gamma.verdict(&proof), Ok(matrix));
        assert_eq!(delta.verdict(&proof), Ok(matrix));
        assert_eq!(eta.verdict(&proof), Ok(Verdict::Fails(Check::Line)));
    }
}

#[test]
fn mask_that_does_not_add_to_zero() {
    for (case, proof) in cases(19) {
        let mut tampered = proof.clone();
        tampered.openings[1] = increased(tampered.openings[1], 1);
        assert_eq!(case.verdict(&tampered), Ok(Verdict::Fails(Check::Line)));
        let mut refused = case.clone();
        refused.mask[0] = increased(refused.mask[0], 1);
        assert_eq!(refused.proof().err().map(|refusal| (refusal.number, refusal.position)), Some((8, 0)));
    }
}

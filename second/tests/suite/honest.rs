//! Honest proofs of random circuits: accepted, by the rules, and kept by the record.

use crate::case::{refusal, square, Case};
use crate::identities::Rules;
use crate::random::{count, Checked, Random};
use second::Verdict;
use std::time::Instant;

fn check(case: &Case, most_points: usize) {
    let proof = case.proof().unwrap();
    assert_eq!(case.verdict(&proof), Ok(Verdict::Accept));
    Rules { case, proof: &proof, most_points }.check();
    let record = case.record(&proof);
    assert_eq!(second::read_record(&record), Ok(case.six_sizes()));
    for (number, section) in proof.sections.iter().enumerate() {
        let expected: Vec<u8> = section.iter().flat_map(|word| word.to_le_bytes()).collect();
        assert_eq!(second::section(&record, number), Ok(&expected[..]));
    }
}

#[test]
fn square_case() {
    check(&square(), 100);
}

#[test]
fn sizes_up_to_16() {
    let mut random = Random::new(8);
    let mut checked = Checked::default();
    for _ in 0..count(400) {
        let sizes = random.sizes(4);
        let most_entries = random.below(24);
        check(&random.case(sizes, most_entries), 100);
        checked.one();
    }
}

#[test]
fn sizes_of_64() {
    let mut random = Random::new(9);
    for sizes in [[64, 64, 8], [64, 16, 16], [8, 64, 1], [64, 64, 64]] {
        check(&random.case(sizes, 64), 300);
    }
}

#[test]
fn size_of_1024() {
    let case = Random::new(10).largest_case();
    assert_eq!(case.six_sizes(), [1024, 1024, 256, 1024, 1024, 1024]);
    let start = Instant::now();
    let proof = case.proof().unwrap();
    println!("rounds and openings at size 1,024: {:?}", start.elapsed());
    let start = Instant::now();
    assert_eq!(case.verdict(&proof), Ok(Verdict::Accept));
    println!("session at size 1,024: {:?}", start.elapsed());
    Rules { case: &case, proof: &proof, most_points: 5 }.check();
}

#[test]
fn small_and_zero_challenges() {
    let mut random = Random::new(11);
    let mut checked = Checked::default();
    for _ in 0..count(100) {
        let sizes = random.sizes(3);
        let mut case = random.case(sizes, 8);
        case.alpha = 0;
        case.beta = 0;
        case.gamma = 0;
        case.eta[random.below(3) as usize] = 0;
        case.delta[random.below(3) as usize] = 0;
        check(&case, 100);
        checked.one();
    }
}

#[test]
fn unsatisfied_rows_are_refused() {
    let mut random = Random::new(12);
    let mut checked = Checked::default();
    for _ in 0..count(100) {
        let sizes = random.sizes(4);
        let mut case = random.case(sizes, 16);
        let Some(last) = case.entries[2].chunks(3).last().map(<[u32]>::to_vec) else {
            continue;
        };
        let value = case.entries[2].len() - 1;
        case.entries[2][value] = if last[2] == 1 { 2 } else { 1 };
        let satisfied = case.assignment[last[1] as usize] == 0;
        assert_eq!(refusal(case.proof()), (!satisfied).then_some((9, last[0] as usize)));
        checked.one();
    }
}

//! Refusals at large sizes: positions above 255, and in lists of entries above 1,535; challenges and declared lengths at every size
//! from 64 on.

use crate::jobs::compare_job;
use compare::calls::{compare_call, CircuitCall, CIRCUIT_CALLS};
use compare::case::{lengths, Case, ALPHA, BETA, GAMMA};
use compare::library;
use compare::random::{elements, Random};
use compare::steps::{Pair, Step};
use second::{Refusal, MODULUS};

/// Positions about the ends of bytes and of lists.
const FAR: [usize; 9] = [255, 256, 257, 511, 512, 767, 1000, 1022, 1023];
const LARGE_SIZES: [u32; 5] = [64, 128, 256, 512, 1024];

/// Some calls on a case must all be refused so, on both sides.
fn expect_refused(calls: &[CircuitCall], case: &Case, number: u32, position: usize) {
    for &call in calls {
        assert_eq!(compare_call(call, case).answer, Err(Refusal { number, position }), "{call:?}");
    }
}

/// A satisfied case of size 1,024 with 1,024, 600 and 700 entries.
fn large_case(test: u64) -> Case {
    Random::new(test).case_of_counts([1024, 1024, 4], [1024, 600, 700])
}

/// 6 at values of all three matrices, in z, r and m, and at the challenges.
#[test]
fn words_of_calls() {
    let case = large_case(90);
    let mut first = 0;
    for matrix in 0..3 {
        let count = case.entries[matrix].len() / 3;
        for entry in FAR.into_iter().filter(|&entry| entry < count) {
            let mut bad = case.clone();
            bad.entries[matrix][3 * entry + 2] = MODULUS;
            expect_refused(&CIRCUIT_CALLS, &bad, 6, first + entry);
        }
        first += count;
    }
    for place in FAR {
        let mut bad = case.clone();
        bad.assignment[place] = u32::MAX;
        expect_refused(&CIRCUIT_CALLS[1..], &bad, 6, 2324 + place);
        let mut bad = case.clone();
        bad.mask[1024 + place] = MODULUS;
        expect_refused(&CIRCUIT_CALLS[1..], &bad, 6, 4373 + place);
    }
    let mut bad = case.clone();
    bad.mask_word = MODULUS;
    expect_refused(&CIRCUIT_CALLS[1..], &bad, 6, 3348);
    for challenge in 0..9 {
        let mut bad = case.clone();
        bad.challenges[challenge] = MODULUS;
        expect_refused(&[CircuitCall::Openings], &bad, 6, 5397 + challenge);
    }
}

/// 6 at coefficients, of a list and of a part of one, at coefficients and values on a domain, and at public words.
#[test]
fn words_of_lists() {
    let words = Random::new(91).words(2048);
    for place in FAR.into_iter().chain([1024, 1535, 1536, 2046, 2047]) {
        let mut bad = words.clone();
        bad[place] = MODULUS;
        let refused = Refusal { number: 6, position: place };
        let answers = [library::evaluate(&bad, 1), second::evaluate(&bad, 1)];
        assert_eq!(answers, [Err(refused); 2]);
        let answers = [library::evaluate_part, second::evaluate_part].map(|call| call(0, 1, 1, &bad));
        assert_eq!(answers, [Err(Refusal { number: 6, position: 3 + place }); 2]);
        if place < 1024 {
            for calls in
                [[library::interpolate, second::interpolate], [library::evaluate_on_domain, second::evaluate_on_domain]]
            {
                let answers = calls.map(|call| call(1024, &bad[..1024], &mut [0; 1024]));
                assert_eq!(answers, [Err(refused); 2]);
            }
            assert_eq!(Pair::unopened().take(&Step::Open([1024; 6], bad[..1024].to_vec())), Err(refused));
        }
    }
    let answers = [library::evaluate(&words, MODULUS), second::evaluate(&words, MODULUS)];
    assert_eq!(answers, [Err(Refusal { number: 6, position: 2048 }); 2]);
    for (position, [sum, power, point]) in [[MODULUS, 1, 1], [0, MODULUS, 1], [0, 1, MODULUS]].into_iter().enumerate() {
        let answers = [library::evaluate_part, second::evaluate_part].map(|call| call(sum, power, point, &words));
        assert_eq!(answers, [Err(Refusal { number: 6, position }); 2]);
    }
}

/// 7 at entries of all three matrices, by each of its conditions; those of C are at 1,624 and after.
#[test]
fn entries() {
    let case = large_case(92);
    let mut first = 0;
    for matrix in 0..3 {
        let count = case.entries[matrix].len() / 3;
        for entry in FAR.into_iter().chain([count - 1]).filter(|&entry| entry < count) {
            for (word, value) in [(0, 1024), (1, 1024), (2, 0), (0, 0)] {
                let mut bad = case.clone();
                bad.entries[matrix][3 * entry + word] = value;
                expect_refused(&CIRCUIT_CALLS, &bad, 7, first + entry);
            }
        }
        first += count;
    }
}

/// 9 at rows: the value of the entry of C that closes a row is replaced. Where z does not begin with 1 either, 13 comes first.
#[test]
fn rows() {
    let case = Random::new(93).full_case(1024);
    for row in FAR {
        let mut bad = case.clone();
        let value = &mut bad.entries[2][3 * row + 2];
        *value = if *value == 1 { 2 } else { 1 };
        expect_refused(&CIRCUIT_CALLS[1..], &bad, 9, row);
        bad.assignment[0] = 0;
        expect_refused(&CIRCUIT_CALLS[1..], &bad, 13, 0);
    }
}

/// The first, second, middle and last element of a domain, and a random one.
fn some_elements(random: &mut Random, size: u32) -> [u32; 5] {
    let elements = elements(size);
    let middle = elements.len() / 2;
    [elements[0], elements[1], elements[middle], elements[elements.len() - 1], random.one_of(&elements)]
}

/// 10 at calls: each challenge inside its domain, the first call that takes it and the last.
#[test]
fn challenges_of_calls() {
    let mut random = Random::new(94);
    for size in LARGE_SIZES {
        let case = random.case_of_counts([size, size, size / 4], [20, size as usize, 20]);
        let calls = [CircuitCall::SecondRound, CircuitCall::FourthRound, CircuitCall::Openings];
        for (position, place) in [ALPHA, BETA, GAMMA].into_iter().enumerate() {
            for element in some_elements(&mut random, size) {
                let mut bad = case.clone();
                bad.challenges[place] = element;
                expect_refused(&[calls[position], CircuitCall::Openings], &bad, 10, position);
            }
        }
    }
}

/// 10 and 11 at a session's steps: each challenge inside its domain, and each declared length above its limit.
#[test]
fn challenges_and_lengths_of_sessions() {
    let mut random = Random::new(95);
    for size in LARGE_SIZES {
        let sizes = [size, size, size / 4, size / 2, 1, size];
        let limits = lengths(sizes).map(|length| length as u32);
        let good = [
            Step::Open(sizes, random.public_words(size as usize / 4)),
            Step::Alpha([limits[0], limits[1], limits[2]], random.outside(size)),
            Step::Eta(random.three(), random.three()),
            Step::Beta([limits[4], limits[5]], random.outside(size)),
            Step::Delta(random.three(), [limits[7], limits[8], limits[9]], random.three()),
            Step::Gamma(limits[10], random.outside(size)),
        ];
        for (position, (step, place)) in [(1, 3), (3, 2), (5, 1)].into_iter().enumerate() {
            for element in some_elements(&mut random, size) {
                expect_step_refused(&good, step, place, element, Refusal { number: 10, position });
            }
        }
        for (step, first, declared) in [(1, 0, 3), (3, 0, 2), (4, 3, 3), (5, 0, 1)] {
            for position in 0..declared {
                let place = first + position;
                let limit = *good[step].clone().words()[place];
                for length in [limit + 1, limit + 256, limit + 65_536, u32::MAX] {
                    expect_step_refused(&good, step, place, length, Refusal { number: 11, position });
                }
            }
        }
        Pair::after(&good);
    }
}

/// A step with one word replaced, after the good ones before it.
fn expect_step_refused(good: &[Step; 6], step: usize, place: usize, word: u32, refusal: Refusal) {
    let mut bad = good[step].clone();
    *bad.words()[place] = word;
    assert_eq!(Pair::after(&good[..step]).take(&bad), Err(refusal), "{bad:?}");
}

/// A job must be refused so, by the program and by the second implementation.
fn expect_job(case: &Case, number: u32, position: usize) {
    assert_eq!(compare_job(&case.job()), format!("refused {number} {position}\n"));
}

/// 6, 7, 9 and 10 of jobs: as far in as their 4,096 bytes reach.
#[test]
fn jobs() {
    let mut random = Random::new(96);
    let wide = random.case_of_counts([64, 256, 64], [5, 20, 10]);
    for place in [220, 221, 222, 255] {
        let mut bad = wide.clone();
        bad.assignment[place] = MODULUS;
        expect_job(&bad, 6, 35 + place);
    }
    for place in [0, 255, 256, 511] {
        let mut bad = wide.clone();
        bad.mask[place] = u32::MAX;
        expect_job(&bad, 6, 292 + place);
    }
    let long = random.case_of_counts([512, 4, 4], [5, 270, 45]);
    for entry in [251, 252, 260, 269] {
        let mut bad = long.clone();
        bad.entries[1][3 * entry + 2] = 0;
        expect_job(&bad, 7, 5 + entry);
    }
    for entry in [0, 1, 44] {
        let mut bad = long.clone();
        bad.entries[2][3 * entry + 1] = 4;
        expect_job(&bad, 7, 275 + entry);
    }
    for row in [255, 256, 700, 1023] {
        let mut bad = Case::new([1024, 4, 1], [vec![row, 1, 1], vec![row, 2, 1], Vec::new()], vec![1; 4]);
        bad.challenges = wide.challenges;
        expect_job(&bad, 9, row as usize);
    }
    let tall = random.case_of_counts([1024, 16, 4], [2, 257, 20]);
    for (case, place, position, size) in
        [(&tall, ALPHA, 0, 1024), (&wide, BETA, 1, 256), (&long, GAMMA, 2, 512), (&tall, GAMMA, 2, 512)]
    {
        for element in some_elements(&mut random, size) {
            let mut bad = case.clone();
            bad.challenges[place] = element;
            expect_job(&bad, 10, position);
        }
    }
}

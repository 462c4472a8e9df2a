//! Refusal 7 and the entry lists' refusals 5 and 6, for the indexer and all prover calls alike.

use crate::case::{refusal, square, Case};

const P: u32 = second::MODULUS;

/// The refusals of all calls that take a circuit.
fn refusals(case: &Case) -> Vec<Option<(u32, usize)>> {
    vec![
        refusal(case.index()),
        refusal(case.first_round()),
        refusal(case.second_round()),
        refusal(case.third_round()),
        refusal(case.fourth_round()),
        refusal(case.fifth_round()),
        refusal(case.openings()),
    ]
}

fn check(entries: [&[u32]; 3], expected: (u32, usize)) {
    let case = Case { entries: entries.map(<[u32]>::to_vec), ..square() };
    assert_eq!(refusals(&case), vec![Some(expected); 7], "{entries:?}");
}

#[test]
fn places_and_values() {
    let (good, last) = ([0, 1, 1].as_slice(), [0, 0, 1].as_slice());
    check([&[1, 1, 1], good, last], (7, 0));
    check([&[0, 2, 1], good, last], (7, 0));
    check([&[u32::MAX, u32::MAX, 1], good, last], (7, 0));
    check([&[0, 1, 0], good, last], (7, 0));
    check([good, &[0, 2, 1], &[1, 0, 1]], (7, 1));
    check([good, good, &[0, 0, 0]], (7, 2));
    check([&[], good, &[0, 0, 0]], (7, 1));
}

#[test]
fn order() {
    let good = [0, 1, 1].as_slice();
    check([&[0, 1, 1, 0, 0, 1], good, good], (7, 1));
    check([&[0, 1, 1, 0, 1, 1], good, good], (7, 1));
    check([good, &[0, 0, 1, 0, 1, 1, 0, 1, 1], good], (7, 3));
    let mut case = Case { sizes: [2, 2, 1], ..square() };
    case.entries = [vec![0, 1, 1, 1, 0, 1], vec![0, 0, 1, 0, 1, 1, 1, 0, 1, 1, 1, 1], vec![]];
    assert_eq!(refusal(case.index()), None);
    case.entries[2] = vec![1, 0, 1, 0, 1, 1];
    assert_eq!(refusal(case.index()), Some((7, 7)));
}

#[test]
fn words_before_entries() {
    let good = [0, 1, 1].as_slice();
    check([&[5, 5, P - 1], good, &[0, 0, P]], (6, 2));
    check([&[5, 5, P], &[0, 0, P], good], (6, 0));
    check([&[5, 5, 0, 0, 0, u32::MAX], good, good], (6, 1));
}

#[test]
fn lists_before_words() {
    let good = [0, 1, 1].as_slice();
    check([&[0, 1, P, 0], good, &[0]], (5, 0));
    check([good, &[0, 1], good], (5, 1));
    check([good, &[0, 1, P], &[P; 3 * 1025]], (5, 2));
    check([good, &[P; 3 * 1024 + 1], good], (5, 1));
}

#[test]
fn most_entries_are_taken() {
    let mut case = Case { sizes: [1024, 2, 1], ..square() };
    case.entries[0] = (0..1024).flat_map(|row| [row, 1, P - 1]).collect();
    assert_eq!(refusal(case.index()), None);
}

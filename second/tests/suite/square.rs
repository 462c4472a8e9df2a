//! The square case whole, and the proved cases P1 to P12.

use crate::case::{refusal, square, Case};
use second::{Check, Verdict};

#[test]
fn text() {
    let text = "w 0 1\nm 1 0 2013265920 1\nh0\ns 3 3 9\ng1 7\nh1 1 9\no 2013265920 2013265920 18\n\
                ga\ngb\ngc\nh2\nverdict accept\n";
    assert_eq!(second::prove(&square().job()), text);
}

#[test]
fn record() {
    let case = square();
    let record = case.record(&case.proof().unwrap());
    let words: Vec<u32> = record.chunks(4).map(|word| u32::from_le_bytes(word.try_into().unwrap())).collect();
    assert_eq!(record.len(), 132);
    assert_eq!(words[..15], [0, 1, 1, 0, 2013265920, 1, 3, 3, 9, 7, 1, 9, 2013265920, 2013265920, 18]);
    assert_eq!(words[15..26], [0, 8, 24, 24, 36, 40, 48, 60, 60, 60, 60]);
    assert_eq!(words[26..], [1, 2, 1, 1, 1, 1, 60]);
    assert_eq!(second::read_record(&record), Ok([1, 2, 1, 1, 1, 1]));
}

#[test]
fn p1_to_p3_field_and_domain() {
    assert_eq!(second::multiply(2013265920, 2013265920), Ok(1));
    assert_eq!(second::inverse(2), Ok(1006632961));
    let mut elements = [7, 7];
    assert_eq!(second::domain(2, &mut elements), Ok(()));
    assert_eq!(elements, [1, 2013265920]);
}

#[test]
fn p4_to_p8_honest() {
    let case = square();
    let proof = case.proof().unwrap();
    assert_eq!(proof.sections[0], [0, 1]);
    assert_eq!(proof.sections[3], [3, 3, 9]);
    assert_eq!(proof.sections[4], [7]);
    assert_eq!(proof.sections[5], [1, 9]);
    assert_eq!(proof.sections[6], [2013265920, 2013265920, 18]);
    assert_eq!(case.verdict(&proof), Ok(Verdict::Accept));
}

#[test]
fn p9_to_p11_false() {
    let case = square();
    let proof = case.proof().unwrap();
    let mut false_sum = proof.clone();
    false_sum.sections[3][2] = 8;
    assert_eq!(case.verdict(&false_sum), Ok(Verdict::Fails(Check::Row)));
    let mut false_value = proof.clone();
    false_value.sections[6][2] = 3;
    assert_eq!(case.verdict(&false_value), Ok(Verdict::Fails(Check::Line)));
    let mut false_opening = proof;
    assert_eq!(false_opening.openings[12], 2013265920);
    false_opening.openings[12] = 1;
    assert_eq!(case.verdict(&false_opening), Ok(Verdict::Fails(Check::Matrix)));
}

#[test]
fn p12_unsatisfied() {
    let mut case = square();
    case.assignment[1] = 4;
    assert_eq!(refusal(case.proof()), Some((9, 0)));
    assert_eq!(second::prove(&case.job()), "refused 9 0\n");
}

#[test]
fn openings() {
    let opened = square().openings().unwrap();
    assert_eq!(opened[..9], [3, 19, 7, 28, 0, 0, 0, 0, 0]);
    assert_eq!(opened[9..13], [1, 2013265920, 2013265920, 2013265920]);
    assert_eq!(opened[13..17], opened[9..13]);
    assert_eq!(opened[17..], [1, 1, 1, 9]);
}

#[test]
fn run_only_cases() {
    let alpha = |alpha| refusal(Case { alpha, ..square() }.second_round());
    assert_eq!([alpha(1), alpha(2)], [Some((10, 0)), None]);
    let beta = |beta| refusal(Case { beta, ..square() }.fourth_round());
    assert_eq!([beta(2013265920), beta(3)], [Some((10, 1)), None]);
    let size = |size: u32| refusal(second::domain(size, &mut vec![0; size as usize]));
    assert_eq!([size(1024), size(2048), size(3)], [None, Some((4, 0)), Some((4, 0))]);
    let word = |word| refusal(Case { mask_word: word, ..square() }.first_round());
    assert_eq!([word(2013265920), word(2013265921)], [None, Some((6, 5))]);
    let empty = Case { entries: [vec![], vec![], vec![]], ..square() };
    assert_eq!(empty.places(), [1; 3]);
    assert_eq!(empty.verdict(&empty.proof().unwrap()), Ok(Verdict::Accept));
}

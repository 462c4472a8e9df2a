//! The program `prove`: lengths, refusals and their order, and text against the calls.

use crate::case::{square, Case};
use crate::random::{count, Checked, Random};

const P: u32 = second::MODULUS;

/// The text for the square job with words replaced.
fn text_with(changes: &[(usize, u32)]) -> String {
    let mut job = square().job();
    for &(place, word) in changes {
        job[4 * place..4 * place + 4].copy_from_slice(&word.to_le_bytes());
    }
    second::prove(&job)
}

#[test]
fn lengths() {
    let job = square().job();
    for length in 0..job.len() {
        assert_eq!(second::prove(&job[..length]), "job too short\n");
    }
    for extra in [1, 3, 4, 5, 100] {
        let longer = [job.clone(), vec![255; extra]].concat();
        assert_eq!(second::prove(&longer), "job too long\n");
    }
    assert_eq!(second::prove(&[0; 23]), "job too short\n");
    assert_eq!(second::prove(&[0; 24]), "refused 4 0\n");
    assert_eq!(second::prove(&[0; 4096]), "refused 4 0\n");
    assert_eq!(second::prove(&[0; 4097]), "job too long\n");
}

#[test]
fn sizes_and_counts_before_length() {
    assert_eq!(text_with(&[(0, 3), (1, 3)]), "refused 4 0\n");
    assert_eq!(text_with(&[(1, 2048), (2, 0)]), "refused 4 1\n");
    assert_eq!(text_with(&[(2, 4)]), "refused 4 2\n");
    assert_eq!(text_with(&[(3, 1025), (4, 1025)]), "refused 5 0\n");
    assert_eq!(text_with(&[(4, u32::MAX)]), "refused 5 1\n");
    assert_eq!(text_with(&[(5, 1025)]), "refused 5 2\n");
    assert_eq!(text_with(&[(5, 1024)]), "job too short\n");
    assert_eq!(text_with(&[(5, 0), (8, P)]), "job too long\n");
    assert_eq!(text_with(&[(1, 1024)]), "job too short\n");
}

#[test]
fn refusals_over_the_whole_job() {
    assert_eq!(text_with(&[(8, P)]), "refused 6 0\n");
    assert_eq!(text_with(&[(14, P)]), "refused 6 2\n");
    assert_eq!(text_with(&[(15, P), (6, 9)]), "refused 6 3\n");
    assert_eq!(text_with(&[(30, P), (6, 9)]), "refused 6 18\n");
    assert_eq!(text_with(&[(30, 1), (18, 2), (6, 9)]), "refused 7 0\n");
    assert_eq!(text_with(&[(30, 1), (18, 2), (16, 4), (15, 2)]), "refused 8 0\n");
    assert_eq!(text_with(&[(30, 1), (16, 4), (15, 2)]), "refused 13 0\n");
    assert_eq!(text_with(&[(16, 6), (15, 4)]), "refused 13 0\n");
    assert_eq!(text_with(&[(30, 1), (16, 4)]), "refused 9 0\n");
    assert_eq!(text_with(&[(30, 1), (26, 1), (22, 1)]), "refused 10 0\n");
    assert_eq!(text_with(&[(30, 1), (26, P - 1)]), "refused 10 1\n");
    assert_eq!(text_with(&[(30, 1)]), "refused 10 2\n");
}

#[test]
fn longest_job() {
    let rest = 6 + 3 + 1 + 9;
    let entries = (1024 - rest) / 3;
    assert_eq!(rest + 3 * entries, 1024);
    let mut case = Case { sizes: [1024, 1, 1], assignment: vec![1], mask: vec![P - 1, 1], ..square() };
    case.entries = [(0..entries as u32).flat_map(|row| [row, 0, row + 1]).collect(), vec![], vec![]];
    case.alpha = 5;
    assert_eq!(case.job().len(), 4096);
    let text = second::prove(&case.job());
    assert!(text.ends_with("\nverdict accept\n"), "{text}");
}

#[test]
fn text_is_the_proof() {
    let mut random = Random::new(5);
    let names = ["w", "m", "h0", "s", "g1", "h1", "o", "ga", "gb", "gc", "h2"];
    let mut checked = Checked::default();
    for _ in 0..count(30) {
        let sizes = random.sizes(4);
        let case = random.case(sizes, 16);
        let sections = case.proof().unwrap().sections;
        let words = sections.map(|section| section.iter().map(|word| format!(" {word}")).collect::<String>());
        let lines = names.iter().zip(words).map(|(name, words)| format!("{name}{words}\n"));
        assert_eq!(second::prove(&case.job()), lines.collect::<String>() + "verdict accept\n");
        checked.one();
    }
}

//! Jobs through the program `prove` and through the second implementation: the printed text must be the same.

use crate::program;
use compare::calls::{Input, REFUSAL_NUMBERS};
use compare::case::{uneven_case, Case};
use compare::random::{count, elements, Compared, Random, BOUNDARY_WORDS, NO_SIZES};
use second::MODULUS;
use std::fmt;
use std::time::Duration;

/// The places of words in the square job.
const SIZE_PLACES: std::ops::Range<usize> = 0..3;
const A_VALUE: usize = 8;
const Z_START: usize = 15;
const M_START: usize = 18;
const ALPHA: usize = 22;
const BETA: usize = 26;
const GAMMA: usize = 30;

/// A job, shown as the text that jobtext takes.
struct Job<'a>(&'a [u8]);

impl fmt::Display for Job<'_> {
    fn fmt(&self, text: &mut fmt::Formatter) -> fmt::Result {
        write!(text, "{}# {} bytes", jobtext::show(self.0), self.0.len())
    }
}

/// Runs a job on both sides; the text is that of both.
pub fn compare_job(bytes: &[u8]) -> String {
    let shown = Job(bytes);
    let _input = Input(&shown);
    let ours = program::prove(bytes);
    assert_eq!(ours, second::prove(bytes), "the program's text, then the second implementation's");
    ours
}

/// The text for the square job with words replaced.
fn with_words(changes: &[(usize, u32)]) -> String {
    let mut words = Case::square().job_words();
    for &(place, word) in changes {
        words[place] = word;
    }
    compare_job(&jobtext::bytes(&words))
}

/// Document 01's square case, whole.
#[test]
fn square() {
    let text = "w 0 1\nm 1 0 2013265920 1\nh0\ns 3 3 9\ng1 7\nh1 1 9\no 2013265920 2013265920 18\nga\ngb\ngc\nh2\nverdict accept\n";
    assert_eq!(compare_job(&Case::square().job()), text);
}

/// Document 01's cases that are only run.
#[test]
fn run_only() {
    let accepted = |text: String| text.ends_with("\nverdict accept\n");
    assert_eq!(with_words(&[(ALPHA, 1)]), "refused 10 0\n");
    assert!(accepted(with_words(&[(ALPHA, 2)])));
    assert_eq!(with_words(&[(BETA, MODULUS - 1)]), "refused 10 1\n");
    for place in SIZE_PLACES {
        let refused = format!("refused 4 {place}\n");
        assert_eq!([with_words(&[(place, 2048)]), with_words(&[(place, 3)])], [refused.clone(), refused]);
    }
    assert!(accepted(with_words(&[(0, 1024), (ALPHA, 5)])), "size 1,024 is taken");
    let last = |word: u32| with_words(&[(M_START + 3, word)]);
    assert!(accepted(last(MODULUS - 1)));
    assert_eq!(last(MODULUS), "refused 6 9\n");
    let empty = |word: u32| {
        let mut empty = Case::new([1, 1, 1], [Vec::new(), Vec::new(), Vec::new()], vec![word]);
        empty.challenges = [2, 1, 1, 1, 3, 1, 1, 1, 5];
        compare_job(&empty.job())
    };
    assert!(accepted(empty(1)), "empty matrices of size 1");
    assert_eq!([empty(0), empty(2)], ["refused 13 0\n"; 2]);
}

/// Each refusal that a job can have, and each before the ones after it.
#[test]
fn refusals_in_order() {
    let changes = [
        (GAMMA, 1, "refused 10 2\n"),
        (BETA, 1, "refused 10 1\n"),
        (ALPHA, 1, "refused 10 0\n"),
        (Z_START + 1, 4, "refused 9 0\n"),
        (Z_START, 2, "refused 13 0\n"),
        (M_START, 2, "refused 8 0\n"),
        (12, 9, "refused 7 2\n"),
        (9, 9, "refused 7 1\n"),
        (A_VALUE, 0, "refused 7 0\n"),
        (GAMMA - 1, MODULUS, "refused 6 17\n"),
        (Z_START, MODULUS, "refused 6 3\n"),
        (A_VALUE, MODULUS, "refused 6 0\n"),
        (5, 1025, "refused 5 2\n"),
        (4, 1025, "refused 5 1\n"),
        (3, u32::MAX, "refused 5 0\n"),
        (2, 4, "refused 4 2\n"),
        (1, 0, "refused 4 1\n"),
        (0, 2048, "refused 4 0\n"),
    ];
    let mut made = Vec::new();
    for (place, word, text) in changes {
        made.push((place, word));
        assert_eq!(with_words(&made), text);
    }
}

/// Each element of its forbidden domain is refused as a challenge, and the other elements of the next larger domain taken.
#[test]
fn challenges_at_domains() {
    for size in [2, 8] {
        let (case, forbidden) = uneven_case(size);
        for (position, from_end) in [9, 5, 1].into_iter().enumerate() {
            for (exponent, element) in elements(2 * forbidden[position]).into_iter().enumerate() {
                let mut words = case.job_words();
                let place = words.len() - from_end;
                words[place] = element;
                let refused = compare_job(&jobtext::bytes(&words)) == format!("refused 10 {position}\n");
                assert_eq!(refused, exponent.is_multiple_of(2));
            }
        }
    }
}

#[test]
fn damaged_at_every_word() {
    for place in 0..31 {
        let word = Case::square().job_words()[place];
        for bad in BOUNDARY_WORDS.into_iter().chain([word.wrapping_add(1), word.wrapping_sub(1)]) {
            with_words(&[(place, bad)]);
        }
    }
    for place in SIZE_PLACES {
        for size in NO_SIZES.into_iter().chain([4, 512, 1024]) {
            with_words(&[(place, size)]);
        }
    }
}

#[test]
fn cut_and_lengthened() {
    let jobs = [Case::square().job(), Random::new(50).case_of([2, 2, 2], 3).job()];
    for job in &jobs {
        for length in 0..job.len() {
            assert_eq!(compare_job(&job[..length]), "job too short\n");
        }
        for extra in [1, 2, 3, 4, 5, 8, 100] {
            assert_eq!(compare_job(&[&job[..], &vec![255; extra]].concat()), "job too long\n");
        }
    }
}

/// A satisfied case whose job has as many bytes as any.
fn longest_case() -> Case {
    let mut case = Case::new([1024, 1, 1], [Vec::new(), Vec::new(), Vec::new()], vec![1]);
    case.entries[0] = (0..335).flat_map(|row| [row, 0, row + 1]).collect();
    case.mask = vec![MODULUS - 1, 1];
    case.challenges = [5, 1, 1, 1, 3, 1, 1, 1, 5];
    case
}

#[test]
fn about_the_longest() {
    for length in [4092, 4095, 4096] {
        assert_eq!(compare_job(&vec![0; length]), "refused 4 0\n");
    }
    for length in [4097, 4100, 5000, 65_536, 200_000] {
        assert_eq!(compare_job(&vec![0; length]), "job too long\n");
        let square = Case::square().job();
        assert_eq!(compare_job(&[&square[..], &vec![0; length - square.len()]].concat()), "job too long\n");
    }
    let case = longest_case();
    assert_eq!(case.job().len(), 4096);
    assert!(compare_job(&case.job()).ends_with("\nverdict accept\n"));
    assert_eq!(compare_job(&[case.job(), vec![0]].concat()), "job too long\n");
}

/// A satisfied case is accepted, if its job is not too long.
fn compare_good(case: &Case) {
    let long = case.job().len() > 4096;
    let expected = if long { "job too long\n" } else { "\nverdict accept\n" };
    assert!(compare_job(&case.job()).ends_with(expected), "{case}");
}

#[test]
fn seeded() {
    let mut random = Random::new(51);
    let mut compared = Compared::default();
    for _ in 0..count(300) {
        compare_good(&random.case(4));
        compared.one();
    }
    for _ in 0..count(12) {
        let columns = random.below(7);
        let sizes = [1 << random.below(11), 1 << columns, 1 << random.below(columns + 1)];
        compare_good(&random.case_of(sizes, 60));
    }
}

#[test]
fn seeded_and_damaged() {
    let mut random = Random::new(52);
    let mut seen = [0; REFUSAL_NUMBERS];
    for _ in 0..count(2_000) {
        let case = random.case(3);
        let mut words = case.job_words();
        let z_start = 6 + case.entries.concat().len();
        for _ in 0..=random.below(3) {
            let place = match random.below(12) {
                0 => z_start,
                1..=4 => random.place(words.len()),
                _ => words.len() - 1 - random.place(12),
            };
            words[place] = random.damaged();
        }
        let mut bytes = jobtext::bytes(&words);
        if random.one_in(12) {
            bytes.truncate(random.place(bytes.len()));
        }
        if let Some(refusal) = compare_job(&bytes).strip_prefix("refused ") {
            let number = refusal.split(' ').next().and_then(|number| number.parse::<usize>().ok());
            seen[number.expect("a refusal has a number")] += 1;
        }
    }
    assert!((4..=10).chain([13]).all(|number| seen[number] > 3), "too few refusals of some number: {seen:?}");
}

/// The program's text for a job fed in pieces of these lengths, over and over; it must be that of both sides for the whole job.
fn compare_in_pieces(bytes: &[u8], lengths: &[usize], pause: Duration) {
    let mut pieces = Vec::new();
    let mut rest = bytes;
    for &length in lengths.iter().cycle() {
        if rest.is_empty() {
            break;
        }
        let (piece, after) = rest.split_at(length.min(rest.len()));
        pieces.push(piece);
        rest = after;
    }
    let text = program::prove_in_pieces(&pieces, pause);
    assert_eq!(text, compare_job(bytes), "fed in pieces of {lengths:?} bytes, then whole:\n{}", Job(bytes));
}

/// Jobs fed slowly: byte by byte, in pieces that are no whole words, and with the pipe closed early.
#[test]
fn fed_in_pieces() {
    let (pause, square, longest) = (Duration::from_micros(500), Case::square().job(), longest_case().job());
    let too_long = [&longest[..], &[0; 300]].concat();
    for length in [0, 1, 3, 23, 24, 25, 60, 123, 124] {
        compare_in_pieces(&square[..length], &[1], pause);
    }
    for job in [&square, &longest, &too_long] {
        compare_in_pieces(job, &[3, 1, 64, 7], pause);
        compare_in_pieces(&job[..job.len() - 1], &[5, 90, 2], pause);
    }
    for job in [&longest[..], &longest[..4095], &too_long[..4097]] {
        compare_in_pieces(job, &[1], Duration::ZERO);
        compare_in_pieces(job, &[2048], Duration::from_millis(20));
        compare_in_pieces(job, &[4095], Duration::from_millis(20));
    }
}

#[test]
fn seeded_and_fed_in_pieces() {
    let mut random = Random::new(53);
    let mut compared = Compared::default();
    for _ in 0..count(20) {
        let case = random.case(4);
        let mut job = case.job();
        if random.one_in(4) {
            job.truncate(random.place(job.len()));
        }
        let lengths: Vec<usize> = (0..5).map(|_| 1 + random.place(40)).collect();
        compare_in_pieces(&job, &lengths, Duration::from_micros(200));
        compared.one();
    }
}

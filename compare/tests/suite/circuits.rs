//! The indexer, the five rounds and the openings on seeded circuits, good and damaged.

use compare::calls::{compare_circuit, proof_of, Outcome, REFUSAL_NUMBERS};
use compare::case::{uneven_case, Case, ALPHA, BETA, GAMMA};
use compare::damage::{combined, Fault};
use compare::random::{count, elements, Compared, Random, SIZES};
use compare::steps::{Answers, Pair, Step};
use second::{Refusal, Verdict};

/// The refusals of the seven circuit calls.
fn refusals(outcomes: &[Outcome; 7]) -> [Option<(u32, usize)>; 7] {
    outcomes.each_ref().map(|outcome| outcome.answer.as_ref().err().map(|refusal| (refusal.number, refusal.position)))
}

/// Compares a satisfied case, which no call may refuse, and a whole session on its proof, which must be accepted. Gives the steps.
pub fn compare_good(case: &Case) -> [Step; 8] {
    let outcomes = compare_circuit(case);
    assert_eq!(refusals(&outcomes), [None; 7], "a satisfied case is refused:\n{case}");
    let proof = proof_of(case, outcomes).expect("no call is refused");
    let steps = Step::of_proof(case, &proof);
    assert_eq!(Pair::verdict(&steps), Ok(Some(Verdict::Accept)), "a good proof fails:\n{case}");
    steps
}

/// Compares the verdicts on a good proof, whole and with each opening replaced, asked for and committed.
fn compare_openings(random: &mut Random, steps: &[Step; 8], answers: &mut Answers) {
    let [before @ .., ask, commit] = steps;
    let pair = Pair::after(before);
    for step in [ask, commit] {
        answers.add(&pair.clone().take(step));
        for opening in 0..21 {
            let mut replaced = step.clone();
            *replaced.words()[opening] = random.word();
            answers.add(&pair.clone().take(&replaced));
        }
    }
}

#[test]
fn square() {
    let outcomes = compare_circuit(&Case::square());
    let proof = proof_of(&Case::square(), outcomes).expect("the square case is proved");
    assert_eq!(proof.sections.map(|section| section.len()), [2, 4, 0, 3, 1, 2, 3, 0, 0, 0, 0]);
}

#[test]
fn small_circuits() {
    let mut random = Random::new(10);
    let mut compared = Compared::default();
    for _ in 0..count(1_500) {
        compare_good(&random.case(4));
        compared.one();
    }
}

#[test]
fn middle_circuits() {
    let mut random = Random::new(11);
    let mut compared = Compared::default();
    for _ in 0..count(60) {
        compare_good(&random.case(7));
        compared.one();
    }
}

/// Each size as that of R and of C goes through a whole session, with good openings and false ones.
#[test]
fn all_sizes() {
    let mut random = Random::new(12);
    for size in SIZES {
        let mut answers = Answers::default();
        for sizes in [[size, 2, 1], [1, size, 1], [2, size, size], [size, size, 1 + size / 4]] {
            let sizes = [sizes[0], sizes[1], 1 << sizes[2].ilog2()];
            let steps = compare_good(&random.case_of(sizes, 64));
            compare_openings(&mut random, &steps, &mut answers);
        }
        answers.expect(1, &[]);
    }
}

#[test]
fn any_sizes() {
    let mut random = Random::new(19);
    let mut compared = Compared::default();
    for _ in 0..count(3) {
        compare_good(&random.case(10));
        compared.one();
    }
}

/// Each size as |K_A|, |K_B| and |K_C|, reached by as many entries and by one more than half as many, through whole sessions.
#[test]
fn all_entry_counts() {
    let mut random = Random::new(20);
    for size in SIZES.map(|size| size as usize) {
        let mut answers = Answers::default();
        for (matrix, entries) in [0, 1, 2].into_iter().flat_map(|matrix| [(matrix, size), (matrix, size / 2 + 1)]) {
            let mut counts = [1, 3, 2 + random.place(14)];
            counts[matrix] = entries;
            counts[2] = counts[2].max(counts[0].min(counts[1]));
            let case = random.case_of_counts([64, 128, 4], counts);
            assert_eq!(case.places()[matrix] as usize, size);
            let steps = compare_good(&case);
            compare_openings(&mut random, &steps, &mut answers);
        }
        answers.expect(1, &[]);
    }
}

#[test]
fn largest_circuit() {
    let mut random = Random::new(13);
    let case = random.full_case(1024);
    assert_eq!(case.six_sizes(), [1024, 1024, 256, 1024, 1024, 1024]);
    let steps = compare_good(&case);
    let mut answers = Answers::default();
    compare_openings(&mut random, &steps, &mut answers);
    answers.expect(1, &[]);
}

/// Matrices without entries, all of them or some; K_A, K_B and K_C all different.
#[test]
fn empty_and_uneven_matrices() {
    let mut random = Random::new(14);
    for sizes in [[1, 1, 1], [1, 2, 1], [4, 8, 2], [1, 1024, 32], [1024, 1, 1]] {
        compare_good(&random.case_of(sizes, 0));
    }
    for empty in 0..3 {
        let mut case = random.case_of([4, 4, 2], 16);
        case.entries = [vec![0, 1, 5, 1, 2, 7, 2, 3, 9], vec![0, 0, 3, 3, 3, 2], Vec::new()];
        match empty {
            2 => case.assignment[1] = 0, // A's column in row 0, the only row with entries of both A and B
            _ => case.entries[empty].clear(),
        }
        case.lend_again();
        compare_good(&case);
    }
    let mut compared = Compared::default();
    for _ in 0..count(200) {
        let case = random.case(5);
        let [a, b, c] = case.places();
        if a != b && b != c && a != c {
            compare_good(&case);
            compared.one();
        }
    }
}

/// Every damage of every field of a case, alone.
fn compare_damages(case: &Case) {
    for damage in case.damages() {
        compare_circuit(&case.damaged(damage));
        let mut lent_again = case.damaged(damage);
        lent_again.lend_again();
        compare_circuit(&lent_again);
    }
}

#[test]
fn damaged_square() {
    compare_damages(&Case::square());
}

#[test]
fn damaged_everywhere() {
    let mut random = Random::new(15);
    let mut compared = Compared::default();
    for round in 0..count(29) {
        compare_damages(&random.case(if round % 7 == 6 { 3 } else { 2 }));
        compared.one();
    }
}

/// Several damages at once: the first refusal down the table must win on both sides.
#[test]
fn damaged_in_several_places() {
    let mut random = Random::new(16);
    let mut seen = [0; REFUSAL_NUMBERS];
    for _ in 0..count(4_000) {
        let case = random.case(3);
        let outcomes = compare_circuit(&random.damaged_case(&case));
        for (number, _) in refusals(&outcomes).into_iter().flatten() {
            seen[number as usize] += 1;
        }
    }
    assert!((4..=10).chain([13]).all(|number| seen[number] > 50), "too few refusals of some number: {seen:?}");
}

/// The mask, the first word of z, a row and a challenge at fault, in every combination: the first down the table must win.
#[test]
fn faults_around_the_constant() {
    let refusal = |number| Refusal { number, position: 0 };
    let faults: [Fault<Case>; 4] = [
        (refusal(8), |case| case.mask[0] = 2),
        (refusal(13), |case| case.assignment = vec![4, 6]), // the row holds: 6 times 6 is 9 times 4
        (refusal(9), |case| case.assignment[1] = 5),
        (refusal(10), |case| case.challenges[ALPHA] = 1),
    ];
    for (case, first) in combined(&Case::square(), &faults) {
        let before_alpha = first.filter(|refusal| refusal.number != 10);
        let answers = compare_circuit(&case).map(|outcome| outcome.answer.err());
        assert_eq!(answers, [None, before_alpha, first, first, first, first, first], "{case}");
    }
}

/// An assignment of zeros satisfies every row of every circuit, and no round takes it.
#[test]
fn zeros() {
    let mut random = Random::new(21);
    let mut compared = Compared::default();
    for _ in 0..count(200) {
        let mut case = random.case(4);
        case.assignment.fill(0);
        let [index, rounds @ ..] = refusals(&compare_circuit(&case));
        assert_eq!((index, rounds), (None, [Some((13, 0)); 6]), "{case}");
        compared.one();
    }
}

#[test]
fn damaged_large_circuits() {
    let mut random = Random::new(17);
    let mut compared = Compared::default();
    for _ in 0..count(40) {
        let case = random.case(8);
        for _ in 0..4 {
            let mut damaged = case.clone();
            let damage = random.damage(&case);
            damaged.damage(damage);
            compare_circuit(&damaged);
            compared.one();
        }
    }
}

/// Entry lists of 1,024 entries are taken, of 1,025 refused.
#[test]
fn entry_limit() {
    let mut random = Random::new(18);
    let full: Vec<u32> = (0..1024).flat_map(|place| [place / 32, 32 + place % 32, 1 + place]).collect();
    for matrix in 0..3 {
        let mut case = random.case_of([32, 64, 8], 0);
        case.entries[matrix] = full.clone();
        case.assignment[32..].fill(0);
        case.lend_again();
        compare_good(&case);
        case.entries[matrix].extend([31, 63, 1]);
        let refused = Some((5, matrix));
        assert_eq!(refusals(&compare_circuit(&case)), [refused; 7]);
    }
}

/// Each element of its forbidden domain is refused as a challenge, and the other elements of the next larger domain taken.
#[test]
fn challenges_at_domains() {
    for size in [1, 2, 4, 8, 16] {
        let (case, forbidden) = uneven_case(size);
        for (position, place) in [ALPHA, BETA, GAMMA].into_iter().enumerate() {
            for (exponent, element) in elements(2 * forbidden[position]).into_iter().enumerate() {
                let mut changed = case.clone();
                changed.challenges[place] = element;
                let last = compare_circuit(&changed)[6].answer.clone();
                let inside = Refusal { number: 10, position };
                assert_eq!(last.err(), exponent.is_multiple_of(2).then_some(inside));
            }
        }
    }
}

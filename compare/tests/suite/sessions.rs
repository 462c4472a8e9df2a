//! The verifier's session beside the second implementation's: random orders of steps, good and bad words.

use compare::calls::{proved, REFUSAL_NUMBERS};
use compare::case::{lengths, Case};
use compare::damage::{combined, Fault};
use compare::random::{count, elements, Compared, Random, BOUNDARY_WORDS};
use compare::steps::{Answers, Pair, Step, OUT_OF_TURN};
use second::{Check, Refusal, Verdict, MODULUS};

/// Replaces some words of a step, or gives it another number of public words.
fn damage(random: &mut Random, step: &mut Step) {
    if let Step::Open(_, x) = step {
        if random.one_in(4) {
            x.resize((x.len() + random.place(3)).saturating_sub(1), 1);
            return;
        }
    }
    for _ in 0..=random.below(2) {
        let word = random.damaged();
        let near = random.one_in(2);
        let mut words = step.words();
        let place = random.place(words.len());
        *words[place] = if near { words[place].wrapping_add(1) } else { word };
    }
}

/// Every step of good proofs in order, the verdicts with them, then once more every step, now out of turn.
#[test]
fn good_runs() {
    let mut random = Random::new(40);
    let mut compared = Compared::default();
    for round in 0..count(200) {
        let (case, proof) = proved(random.case(if round % 20 == 0 { 7 } else { 4 }));
        let steps = Step::of_proof(&case, &proof);
        let mut pair = Pair::unopened();
        for step in &steps[1..] {
            assert_eq!(pair.take(step), Err(OUT_OF_TURN));
        }
        let answers = steps.each_ref().map(|step| pair.take(step));
        assert_eq!(answers[6..], [Ok(Some(Verdict::Accept)); 2]);
        for step in &steps[1..] {
            assert_eq!(pair.take(step), Err(OUT_OF_TURN));
        }
        assert_eq!(pair.take(&steps[0]), Ok(None));
        compared.one();
    }
}

#[test]
fn largest_run() {
    let mut random = Random::new(41);
    let sizes = [1024; 6];
    let mut pair = Pair::unopened();
    let length = lengths(sizes).map(|length| length as u32);
    let steps = [
        Step::Open(sizes, random.public_words(1024)),
        Step::Alpha([length[0], length[1], length[2]], random.outside(1024)),
        Step::Eta(random.three(), random.three()),
        Step::Beta([length[4], length[5]], random.outside(1024)),
        Step::Delta(random.three(), [length[7], length[8], length[9]], random.three()),
        Step::Gamma(length[10], random.outside(1024)),
        Step::Ask([0; 21]),
        Step::Commit([0; 21]),
    ];
    let answers = steps.map(|step| pair.take(&step));
    assert_eq!(answers[6..], [Ok(Some(Verdict::Fails(Check::Row))); 2]);
}

/// Two runs with the same steps, one of which also asks between them: the steps' answers and the words that they leave are alike. Asked
/// about and committed are the good openings, these with another word for h0, m or row_A, and some that are refused.
#[test]
fn asking_in_between() {
    let mut random = Random::new(47);
    let mut answers = Answers::default();
    for _ in 0..count(60) {
        let (case, proof) = proved(random.case(4));
        let [before @ .., _, _] = Step::of_proof(&case, &proof);
        let mut openings = [proof.openings; 5];
        for (choice, place) in [(1, 4), (2, 1), (3, 9)] {
            openings[choice][place] = random.word();
        }
        openings[4][random.place(21)] = MODULUS;
        for committed in openings {
            let [mut asking, mut silent] = [(); 2].map(|()| Pair::unopened());
            for step in before.iter().chain([&Step::Commit(committed)]) {
                for _ in 0..random.below(3) {
                    answers.add(&asking.take(&Step::Ask(random.one_of(&openings))));
                }
                let answer = asking.take(step);
                assert_eq!(answer, silent.take(step), "after asking, then without");
                assert!(asking.ours == silent.ours, "asking has changed what a step leaves");
                answers.add(&answer);
            }
        }
    }
    answers.expect(20, &[1, 6]);
}

/// Every word of every step at its boundaries, alone and with each other word of the step: the first refusal must win.
#[test]
fn damaged_at_every_word() {
    let mut random = Random::new(45);
    let mut refusals = [0; REFUSAL_NUMBERS];
    for _ in 0..count(12) {
        let (case, proof) = proved(random.case(3));
        let mut pair = Pair::unopened();
        for step in Step::of_proof(&case, &proof) {
            for damaged in damages(&step) {
                if let Err(refusal) = pair.clone().take(&damaged) {
                    refusals[refusal.number as usize] += 1;
                }
            }
            assert!(pair.take(&step).is_ok());
        }
    }
    assert!([4, 6, 10, 11, 13].iter().all(|&number| refusals[number] > 20), "{refusals:?}");
}

/// A size, the length of x, its second word and its first at fault, in every combination and at every stage: the first down the table
/// must win, and the session of before stays.
#[test]
fn faults_around_the_constant() {
    type Opening = ([u32; 6], Vec<u32>);
    let refusal = |number, position| Refusal { number, position };
    let faults: [Fault<Opening>; 4] = [
        (refusal(4, 5), |(sizes, _)| sizes[5] = 3),
        (refusal(5, 0), |(_, x)| x.push(1)),
        (refusal(6, 1), |(_, x)| x[1] = MODULUS),
        (refusal(13, 0), |(_, x)| x[0] = 0),
    ];
    let (case, proof) = proved(Case::square());
    let steps = Step::of_proof(&case, &proof);
    for taken in 0..=8 {
        for ((sizes, x), first) in combined(&([4, 8, 2, 1, 2, 4], vec![1, 0]), &faults) {
            let mut pair = Pair::after(&steps[..taken]);
            let before = *pair.ours.words();
            assert_eq!(pair.take(&Step::Open(sizes, x)).err(), first);
            assert_eq!(first.is_some(), *pair.ours.words() == before);
        }
    }
}

/// A step with one word or two replaced, in every way that may matter.
fn damages(step: &Step) -> Vec<Step> {
    let mut damages = Vec::new();
    let length = step.clone().words().len();
    for first in 0..length {
        let word = *step.clone().words()[first];
        let near = [word.wrapping_add(1), word.wrapping_sub(1), 1024, 2048];
        for bad in BOUNDARY_WORDS.into_iter().chain(near).chain(elements(32)) {
            let mut damaged = step.clone();
            *damaged.words()[first] = bad;
            damages.push(damaged);
        }
        for (second, bad) in (first + 1..length).flat_map(|second| [(second, MODULUS), (second, u32::MAX), (second, 1)])
        {
            let mut damaged = step.clone();
            *damaged.words()[first] = word.wrapping_add(1);
            *damaged.words()[second] = bad;
            damages.push(damaged);
        }
    }
    damages
}

/// Random orders of steps with good and bad words.
#[test]
fn random_orders() {
    let mut random = Random::new(42);
    let mut answers = Answers::default();
    for _ in 0..count(1_500) {
        let (case, proof) = proved(random.case(3));
        let steps = Step::of_proof(&case, &proof);
        let mut pair = Pair::unopened();
        for _ in 0..40 {
            let stage = pair.ours.words()[0] as usize;
            let next = if stage == 6 { random.one_of(&[6, 7]) } else { stage % 7 };
            let place = if random.one_in(4) { random.place(8) } else { next };
            let mut step = steps[place].clone();
            if random.one_in(3) {
                damage(&mut random, &mut step);
            }
            answers.add(&pair.take(&step));
        }
    }
    answers.expect(20, &[1, 4, 5, 6, 10, 11, 13]);
}

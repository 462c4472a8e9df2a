//! Sessions that no step made: random words, and good sessions with one word or two forged. Every step must answer alike on both
//! sides; asking and committing give a verdict where steps could have left the words, and are out of turn everywhere else.

use compare::calls::proved;
use compare::random::{count, elements, Random, NO_SIZES, SIZES};
use compare::steps::{Answer, Answers, Pair, Step, OUT_OF_TURN};
use second::{Check, Verdict, MODULUS, SESSION_WORDS};

/// The place of the first public word among a session's words, and of the transcript.
const PUBLIC_START: usize = 7;
const TRANSCRIPT_START: usize = 1031;
/// The places of α, β and γ, of the σ, and of the η, ω and δ.
const CHALLENGES: [usize; 3] = [TRANSCRIPT_START, TRANSCRIPT_START + 7, TRANSCRIPT_START + 14];
const SUMS: usize = TRANSCRIPT_START + 1;
const ETA: usize = TRANSCRIPT_START + 4;
const VALUES: usize = TRANSCRIPT_START + 8;
const DELTA: usize = TRANSCRIPT_START + 11;

type Words = [u32; SESSION_WORDS];

/// A session's words with some replaced.
fn forged(good: &Words, changes: &[(usize, u32)]) -> Words {
    let mut words = *good;
    changes.iter().for_each(|&(place, word)| words[place] = word);
    words
}

/// Words as a session could hold them, and then some that no step leaves.
fn any_words(random: &mut Random) -> Words {
    let mut words = [0; SESSION_WORDS];
    words[0] = random.below(9) as u32;
    words[1..PUBLIC_START].copy_from_slice(&random.six_sizes(10));
    let tame = random.one_in(2);
    words[PUBLIC_START..].iter_mut().for_each(|word| *word = if tame { random.word() } else { random.damaged() });
    for _ in 0..random.below(3) {
        words[random.place(PUBLIC_START)] = random.damaged();
    }
    words
}

/// Random stages, sizes, public words and transcripts.
#[test]
fn sessions_of_any_words() {
    let mut random = Random::new(44);
    let mut taken = 0;
    for _ in 0..count(500) {
        let (case, proof) = proved(random.case(3));
        let pair = Pair::of_words(any_words(&mut random));
        for mut step in Step::of_proof(&case, &proof) {
            for length in step.words() {
                *length = if random.one_in(3) { 0 } else { *length };
            }
            let answer = pair.clone().take(&step);
            taken += u64::from(answer.is_ok() && !matches!(step, Step::Open(..)));
        }
    }
    assert!(taken > 50, "{taken}");
}

/// One word forged: public words and words of the transcript of p or more, a first public word that is not 1, words after x that
/// are not 0, challenges inside their domains and elements of the next larger ones, other field words, other sizes, and other stages.
fn forgeries(random: &mut Random, good: &Words) -> Vec<Words> {
    let [rows, columns, public, a, b, c] = [1, 2, 3, 4, 5, 6].map(|place| good[place]);
    let public_end = PUBLIC_START + public as usize;
    let mut changes = Vec::new();
    for place in (PUBLIC_START..public_end).chain(TRANSCRIPT_START..SESSION_WORDS) {
        changes.extend([MODULUS, MODULUS + good[place], u32::MAX, random.word()].map(|word| (place, word)));
    }
    changes.extend([0, 2].map(|word| (PUBLIC_START, word)));
    for place in [public_end, public_end + 1, TRANSCRIPT_START - 1] {
        changes.extend([1, MODULUS, u32::MAX].map(|word| (place, word)));
    }
    for (place, size) in CHALLENGES.into_iter().zip([rows, columns, a.max(b).max(c)]) {
        changes.extend(elements(2 * size).into_iter().map(|element| (place, element)));
    }
    for place in 1..PUBLIC_START {
        changes.extend(SIZES.into_iter().chain(NO_SIZES).map(|size| (place, size)));
    }
    changes.extend((0..9).map(|stage| (0, stage)));
    changes.retain(|&(place, word)| good[place] != word);
    changes.into_iter().map(|change| forged(good, &[change])).collect()
}

/// The good steps, and after them bad ones: sizes, lengths, words and challenges that are refused.
fn good_and_bad(good: &[Step; 8]) -> Vec<Step> {
    let mut steps = good.to_vec();
    for step in good {
        let places = step.clone().words().len();
        for word in [1, MODULUS, u32::MAX] {
            let mut bad = step.clone();
            bad.words().into_iter().for_each(|place| *place = word);
            steps.push(bad);
            let mut bad = step.clone();
            *bad.words()[places - 1] = word;
            steps.push(bad);
            let mut bad = step.clone();
            *bad.words()[0] = word;
            steps.push(bad);
        }
    }
    if let Step::Open(sizes, x) = &good[0] {
        steps.push(Step::Open(*sizes, [&x[..], &[1]].concat()));
        steps.push(Step::Open(*sizes, [&[2], &x[1..]].concat()));
    }
    steps
}

/// The sessions of small runs after every step that changes them, forged: each verdict and each refusal of a step must occur.
#[test]
fn small_sessions() {
    let mut random = Random::new(46);
    let mut answers = Answers::default();
    for _ in 0..count(12) {
        let (case, proof) = proved(random.case(3));
        let steps = Step::of_proof(&case, &proof);
        let taken = good_and_bad(&steps);
        let mut good = Pair::unopened();
        for step in steps.iter().filter(|step| !matches!(step, Step::Ask(_))) {
            assert!(good.take(step).is_ok());
            for words in forgeries(&mut random, good.ours.words()) {
                let pair = Pair::of_words(words);
                taken.iter().for_each(|step| answers.add(&pair.clone().take(step)));
            }
        }
    }
    answers.expect(20, &[1, 4, 5, 6, 10, 11, 13]);
}

/// A session before its openings, and the two steps that take them.
struct Unjudged {
    words: Words,
    steps: [Step; 2],
    answers: Answers,
}

impl Unjudged {
    /// Asking and committing on forged words must answer so.
    fn expect(&mut self, changes: &[(usize, u32)], expected: Answer) {
        let words = forged(&self.words, changes);
        for step in &self.steps {
            let answer = Pair::of_words(words).take(step);
            assert_eq!(answer, expected, "{step:?} with the words at these places replaced: {changes:?}");
            self.answers.add(&answer);
        }
    }

    /// Words that no steps leave: asking and committing are out of turn.
    fn expect_out_of_turn(&mut self, places: impl Iterator<Item = usize>, words: &[u32]) {
        for place in places {
            words.iter().for_each(|&word| self.expect(&[(place, word)], Err(OUT_OF_TURN)));
        }
    }
}

/// Forged sessions with |R| = |C| = size and |X| = 1, a quarter of it and all of it.
fn forged_at(size: u32, test: u64) {
    let mut random = Random::new(test);
    let mut answers = Answers::default();
    for (public, counts) in [(1, [20, 130, 40]), (size / 4, [300, 20, 60]), (size, [60, 20, 260])] {
        let (case, proof) = proved(random.case_of_counts([size, size, public], counts));
        let steps = Step::of_proof(&case, &proof);
        let [before @ .., ask, commit] = &steps;
        let words = *Pair::after(before).ours.words();
        let mut unjudged = Unjudged { words, steps: [ask.clone(), commit.clone()], answers };
        let public_end = PUBLIC_START + public as usize;
        unjudged.expect_out_of_turn([PUBLIC_START].into_iter(), &[0, 2, MODULUS - 1]);
        unjudged.expect_out_of_turn(public_end..TRANSCRIPT_START, &[1, MODULUS]);
        unjudged.expect_out_of_turn(
            (PUBLIC_START..public_end).chain(TRANSCRIPT_START..SESSION_WORDS),
            &[MODULUS, u32::MAX],
        );
        unjudged.expect_out_of_turn([0].into_iter(), &[0, 1, 2, 3, 4, 5, 7, 8, 6 + (1 << 8), 6 + (1 << 16), u32::MAX]);
        unjudged.expect_out_of_turn(1..PUBLIC_START, &NO_SIZES);
        for (place, forbidden) in CHALLENGES.into_iter().zip([size, size, case.largest_places()]) {
            unjudged.expect_out_of_turn([place].into_iter(), &elements(forbidden));
        }
        judged(&mut random, &mut unjudged, &steps, public as usize);
        answers = unjudged.answers;
    }
    answers.expect(1, &[1]);
}

/// Words that steps could have left: each gives a verdict, by the check that it enters first.
fn judged(random: &mut Random, unjudged: &mut Unjudged, steps: &[Step; 8], public: usize) {
    let [accept, row] = [Verdict::Accept, Verdict::Fails(Check::Row)].map(|verdict| Ok(Some(verdict)));
    let [line, matrix] = [Check::Line, Check::Matrix].map(|check| Ok(Some(Verdict::Fails(check))));
    let put_back = forged(Pair::after(steps).ours.words(), &[(0, 6)]);
    assert_eq!(put_back, unjudged.words, "a commit changes the stage alone");
    unjudged.expect(&[], accept);
    let [alpha, beta, gamma] = CHALLENGES;
    let sums = (SUMS..SUMS + 3).map(|place| (place, row));
    let others = (ETA..ETA + 3).chain(VALUES..VALUES + 3).map(|place| (place, line));
    let deltas = (DELTA..DELTA + 3).map(|place| (place, matrix));
    let after_constant = [public / 2, public - 1].into_iter().filter(|&place| place > 0);
    let public_words = after_constant.map(|place| (PUBLIC_START + place, line));
    for (place, expected) in sums.chain(others).chain(deltas).chain(public_words) {
        let word = random.outside(1024);
        unjudged.expect(&[(place, word)], expected);
    }
    for (place, expected) in [(alpha, row), (beta, line), (gamma, matrix)] {
        let word = random.outside(1024);
        unjudged.expect(&[(place, word)], expected);
    }
    let [a, b, c] = [0, 1, 2].map(|sum| unjudged.words[SUMS + sum]);
    let kept = [(SUMS, second::add(a, 1)), (SUMS + 2, second::add(c, b))];
    unjudged.expect(&kept.map(|(place, word)| (place, word.expect("field words"))), line);
}

#[test]
fn forged_at_64() {
    forged_at(64, 83);
}

#[test]
fn forged_at_256() {
    forged_at(256, 84);
}

#[test]
fn forged_at_1024() {
    forged_at(1024, 85);
}

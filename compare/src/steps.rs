//! The steps of a verifier's session, and both sessions side by side: every answer and the whole session, all its words, are
//! compared after every step.

use crate::calls::{Input, Proof, REFUSAL_NUMBERS};
use crate::case::Case;
use crate::library;
use second::{Refusal, Verdict, SESSION_WORDS};
use std::fmt;

/// A step with its words.
#[derive(Clone, Debug, PartialEq, Eq)]
pub enum Step {
    Open([u32; 6], Vec<u32>),
    Alpha([u32; 3], u32),
    Eta([u32; 3], [u32; 3]),
    Beta([u32; 2], u32),
    Delta([u32; 3], [u32; 3], [u32; 3]),
    Gamma(u32, u32),
    Ask([u32; 21]),
    Commit([u32; 21]),
}

/// What a step answers: nothing, a verdict, or a refusal.
pub type Answer = Result<Option<Verdict>, Refusal>;

pub const OUT_OF_TURN: Refusal = Refusal { number: 1, position: 0 };

impl Step {
    /// The eight good steps of a proof, in order: six before its openings, then asking about them and committing them.
    pub fn of_proof(case: &Case, proof: &Proof) -> [Step; 8] {
        let length = |section: usize| proof.sections[section].len() as u32;
        let three = |section: usize| [0, 1, 2].map(|place| proof.sections[section][place]);
        [
            Step::Open(case.six_sizes(), case.public_words()),
            Step::Alpha([0, 1, 2].map(length), case.alpha()),
            Step::Eta(three(3), case.eta()),
            Step::Beta([4, 5].map(length), case.beta()),
            Step::Delta(three(6), [7, 8, 9].map(length), case.delta()),
            Step::Gamma(length(10), case.gamma()),
            Step::Ask(proof.openings),
            Step::Commit(proof.openings),
        ]
    }

    /// The step on the library's session.
    fn take(&self, session: &mut library::Session) -> Answer {
        let taken = match self {
            Step::Open(sizes, x) => session.open(*sizes, x),
            Step::Alpha(lengths, alpha) => session.alpha(*lengths, *alpha),
            Step::Eta(sums, eta) => session.eta(*sums, *eta),
            Step::Beta(lengths, beta) => session.beta(*lengths, *beta),
            Step::Delta(values, lengths, delta) => session.delta(*values, *lengths, *delta),
            Step::Gamma(length, gamma) => session.gamma(*length, *gamma),
            Step::Ask(openings) => return session.ask(*openings).map(Some),
            Step::Commit(openings) => return session.commit(*openings).map(Some),
        };
        taken.map(|()| None)
    }

    /// The step on the second implementation's session.
    fn take_second(&self, session: second::Session) -> (second::Session, Answer) {
        let (next, taken) = match self {
            Step::Open(sizes, x) => match second::open(*sizes, x) {
                Ok(opened) => (opened, Ok(())),
                Err(refusal) => (session, Err(refusal)),
            },
            Step::Alpha(lengths, alpha) => session.alpha(*lengths, *alpha),
            Step::Eta(sums, eta) => session.eta(*sums, *eta),
            Step::Beta(lengths, beta) => session.beta(*lengths, *beta),
            Step::Delta(values, lengths, delta) => session.delta(*values, *lengths, *delta),
            Step::Gamma(length, gamma) => session.gamma(*length, *gamma),
            Step::Ask(openings) => {
                let verdict = session.ask(*openings);
                return (session, verdict.map(Some));
            }
            Step::Commit(openings) => {
                let (next, verdict) = session.commit(*openings);
                return (next, verdict.map(Some));
            }
        };
        (next, taken.map(|()| None))
    }

    /// All words of the step.
    pub fn words(&mut self) -> Vec<&mut u32> {
        match self {
            Step::Open(sizes, x) => sizes.iter_mut().chain(x).collect(),
            Step::Alpha(lengths, alpha) => lengths.iter_mut().chain([alpha]).collect(),
            Step::Eta(sums, eta) => sums.iter_mut().chain(eta).collect(),
            Step::Beta(lengths, beta) => lengths.iter_mut().chain([beta]).collect(),
            Step::Delta(values, lengths, delta) => values.iter_mut().chain(lengths).chain(delta).collect(),
            Step::Gamma(length, gamma) => vec![length, gamma],
            Step::Ask(openings) | Step::Commit(openings) => openings.iter_mut().collect(),
        }
    }
}

/// How often each verdict (Accept, Row, Line, Matrix) and each refusal was answered.
#[derive(Debug, Default)]
pub struct Answers {
    verdicts: [u64; 4],
    refusals: [u64; REFUSAL_NUMBERS],
}

impl Answers {
    pub fn add(&mut self, answer: &Answer) {
        match answer {
            Ok(Some(Verdict::Accept)) => self.verdicts[0] += 1,
            Ok(Some(Verdict::Fails(check))) => self.verdicts[*check as usize + 1] += 1,
            Ok(None) => (),
            Err(refusal) => self.refusals[refusal.number as usize] += 1,
        }
    }

    /// Fails unless each of the four verdicts and each refusal of a list was answered at least so often.
    pub fn expect(&self, least: u64, refusals: &[usize]) {
        let few = |&number: &u64| number < least;
        let missing = self.verdicts.iter().any(few) || refusals.iter().any(|&number| few(&self.refusals[number]));
        assert!(!missing, "some verdict or refusal of {refusals:?} was answered fewer than {least} times: {self:?}");
    }
}

/// Steps taken so far, the last of which shows a difference.
#[derive(Clone)]
struct Run {
    start: Option<[u32; SESSION_WORDS]>,
    steps: Vec<Step>,
}

impl fmt::Display for Run {
    fn fmt(&self, text: &mut fmt::Formatter) -> fmt::Result {
        match &self.start {
            None => writeln!(text, "a session before it is opened")?,
            Some(words) => writeln!(text, "a session with the words {words:?}")?,
        }
        self.steps.iter().try_for_each(|step| writeln!(text, "{step:?}"))
    }
}

/// Both sessions, side by side.
#[derive(Clone)]
pub struct Pair {
    pub ours: library::Session,
    theirs: second::Session,
    run: Run,
}

impl Pair {
    pub fn unopened() -> Pair {
        let theirs = second::Session::from_words(&[0; SESSION_WORDS]);
        let pair = Pair { ours: library::Session::unopened(), theirs, run: Run { start: None, steps: Vec::new() } };
        pair.compare();
        pair
    }

    /// Sessions of these words, whether or not steps can make them.
    pub fn of_words(words: [u32; SESSION_WORDS]) -> Pair {
        Pair {
            ours: library::Session::from_words(words),
            theirs: second::Session::from_words(&words),
            run: Run { start: Some(words), steps: Vec::new() },
        }
    }

    fn compare(&self) {
        let theirs = self.theirs.words();
        let differing = (0..SESSION_WORDS).find(|&place| self.ours.words()[place] != theirs[place]);
        assert_eq!(differing, None, "the sessions differ at this word");
    }

    /// Takes a step on both sides; the answer is that of both.
    pub fn take(&mut self, step: &Step) -> Answer {
        self.run.steps.push(step.clone());
        let run = self.run.clone();
        let _input = Input(&run);
        let answer = step.take(&mut self.ours);
        let (theirs, expected) = step.take_second(self.theirs.clone());
        self.theirs = theirs;
        assert_eq!(answer, expected, "the library's answer, then the second implementation's");
        self.compare();
        if answer.is_err() {
            self.run.steps.pop();
        }
        answer
    }

    /// Sessions that have taken these steps, none of which may be refused.
    pub fn after(steps: &[Step]) -> Pair {
        let mut pair = Pair::unopened();
        steps.iter().for_each(|step| assert!(pair.take(step).is_ok(), "a good step is refused: {step:?}"));
        pair
    }

    /// The answer to the openings of a proof's steps, which must be the same where they are asked about and where they are committed.
    pub fn verdict(steps: &[Step; 8]) -> Answer {
        let [before @ .., ask, commit] = steps;
        let mut pair = Pair::after(before);
        let asked = pair.take(ask);
        assert_eq!(pair.take(commit), asked, "the answer to committing, then to asking");
        asked
    }
}

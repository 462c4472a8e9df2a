//! The verifier session: six steps in one order, then openings, which may be asked about as often as wished
//! and are committed once. Asking leaves the session. Every other step takes it and gives back the next one
//! with its answer, or the same one where it is refused. A session may hold any words, such as no step
//! made: every step is in turn only at its stage and with allowed sizes, and openings only on words that
//! steps can leave.

use crate::domain::Sizes;
use crate::field::{self, Element};
use crate::message;
use crate::refusal::{self, Refusal};
use crate::transcript::{Transcript, TRANSCRIPT_WORDS};
use crate::verdict::{Equations, Openings, Verdict};

/// The place of x among a session's words, after the stage and the six sizes.
const X_START: usize = 7;
/// The words that a session has for x.
const X_WORDS: usize = 1024;
/// The place of the transcript.
const TRANSCRIPT_START: usize = X_START + X_WORDS;
/// The words of a session: the stage, the six sizes, x, and the transcript.
pub const SESSION_WORDS: usize = TRANSCRIPT_START + TRANSCRIPT_WORDS;

/// A session.
#[derive(Clone, Debug, PartialEq, Eq)]
pub struct Session {
    /// How many steps were taken, asking aside: 7 once openings are committed.
    stage: u32,
    sizes: Sizes,
    /// The public words, and zeros after them.
    x: [u32; X_WORDS],
    transcript: Transcript<u32>,
}

/// Opens a session: sizes |R|, |C|, |X|, |K_A|, |K_B|, |K_C|, then x.
pub fn open(sizes: [u32; 6], public_words: &[u32]) -> Result<Session, Refusal> {
    refusal::sizes(&sizes)?;
    refusal::lists(&[public_words.len() == sizes[2] as usize])?;
    refusal::words(public_words.iter().copied())?;
    refusal::constant(public_words)?;
    let mut x = [0; X_WORDS];
    x[..public_words.len()].copy_from_slice(public_words);
    Ok(Session { stage: 1, sizes: Sizes(sizes), x, transcript: Transcript::new([0; TRANSCRIPT_WORDS]) })
}

impl Session {
    /// The lengths of ŵ, m and h0, then α.
    pub fn alpha(self, lengths: [u32; 3], alpha: u32) -> (Session, Result<(), Refusal>) {
        let sections = [message::WITNESS, message::MASK, message::ROW_QUOTIENT];
        let answer = self.check(self.in_turn(1), &[alpha]).and_then(|()| {
            refusal::challenge(0, Element::new(alpha), &self.sizes.rows())?;
            self.check_lengths(&lengths, &sections)
        });
        self.step(answer, |transcript| {
            transcript.alpha = alpha;
        })
    }

    /// The three σ, then the three η.
    pub fn eta(self, sums: [u32; 3], eta: [u32; 3]) -> (Session, Result<(), Refusal>) {
        let answer = self.check(self.in_turn(2), &[sums, eta].concat());
        self.step(answer, |transcript| {
            transcript.sums = sums;
            transcript.eta = eta;
        })
    }

    /// The lengths of g1 and h1, then β.
    pub fn beta(self, lengths: [u32; 2], beta: u32) -> (Session, Result<(), Refusal>) {
        let sections = [message::LINE_REMAINDER, message::LINE_QUOTIENT];
        let answer = self.check(self.in_turn(3), &[beta]).and_then(|()| {
            refusal::challenge(1, Element::new(beta), &self.sizes.columns())?;
            self.check_lengths(&lengths, &sections)
        });
        self.step(answer, |transcript| {
            transcript.beta = beta;
        })
    }

    /// The three ω and the lengths of g_A, g_B and g_C, then the three δ.
    pub fn delta(self, values: [u32; 3], lengths: [u32; 3], delta: [u32; 3]) -> (Session, Result<(), Refusal>) {
        let answer = self
            .check(self.in_turn(4), &[values, delta].concat())
            .and_then(|()| self.check_lengths(&lengths, &message::MATRIX_REMAINDERS));
        self.step(answer, |transcript| {
            transcript.values = values;
            transcript.delta = delta;
        })
    }

    /// The length of h2, then γ.
    pub fn gamma(self, length: u32, gamma: u32) -> (Session, Result<(), Refusal>) {
        let answer = self.check(self.in_turn(5), &[gamma]).and_then(|()| {
            refusal::challenge(2, Element::new(gamma), &self.sizes.largest_places())?;
            self.check_lengths(&[length], &[message::JOINED_QUOTIENT])
        });
        self.step(answer, |transcript| {
            transcript.gamma = gamma;
        })
    }

    /// Asks about the 21 openings; the answer is the verdict.
    pub fn ask(&self, openings: [u32; 21]) -> Result<Verdict, Refusal> {
        self.check(self.in_turn(6) && self.left_by_steps(), &openings)?;
        Ok(self.verdict(Openings::new(openings)))
    }

    /// Commits the 21 openings, which ends the session; the answer is the one that asking gives.
    pub fn commit(self, openings: [u32; 21]) -> (Session, Result<Verdict, Refusal>) {
        let answer = self.ask(openings);
        self.step(answer, |_| ())
    }

    /// Whether so many steps were taken, with sizes such as opening leaves.
    fn in_turn(&self, steps: u32) -> bool {
        self.stage == steps && refusal::sizes(&self.sizes.0).is_ok()
    }

    /// The public words and the zeros after them, of a session with allowed sizes.
    fn public_words(&self) -> (&[u32], &[u32]) {
        self.x.split_at(self.sizes.0[2] as usize)
    }

    /// Whether x and the transcript are such as steps leave, with allowed sizes: the public words and the
    /// transcript are below p, x begins with 1, zeros come after the public words, α is outside R, β outside
    /// C, γ outside K.
    fn left_by_steps(&self) -> bool {
        let (public_words, rest) = self.public_words();
        let below = refusal::words([public_words, &self.transcript.words()].concat()).is_ok();
        let constant = refusal::constant(public_words).is_ok();
        let padded = rest.iter().all(|&word| word == 0);
        let Transcript { alpha, beta, gamma, .. } = self.transcript.elements();
        let inside = [
            self.sizes.rows().contains(alpha),
            self.sizes.columns().contains(beta),
            self.sizes.largest_places().contains(gamma),
        ];
        below && constant && padded && inside == [false; 3]
    }

    /// The verdict on what steps leave.
    fn verdict(&self, openings: Openings) -> Verdict {
        let public_words = field::elements(self.public_words().0);
        let (sizes, transcript) = (self.sizes, self.transcript.elements());
        Equations { sizes, public_words, transcript, openings }.verdict()
    }

    /// Checks 1 and 6: the step's turn and its field words.
    fn check(&self, in_turn: bool, words: &[u32]) -> Result<(), Refusal> {
        refusal::turn(in_turn)?;
        refusal::words(words.iter().copied())
    }

    /// Check 11: declared lengths against those of their sections.
    fn check_lengths(&self, declared: &[u32], sections: &[usize]) -> Result<(), Refusal> {
        let lengths = message::lengths(self.sizes.0);
        let limits: Vec<usize> = sections.iter().map(|&section| lengths[section]).collect();
        refusal::declared_lengths(declared, &limits)
    }

    /// The next session where the answer is good, the same one where it is a refusal.
    fn step<Answer>(
        mut self,
        answer: Result<Answer, Refusal>,
        hear: impl FnOnce(&mut Transcript<u32>),
    ) -> (Session, Result<Answer, Refusal>) {
        if answer.is_ok() {
            self.stage += 1;
            hear(&mut self.transcript);
        }
        (self, answer)
    }

    /// The session as words: the stage, the six sizes, x, and the transcript.
    pub fn words(&self) -> [u32; SESSION_WORDS] {
        let words = [&[self.stage][..], &self.sizes.0, &self.x, &self.transcript.words()].concat();
        std::array::from_fn(|place| words[place])
    }

    /// The session that has these words, also one that no step made.
    pub fn from_words(words: &[u32; SESSION_WORDS]) -> Session {
        Session {
            stage: words[0],
            sizes: Sizes(std::array::from_fn(|place| words[1 + place])),
            x: std::array::from_fn(|place| words[X_START + place]),
            transcript: Transcript::new(std::array::from_fn(|place| words[TRANSCRIPT_START + place])),
        }
    }
}

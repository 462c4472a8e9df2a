//! The program `prove`: a job's bytes to the printed text.

use crate::circuit;
use crate::message;
use crate::prover;
use crate::record;
use crate::refusal::{self, Refusal};
use crate::verdict::{Check, Verdict};
use crate::verifier;

/// The most bytes of a job.
const JOB_LIMIT: usize = 4096;
/// The bytes of the sizes and counts.
const HEAD_BYTES: usize = 24;
/// The challenges: α, three η, β, three δ, γ.
const CHALLENGE_COUNT: usize = 9;

/// Why a job has no proof.
enum Stop {
    TooLong,
    TooShort,
    Refused(Refusal),
}

impl From<Refusal> for Stop {
    fn from(refusal: Refusal) -> Stop {
        Stop::Refused(refusal)
    }
}

/// A job of the right length, in parts.
struct Job<'a> {
    sizes: [u32; 3],
    entries: [&'a [u32]; 3],
    assignment: &'a [u32],
    mask_word: u32,
    mask: &'a [u32],
    alpha: u32,
    eta: [u32; 3],
    beta: u32,
    delta: [u32; 3],
    gamma: u32,
}

/// The text that the program prints for a job.
pub fn prove(job: &[u8]) -> String {
    let words: Vec<u32> = record::words(job).take(JOB_LIMIT / 4).collect();
    let text = Job::read(job.len(), &words).and_then(|job| Ok(job.text()?));
    match text {
        Ok(text) => text,
        Err(Stop::TooLong) => "job too long\n".to_string(),
        Err(Stop::TooShort) => "job too short\n".to_string(),
        Err(Stop::Refused(Refusal { number, position })) => {
            format!("refused {number} {position}\n")
        }
    }
}

/// Splits off the first words of a list that has them.
fn take<'a>(rest: &mut &'a [u32], count: usize) -> &'a [u32] {
    let (first, second) = rest.split_at(count);
    *rest = second;
    first
}

/// Judges the sizes and counts, then the job's length in bytes.
fn check_head(bytes: usize, sizes: [u32; 3], counts: [usize; 3]) -> Result<(), Stop> {
    refusal::sizes(&sizes)?;
    refusal::lists(&counts.map(circuit::is_count))?;
    let assignment_and_masks = 3 * sizes[1] as usize + 1;
    let entry_words: usize = counts.iter().map(|count| 3 * count).sum();
    let words = entry_words + assignment_and_masks + CHALLENGE_COUNT;
    let expected = HEAD_BYTES + 4 * words;
    if bytes > expected {
        Err(Stop::TooLong)
    } else if bytes < expected {
        Err(Stop::TooShort)
    } else {
        Ok(())
    }
}

impl<'a> Job<'a> {
    /// Reads a job's whole words; the number of bytes may leave part of a word over.
    fn read(bytes: usize, words: &'a [u32]) -> Result<Job<'a>, Stop> {
        if bytes > JOB_LIMIT {
            return Err(Stop::TooLong);
        }
        if bytes < HEAD_BYTES {
            return Err(Stop::TooShort);
        }
        let sizes = [words[0], words[1], words[2]];
        let counts = [words[3], words[4], words[5]].map(|count| count as usize);
        check_head(bytes, sizes, counts)?;
        let rest = &mut &words[6..];
        let columns = sizes[1] as usize;
        let entries = counts.map(|count| take(rest, 3 * count));
        let assignment = take(rest, columns);
        let mask_word = take(rest, 1)[0];
        let mask = take(rest, 2 * columns);
        Ok(Job {
            sizes,
            entries,
            assignment,
            mask_word,
            mask,
            alpha: rest[0],
            eta: [rest[1], rest[2], rest[3]],
            beta: rest[4],
            delta: [rest[5], rest[6], rest[7]],
            gamma: rest[8],
        })
    }

    /// The eleven sections and the verdict.
    fn text(&self) -> Result<String, Refusal> {
        let openings = self.openings()?;
        let sections = self.sections()?;
        let mut text = String::new();
        for (name, words) in message::NAMES.iter().zip(&sections) {
            text.push_str(name);
            for word in words {
                text.push_str(&format!(" {word}"));
            }
            text.push('\n');
        }
        let verdict = match self.verdict(&sections, openings)? {
            Verdict::Accept => "accept",
            Verdict::Fails(Check::Row) => "fails row",
            Verdict::Fails(Check::Line) => "fails line",
            Verdict::Fails(Check::Matrix) => "fails matrix",
        };
        Ok(format!("{text}verdict {verdict}\n"))
    }

    /// The openings, with the checks 6 to 8, 13, 9 and 10 over the whole job.
    fn openings(&self) -> Result<[u32; 21], Refusal> {
        prover::openings(
            self.sizes,
            self.entries,
            self.assignment,
            self.mask_word,
            self.mask,
            self.alpha,
            self.eta,
            self.beta,
            self.delta,
            self.gamma,
        )
    }

    /// The six sizes in trailer order.
    fn six_sizes(&self) -> [u32; 6] {
        circuit::six_sizes(self.sizes, self.entries)
    }

    /// The messages of the five rounds, as sections of the record.
    fn sections(&self) -> Result<[Vec<u32>; 11], Refusal> {
        let (sizes, entries, assignment) = (self.sizes, self.entries, self.assignment);
        let (word, mask) = (self.mask_word, self.mask);
        let (alpha, eta, beta, delta) = (self.alpha, self.eta, self.beta, self.delta);
        let mut sections = message::lengths(self.six_sizes()).map(|length| vec![0; length]);
        let [witness, mask_section, row_quotient, sums, line_remainder, line_quotient, rest @ ..] = &mut sections;
        let [values, a, b, c, joined_quotient] = rest;
        mask_section.copy_from_slice(mask);
        prover::first_round(sizes, entries, assignment, word, mask, witness, row_quotient)?;
        *sums = prover::second_round(sizes, entries, assignment, word, mask, alpha)?.to_vec();
        prover::third_round(sizes, entries, assignment, word, mask, alpha, eta, line_remainder, line_quotient)?;
        let remainders: [&mut [u32]; 3] = [a, b, c];
        *values = prover::fourth_round(sizes, entries, assignment, word, mask, alpha, eta, beta, remainders)?.to_vec();
        prover::fifth_round(sizes, entries, assignment, word, mask, alpha, eta, beta, delta, joined_quotient)?;
        Ok(sections)
    }

    /// The verdict of a session that hears the sections, asked for and then committed.
    fn verdict(&self, sections: &[Vec<u32>; 11], openings: [u32; 21]) -> Result<Verdict, Refusal> {
        let length = |section: usize| sections[section].len() as u32;
        let three = |section: usize| [0, 1, 2].map(|place| sections[section][place]);
        let first = [message::WITNESS, message::MASK, message::ROW_QUOTIENT];
        let line = [message::LINE_REMAINDER, message::LINE_QUOTIENT];
        let remainders = message::MATRIX_REMAINDERS.map(length);
        let public_words = circuit::public_words(self.sizes, self.assignment);
        let session = verifier::open(self.six_sizes(), &public_words)?;
        let (session, answer) = session.alpha(first.map(length), self.alpha);
        answer?;
        let (session, answer) = session.eta(three(message::SUMS), self.eta);
        answer?;
        let (session, answer) = session.beta(line.map(length), self.beta);
        answer?;
        let (session, answer) = session.delta(three(message::VALUES), remainders, self.delta);
        answer?;
        let (session, answer) = session.gamma(length(message::JOINED_QUOTIENT), self.gamma);
        answer?;
        let asked = session.ask(openings)?;
        let committed = session.commit(openings).1?;
        assert_eq!(committed, asked, "a commit has the verdict that asking gave");
        Ok(committed)
    }
}

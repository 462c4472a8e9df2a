//! The transcript: the sums, values and challenges of a session before the openings.

use crate::field::Element;

/// The words of a transcript.
pub(crate) const TRANSCRIPT_WORDS: usize = 15;

/// α, σ, η, β, ω, δ, γ, as words or as field elements.
#[derive(Clone, Copy, Debug, PartialEq, Eq)]
pub(crate) struct Transcript<Word> {
    pub alpha: Word,
    pub sums: [Word; 3],
    pub eta: [Word; 3],
    pub beta: Word,
    pub values: [Word; 3],
    pub delta: [Word; 3],
    pub gamma: Word,
}

impl Transcript<u32> {
    pub fn new(words: [u32; TRANSCRIPT_WORDS]) -> Transcript<u32> {
        let three = |place: usize| [words[place], words[place + 1], words[place + 2]];
        Transcript {
            alpha: words[0],
            sums: three(1),
            eta: three(4),
            beta: words[7],
            values: three(8),
            delta: three(11),
            gamma: words[14],
        }
    }

    /// All words in order.
    pub fn words(&self) -> Vec<u32> {
        let first = [&[self.alpha][..], &self.sums, &self.eta, &[self.beta]].concat();
        [&first[..], &self.values, &self.delta, &[self.gamma]].concat()
    }

    pub fn elements(&self) -> Transcript<Element> {
        Transcript {
            alpha: Element::new(self.alpha),
            sums: self.sums.map(Element::new),
            eta: self.eta.map(Element::new),
            beta: Element::new(self.beta),
            values: self.values.map(Element::new),
            delta: self.delta.map(Element::new),
            gamma: Element::new(self.gamma),
        }
    }
}

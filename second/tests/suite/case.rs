//! A whole prover case, the calls on it, and a session that hears its proof.

use second::{Refusal, Session, Verdict};

/// What an unfilled lent slice holds.
pub const UNTOUCHED: u32 = 0xdead_beef;

#[derive(Clone)]
pub struct Case {
    pub sizes: [u32; 3],
    pub entries: [Vec<u32>; 3],
    pub assignment: Vec<u32>,
    pub mask_word: u32,
    pub mask: Vec<u32>,
    pub alpha: u32,
    pub eta: [u32; 3],
    pub beta: u32,
    pub delta: [u32; 3],
    pub gamma: u32,
}

/// A proof: the eleven sections in record order, and the openings.
#[derive(Clone)]
pub struct Proof {
    pub sections: [Vec<u32>; 11],
    pub openings: [u32; 21],
}

/// A refusal as a pair.
pub fn refusal<Answer>(answer: Result<Answer, Refusal>) -> Option<(u32, usize)> {
    answer.err().map(|refusal| (refusal.number, refusal.position))
}

/// The table of messages, from six sizes.
pub fn lengths(sizes: [u32; 6]) -> [usize; 11] {
    let [r, c, x, a, b, d] = sizes.map(|size| size as usize);
    let k = a.max(b).max(d);
    [c - x + 1, 2 * c, r - 1, 3, c - 1, c, 3, a - 1, b - 1, d - 1, k - 1]
}

/// Fills lent slices of given lengths; says whether a refused call has left them alone.
pub fn lend<const N: usize, Answer>(
    lengths: [usize; N],
    call: impl FnOnce([&mut [u32]; N]) -> Result<Answer, Refusal>,
) -> Result<([Vec<u32>; N], Answer), Refusal> {
    let mut lent = lengths.map(|length| vec![UNTOUCHED; length]);
    let answer = call(lent.each_mut().map(Vec::as_mut_slice));
    let touched = lent.iter().flatten().any(|&word| word != UNTOUCHED);
    assert!(answer.is_ok() || !touched, "a refused call has changed a lent slice");
    let unfilled = lent.iter().flatten().any(|&word| word == UNTOUCHED);
    assert!(answer.is_err() || !unfilled, "a call has left part of a lent slice");
    answer.map(|answer| (lent, answer))
}

/// The answer to openings, which is the same for asking and for committing. Asking must leave every word, a commit every word but
/// the stage, which is 7 after a verdict.
pub fn judged(session: &Session, openings: [u32; 21]) -> Result<Verdict, Refusal> {
    let mut words = session.words();
    let asked = session.ask(openings);
    assert!(session.words() == words, "asking has changed the session");
    let (next, committed) = session.clone().commit(openings);
    assert_eq!(committed, asked, "the answer to committing, then to asking");
    if committed.is_ok() {
        words[0] = 7;
    }
    assert!(next.words() == words, "a commit has left other words");
    asked
}

impl Case {
    pub fn lists(&self) -> [&[u32]; 3] {
        self.entries.each_ref().map(Vec::as_slice)
    }

    /// |K_M|: doubling from 1 until the entries fit.
    pub fn places(&self) -> [u32; 3] {
        self.lists().map(|list| {
            let sizes = [1, 2, 4, 8, 16, 32, 64, 128, 256, 512, 1024];
            let fitting = sizes.into_iter().find(|&size| size as usize >= list.len() / 3);
            fitting.unwrap_or(1024)
        })
    }

    pub fn largest_places(&self) -> usize {
        self.places().into_iter().max().unwrap_or(1) as usize
    }

    pub fn six_sizes(&self) -> [u32; 6] {
        let ([r, c, x], [a, b, d]) = (self.sizes, self.places());
        [r, c, x, a, b, d]
    }

    pub fn lengths(&self) -> [usize; 11] {
        // a case with sizes at fault is refused before its lent slices are looked at
        let good = self.sizes.iter().all(|size| (1..=1024).contains(size)) && self.sizes[2] <= self.sizes[1];
        if good {
            lengths(self.six_sizes())
        } else {
            [1; 11]
        }
    }

    pub fn public_words(&self) -> Vec<u32> {
        let step = self.assignment.len() / self.sizes[2] as usize;
        (0..self.sizes[2] as usize).map(|place| self.assignment[place * step]).collect()
    }

    pub fn first_round(&self) -> Result<[Vec<u32>; 2], Refusal> {
        let (s, l, z, r, m) = (self.sizes, self.lists(), &self.assignment, self.mask_word, &self.mask);
        let lengths = self.lengths();
        let call = |[w, h0]: [&mut [u32]; 2]| second::first_round(s, l, z, r, m, w, h0);
        lend([lengths[0], lengths[2]], call).map(|(messages, ())| messages)
    }

    pub fn second_round(&self) -> Result<[u32; 3], Refusal> {
        second::second_round(self.sizes, self.lists(), &self.assignment, self.mask_word, &self.mask, self.alpha)
    }

    pub fn third_round(&self) -> Result<[Vec<u32>; 2], Refusal> {
        let (s, l, z, r, m) = (self.sizes, self.lists(), &self.assignment, self.mask_word, &self.mask);
        let lengths = self.lengths();
        let call = |[g1, h1]: [&mut [u32]; 2]| second::third_round(s, l, z, r, m, self.alpha, self.eta, g1, h1);
        lend([lengths[4], lengths[5]], call).map(|(messages, ())| messages)
    }

    pub fn fourth_round(&self) -> Result<([Vec<u32>; 3], [u32; 3]), Refusal> {
        let (s, l, z, r, m) = (self.sizes, self.lists(), &self.assignment, self.mask_word, &self.mask);
        let lengths = self.lengths();
        let call = |lent: [&mut [u32]; 3]| second::fourth_round(s, l, z, r, m, self.alpha, self.eta, self.beta, lent);
        lend([lengths[7], lengths[8], lengths[9]], call)
    }

    pub fn fifth_round(&self) -> Result<Vec<u32>, Refusal> {
        let (s, l, z, r, m) = (self.sizes, self.lists(), &self.assignment, self.mask_word, &self.mask);
        let (alpha, eta, beta, delta) = (self.alpha, self.eta, self.beta, self.delta);
        let call = |[h2]: [&mut [u32]; 1]| second::fifth_round(s, l, z, r, m, alpha, eta, beta, delta, h2);
        lend([self.lengths()[10]], call).map(|([h2], ())| h2)
    }

    pub fn openings(&self) -> Result<[u32; 21], Refusal> {
        let (s, l, z, r, m) = (self.sizes, self.lists(), &self.assignment, self.mask_word, &self.mask);
        let (alpha, eta, beta, delta) = (self.alpha, self.eta, self.beta, self.delta);
        second::openings(s, l, z, r, m, alpha, eta, beta, delta, self.gamma)
    }

    pub fn index(&self) -> Result<[Vec<u32>; 12], Refusal> {
        let [a, b, c] = self.places().map(|size| size as usize);
        let call = |lent: [&mut [u32]; 12]| second::index(self.sizes, self.lists(), lent);
        lend([a, a, a, a, b, b, b, b, c, c, c, c], call).map(|(polynomials, ())| polynomials)
    }

    /// The case with the blinded circuit and the blinded assignment.
    pub fn blinded(&self, rho: [u32; 3]) -> Result<Case, Refusal> {
        let [a, b, c] = self.lists().map(|list| list.len() + 3);
        let columns = if self.sizes[1] <= 1024 { self.sizes[1] as usize } else { 0 };
        let call = |[a, b, c, z]: [&mut [u32]; 4]| {
            second::blind(self.sizes, self.lists(), &self.assignment, rho, [a, b, c], z)
        };
        let ([a, b, c, assignment], ()) = lend([a, b, c, columns], call)?;
        Ok(Case { entries: [a, b, c], assignment, ..self.clone() })
    }

    pub fn proof(&self) -> Result<Proof, Refusal> {
        let [w, h0] = self.first_round()?;
        let s = self.second_round()?.to_vec();
        let [g1, h1] = self.third_round()?;
        let ([ga, gb, gc], o) = self.fourth_round()?;
        let h2 = self.fifth_round()?;
        let sections = [w, self.mask.clone(), h0, s, g1, h1, o.to_vec(), ga, gb, gc, h2];
        Ok(Proof { sections, openings: self.openings()? })
    }

    /// A session just before the openings, with the proof's transcript.
    pub fn session(&self, proof: &Proof) -> Result<Session, Refusal> {
        let length = |section: usize| proof.sections[section].len() as u32;
        let three = |section: usize| [0, 1, 2].map(|place| proof.sections[section][place]);
        let session = second::open(self.six_sizes(), &self.public_words())?;
        let (session, answer) = session.alpha([0, 1, 2].map(length), self.alpha);
        answer?;
        let (session, answer) = session.eta(three(3), self.eta);
        answer?;
        let (session, answer) = session.beta([4, 5].map(length), self.beta);
        answer?;
        let (session, answer) = session.delta(three(6), [7, 8, 9].map(length), self.delta);
        answer?;
        let (session, answer) = session.gamma(length(10), self.gamma);
        answer?;
        Ok(session)
    }

    pub fn verdict(&self, proof: &Proof) -> Result<Verdict, Refusal> {
        judged(&self.session(proof)?, proof.openings)
    }

    pub fn record(&self, proof: &Proof) -> Vec<u8> {
        let words: usize = proof.sections.iter().map(Vec::len).sum();
        let mut bytes = vec![0; 4 * words + 72];
        let sections = proof.sections.each_ref().map(Vec::as_slice);
        second::write_record(self.six_sizes(), sections, &mut bytes).expect("a proof's record is written");
        bytes
    }

    /// The job of the program `prove`.
    pub fn job(&self) -> Vec<u8> {
        let counts = self.lists().map(|list| (list.len() / 3) as u32);
        let words = [
            self.sizes.to_vec(),
            counts.to_vec(),
            self.entries.concat(),
            self.assignment.clone(),
            vec![self.mask_word],
            self.mask.clone(),
            vec![self.alpha],
            self.eta.to_vec(),
            vec![self.beta],
            self.delta.to_vec(),
            vec![self.gamma],
        ];
        words.concat().into_iter().flat_map(u32::to_le_bytes).collect()
    }
}

/// Document 01's square case.
pub fn square() -> Case {
    Case {
        sizes: [1, 2, 1],
        entries: [vec![0, 1, 1], vec![0, 1, 1], vec![0, 0, 9]],
        assignment: vec![1, 3],
        mask_word: 1,
        mask: vec![1, 0, 2013265920, 1],
        alpha: 2,
        eta: [1, 1, 2],
        beta: 3,
        delta: [1, 1, 1],
        gamma: 5,
    }
}

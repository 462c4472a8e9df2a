//! Public calls on either implementation, with all that they give back, and their comparison.

use crate::case::Case;
use crate::library::{self, UNWRITTEN};
use second::{Refusal, MODULUS};
use std::fmt::Display;

/// The two implementations.
#[derive(Clone, Copy, Debug, PartialEq, Eq)]
pub enum Side {
    Library,
    Second,
}

/// The numbers of refusals are below this.
pub const REFUSAL_NUMBERS: usize = 16;

/// The calls that take a circuit.
#[derive(Clone, Copy, Debug, PartialEq, Eq)]
pub enum CircuitCall {
    Index,
    FirstRound,
    SecondRound,
    ThirdRound,
    FourthRound,
    FifthRound,
    Openings,
}

pub const CIRCUIT_CALLS: [CircuitCall; 7] = [
    CircuitCall::Index,
    CircuitCall::FirstRound,
    CircuitCall::SecondRound,
    CircuitCall::ThirdRound,
    CircuitCall::FourthRound,
    CircuitCall::FifthRound,
    CircuitCall::Openings,
];

/// A call's answer, and the words of every slice that was lent to it, as the call left them.
#[derive(Clone, Debug, PartialEq, Eq)]
pub struct Outcome {
    pub answer: Result<Vec<u32>, Refusal>,
    pub lent: Vec<Vec<u32>>,
}

/// Prints the input of a comparison when the comparison fails, in whatever way.
pub struct Input<'a, T: Display>(pub &'a T);

impl<T: Display> Drop for Input<'_, T> {
    fn drop(&mut self) {
        if std::thread::panicking() {
            eprintln!("the input that shows it:\n{}", self.0);
        }
    }
}

/// Makes a call with lent slices of given lengths. They stand between guard words; a refused call must leave all of them, and a
/// call that is done must fill them with field words.
pub fn lend<const N: usize, Answer: Into<Vec<u32>>>(
    lengths: [usize; N],
    call: impl FnOnce([&mut [u32]; N]) -> Result<Answer, Refusal>,
) -> Outcome {
    let mut guarded = lengths.map(|length| vec![UNWRITTEN; length + 2]);
    let answer = call(guarded.each_mut().map(|words| {
        let end = words.len() - 1;
        &mut words[1..end]
    }));
    let guards = guarded.iter().flat_map(|words| [words[0], words[words.len() - 1]]);
    assert!(guards.into_iter().all(|guard| guard == UNWRITTEN), "a call has written past a lent slice");
    let lent = guarded.map(|words| words[1..words.len() - 1].to_vec());
    let untouched = lent.iter().flatten().all(|&word| word == UNWRITTEN);
    let filled = lent.iter().flatten().all(|&word| word < MODULUS);
    assert!(answer.is_ok() || untouched, "a refused call has changed a lent slice");
    assert!(answer.is_err() || filled, "a call that is done has left part of a lent slice");
    Outcome { answer: answer.map(Answer::into), lent: lent.to_vec() }
}

/// Nothing, as the words of an answer.
pub(crate) fn no_words(answer: Result<(), Refusal>) -> Result<Vec<u32>, Refusal> {
    answer.map(|()| Vec::new())
}

/// A call on a case, with lent slices of the case's lengths.
pub fn circuit_call(side: Side, call: CircuitCall, case: &Case) -> Outcome {
    let lent = &case.lent_sections;
    match call {
        CircuitCall::Index => lend(case.lent_index, |lent| no_words(index(side, case, lent))),
        CircuitCall::FirstRound => lend([lent[0], lent[2]], |lent| no_words(first_round(side, case, lent))),
        CircuitCall::SecondRound => lend([], |[]| second_round(side, case)),
        CircuitCall::ThirdRound => lend([lent[4], lent[5]], |lent| no_words(third_round(side, case, lent))),
        CircuitCall::FourthRound => lend([lent[7], lent[8], lent[9]], |lent| fourth_round(side, case, lent)),
        CircuitCall::FifthRound => lend([lent[10]], |lent| no_words(fifth_round(side, case, lent))),
        CircuitCall::Openings => lend([], |[]| openings(side, case)),
    }
}

pub fn index(side: Side, case: &Case, lent: [&mut [u32]; 12]) -> Result<(), Refusal> {
    let call = match side {
        Side::Library => library::index,
        Side::Second => second::index,
    };
    call(case.sizes, case.lists(), lent)
}

/// Fills ŵ and h0.
pub fn first_round(side: Side, case: &Case, [w, h0]: [&mut [u32]; 2]) -> Result<(), Refusal> {
    let call = match side {
        Side::Library => library::first_round,
        Side::Second => second::first_round,
    };
    call(case.sizes, case.lists(), &case.assignment, case.mask_word, &case.mask, w, h0)
}

pub fn second_round(side: Side, case: &Case) -> Result<[u32; 3], Refusal> {
    let call = match side {
        Side::Library => library::second_round,
        Side::Second => second::second_round,
    };
    call(case.sizes, case.lists(), &case.assignment, case.mask_word, &case.mask, case.alpha())
}

/// Fills g1 and h1.
pub fn third_round(side: Side, case: &Case, [g1, h1]: [&mut [u32]; 2]) -> Result<(), Refusal> {
    let call = match side {
        Side::Library => library::third_round,
        Side::Second => second::third_round,
    };
    let (z, r, m) = (&case.assignment, case.mask_word, &case.mask);
    call(case.sizes, case.lists(), z, r, m, case.alpha(), case.eta(), g1, h1)
}

/// Fills g_A, g_B and g_C.
pub fn fourth_round(side: Side, case: &Case, lent: [&mut [u32]; 3]) -> Result<[u32; 3], Refusal> {
    let call = match side {
        Side::Library => library::fourth_round,
        Side::Second => second::fourth_round,
    };
    let (z, r, m) = (&case.assignment, case.mask_word, &case.mask);
    call(case.sizes, case.lists(), z, r, m, case.alpha(), case.eta(), case.beta(), lent)
}

/// Fills h2.
pub fn fifth_round(side: Side, case: &Case, [h2]: [&mut [u32]; 1]) -> Result<(), Refusal> {
    let call = match side {
        Side::Library => library::fifth_round,
        Side::Second => second::fifth_round,
    };
    let (z, r, m) = (&case.assignment, case.mask_word, &case.mask);
    call(case.sizes, case.lists(), z, r, m, case.alpha(), case.eta(), case.beta(), case.delta(), h2)
}

pub fn openings(side: Side, case: &Case) -> Result<[u32; 21], Refusal> {
    let call = match side {
        Side::Library => library::openings,
        Side::Second => second::openings,
    };
    let (z, r, m) = (&case.assignment, case.mask_word, &case.mask);
    call(case.sizes, case.lists(), z, r, m, case.alpha(), case.eta(), case.beta(), case.delta(), case.gamma())
}

/// Makes a call on both sides and compares all that it gives back; the outcome is that of both.
pub fn compare_call(call: CircuitCall, case: &Case) -> Outcome {
    let _input = Input(case);
    let [ours, theirs] = [Side::Library, Side::Second].map(|side| circuit_call(side, call, case));
    assert_eq!(ours, theirs, "{call:?}: the library, then the second implementation");
    ours
}

/// Makes every circuit call on both sides; the outcomes are those of both.
pub fn compare_circuit(case: &Case) -> [Outcome; 7] {
    CIRCUIT_CALLS.map(|call| compare_call(call, case))
}

/// A proof: the eleven sections in record order, and the openings.
#[derive(Clone)]
pub struct Proof {
    pub sections: [Vec<u32>; 11],
    pub openings: [u32; 21],
}

/// The proof that the outcomes of the circuit calls hold, where none of them is refused.
pub fn proof_of(case: &Case, outcomes: [Outcome; 7]) -> Result<Proof, Refusal> {
    let [_, first, second, third, fourth, fifth, opened] = outcomes;
    let [w, h0] = two(first)?;
    let [g1, h1] = two(third)?;
    let o = fourth.answer?;
    let [ga, gb, gc]: [Vec<u32>; 3] = fourth.lent.try_into().expect("three slices are lent");
    let h2 = fifth.answer.map(|_| fifth.lent.concat())?;
    let sections = [w, case.mask.clone(), h0, second.answer?, g1, h1, o, ga, gb, gc, h2];
    Ok(Proof { sections, openings: opened.answer?.try_into().expect("there are 21 openings") })
}

/// The two slices lent to a call that is done.
fn two(outcome: Outcome) -> Result<[Vec<u32>; 2], Refusal> {
    outcome.answer.map(|_| outcome.lent.try_into().expect("two slices are lent"))
}

/// The proof that one side makes of a case.
pub fn prove(side: Side, case: &Case) -> Result<Proof, Refusal> {
    proof_of(case, CIRCUIT_CALLS.map(|call| circuit_call(side, call, case)))
}

/// A satisfied case, with the second implementation's proof of it.
pub fn proved(case: Case) -> (Case, Proof) {
    let proof = prove(Side::Second, &case).expect("a satisfied case is proved");
    (case, proof)
}

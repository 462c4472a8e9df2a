//! The calls on a circuit that grows, and the circuits of both sides beside each other: every answer, every lent slice and the whole
//! memory, all its words, are compared after every call.
//!
//! The second implementation has such a circuit twice: as lists of entries, where calls made the words, and as the words alone.

use crate::calls::{lend, no_words, Input, Outcome};
use crate::library::{self, CIRCUIT_WORDS};
use second::Refusal;
use std::collections::BTreeMap;
use std::fmt;

/// The words of a matrix: its total, the counts of 1,024 rows, and the words of 1,024 entries.
const MATRIX_WORDS: usize = 1 + 1024 + 3072;

/// The word that holds the total of matrix 0, 1 or 2.
pub fn total_place(matrix: usize) -> usize {
    3 + MATRIX_WORDS * matrix
}

/// The word that holds the count of a row.
pub fn count_place(matrix: usize, row: usize) -> usize {
    total_place(matrix) + 1 + row
}

/// The first word of an entry.
pub fn entry_place(matrix: usize, entry: usize) -> usize {
    total_place(matrix) + 1025 + 3 * entry
}

pub type Words = [u32; CIRCUIT_WORDS];

/// How a circuit begins: empty, with its sizes, or from lists.
#[derive(Clone, Debug)]
pub enum Beginning {
    Empty([u32; 3]),
    From([u32; 3], [Vec<u32>; 3]),
}

/// A call on a circuit, with its inputs.
#[derive(Clone, Debug)]
pub enum Call {
    /// The matrix, and row, column and value.
    Add(u32, [u32; 3]),
    /// The matrix, row and column.
    Remove(u32, u32, u32),
    /// The matrix and row.
    Row(u32, u32),
    /// The lengths of the twelve lent slices.
    Index([usize; 12]),
}

impl Call {
    fn name(&self) -> &'static str {
        match self {
            Call::Add(..) => "add",
            Call::Remove(..) => "remove",
            Call::Row(..) => "row",
            Call::Index(..) => "index",
        }
    }
}

/// A call on a circuit of the library or on one of the second implementation's, which have the same calls.
macro_rules! make {
    ($circuit:expr, $call:expr) => {
        match $call {
            Call::Add(matrix, entry) => lend([], |[]| no_words($circuit.add(*matrix, *entry))),
            Call::Remove(matrix, row, column) => lend([], |[]| no_words($circuit.remove(*matrix, *row, *column))),
            Call::Row(matrix, row) => lend([], |[]| $circuit.find_row(*matrix, *row).map(place_words)),
            Call::Index(lengths) => lend(*lengths, |lent| no_words($circuit.index(lent))),
        }
    };
}

/// The start and the length of a row as the words of an answer.
fn place_words((start, length): (usize, usize)) -> [u32; 2] {
    [start, length].map(|number| u32::try_from(number).expect("a row stands among the circuit's words"))
}

/// How often each call gave each answer: the number of a refusal, or 0 where it was done.
#[derive(Debug, Default)]
pub struct Answers(BTreeMap<(&'static str, u32), u64>);

impl Answers {
    fn add(&mut self, call: &'static str, refusal: Option<&Refusal>) {
        *self.0.entry((call, refusal.map_or(0, |refusal| refusal.number))).or_default() += 1;
    }

    /// Fails unless a call gave each answer of a list at least so often.
    pub fn expect(&self, least: u64, call: &'static str, answers: &[u32]) {
        let few = |&&answer: &&u32| self.0.get(&(call, answer)).is_none_or(|&times| times < least);
        let missing = answers.iter().find(few);
        assert_eq!(missing, None, "{call} gave this answer fewer than {least} times: {:?}", self.0);
    }
}

/// The input of a comparison: memory before a call, and the call.
struct Made<'a> {
    before: Box<Words>,
    call: &'a dyn fmt::Debug,
}

impl fmt::Display for Made<'_> {
    fn fmt(&self, text: &mut fmt::Formatter) -> fmt::Result {
        writeln!(text, "{:?}\non memory with these words, by place, and 0 in all others:", self.call)?;
        let filled = self.before.iter().enumerate().filter(|(_, &word)| word != 0);
        filled.into_iter().try_for_each(|(place, word)| write!(text, "{place}:{word} "))
    }
}

/// The circuits of both sides.
#[derive(Clone)]
pub struct Pair {
    ours: library::Circuit,
    words: second::CircuitWords,
    /// There where calls made the words.
    lists: Option<second::GrowingCircuit>,
}

impl Pair {
    /// Circuits of these words, whether or not calls can make them.
    pub fn of_words(words: &Words) -> Pair {
        let ours = library::Circuit::from_words(words);
        Pair { ours, words: second::CircuitWords::from_words(words), lists: None }
    }

    /// Circuits that begin where any words stood, and how their beginning was answered.
    pub fn begun(answers: &mut Answers, beginning: &Beginning) -> (Pair, Result<(), Refusal>) {
        let mut pair = Pair::of_words(&[library::UNWRITTEN; CIRCUIT_WORDS]);
        let answer = pair.begin(answers, beginning);
        (pair, answer)
    }

    /// The words of memory, which are those of both sides.
    pub fn memory(&self) -> &Words {
        self.ours.words()
    }

    pub fn sizes(&self) -> [u32; 3] {
        [0, 1, 2].map(|place| self.memory()[place])
    }

    /// How many entries matrix 0, 1 or 2 has, in memory that no call made at most 1,024.
    pub fn entries(&self, matrix: usize) -> usize {
        self.memory()[total_place(matrix)].min(1024) as usize
    }

    /// The parts of memory that hold the entries.
    pub fn parts(&self) -> [&[u32]; 3] {
        [0, 1, 2].map(|matrix| &self.memory()[entry_place(matrix, 0)..entry_place(matrix, self.entries(matrix))])
    }

    /// The lengths of slices that the indexer fills: |K_M|, doubling from 1 until the entries fit.
    pub fn index_lengths(&self) -> [usize; 12] {
        std::array::from_fn(|slice| self.entries(slice / 4).next_power_of_two())
    }

    fn made<'a>(&self, call: &'a dyn fmt::Debug) -> Made<'a> {
        Made { before: Box::new(*self.memory()), call }
    }

    fn compare(&self) {
        let (ours, theirs) = (self.memory(), self.words.words());
        let differing = (0..CIRCUIT_WORDS).find(|&place| ours[place] != theirs[place]);
        assert_eq!(differing, None, "the circuits differ at this word");
        if let Some(lists) = &self.lists {
            assert!(lists.words() == theirs, "the second implementation's words are not those of its lists");
        }
    }

    /// Begins anew on both sides; the answer is that of both.
    pub fn begin(&mut self, answers: &mut Answers, beginning: &Beginning) -> Result<(), Refusal> {
        let made = self.made(beginning);
        let _input = Input(&made);
        let (name, answer, begun) = match beginning {
            Beginning::Empty(sizes) => ("begin", self.ours.begin(*sizes), second::begin(*sizes)),
            Beginning::From(sizes, lists) => {
                let lists = lists.each_ref().map(Vec::as_slice);
                ("begin_from", self.ours.begin_from(*sizes, lists), second::begin_from(*sizes, lists))
            }
        };
        self.lists = begun.clone().ok().or(self.lists.take());
        assert_eq!(answer, self.words.begin(begun), "the library's answer, then the second implementation's");
        self.compare();
        answers.add(name, answer.as_ref().err());
        answer
    }

    /// Makes a call on both sides; the outcome is that of both.
    pub fn call(&mut self, answers: &mut Answers, call: &Call) -> Outcome {
        let made = self.made(call);
        let _input = Input(&made);
        let outcome = make!(self.ours, call);
        if let Some(lists) = &mut self.lists {
            assert_eq!(outcome, make!(lists, call), "the library, then the second implementation");
        }
        if self.lists.is_none() || !matches!(call, Call::Index(_)) {
            assert_eq!(outcome, make!(self.words, call), "the library, then the second implementation on words");
        }
        self.compare();
        match (call, &outcome.answer) {
            (Call::Row(matrix, row), Ok(place)) => self.compare_row(*matrix, *row, place),
            (Call::Index(lengths), _) => {
                let listed = lend(*lengths, |lent| no_words(library::index(self.sizes(), self.parts(), lent)));
                assert_eq!(outcome, listed, "the circuit's index, then that of its lists");
            }
            _ => (),
        }
        answers.add(call.name(), outcome.answer.as_ref().err());
        outcome
    }

    /// A row's part of memory must be the row of the lists.
    fn compare_row(&self, matrix: u32, row: u32, place: &[u32]) {
        let [start, length] = [place[0], place[1]].map(|number| number as usize);
        let part = &self.memory()[start..start + length];
        if let Some(lists) = &self.lists {
            assert_eq!(Ok(part.to_vec()), lists.row(matrix, row), "the part of memory, then the row of the list");
        }
    }
}

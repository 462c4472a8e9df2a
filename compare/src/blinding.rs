//! The call that blinds: its inputs as one value, what it must give for them, both sides beside each other, and what can be put
//! wrong in the inputs.

use crate::calls::{lend, no_words, Input, Outcome, Side};
use crate::case::Case;
use crate::damage::Damage;
use crate::library;
use crate::random::{Random, BOUNDARY_WORDS};
use second::Refusal;
use std::fmt;

/// The reserved columns of A, B and C: every second one where |X| is |C|/2, else the last three, and none where fewer than three
/// columns are not public.
pub fn reserved_columns(columns: u32, public: u32) -> Option<[u32; 3]> {
    match columns - public {
        0..3 => None,
        _ if columns == 2 * public => Some([columns - 5, columns - 3, columns - 1]),
        _ => Some([columns - 3, columns - 2, columns - 1]),
    }
}

/// The columns in which an entry may stand.
pub fn free_columns(columns: u32, public: u32) -> Vec<u32> {
    let reserved = reserved_columns(columns, public);
    (0..columns).filter(|column| reserved.is_none_or(|reserved| !reserved.contains(column))).collect()
}

/// The inputs of the call.
#[derive(Clone)]
pub struct Blinding {
    /// The circuit and the assignment; masks and challenges are no inputs.
    pub case: Case,
    pub rho: [u32; 3],
    /// The lengths of the slices lent for the entries of A, B and C and for the assignment.
    pub lent: [usize; 4],
}

impl Blinding {
    /// With lent slices of the right lengths.
    pub fn new(case: Case, rho: [u32; 3]) -> Blinding {
        let mut blinding = Blinding { case, rho, lent: [0; 4] };
        blinding.lend_again();
        blinding
    }

    /// Lends slices of the lengths that the lists give.
    pub fn lend_again(&mut self) {
        let [a, b, c] = self.case.lists().map(|list| list.len() + 3);
        self.lent = [a, b, c, self.case.assignment.len()];
    }

    /// An entry more in a matrix, at its place in the order.
    pub fn put(&mut self, matrix: usize, entry: [u32; 3]) {
        let list = &mut self.case.entries[matrix];
        let mut entries: Vec<&[u32]> = list.chunks(3).chain([&entry[..]]).collect();
        entries.sort();
        *list = entries.concat();
    }

    /// An entry more in a matrix, instead of one that stands at its place, with lent slices of the right lengths.
    pub fn put_alone(&mut self, matrix: usize, entry: [u32; 3]) {
        let list = &mut self.case.entries[matrix];
        *list = list.chunks(3).filter(|standing| standing[..2] != entry[..2]).flatten().copied().collect();
        self.put(matrix, entry);
        self.lend_again();
    }

    /// What must stand in the lent slices where the call is done.
    pub fn expected(&self) -> [Vec<u32>; 4] {
        let Case { sizes: [rows, columns, public], entries: [a, b, c], assignment, .. } = &self.case;
        let reserved = reserved_columns(*columns, *public).expect("three columns are not public");
        let mut lists = [a.clone(), b.clone(), c.clone(), assignment.clone()];
        for (matrix, column) in reserved.into_iter().enumerate() {
            lists[matrix].extend([rows - 1, column, 1]);
            lists[3][column as usize] = self.rho[matrix];
        }
        lists
    }

    fn call(&self, side: Side) -> Outcome {
        let call = match side {
            Side::Library => library::blind,
            Side::Second => second::blind,
        };
        let Case { sizes, assignment, .. } = &self.case;
        lend(self.lent, |[a, b, c, z]| no_words(call(*sizes, self.case.lists(), assignment, self.rho, [a, b, c], z)))
    }

    /// Makes the call on both sides and compares all that it gives back; the outcome is that of both.
    pub fn compare(&self) -> Outcome {
        let _input = Input(self);
        let [ours, theirs] = [Side::Library, Side::Second].map(|side| self.call(side));
        assert_eq!(ours, theirs, "the library, then the second implementation");
        ours
    }

    /// The case after blinding, on both sides.
    pub fn blinded(&self) -> Result<Case, Refusal> {
        let outcome = self.compare();
        outcome.answer?;
        let [a, b, c, assignment]: [Vec<u32>; 4] = outcome.lent.try_into().expect("four slices are lent");
        let mut case = Case { entries: [a, b, c], assignment, ..self.case.clone() };
        case.lend_again();
        Ok(case)
    }

    /// The inputs with every damage of the circuit, of z, of ρ and of the lent lengths, alone.
    pub fn damaged_everywhere(&self) -> Vec<Blinding> {
        let with = |change: &dyn Fn(&mut Blinding)| {
            let mut damaged = self.clone();
            change(&mut damaged);
            damaged
        };
        let given = |damage: &Damage| match damage {
            Damage::Size(..) | Damage::Order(..) | Damage::Repeated(..) => true,
            Damage::Word(list, ..) | Damage::Length(list, _) => *list < 4,
            Damage::MaskWord(_) | Damage::Challenge(..) | Damage::LentSection(..) | Damage::LentIndex(..) => false,
        };
        let damages = self.case.damages().into_iter().filter(given);
        let mut all: Vec<Blinding> = damages.map(|damage| with(&|blinding| blinding.case.damage(damage))).collect();
        for place in 0..3 {
            all.extend(BOUNDARY_WORDS.map(|word| with(&|blinding| blinding.rho[place] = word)));
        }
        for (slice, length) in self.lent.into_iter().enumerate() {
            let near = [0, length.saturating_sub(3), length - 1, length + 1, length + 3];
            all.extend(near.map(|length| with(&|blinding| blinding.lent[slice] = length)));
        }
        all
    }
}

/// The text of the case's job, then ρ and the lengths of the slices lent.
impl fmt::Display for Blinding {
    fn fmt(&self, text: &mut fmt::Formatter) -> fmt::Result {
        writeln!(text, "{}# rho: {:?}\n# words lent for A, B, C, z: {:?}", self.case, self.rho, self.lent)
    }
}

impl Random {
    /// A place in the reserved row or columns of allowed sizes, or near them, or anywhere.
    fn blinding_place(&mut self, sizes: [u32; 3]) -> [u32; 2] {
        let [row, column] = [sizes[0], sizes[1]].map(|size| self.below(u64::from(size)) as u32);
        match self.below(4) {
            0 => [sizes[0] - 1, column],
            1 => [row, sizes[1].saturating_sub(1 + self.below(6) as u32)],
            2 => [row, self.one_of(&reserved_columns(sizes[1], sizes[2]).unwrap_or([column; 3]))],
            _ => [row, column],
        }
    }

    /// The inputs with one to three damages, after which some lend slices of the right lengths again.
    pub fn damaged_blinding(&mut self, good: &Blinding) -> Blinding {
        let mut damaged = good.clone();
        for _ in 0..=self.below(3) {
            match self.below(8) {
                0 => damaged.rho[self.place(3)] = self.damaged(),
                1 => {
                    let length = &mut damaged.lent[self.place(4)];
                    *length = (*length + self.one_of(&[0, 2, 4, 6])).saturating_sub(3);
                }
                2 | 3 => {
                    let [row, column] = self.blinding_place(good.case.sizes);
                    damaged.put(self.place(3), [row, column, self.nonzero()]);
                }
                4 => damaged.case.assignment.iter_mut().take(1).for_each(|word| *word = self.damaged()),
                _ => {
                    let damage = self.damage(&damaged.case);
                    damaged.case.damage(damage);
                }
            }
        }
        if !self.one_in(3) {
            damaged.lend_again();
        }
        damaged
    }
}

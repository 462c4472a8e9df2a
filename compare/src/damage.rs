//! What can be put wrong in a case: each size, each word of each list, the order of entries, each list's length, each challenge
//! and the length of each lent slice; and faults in every combination.

use crate::case::Case;
use crate::random::{Random, BOUNDARY_WORDS, NO_SIZES};
use second::Refusal;

/// One change of a case.
#[derive(Clone, Copy, Debug)]
pub enum Damage {
    Size(usize, u32),
    /// A word of one of the lists A, B, C, z, m.
    Word(usize, usize, u32),
    /// An entry changes places with the one after it.
    Order(usize, usize),
    /// An entry stands a second time after itself.
    Repeated(usize, usize),
    /// A list's length.
    Length(usize, usize),
    MaskWord(u32),
    Challenge(usize, u32),
    LentSection(usize, usize),
    LentIndex(usize, usize),
}

/// The sections for which the calls lend slices.
const LENT_SECTIONS: [usize; 8] = [0, 2, 4, 5, 7, 8, 9, 10];

impl Case {
    /// One of the lists A, B, C, z, m.
    fn list(&mut self, list: usize) -> &mut Vec<u32> {
        match list {
            0..3 => &mut self.entries[list],
            3 => &mut self.assignment,
            _ => &mut self.mask,
        }
    }

    fn all_lists(&self) -> [&Vec<u32>; 5] {
        let [a, b, c] = &self.entries;
        [a, b, c, &self.assignment, &self.mask]
    }

    pub fn damage(&mut self, damage: Damage) {
        match damage {
            Damage::Size(place, size) => self.sizes[place] = size,
            Damage::Word(list, place, word) => self.list(list)[place] = word,
            Damage::Order(matrix, entry) => {
                let list = &mut self.entries[matrix];
                (0..3).for_each(|word| list.swap(3 * entry + word, 3 * entry + 3 + word));
            }
            Damage::Repeated(matrix, entry) => {
                let list = &mut self.entries[matrix];
                list.extend_from_within(3 * entry..3 * entry + 3);
                list[3 * entry..].rotate_right(3);
            }
            Damage::Length(list, length) => self.list(list).resize(length, 1),
            Damage::MaskWord(word) => self.mask_word = word,
            Damage::Challenge(place, word) => self.challenges[place] = word,
            Damage::LentSection(section, length) => self.lent_sections[section] = length,
            Damage::LentIndex(slice, length) => self.lent_index[slice] = length,
        }
    }

    pub fn damaged(&self, damage: Damage) -> Case {
        let mut case = self.clone();
        case.damage(damage);
        case
    }

    /// Every damage of a field with boundary words, with the words next to what is there, and with lengths next to the right one.
    pub fn damages(&self) -> Vec<Damage> {
        let words = BOUNDARY_WORDS.into_iter();
        let challenges = words.flat_map(|word| (0..9).map(move |place| Damage::Challenge(place, word)));
        let mut damages: Vec<Damage> = challenges.chain(BOUNDARY_WORDS.map(Damage::MaskWord)).collect();
        damages.extend((0..3).flat_map(|place| self.size_damages(place)));
        damages.extend((0..5).flat_map(|list| self.list_damages(list)));
        damages.extend((0..3).flat_map(|matrix| self.order_damages(matrix)));
        damages.extend(LENT_SECTIONS.into_iter().flat_map(|section| {
            let lengths = near_lengths(self.lent_sections[section]);
            lengths.map(move |length| Damage::LentSection(section, length))
        }));
        damages.extend((0..12).flat_map(|slice| {
            let lengths = near_lengths(self.lent_index[slice]);
            lengths.map(move |length| Damage::LentIndex(slice, length))
        }));
        damages
    }

    fn size_damages(&self, place: usize) -> impl Iterator<Item = Damage> {
        let size = self.sizes[place];
        let sizes = NO_SIZES.into_iter().chain([1, 2, 1024, 2 * size, size / 2]);
        sizes.map(move |size| Damage::Size(place, size))
    }

    /// Other lengths of a list, and other words in each of its places.
    fn list_damages(&self, list: usize) -> Vec<Damage> {
        let [rows, columns, _] = self.sizes;
        let words = self.all_lists()[list];
        let lengths = [0, 1, 3, words.len() + 3, words.len().saturating_sub(3), 3072, 3075];
        let lengths = lengths.into_iter().chain(near_lengths(words.len()));
        let mut damages: Vec<Damage> = lengths.map(|length| Damage::Length(list, length)).collect();
        for (place, word) in words.iter().enumerate() {
            let near = [rows, columns, word.wrapping_add(1), word.wrapping_sub(1)];
            let bad = BOUNDARY_WORDS.into_iter().chain(near);
            damages.extend(bad.map(|word| Damage::Word(list, place, word)));
        }
        damages
    }

    fn order_damages(&self, matrix: usize) -> impl Iterator<Item = Damage> {
        let entries = self.entries[matrix].len() / 3;
        let repeated = (0..entries).map(move |entry| Damage::Repeated(matrix, entry));
        repeated.chain((1..entries).map(move |entry| Damage::Order(matrix, entry - 1)))
    }
}

/// None, one less and one more than a length.
fn near_lengths(length: usize) -> [usize; 3] {
    [0, length.saturating_sub(1), length + 1]
}

/// A change, and how an input with it alone is refused.
pub type Fault<Input> = (Refusal, fn(&mut Input));

/// A good input with every choice of faults, which stand in the order of the table of refusals: the first one made must win.
pub fn combined<Input: Clone>(good: &Input, faults: &[Fault<Input>]) -> Vec<(Input, Option<Refusal>)> {
    let with = |chosen: usize| {
        let mut input = good.clone();
        let mut first = None;
        for (place, (refusal, make)) in faults.iter().enumerate() {
            if chosen >> place & 1 == 1 {
                make(&mut input);
                first = first.or(Some(*refusal));
            }
        }
        (input, first)
    };
    (0..1 << faults.len()).map(with).collect()
}

impl Random {
    /// A random damage of a case.
    pub fn damage(&mut self, case: &Case) -> Damage {
        let word = self.damaged();
        let list = self.place(5);
        let (matrix, lengths) = (list % 3, case.all_lists().map(Vec::len));
        let entries = lengths[matrix] / 3;
        match self.below(14) {
            0 => Damage::Size(matrix, word),
            1..=4 if lengths[list] > 0 => Damage::Word(list, self.place(lengths[list]), word),
            5 if entries > 1 => Damage::Order(matrix, self.place(entries - 1)),
            6 if entries > 0 => Damage::Repeated(matrix, self.place(entries)),
            7 => Damage::Length(list, lengths[list] + 3),
            8 => Damage::Length(list, (lengths[list] + 1).saturating_sub(self.place(3))),
            9 => Damage::MaskWord(word),
            10 => self.lent_damage(case),
            _ => Damage::Challenge(self.place(9), word),
        }
    }

    fn lent_damage(&mut self, case: &Case) -> Damage {
        if self.one_in(2) {
            let section = self.one_of(&LENT_SECTIONS);
            Damage::LentSection(section, (case.lent_sections[section] + self.place(3)).saturating_sub(1))
        } else {
            let slice = self.place(12);
            Damage::LentIndex(slice, (case.lent_index[slice] + self.place(3)).saturating_sub(1))
        }
    }

    /// A case with one to four damages, after which some cases lend slices of the right lengths again.
    pub fn damaged_case(&mut self, case: &Case) -> Case {
        let mut damaged = case.clone();
        for _ in 0..=self.below(4) {
            let damage = self.damage(&damaged);
            damaged.damage(damage);
        }
        if self.one_in(2) {
            damaged.lend_again();
        }
        damaged
    }
}

//! A prover's inputs as one value, with the lengths of the slices that its calls lend.

use jobtext::Field;
use std::fmt;

/// The places of α, η, β, δ, γ among the challenges.
pub const ALPHA: usize = 0;
pub const BETA: usize = 4;
pub const GAMMA: usize = 8;

#[derive(Clone)]
pub struct Case {
    pub sizes: [u32; 3],
    pub entries: [Vec<u32>; 3],
    pub assignment: Vec<u32>,
    pub mask_word: u32,
    pub mask: Vec<u32>,
    /// α, three η, β, three δ, γ.
    pub challenges: [u32; 9],
    /// The lengths of slices lent for the sections of the record.
    pub lent_sections: [usize; 11],
    /// The lengths of slices lent for the twelve index polynomials.
    pub lent_index: [usize; 12],
}

/// The table of messages, from six allowed sizes.
pub fn lengths(sizes: [u32; 6]) -> [usize; 11] {
    let [r, c, x, a, b, d] = sizes.map(|size| size as usize);
    let k = a.max(b).max(d);
    [c - x + 1, 2 * c, r - 1, 3, c - 1, c, 3, a - 1, b - 1, d - 1, k - 1]
}

/// A case with |K_A| = 1 and other domains of a size or twice it, and the sizes of R, C and K. The assignment is 0 after its
/// first word, and no entry is in column 0, so that entries are free.
pub fn uneven_case(size: u32) -> (Case, [u32; 3]) {
    let diagonal = (0..size).flat_map(|row| [row, size + row, 1]).collect();
    let mut assignment = vec![0; 2 * size as usize];
    assignment[0] = 1;
    let mut case = Case::new([size, 2 * size, 1], [Vec::new(), vec![0, 1, 7], diagonal], assignment);
    case.challenges = [5, 1, 1, 1, 5, 1, 1, 1, 5];
    (case, [size, 2 * size, size])
}

impl Case {
    /// A case with zeros for masks and challenges, which lends slices of the right lengths.
    pub fn new(sizes: [u32; 3], entries: [Vec<u32>; 3], assignment: Vec<u32>) -> Case {
        let mask = vec![0; 2 * assignment.len()];
        let (lent_sections, lent_index) = ([0; 11], [0; 12]);
        let mut case =
            Case { sizes, entries, assignment, mask_word: 0, mask, challenges: [0; 9], lent_sections, lent_index };
        case.lend_again();
        case
    }

    /// Document 01's square case.
    pub fn square() -> Case {
        let entries = [vec![0, 1, 1], vec![0, 1, 1], vec![0, 0, 9]];
        let mut case = Case::new([1, 2, 1], entries, vec![1, 3]);
        case.mask_word = 1;
        case.mask = vec![1, 0, 2_013_265_920, 1];
        case.challenges = [2, 1, 1, 2, 3, 1, 1, 1, 5];
        case
    }

    /// Lends slices of the lengths that the sizes and entry lists give, where the sizes can give any.
    pub fn lend_again(&mut self) {
        let [rows, columns, public] = self.sizes;
        if (1..=1024).contains(&rows) && (1..=1024).contains(&columns) && (1..=columns).contains(&public) {
            self.lent_sections = lengths(self.six_sizes());
            let places = self.places();
            self.lent_index = std::array::from_fn(|place| places[place / 4] as usize);
        }
    }

    pub fn lists(&self) -> [&[u32]; 3] {
        self.entries.each_ref().map(Vec::as_slice)
    }

    /// |K_M|: doubling from 1 until the entries fit.
    pub fn places(&self) -> [u32; 3] {
        self.lists().map(|list| {
            let mut size = 1;
            while (size as usize) < list.len() / 3 && size < 1024 {
                size *= 2;
            }
            size
        })
    }

    pub fn largest_places(&self) -> u32 {
        self.places().into_iter().max().unwrap_or(1)
    }

    pub fn six_sizes(&self) -> [u32; 6] {
        let ([r, c, x], [a, b, d]) = (self.sizes, self.places());
        [r, c, x, a, b, d]
    }

    /// The assignment at the public columns.
    pub fn public_words(&self) -> Vec<u32> {
        let step = (self.sizes[1] / self.sizes[2]) as usize;
        self.assignment.iter().step_by(step).copied().collect()
    }

    pub fn alpha(&self) -> u32 {
        self.challenges[ALPHA]
    }

    pub fn eta(&self) -> [u32; 3] {
        [1, 2, 3].map(|place| self.challenges[place])
    }

    pub fn beta(&self) -> u32 {
        self.challenges[BETA]
    }

    pub fn delta(&self) -> [u32; 3] {
        [5, 6, 7].map(|place| self.challenges[place])
    }

    pub fn gamma(&self) -> u32 {
        self.challenges[GAMMA]
    }

    /// The fields of the job of the program `prove`, in order.
    fn fields(&self) -> Vec<Field> {
        let counts = self.lists().map(|list| (list.len() / 3) as u32);
        let mut fields = vec![Field::new("|R| |C| |X|", &self.sizes), Field::new("entries of A, B, C", &counts)];
        for (name, list) in jobtext::MATRICES.iter().zip(self.lists()) {
            fields.extend(list.chunks(3).map(|entry| Field::new(name, entry)));
        }
        fields.push(Field::new("z", &self.assignment));
        fields.push(Field::new("r", &[self.mask_word]));
        fields.push(Field::new("m", &self.mask));
        fields.push(Field::new("alpha", &[self.alpha()]));
        fields.push(Field::new("eta", &self.eta()));
        fields.push(Field::new("beta", &[self.beta()]));
        fields.push(Field::new("delta", &self.delta()));
        fields.push(Field::new("gamma", &[self.gamma()]));
        fields
    }

    /// The words of the job.
    pub fn job_words(&self) -> Vec<u32> {
        self.fields().into_iter().flat_map(|field| field.words).collect()
    }

    /// The bytes of the job.
    pub fn job(&self) -> Vec<u8> {
        jobtext::bytes(&self.job_words())
    }
}

/// The text of the job, and the lengths of the slices lent.
impl fmt::Display for Case {
    fn fmt(&self, text: &mut fmt::Formatter) -> fmt::Result {
        for field in self.fields() {
            writeln!(text, "{field}")?;
        }
        writeln!(
            text,
            "# words in A, B, C, z, m: {:?} {} {}",
            self.entries.each_ref().map(Vec::len),
            self.assignment.len(),
            self.mask.len()
        )?;
        writeln!(text, "# words lent for sections: {:?}", self.lent_sections)?;
        writeln!(text, "# words lent for index polynomials: {:?}", self.lent_index)
    }
}

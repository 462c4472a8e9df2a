//! The C interface of the proved library (include/varuna.h), each call as a safe function with the types of the second
//! implementation.
//!
//! A call's results, sessions and circuits stand between guard words. Every function checks that the guards are as they were, that
//! the position is 0 where the call is done, and that a refused call has left its results, its session and its circuit alone; where
//! openings are refused, the verdict must be none. Slices that a caller lends are watched by the caller (`calls`), for both
//! implementations alike.

use second::{Check, Refusal, Verdict};

pub const SESSION_WORDS: usize = second::SESSION_WORDS;
pub const CIRCUIT_WORDS: usize = second::CIRCUIT_WORDS;
pub const OPENINGS: usize = 21;
/// What results, guards and lent words hold before a call.
pub const UNWRITTEN: u32 = 0xa5c3_96e1;
/// The number of guard words on each side.
const GUARDS: usize = 8;

extern "C" {
    fn varuna_add(a: u32, b: u32, result: *mut u32, position: *mut usize) -> u32;
    fn varuna_subtract(a: u32, b: u32, result: *mut u32, position: *mut usize) -> u32;
    fn varuna_multiply(a: u32, b: u32, result: *mut u32, position: *mut usize) -> u32;
    fn varuna_power(a: u32, n: u32, result: *mut u32, position: *mut usize) -> u32;
    fn varuna_inverse(a: u32, result: *mut u32, position: *mut usize) -> u32;
    fn varuna_list_domain(n: u32, elements: *mut u32, elements_length: usize, position: *mut usize) -> u32;
    fn varuna_evaluate(
        coefficients: *const u32,
        coefficients_length: usize,
        point: u32,
        result: *mut u32,
        position: *mut usize,
    ) -> u32;
    fn varuna_evaluate_part(
        sum: u32,
        power: u32,
        point: u32,
        part: *const u32,
        part_length: usize,
        next_sum: *mut u32,
        next_power: *mut u32,
        position: *mut usize,
    ) -> u32;
    fn varuna_interpolate(
        n: u32,
        values: *const u32,
        values_length: usize,
        coefficients: *mut u32,
        coefficients_length: usize,
        position: *mut usize,
    ) -> u32;
    fn varuna_evaluate_on_domain(
        n: u32,
        coefficients: *const u32,
        coefficients_length: usize,
        values: *mut u32,
        values_length: usize,
        position: *mut usize,
    ) -> u32;
    fn varuna_index(
        r: u32,
        c: u32,
        x: u32,
        ea: *const u32,
        ea_length: usize,
        eb: *const u32,
        eb_length: usize,
        ec: *const u32,
        ec_length: usize,
        row_a: *mut u32,
        row_a_length: usize,
        col_a: *mut u32,
        col_a_length: usize,
        rowcol_a: *mut u32,
        rowcol_a_length: usize,
        rowcolval_a: *mut u32,
        rowcolval_a_length: usize,
        row_b: *mut u32,
        row_b_length: usize,
        col_b: *mut u32,
        col_b_length: usize,
        rowcol_b: *mut u32,
        rowcol_b_length: usize,
        rowcolval_b: *mut u32,
        rowcolval_b_length: usize,
        row_c: *mut u32,
        row_c_length: usize,
        col_c: *mut u32,
        col_c_length: usize,
        rowcol_c: *mut u32,
        rowcol_c_length: usize,
        rowcolval_c: *mut u32,
        rowcolval_c_length: usize,
        position: *mut usize,
    ) -> u32;
    fn varuna_circuit_begin(circuit: *mut u32, r: u32, c: u32, x: u32, position: *mut usize) -> u32;
    fn varuna_circuit_begin_from(
        circuit: *mut u32,
        r: u32,
        c: u32,
        x: u32,
        ea: *const u32,
        ea_length: usize,
        eb: *const u32,
        eb_length: usize,
        ec: *const u32,
        ec_length: usize,
        position: *mut usize,
    ) -> u32;
    fn varuna_circuit_add(
        circuit: *mut u32,
        matrix: u32,
        row: u32,
        column: u32,
        value: u32,
        position: *mut usize,
    ) -> u32;
    fn varuna_circuit_remove(circuit: *mut u32, matrix: u32, row: u32, column: u32, position: *mut usize) -> u32;
    fn varuna_circuit_row(
        circuit: *const u32,
        matrix: u32,
        row: u32,
        start: *mut usize,
        length: *mut usize,
        position: *mut usize,
    ) -> u32;
    fn varuna_circuit_index(
        circuit: *const u32,
        row_a: *mut u32,
        row_a_length: usize,
        col_a: *mut u32,
        col_a_length: usize,
        rowcol_a: *mut u32,
        rowcol_a_length: usize,
        rowcolval_a: *mut u32,
        rowcolval_a_length: usize,
        row_b: *mut u32,
        row_b_length: usize,
        col_b: *mut u32,
        col_b_length: usize,
        rowcol_b: *mut u32,
        rowcol_b_length: usize,
        rowcolval_b: *mut u32,
        rowcolval_b_length: usize,
        row_c: *mut u32,
        row_c_length: usize,
        col_c: *mut u32,
        col_c_length: usize,
        rowcol_c: *mut u32,
        rowcol_c_length: usize,
        rowcolval_c: *mut u32,
        rowcolval_c_length: usize,
        position: *mut usize,
    ) -> u32;
    fn varuna_blind(
        r: u32,
        c: u32,
        x: u32,
        ea: *const u32,
        ea_length: usize,
        eb: *const u32,
        eb_length: usize,
        ec: *const u32,
        ec_length: usize,
        z: *const u32,
        z_length: usize,
        rho: *const u32,
        blinded_a: *mut u32,
        blinded_a_length: usize,
        blinded_b: *mut u32,
        blinded_b_length: usize,
        blinded_c: *mut u32,
        blinded_c_length: usize,
        blinded_z: *mut u32,
        blinded_z_length: usize,
        position: *mut usize,
    ) -> u32;
    fn varuna_first_round(
        r: u32,
        c: u32,
        x: u32,
        ea: *const u32,
        ea_length: usize,
        eb: *const u32,
        eb_length: usize,
        ec: *const u32,
        ec_length: usize,
        z: *const u32,
        z_length: usize,
        mask: u32,
        m: *const u32,
        m_length: usize,
        witness: *mut u32,
        witness_length: usize,
        row_quotient: *mut u32,
        row_quotient_length: usize,
        position: *mut usize,
    ) -> u32;
    fn varuna_second_round(
        r: u32,
        c: u32,
        x: u32,
        ea: *const u32,
        ea_length: usize,
        eb: *const u32,
        eb_length: usize,
        ec: *const u32,
        ec_length: usize,
        z: *const u32,
        z_length: usize,
        mask: u32,
        m: *const u32,
        m_length: usize,
        alpha: u32,
        sums: *mut u32,
        position: *mut usize,
    ) -> u32;
    fn varuna_third_round(
        r: u32,
        c: u32,
        x: u32,
        ea: *const u32,
        ea_length: usize,
        eb: *const u32,
        eb_length: usize,
        ec: *const u32,
        ec_length: usize,
        z: *const u32,
        z_length: usize,
        mask: u32,
        m: *const u32,
        m_length: usize,
        alpha: u32,
        eta: *const u32,
        remainder: *mut u32,
        remainder_length: usize,
        quotient: *mut u32,
        quotient_length: usize,
        position: *mut usize,
    ) -> u32;
    fn varuna_fourth_round(
        r: u32,
        c: u32,
        x: u32,
        ea: *const u32,
        ea_length: usize,
        eb: *const u32,
        eb_length: usize,
        ec: *const u32,
        ec_length: usize,
        z: *const u32,
        z_length: usize,
        mask: u32,
        m: *const u32,
        m_length: usize,
        alpha: u32,
        eta: *const u32,
        beta: u32,
        ga: *mut u32,
        ga_length: usize,
        gb: *mut u32,
        gb_length: usize,
        gc: *mut u32,
        gc_length: usize,
        values: *mut u32,
        position: *mut usize,
    ) -> u32;
    fn varuna_fifth_round(
        r: u32,
        c: u32,
        x: u32,
        ea: *const u32,
        ea_length: usize,
        eb: *const u32,
        eb_length: usize,
        ec: *const u32,
        ec_length: usize,
        z: *const u32,
        z_length: usize,
        mask: u32,
        m: *const u32,
        m_length: usize,
        alpha: u32,
        eta: *const u32,
        beta: u32,
        delta: *const u32,
        quotient: *mut u32,
        quotient_length: usize,
        position: *mut usize,
    ) -> u32;
    fn varuna_openings(
        r: u32,
        c: u32,
        x: u32,
        ea: *const u32,
        ea_length: usize,
        eb: *const u32,
        eb_length: usize,
        ec: *const u32,
        ec_length: usize,
        z: *const u32,
        z_length: usize,
        mask: u32,
        m: *const u32,
        m_length: usize,
        alpha: u32,
        eta: *const u32,
        beta: u32,
        delta: *const u32,
        gamma: u32,
        openings: *mut u32,
        position: *mut usize,
    ) -> u32;
    fn varuna_session_new(session: *mut u32);
    fn varuna_session_open(
        session: *mut u32,
        sizes: *const u32,
        x: *const u32,
        x_length: usize,
        position: *mut usize,
    ) -> u32;
    fn varuna_session_alpha(
        session: *mut u32,
        witness: u32,
        mask: u32,
        row_quotient: u32,
        alpha: u32,
        position: *mut usize,
    ) -> u32;
    fn varuna_session_eta(session: *mut u32, sums: *const u32, eta: *const u32, position: *mut usize) -> u32;
    fn varuna_session_beta(session: *mut u32, remainder: u32, quotient: u32, beta: u32, position: *mut usize) -> u32;
    fn varuna_session_delta(
        session: *mut u32,
        values: *const u32,
        remainders: *const u32,
        delta: *const u32,
        position: *mut usize,
    ) -> u32;
    fn varuna_session_gamma(session: *mut u32, quotient: u32, gamma: u32, position: *mut usize) -> u32;
    fn varuna_session_ask(session: *const u32, openings: *const u32, verdict: *mut u32, position: *mut usize) -> u32;
    fn varuna_session_commit(session: *mut u32, openings: *const u32, verdict: *mut u32, position: *mut usize) -> u32;
    fn varuna_write_record(
        sizes: *const u32,
        w: *const u32,
        w_length: usize,
        m: *const u32,
        m_length: usize,
        h0: *const u32,
        h0_length: usize,
        s: *const u32,
        s_length: usize,
        g1: *const u32,
        g1_length: usize,
        h1: *const u32,
        h1_length: usize,
        o: *const u32,
        o_length: usize,
        ga: *const u32,
        ga_length: usize,
        gb: *const u32,
        gb_length: usize,
        gc: *const u32,
        gc_length: usize,
        h2: *const u32,
        h2_length: usize,
        bytes: *mut u8,
        bytes_length: usize,
        position: *mut usize,
    ) -> u32;
    fn varuna_read_record(bytes: *const u8, bytes_length: usize, sizes: *mut u32, position: *mut usize) -> u32;
    fn varuna_section(
        bytes: *const u8,
        bytes_length: usize,
        k: usize,
        start: *mut usize,
        length: *mut usize,
        position: *mut usize,
    ) -> u32;
}

/// Words between guards.
#[derive(Clone, PartialEq, Eq)]
#[repr(C)]
struct Guarded<const N: usize> {
    before: [u32; GUARDS],
    words: [u32; N],
    after: [u32; GUARDS],
}

impl<const N: usize> Guarded<N> {
    fn new(words: [u32; N]) -> Guarded<N> {
        Guarded { before: [UNWRITTEN; GUARDS], words, after: [UNWRITTEN; GUARDS] }
    }

    /// The place of the words, as part of the whole: a write past them stays inside this value.
    fn place(&mut self) -> *mut u32 {
        let whole: *mut Guarded<N> = self;
        // SAFETY: `whole` points to this value, and a field of it is named without being read.
        unsafe { std::ptr::addr_of_mut!((*whole).words).cast() }
    }

    fn check(&self) {
        let guards = [self.before, self.after];
        assert_eq!(guards, [[UNWRITTEN; GUARDS]; 2], "a call has written past its result, session or circuit");
    }
}

/// The answer of a call from the number that it returns and the position that it sets.
fn answer(call: impl FnOnce(*mut usize) -> u32) -> Result<(), Refusal> {
    let mut position = UNWRITTEN as usize;
    let number = call(&mut position);
    if number == 0 {
        assert_eq!(position, 0, "a call that is done has set a position");
        return Ok(());
    }
    assert_ne!(position, UNWRITTEN as usize, "a refused call has set no position");
    Err(Refusal { number, position })
}

/// The N result words of a call.
fn results<const N: usize>(call: impl FnOnce(*mut u32, *mut usize) -> u32) -> Result<[u32; N], Refusal> {
    let mut place = Guarded::new([UNWRITTEN; N]);
    let words = place.place();
    let answer = answer(|position| call(words, position));
    place.check();
    assert!(answer.is_ok() || place.words == [UNWRITTEN; N], "a refused call has written a result");
    answer.map(|()| place.words)
}

/// The one result word of a call.
fn result(call: impl FnOnce(*mut u32, *mut usize) -> u32) -> Result<u32, Refusal> {
    results(call).map(|[word]| word)
}

pub fn add(a: u32, b: u32) -> Result<u32, Refusal> {
    // SAFETY: both places are those of the result and of the position.
    result(|word, position| unsafe { varuna_add(a, b, word, position) })
}

pub fn subtract(a: u32, b: u32) -> Result<u32, Refusal> {
    // SAFETY: as for `add`.
    result(|word, position| unsafe { varuna_subtract(a, b, word, position) })
}

pub fn multiply(a: u32, b: u32) -> Result<u32, Refusal> {
    // SAFETY: as for `add`.
    result(|word, position| unsafe { varuna_multiply(a, b, word, position) })
}

pub fn power(a: u32, exponent: u32) -> Result<u32, Refusal> {
    // SAFETY: as for `add`.
    result(|word, position| unsafe { varuna_power(a, exponent, word, position) })
}

pub fn inverse(a: u32) -> Result<u32, Refusal> {
    // SAFETY: as for `add`.
    result(|word, position| unsafe { varuna_inverse(a, word, position) })
}

pub fn domain(size: u32, lent_elements: &mut [u32]) -> Result<(), Refusal> {
    let (place, length) = (lent_elements.as_mut_ptr(), lent_elements.len());
    // SAFETY: place and length are those of the lent slice.
    answer(|position| unsafe { varuna_list_domain(size, place, length, position) })
}

pub fn evaluate(coefficients: &[u32], point: u32) -> Result<u32, Refusal> {
    let (place, length) = (coefficients.as_ptr(), coefficients.len());
    // SAFETY: place and length are those of the slice, the others those of the result and of the position.
    result(|word, position| unsafe { varuna_evaluate(place, length, point, word, position) })
}

/// The next sum and the next power.
pub fn evaluate_part(sum: u32, power: u32, point: u32, part: &[u32]) -> Result<(u32, u32), Refusal> {
    let (place, length) = (part.as_ptr(), part.len());
    // SAFETY: place and length are those of the slice, the others those of the two results and of the position.
    let answer = results(|words, position| unsafe {
        varuna_evaluate_part(sum, power, point, place, length, words, words.add(1), position)
    });
    answer.map(|[next_sum, next_power]| (next_sum, next_power))
}

pub fn interpolate(size: u32, values: &[u32], lent_coefficients: &mut [u32]) -> Result<(), Refusal> {
    let (place, length) = (lent_coefficients.as_mut_ptr(), lent_coefficients.len());
    // SAFETY: places and lengths are those of the slices.
    answer(|position| unsafe { varuna_interpolate(size, values.as_ptr(), values.len(), place, length, position) })
}

pub fn evaluate_on_domain(size: u32, coefficients: &[u32], lent_values: &mut [u32]) -> Result<(), Refusal> {
    let ((coefficients, count), (place, length)) = (given(coefficients), lent(lent_values));
    // SAFETY: places and lengths are those of the slices.
    answer(|position| unsafe { varuna_evaluate_on_domain(size, coefficients, count, place, length, position) })
}

/// A call of the C interface with some inputs, then slices, each as its place and length, then the position.
macro_rules! with_slices {
    ($call:ident, [$($input:expr),*], [$($slice:expr),*], $position:expr) => {
        // SAFETY: places and lengths are those of the slices; the others are those of arrays and the position.
        unsafe { $call($($input,)* $($slice.0, $slice.1,)* $position) }
    };
}

/// The place and length of a slice.
fn given<Item>(slice: &[Item]) -> (*const Item, usize) {
    (slice.as_ptr(), slice.len())
}

/// The place and length of a lent slice.
fn lent<Item>(slice: &mut [Item]) -> (*mut Item, usize) {
    (slice.as_mut_ptr(), slice.len())
}

/// The twelve lent slices are row, col, rowcol, rowcolval of A, then of B, then of C.
pub fn index(sizes: [u32; 3], entries: [&[u32]; 3], lent_index: [&mut [u32]; 12]) -> Result<(), Refusal> {
    let ([r, c, x], [ea, eb, ec]) = (sizes, entries.map(given));
    let [a0, a1, a2, a3, b0, b1, b2, b3, c0, c1, c2, c3] = lent_index.map(lent);
    answer(|position| {
        with_slices!(varuna_index, [r, c, x], [ea, eb, ec, a0, a1, a2, a3, b0, b1, b2, b3, c0, c1, c2, c3], position)
    })
}

/// A circuit that grows: its words, in the library's layout.
#[derive(Clone, PartialEq, Eq)]
pub struct Circuit(Box<Guarded<CIRCUIT_WORDS>>);

impl Circuit {
    /// Any words, whether or not calls can make them.
    pub fn from_words(words: &[u32; CIRCUIT_WORDS]) -> Circuit {
        Circuit(Box::new(Guarded::new(*words)))
    }

    pub fn words(&self) -> &[u32; CIRCUIT_WORDS] {
        &self.0.words
    }

    /// The answer of a call that may change the circuit; where it is refused, the circuit must be as before.
    fn change(&mut self, call: impl FnOnce(*mut u32, *mut usize) -> u32) -> Result<(), Refusal> {
        let before = self.clone();
        let words = self.0.place();
        let answer = answer(|position| call(words, position));
        self.0.check();
        assert!(answer.is_ok() || *self == before, "a refused call has changed the circuit");
        answer
    }

    /// The answer of a call that only looks at the circuit.
    fn look(&self, call: impl FnOnce(*const u32, *mut usize) -> u32) -> Result<(), Refusal> {
        let mut looked_at = self.clone();
        let words = looked_at.0.place();
        let answer = answer(|position| call(words, position));
        assert!(*self == looked_at, "a call that looks at a circuit has changed it");
        answer
    }

    pub fn begin(&mut self, sizes: [u32; 3]) -> Result<(), Refusal> {
        let [r, c, x] = sizes;
        // SAFETY: the places are those of the circuit and of the position.
        self.change(|circuit, position| unsafe { varuna_circuit_begin(circuit, r, c, x, position) })
    }

    pub fn begin_from(&mut self, sizes: [u32; 3], entries: [&[u32]; 3]) -> Result<(), Refusal> {
        let ([r, c, x], [ea, eb, ec]) = (sizes, entries.map(given));
        self.change(|circuit, position| {
            with_slices!(varuna_circuit_begin_from, [circuit, r, c, x], [ea, eb, ec], position)
        })
    }

    /// Puts an entry, its row, column and value, into a matrix.
    pub fn add(&mut self, matrix: u32, entry: [u32; 3]) -> Result<(), Refusal> {
        let [row, column, value] = entry;
        // SAFETY: the places are those of the circuit and of the position.
        self.change(|circuit, position| unsafe { varuna_circuit_add(circuit, matrix, row, column, value, position) })
    }

    pub fn remove(&mut self, matrix: u32, row: u32, column: u32) -> Result<(), Refusal> {
        // SAFETY: the places are those of the circuit and of the position.
        self.change(|circuit, position| unsafe { varuna_circuit_remove(circuit, matrix, row, column, position) })
    }

    /// The first word of a row's entries, and how many words they are.
    pub fn find_row(&self, matrix: u32, row: u32) -> Result<(usize, usize), Refusal> {
        let [mut start, mut length] = [UNWRITTEN as usize; 2];
        // SAFETY: the places are those of the circuit, the start, the length and the position.
        let answer = self.look(|circuit, position| unsafe {
            varuna_circuit_row(circuit, matrix, row, &mut start, &mut length, position)
        });
        assert!(answer.is_ok() || [start, length] == [UNWRITTEN as usize; 2], "a refused call has written a result");
        answer.map(|()| (start, length))
    }

    /// The twelve lent slices are row, col, rowcol, rowcolval of A, then of B, then of C.
    pub fn index(&self, lent_index: [&mut [u32]; 12]) -> Result<(), Refusal> {
        let [a0, a1, a2, a3, b0, b1, b2, b3, c0, c1, c2, c3] = lent_index.map(lent);
        self.look(|circuit, position| {
            with_slices!(varuna_circuit_index, [circuit], [a0, a1, a2, a3, b0, b1, b2, b3, c0, c1, c2, c3], position)
        })
    }
}

/// The lent slices are the blinded entry lists of A, B and C, and the blinded assignment.
pub fn blind(
    sizes: [u32; 3],
    entries: [&[u32]; 3],
    assignment: &[u32],
    rho: [u32; 3],
    lent_entries: [&mut [u32]; 3],
    lent_assignment: &mut [u32],
) -> Result<(), Refusal> {
    let ([r, c, x], [ea, eb, ec], z) = (sizes, entries.map(given), given(assignment));
    let ([a, b, d], blinded) = (lent_entries.map(lent), lent(lent_assignment));
    let rho = rho.as_ptr();
    // SAFETY: places and lengths are those of the slices; the others are those of an array of three words and the position.
    answer(|position| unsafe {
        varuna_blind(
            r, c, x, ea.0, ea.1, eb.0, eb.1, ec.0, ec.1, z.0, z.1, rho, a.0, a.1, b.0, b.1, d.0, d.1, blinded.0,
            blinded.1, position,
        )
    })
}

/// A call of the C interface with the inputs that every round begins with, and then others.
macro_rules! round {
    ($call:ident, $sizes:expr, $entries:expr, $assignment:expr, $mask_word:expr, $mask:expr, $($other:expr),*) => {
        // SAFETY: places and lengths are those of the slices; the others are those of arrays, results and the position.
        unsafe {
            $call(
                $sizes[0],
                $sizes[1],
                $sizes[2],
                $entries[0].as_ptr(),
                $entries[0].len(),
                $entries[1].as_ptr(),
                $entries[1].len(),
                $entries[2].as_ptr(),
                $entries[2].len(),
                $assignment.as_ptr(),
                $assignment.len(),
                $mask_word,
                $mask.as_ptr(),
                $mask.len(),
                $($other),*
            )
        }
    };
}

pub fn first_round(
    sizes: [u32; 3],
    entries: [&[u32]; 3],
    assignment: &[u32],
    mask_word: u32,
    mask: &[u32],
    lent_witness: &mut [u32],
    lent_row_quotient: &mut [u32],
) -> Result<(), Refusal> {
    let (witness, witness_length) = (lent_witness.as_mut_ptr(), lent_witness.len());
    let (quotient, quotient_length) = (lent_row_quotient.as_mut_ptr(), lent_row_quotient.len());
    answer(|position| {
        round!(
            varuna_first_round,
            sizes,
            entries,
            assignment,
            mask_word,
            mask,
            witness,
            witness_length,
            quotient,
            quotient_length,
            position
        )
    })
}

pub fn second_round(
    sizes: [u32; 3],
    entries: [&[u32]; 3],
    assignment: &[u32],
    mask_word: u32,
    mask: &[u32],
    alpha: u32,
) -> Result<[u32; 3], Refusal> {
    results(|sums, position| {
        round!(varuna_second_round, sizes, entries, assignment, mask_word, mask, alpha, sums, position)
    })
}

pub fn third_round(
    sizes: [u32; 3],
    entries: [&[u32]; 3],
    assignment: &[u32],
    mask_word: u32,
    mask: &[u32],
    alpha: u32,
    eta: [u32; 3],
    lent_line_remainder: &mut [u32],
    lent_line_quotient: &mut [u32],
) -> Result<(), Refusal> {
    let (remainder, remainder_length) = (lent_line_remainder.as_mut_ptr(), lent_line_remainder.len());
    let (quotient, quotient_length) = (lent_line_quotient.as_mut_ptr(), lent_line_quotient.len());
    answer(|position| {
        round!(
            varuna_third_round,
            sizes,
            entries,
            assignment,
            mask_word,
            mask,
            alpha,
            eta.as_ptr(),
            remainder,
            remainder_length,
            quotient,
            quotient_length,
            position
        )
    })
}

pub fn fourth_round(
    sizes: [u32; 3],
    entries: [&[u32]; 3],
    assignment: &[u32],
    mask_word: u32,
    mask: &[u32],
    alpha: u32,
    eta: [u32; 3],
    beta: u32,
    lent_matrix_remainders: [&mut [u32]; 3],
) -> Result<[u32; 3], Refusal> {
    let [a, b, c] = lent_matrix_remainders.map(|slice| (slice.as_mut_ptr(), slice.len()));
    results(|values, position| {
        round!(
            varuna_fourth_round,
            sizes,
            entries,
            assignment,
            mask_word,
            mask,
            alpha,
            eta.as_ptr(),
            beta,
            a.0,
            a.1,
            b.0,
            b.1,
            c.0,
            c.1,
            values,
            position
        )
    })
}

pub fn fifth_round(
    sizes: [u32; 3],
    entries: [&[u32]; 3],
    assignment: &[u32],
    mask_word: u32,
    mask: &[u32],
    alpha: u32,
    eta: [u32; 3],
    beta: u32,
    delta: [u32; 3],
    lent_joined_quotient: &mut [u32],
) -> Result<(), Refusal> {
    let (quotient, length) = (lent_joined_quotient.as_mut_ptr(), lent_joined_quotient.len());
    answer(|position| {
        round!(
            varuna_fifth_round,
            sizes,
            entries,
            assignment,
            mask_word,
            mask,
            alpha,
            eta.as_ptr(),
            beta,
            delta.as_ptr(),
            quotient,
            length,
            position
        )
    })
}

pub fn openings(
    sizes: [u32; 3],
    entries: [&[u32]; 3],
    assignment: &[u32],
    mask_word: u32,
    mask: &[u32],
    alpha: u32,
    eta: [u32; 3],
    beta: u32,
    delta: [u32; 3],
    gamma: u32,
) -> Result<[u32; OPENINGS], Refusal> {
    results(|opened, position| {
        round!(
            varuna_openings,
            sizes,
            entries,
            assignment,
            mask_word,
            mask,
            alpha,
            eta.as_ptr(),
            beta,
            delta.as_ptr(),
            gamma,
            opened,
            position
        )
    })
}

/// A session's words, in the library's layout.
#[derive(Clone, PartialEq, Eq)]
pub struct Session(Guarded<SESSION_WORDS>);

impl Session {
    /// A session before it is opened.
    pub fn unopened() -> Session {
        let mut session = Session::from_words([UNWRITTEN; SESSION_WORDS]);
        // SAFETY: the place has the words of a session.
        unsafe { varuna_session_new(session.0.place()) };
        session.0.check();
        session
    }

    /// Any words, whether or not steps can make them.
    pub fn from_words(words: [u32; SESSION_WORDS]) -> Session {
        Session(Guarded::new(words))
    }

    pub fn words(&self) -> &[u32; SESSION_WORDS] {
        &self.0.words
    }

    /// A step's answer; where it is refused, the session must be as before.
    fn step(&mut self, call: impl FnOnce(*mut u32, *mut usize) -> u32) -> Result<(), Refusal> {
        let before = self.0.words;
        let words = self.0.place();
        let answer = answer(|position| call(words, position));
        self.0.check();
        assert!(answer.is_ok() || self.0.words == before, "a refused step has changed the session");
        answer
    }

    pub fn open(&mut self, sizes: [u32; 6], public_words: &[u32]) -> Result<(), Refusal> {
        let (x, length) = (public_words.as_ptr(), public_words.len());
        // SAFETY: places and lengths are those of session, sizes, slice and position.
        self.step(|session, position| unsafe { varuna_session_open(session, sizes.as_ptr(), x, length, position) })
    }

    pub fn alpha(&mut self, lengths: [u32; 3], alpha: u32) -> Result<(), Refusal> {
        let [witness, mask, quotient] = lengths;
        // SAFETY: the places are those of the session and of the position.
        self.step(|session, position| unsafe {
            varuna_session_alpha(session, witness, mask, quotient, alpha, position)
        })
    }

    pub fn eta(&mut self, sums: [u32; 3], eta: [u32; 3]) -> Result<(), Refusal> {
        // SAFETY: the places are those of session, arrays of three words and position.
        self.step(|session, position| unsafe { varuna_session_eta(session, sums.as_ptr(), eta.as_ptr(), position) })
    }

    pub fn beta(&mut self, lengths: [u32; 2], beta: u32) -> Result<(), Refusal> {
        let [remainder, quotient] = lengths;
        // SAFETY: the places are those of the session and of the position.
        self.step(|session, position| unsafe { varuna_session_beta(session, remainder, quotient, beta, position) })
    }

    pub fn delta(&mut self, values: [u32; 3], lengths: [u32; 3], delta: [u32; 3]) -> Result<(), Refusal> {
        let (values, lengths, delta) = (values.as_ptr(), lengths.as_ptr(), delta.as_ptr());
        // SAFETY: the places are those of session, arrays of three words and position.
        self.step(|session, position| unsafe { varuna_session_delta(session, values, lengths, delta, position) })
    }

    pub fn gamma(&mut self, length: u32, gamma: u32) -> Result<(), Refusal> {
        // SAFETY: the places are those of the session and of the position.
        self.step(|session, position| unsafe { varuna_session_gamma(session, length, gamma, position) })
    }

    /// Asking must leave the session, refused or not.
    pub fn ask(&self, openings: [u32; OPENINGS]) -> Result<Verdict, Refusal> {
        let mut asked = self.clone();
        let (session, opened) = (asked.0.place(), openings.as_ptr());
        // SAFETY: the places are those of session, openings, verdict and position.
        let answer =
            judged(|verdict| answer(|position| unsafe { varuna_session_ask(session, opened, verdict, position) }));
        assert!(*self == asked, "asking has changed the session");
        answer
    }

    pub fn commit(&mut self, openings: [u32; OPENINGS]) -> Result<Verdict, Refusal> {
        let opened = openings.as_ptr();
        // SAFETY: the places are those of session, openings, verdict and position.
        judged(|verdict| {
            self.step(|session, position| unsafe { varuna_session_commit(session, opened, verdict, position) })
        })
    }
}

/// The verdict of a step that takes openings; where it is refused, the verdict must be none.
fn judged(step: impl FnOnce(*mut u32) -> Result<(), Refusal>) -> Result<Verdict, Refusal> {
    let mut verdict = Guarded::new([UNWRITTEN]);
    let answer = step(verdict.place());
    verdict.check();
    let [word] = verdict.words;
    assert!(answer.is_ok() || word == NO_VERDICT, "a refused step has left a verdict");
    answer.map(|()| verdict_of(word))
}

/// What the C interface has for a verdict where there is none.
const NO_VERDICT: u32 = 0;

/// The verdict that a word of the C interface stands for.
fn verdict_of(word: u32) -> Verdict {
    match word {
        1 => Verdict::Accept,
        2 => Verdict::Fails(Check::Row),
        3 => Verdict::Fails(Check::Line),
        4 => Verdict::Fails(Check::Matrix),
        _ => panic!("{word} is no verdict"),
    }
}

pub fn write_record(sizes: [u32; 6], sections: [&[u32]; 11], lent_bytes: &mut [u8]) -> Result<(), Refusal> {
    let [w, m, h0, s, g1, h1, o, ga, gb, gc, h2] = sections.map(given);
    let bytes = lent(lent_bytes);
    answer(|position| {
        with_slices!(varuna_write_record, [sizes.as_ptr()], [w, m, h0, s, g1, h1, o, ga, gb, gc, h2, bytes], position)
    })
}

pub fn read_record(bytes: &[u8]) -> Result<[u32; 6], Refusal> {
    // SAFETY: place and length are those of the bytes, the others those of the sizes and of the position.
    results(|sizes, position| unsafe { varuna_read_record(bytes.as_ptr(), bytes.len(), sizes, position) })
}

/// The start and the length in bytes of a section.
pub fn section(bytes: &[u8], number: usize) -> Result<(usize, usize), Refusal> {
    let (place, count) = given(bytes);
    let [mut start, mut length] = [UNWRITTEN as usize; 2];
    // SAFETY: place and count are those of the bytes, the others those of the start, the length and the position.
    let answer = answer(|position| unsafe { varuna_section(place, count, number, &mut start, &mut length, position) });
    assert!(answer.is_ok() || [start, length] == [UNWRITTEN as usize; 2], "a refused call has written a result");
    answer.map(|()| (start, length))
}

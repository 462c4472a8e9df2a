//! What one blinded conversation tells of the assignment. Without the two hiding rows its three σ tell a wrong guess from the true one;
//! with them every guess explains all that was heard. The circuits are those of examples/cubic.txt and examples/blinded.txt.

use crate::examples::{example, named};
use compare::blinding::Blinding;
use compare::calls::{compare_call, compare_circuit, proof_of, CircuitCall, Proof};
use compare::case::Case;
use compare::library;
use compare::steps::Step;
use std::ops::RangeInclusive;

/// The x that are guessed; the true one is 3.
const GUESSES: RangeInclusive<u32> = 0..=2000;
const TRUE: u32 = 3;

pub fn plus(a: u32, b: u32) -> u32 {
    library::add(a, b).expect("field words")
}

pub fn minus(a: u32, b: u32) -> u32 {
    library::subtract(a, b).expect("field words")
}

pub fn times(a: u32, b: u32) -> u32 {
    library::multiply(a, b).expect("field words")
}

fn over(a: u32, b: u32) -> u32 {
    times(a, library::inverse(b).expect("a field word, and not 0"))
}

fn differences(a: &[u32], b: &[u32]) -> Vec<u32> {
    a.iter().zip(b).map(|(&a, &b)| minus(a, b)).collect()
}

/// v_D(β) of the domain of a size.
fn vanishing_at_beta(case: &Case, size: u32) -> u32 {
    minus(library::power(case.beta(), size).expect("a field word"), 1)
}

/// L_i(α): the value at α of the polynomial that is 1 at row i and 0 at all others.
pub fn lagrange(case: &Case, row: usize) -> u32 {
    let rows = case.sizes[0];
    let (mut values, mut coefficients) = (vec![0; rows as usize], vec![0; rows as usize]);
    values[row] = 1;
    library::interpolate(rows, &values, &mut coefficients).expect("a size and its lengths");
    library::evaluate(&coefficients, case.alpha()).expect("field words")
}

/// The three σ, on both sides.
pub fn sums(case: &Case) -> [u32; 3] {
    let sums = compare_call(CircuitCall::SecondRound, case).answer.expect("the case is satisfied");
    sums.try_into().expect("there are three")
}

/// The proof, on both sides.
fn proof(case: &Case) -> Proof {
    proof_of(case, compare_circuit(case)).expect("the case is satisfied")
}

/// An example with |X| = 1, so that the total is secret, too: then every x has a witness, with the same public words.
fn with_secret_total(file: &str) -> Case {
    let mut case = example(file);
    case.sizes[2] = 1;
    case.lend_again();
    case
}

/// The case with another x, and its square, its cube and its total, which stands in column |C|/2.
fn guessed(case: &Case, x: u32) -> Case {
    let mut guess = case.clone();
    let (square, total) = (times(x, x), case.sizes[1] as usize / 2);
    let cube = times(square, x);
    guess.assignment[1..4].copy_from_slice(&[x, square, cube]);
    guess.assignment[total] = plus(plus(cube, x), 5);
    guess
}

/// Without the hiding rows whoever guesses z knows its sums a, b, c before blinding, and can try L (σ_C - c) = (σ_A - a)(σ_B - b), L being
/// the last row's. This holds for the true x, since ρ_A ρ_B = ρ_C, and for no other one.
#[test]
fn blinding_alone_tells_guesses_apart() {
    let case = with_secret_total("cubic.txt");
    let blinded = Blinding::new(case.clone(), named("rho")).blinded().expect("three columns are free");
    let (heard, last) = (sums(&blinded), lagrange(&case, 3));
    let fits = |x: &u32| {
        let before = sums(&guessed(&case, *x));
        let [a, b, c] = [0, 1, 2].map(|matrix| minus(heard[matrix], before[matrix]));
        times(last, c) == times(a, b)
    };
    assert_eq!(GUESSES.filter(fits).collect::<Vec<u32>>(), [TRUE]);
}

/// The words that hide, in examples/blinded.txt.
struct Secrets {
    rho: [u32; 3],
    u: u32,
    w: u32,
}

/// The case with other words that hide.
fn hidden(mut case: Case, secrets: &Secrets) -> Case {
    case.assignment[4..6].copy_from_slice(&[secrets.u, secrets.w]);
    case.assignment[13..].copy_from_slice(&secrets.rho);
    case
}

/// The words that hide with which a guess has the σ that were heard, for any ρ_A: σ_B gives ρ_B, then σ_C gives u and σ_A gives w. Each is
/// the solution of one equation, whose factor L is not 0; so there are as many choices as there are ρ_A, which is p.
fn secrets_for(guess: &Case, heard: [u32; 3], rho_a: u32) -> Secrets {
    let [last, of_u, of_w] = [7, 3, 4].map(|row| lagrange(guess, row));
    let before = sums(&hidden(guess.clone(), &Secrets { rho: [0; 3], u: 0, w: 0 }));
    let [a, b, c] = [0, 1, 2].map(|matrix| minus(heard[matrix], before[matrix]));
    let rho_b = over(b, last);
    let rho = [rho_a, rho_b, times(rho_a, rho_b)];
    let u = over(minus(c, times(last, rho[2])), of_u);
    let w = over(minus(minus(a, times(last, rho_a)), times(of_u, u)), of_w);
    Secrets { rho, u, w }
}

/// The case with the masks with which its ŵ(β), g1 and h1 are those of a proof. r moves ŵ(β) by r v_C(β)/v_X(β); m = d (Y^|C| - 1) + Y e
/// moves h1 by d and g1 by e.
fn masked_for(mut case: Case, heard: &Proof) -> Case {
    (case.mask_word, case.mask) = (0, vec![0; case.mask.len()]);
    let [columns, public] = [case.sizes[1], case.sizes[2]].map(|size| vanishing_at_beta(&case, size));
    let unmasked = compare_call(CircuitCall::Openings, &case).answer.expect("the case is satisfied")[0];
    case.mask_word = over(times(minus(heard.openings[0], unmasked), public), columns);
    let unmasked = compare_call(CircuitCall::ThirdRound, &case).lent;
    let [e, d] = [0, 1].map(|slice| differences(&heard.sections[4 + slice], &unmasked[slice]));
    let low = [0].into_iter().chain(e).zip(&d).map(|(e, &d)| minus(e, d));
    case.mask = low.chain(d.iter().copied()).collect();
    case
}

/// With the hiding rows every x is as good a guess as the true one: there are words that hide with which its σ are those heard, and with
/// them masks with which the whole conversation is the one that was heard. For the true x and ρ_A they are those of the example.
#[test]
fn hiding_rows_explain_every_guess() {
    let case = with_secret_total("blinded.txt");
    let heard = proof(&case);
    let (conversation, heard_sums) = (Step::of_proof(&case, &heard), sums(&case));
    let explained = |x: u32, rho_a: u32| {
        let guess = guessed(&case, x);
        let hidden = hidden(guess.clone(), &secrets_for(&guess, heard_sums, rho_a));
        assert_eq!(sums(&hidden), heard_sums, "{hidden}");
        masked_for(hidden, &heard)
    };
    for x in GUESSES {
        let explained = explained(x, [0, 1, 1_000_000 + x][x as usize % 3]);
        assert_eq!(Step::of_proof(&explained, &proof(&explained)), conversation, "{explained}");
    }
    let [rho_a, ..]: [u32; 3] = named("rho");
    assert_eq!(explained(TRUE, rho_a).job(), case.job());
}

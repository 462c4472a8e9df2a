//! Calls on words and domains, and evaluation.

use compare::calls::lend;
use compare::library;
use compare::random::{count, Compared, Random, BOUNDARY_WORDS, NO_SIZES, SIZES};
use second::{Refusal, MODULUS};

/// All calls on one word or two.
fn compare_words(a: u32, b: u32) {
    assert_eq!(library::add(a, b), second::add(a, b), "add {a} {b}");
    assert_eq!(library::subtract(a, b), second::subtract(a, b), "subtract {a} {b}");
    assert_eq!(library::multiply(a, b), second::multiply(a, b), "multiply {a} {b}");
    assert_eq!(library::power(a, b), second::power(a, b), "power {a} {b}");
    assert_eq!(library::inverse(a), second::inverse(a), "inverse {a}");
}

#[test]
fn words() {
    for a in BOUNDARY_WORDS {
        for b in BOUNDARY_WORDS {
            compare_words(a, b);
        }
    }
    let mut random = Random::new(1);
    let mut compared = Compared::default();
    for _ in 0..count(20_000) {
        let (a, b) = (random.word(), random.word());
        compare_words(a, b);
        compare_words(random.damaged(), random.damaged());
        compare_words(a, random.damaged());
        compare_words(random.damaged(), b);
        compared.one();
    }
}

#[test]
fn inverses() {
    let refused = |number| Err(Refusal { number, position: 0 });
    let edges = [
        (0, refused(12)),
        (1, Ok(1)),
        (2, Ok(1_006_632_961)),
        (MODULUS - 1, Ok(MODULUS - 1)),
        (MODULUS, refused(6)),
        (MODULUS + 1, refused(6)),
        (2 * MODULUS, refused(6)),
        (u32::MAX, refused(6)),
    ];
    for (a, expected) in edges {
        assert_eq!(library::inverse(a), expected, "inverse {a}");
        assert_eq!(second::inverse(a), expected, "inverse {a}, second implementation");
    }
    let mut random = Random::new(5);
    let mut compared = Compared::default();
    for _ in 0..count(5_000) {
        let a = 1 + random.place(MODULUS as usize - 1) as u32;
        let inverse = library::inverse(a);
        assert_eq!(inverse, second::inverse(a), "inverse {a}");
        assert_eq!(library::multiply(a, inverse.unwrap()), Ok(1), "{a} times its inverse");
        compared.one();
    }
}

#[test]
fn powers() {
    let exponents =
        [0, 1, 2, 3, MODULUS - 3, MODULUS - 2, MODULUS - 1, MODULUS, 1 << 27, 1 << 31, u32::MAX - 1, u32::MAX];
    let mut random = Random::new(2);
    let bases = BOUNDARY_WORDS.into_iter().chain([31, random.word(), random.root(), random.root()]);
    for base in bases {
        for exponent in exponents {
            assert_eq!(library::power(base, exponent), second::power(base, exponent), "power {base} {exponent}");
        }
    }
    assert_eq!(library::power(0, 0), Ok(1));
}

fn compare_domain(size: u32, length: usize) {
    let domain = |call: fn(u32, &mut [u32]) -> Result<(), Refusal>| {
        lend([length], |[elements]| call(size, elements).map(|()| Vec::new()))
    };
    assert_eq!(domain(library::domain), domain(second::domain), "domain {size}, {length} words lent");
}

#[test]
fn domains() {
    for size in SIZES {
        let right = size as usize;
        for length in [right, 0, 1, 2, right - 1, right + 1, 2 * right, 1024, 2048] {
            compare_domain(size, length);
        }
    }
    for size in NO_SIZES {
        for length in [0, 1, 2, 3, 5, 6, 1023, 1024, 1025, 2048] {
            compare_domain(size, length);
        }
    }
}

fn compare_evaluate(coefficients: &[u32], point: u32) {
    let answers = [library::evaluate(coefficients, point), second::evaluate(coefficients, point)];
    assert_eq!(answers[0], answers[1], "evaluate {coefficients:?} at {point}");
}

#[test]
fn evaluations() {
    let mut random = Random::new(3);
    for length in [0, 1, 2, 3, 1023, 1024, 1025, 2047, 2048, 2049, 2050, 5000] {
        let good = random.words(length);
        for point in BOUNDARY_WORDS.into_iter().chain([random.word(), random.root()]) {
            compare_evaluate(&good, point);
            compare_evaluate(&vec![MODULUS - 1; length], point);
            compare_evaluate(&vec![MODULUS; length], point);
        }
        for place in [0, 1, length / 2, length.saturating_sub(1)] {
            let mut bad = good.clone();
            if let Some(word) = bad.get_mut(place) {
                *word = MODULUS;
            }
            compare_evaluate(&bad, MODULUS);
        }
    }
    let mut compared = Compared::default();
    for _ in 0..count(2_000) {
        let length = random.place(70);
        let mut words = random.words(length);
        if length > 0 && random.one_in(3) {
            let place = random.place(length);
            words[place] = random.damaged();
        }
        compare_evaluate(&words, if random.one_in(3) { random.damaged() } else { random.word() });
        compared.one();
    }
}

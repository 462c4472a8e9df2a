//! The calls between coefficients and values on a domain, both ways: cases by hand, values at all sizes, refusals.

use crate::arithmetic;
use crate::case::{lend, refusal};
use crate::random::{count, Checked, Random};
use second::Refusal;

const P: u32 = second::MODULUS;
const SIZES: [u32; 11] = [1, 2, 4, 8, 16, 32, 64, 128, 256, 512, 1024];
/// Words that are none of the field.
const NO_FIELD_WORDS: [u32; 3] = [P, P + 1, u32::MAX];

type Transform = fn(u32, &[u32], &mut [u32]) -> Result<(), Refusal>;

const TRANSFORMS: [Transform; 2] = [second::interpolate, second::evaluate_on_domain];

/// What a transform makes of the words, on the domain of their number.
fn transformed(call: Transform, words: &[u32]) -> Vec<u32> {
    let ([result], ()) = lend([words.len()], |[lent]| call(words.len() as u32, words, lent)).expect("field words");
    result
}

/// The coefficients must have these values, and be interpolated from them.
fn expect_pair(coefficients: &[u32], values: &[u32]) {
    assert_eq!(transformed(second::evaluate_on_domain, coefficients), values);
    assert_eq!(transformed(second::interpolate, values), coefficients);
}

/// Element 1 of the domain of size 4; its square is -1.
const I: i64 = 1_728_404_513;

/// Small coefficients, and values a + bI.
fn expect_by_hand(coefficients: &[i64], values: &[(i64, i64)]) {
    let word = |a: i64, b: i64| (a + b * I).rem_euclid(i64::from(P)) as u32;
    let coefficients: Vec<u32> = coefficients.iter().map(|&coefficient| word(coefficient, 0)).collect();
    let values: Vec<u32> = values.iter().map(|&(a, b)| word(a, b)).collect();
    expect_pair(&coefficients, &values);
}

/// On 1; on 1, -1; on 1, I, -1, -I; and in even powers on the domain of size 8, where the squares are 1, I, -1, -I twice.
#[test]
fn small_domains_by_hand() {
    assert_eq!(I * I % i64::from(P), i64::from(P) - 1);
    expect_by_hand(&[7], &[(7, 0)]);
    expect_by_hand(&[-1], &[(-1, 0)]);
    // 6 + 3, 6 - 3
    expect_by_hand(&[6, 3], &[(9, 0), (3, 0)]);
    // -1 - 1, -1 + 1
    expect_by_hand(&[-1, -1], &[(-2, 0), (0, 0)]);
    // Y
    expect_by_hand(&[0, 1, 0, 0], &[(1, 0), (0, 1), (-1, 0), (0, -1)]);
    // 1 + 2 + 3 + 4, 1 + 2I - 3 - 4I, 1 - 2 + 3 - 4, 1 - 2I - 3 + 4I
    expect_by_hand(&[1, 2, 3, 4], &[(10, 0), (-2, -2), (-2, 0), (-2, 2)]);
    // -(1 + Y + Y² + Y³) is -4 at 1, and 0 at the others
    expect_by_hand(&[-1; 4], &[(-4, 0), (0, 0), (0, 0), (0, 0)]);
    // 5 + Y⁴, where Y⁴ is 1, -1 four times
    expect_by_hand(&[5, 0, 0, 0, 1, 0, 0, 0], &[[(6, 0), (4, 0)]; 4].concat());
    // Y² + 2Y⁶: 1 + 2, I - 2I, -1 - 2, -I + 2I, twice
    expect_by_hand(&[0, 0, 1, 0, 0, 0, 2, 0], &[[(3, 0), (0, -1), (-3, 0), (0, 1)]; 2].concat());
}

/// Y^k has at element i the value of element ik, and -Y^k its opposite.
#[test]
fn single_places() {
    for size in SIZES {
        let length = size as usize;
        let elements = arithmetic::elements(length);
        for place in (0..length).filter(|&place| length <= 64 || [0, 1, length / 2, length - 1].contains(&place)) {
            for factor in [1, P - 1] {
                let mut coefficients = vec![0; length];
                coefficients[place] = factor;
                let value = |i: usize| arithmetic::times(u64::from(factor), elements[i * place % length]) as u32;
                expect_pair(&coefficients, &(0..length).map(value).collect::<Vec<u32>>());
            }
        }
    }
}

/// The coefficients must have these values at the elements in order, one by one.
fn expect_values(coefficients: &[u32], values: &[u32]) {
    for (element, &value) in arithmetic::elements(coefficients.len()).into_iter().zip(values) {
        assert_eq!(arithmetic::value_at(coefficients, element), u64::from(value));
        assert_eq!(second::evaluate(coefficients, element as u32), Ok(value));
    }
}

#[test]
fn interpolate_gives_the_values() {
    let mut random = Random::new(2);
    for size in SIZES {
        let values = random.words(size as usize);
        expect_values(&transformed(second::interpolate, &values), &values);
    }
}

#[test]
fn evaluate_on_domain_gives_the_values() {
    let mut random = Random::new(34);
    for size in SIZES {
        let coefficients = random.words(size as usize);
        expect_values(&coefficients, &transformed(second::evaluate_on_domain, &coefficients));
    }
}

fn expect_undone(words: &[u32]) {
    let [interpolate, evaluate] = TRANSFORMS;
    assert_eq!(transformed(evaluate, &transformed(interpolate, words)), words, "values to coefficients and back");
    assert_eq!(transformed(interpolate, &transformed(evaluate, words)), words, "coefficients to values and back");
}

#[test]
fn each_undoes_the_other() {
    let mut random = Random::new(35);
    let mut checked = Checked::default();
    for size in SIZES {
        let length = size as usize;
        for word in [0, 1, P - 2, P - 1] {
            expect_undone(&vec![word; length]);
        }
        for _ in 0..count(2) {
            expect_undone(&random.words(length));
            checked.one();
        }
    }
}

/// 4, then 5 at the list, 5 at the lent slice, 6 at the first word of p or more, whatever else is wrong after it.
#[test]
fn refusals() {
    for call in TRANSFORMS {
        let refused = |size, words: &[u32], length| refusal(lend([length], |[lent]| call(size, words, lent)));
        for size in [0, 3, 6, 1023, 1025, 2048, 1 << 31, u32::MAX] {
            assert_eq!(refused(size, &[], 0), Some((4, 0)));
            assert_eq!(refused(size, &[P; 3], 3), Some((4, 0)));
            assert_eq!(refused(size, &[P; 3], 2), Some((4, 0)));
        }
        for size in SIZES {
            let right = size as usize;
            for wrong in [0, right - 1, right + 1, 2 * right] {
                for word in [0, P] {
                    assert_eq!(refused(size, &vec![word; wrong], right), Some((5, 0)));
                    assert_eq!(refused(size, &vec![word; wrong], wrong), Some((5, 0)));
                    assert_eq!(refused(size, &vec![word; right], wrong), Some((5, 1)));
                }
            }
            for place in 0..right {
                for word in NO_FIELD_WORDS {
                    let mut words = vec![P - 1; right];
                    words[place] = word;
                    assert_eq!(refused(size, &words, right), Some((6, place)));
                    words[place..].fill(word);
                    assert_eq!(refused(size, &words, right), Some((6, place)));
                }
            }
        }
    }
}

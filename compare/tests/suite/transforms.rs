//! The transforms between coefficients and values on a domain: both ways at all sizes, each undone by the other, and their refusals.

use compare::calls::{lend, Outcome};
use compare::library;
use compare::random::{count, elements, Compared, Random, NO_SIZES, SIZES};
use second::{Refusal, MODULUS};

const LAST: u32 = MODULUS - 1;
/// Field words at the boundaries.
const FIELD_WORDS: [u32; 5] = [0, 1, 2, LAST - 1, LAST];
/// Words that are none of the field.
const NO_FIELD_WORDS: [u32; 3] = [MODULUS, MODULUS + 1, u32::MAX];
/// The largest size at which the second implementation, too, transforms a list for each place.
const SMALL: usize = 128;

type Call = fn(u32, &[u32], &mut [u32]) -> Result<(), Refusal>;

/// A call with a size, a list and a lent slice, on either side.
struct Transform {
    name: &'static str,
    library: Call,
    second: Call,
}

const INTERPOLATE: &Transform =
    &Transform { name: "interpolate", library: library::interpolate, second: second::interpolate };
const EVALUATE: &Transform =
    &Transform { name: "evaluate_on_domain", library: library::evaluate_on_domain, second: second::evaluate_on_domain };

fn outcome(call: Call, size: u32, words: &[u32], lent: usize) -> Outcome {
    lend([lent], |[result]| call(size, words, result).map(|()| Vec::new()))
}

/// Makes a call on both sides, with so many words lent; the outcome is that of both.
fn compare_transform(transform: &Transform, size: u32, words: &[u32], lent: usize) -> Outcome {
    let [ours, theirs] = [transform.library, transform.second].map(|call| outcome(call, size, words, lent));
    assert_eq!(ours, theirs, "{} on {size}, {lent} words lent, words {words:?}", transform.name);
    ours
}

/// The words that a call which is done has filled in.
fn filled(outcome: Outcome) -> Vec<u32> {
    assert_eq!(outcome.answer, Ok(Vec::new()));
    outcome.lent.concat()
}

/// What both sides make of the words, on the domain of their number.
fn transformed(transform: &Transform, words: &[u32]) -> Vec<u32> {
    filled(compare_transform(transform, words.len() as u32, words, words.len()))
}

/// What the library makes of them.
fn by_library(transform: &Transform, words: &[u32]) -> Vec<u32> {
    filled(outcome(transform.library, words.len() as u32, words, words.len()))
}

/// Both sides must make the same of the words, in both directions, and the library must come back to them.
fn expect_undone(words: &[u32]) {
    for (first, then) in [(INTERPOLATE, EVALUATE), (EVALUATE, INTERPOLATE)] {
        let there = transformed(first, words);
        assert_eq!(by_library(then, &there), words, "{}, then {}", first.name, then.name);
    }
}

/// Lists of any length: a word from its place and the length.
const EXTREME_LISTS: [fn(u32, u32) -> u32; 18] = [
    |_, _| 0,
    |_, _| 1,
    |_, _| LAST - 1,
    |_, _| LAST,
    |place, _| [0, LAST][place as usize % 2],
    |place, _| [LAST, 0][place as usize % 2],
    |place, _| [1, LAST][place as usize % 2],
    |place, _| [LAST, 1][place as usize % 2],
    |place, length| if 2 * place < length { 0 } else { LAST },
    |place, length| if 2 * place < length { LAST } else { 0 },
    |place, length| if 2 * place < length { LAST } else { 1 },
    |place, _| if place == 0 { LAST } else { 0 },
    |place, length| if place == length - 1 { LAST } else { 0 },
    |place, _| if place == 0 { 0 } else { LAST },
    |place, length| if place == length - 1 { 0 } else { LAST },
    |place, _| place,
    |place, _| LAST - place,
    |place, length| MODULUS - length + place,
];

#[test]
fn extreme_words() {
    for size in SIZES {
        for word in EXTREME_LISTS {
            let words: Vec<u32> = (0..size).map(|place| word(place, size)).collect();
            expect_undone(&words);
        }
    }
}

/// Field words, any or all at the boundaries.
fn field_words(random: &mut Random, length: usize) -> Vec<u32> {
    if random.one_in(3) {
        (0..length).map(|_| random.one_of(&FIELD_WORDS)).collect()
    } else {
        random.words(length)
    }
}

/// More lists where the domain is small.
#[test]
fn random_words() {
    let mut random = Random::new(130);
    let mut compared = Compared::default();
    for size in SIZES {
        for _ in 0..count(u64::from(8192 / size).min(500)) {
            expect_undone(&field_words(&mut random, size as usize));
            compared.one();
        }
    }
}

/// The library must make this of the words, and at small sizes the second implementation, too.
fn expect_made(transform: &Transform, words: &[u32], expected: &[u32]) {
    let made = if words.len() <= SMALL { transformed(transform, words) } else { by_library(transform, words) };
    assert_eq!(made, expected, "{} of {words:?}", transform.name);
}

/// Every place of every size. A word at place k and 0 elsewhere has as values the word times elements 0, k, 2k and so on, and as
/// coefficients the word over the size times elements 0, -k, -2k and so on, counted round the domain.
#[test]
fn single_places() {
    let times = |a, b| second::multiply(a, b).expect("field words");
    for size in SIZES {
        let (elements, length) = (elements(size), size as usize);
        let share = second::inverse(size).expect("a size is not 0");
        for place in 0..length {
            for word in [1, LAST] {
                let mut words = vec![0; length];
                words[place] = word;
                let in_steps = |factor, step| -> Vec<u32> {
                    (0..length).map(|count| times(factor, elements[count * step % length])).collect()
                };
                expect_made(EVALUATE, &words, &in_steps(word, place));
                expect_made(INTERPOLATE, &words, &in_steps(times(word, share), length - place));
            }
        }
    }
}

/// The values are those of `evaluate` at the elements in order, also where the coefficients were interpolated.
#[test]
fn values_at_elements() {
    let mut random = Random::new(131);
    for size in SIZES {
        let words = random.words(size as usize);
        let values = by_library(EVALUATE, &words);
        let coefficients = by_library(INTERPOLATE, &words);
        for (place, element) in elements(size).into_iter().enumerate() {
            assert_eq!(library::evaluate(&words, element), Ok(values[place]), "element {place} of {size}");
            assert_eq!(library::evaluate(&coefficients, element), Ok(words[place]), "element {place} of {size}");
        }
    }
}

/// What stood in the lent slice does not matter.
#[test]
fn any_lent_words() {
    let mut random = Random::new(132);
    for size in SIZES {
        let words = random.words(size as usize);
        for transform in [INTERPOLATE, EVALUATE] {
            let expected = transformed(transform, &words);
            let lists = FIELD_WORDS.into_iter().chain(NO_FIELD_WORDS).map(|word| vec![word; size as usize]);
            for mut lent in lists.chain([random.words(size as usize), words.clone(), expected.clone()]) {
                assert_eq!((transform.library)(size, &words, &mut lent), Ok(()));
                assert_eq!(lent, expected, "{} on {size}", transform.name);
            }
        }
    }
}

/// The first refusal that applies: a size, the list's length, the lent slice's, a word.
fn first_refusal(size: u32, words: &[u32], lent: usize) -> Option<Refusal> {
    let wrong_word = words.iter().position(|&word| word >= MODULUS);
    let faults = [
        (4, (!SIZES.contains(&size)).then_some(0)),
        (5, [words.len(), lent].iter().position(|&length| length != size as usize)),
        (6, wrong_word),
    ];
    faults.into_iter().find_map(|(number, place)| place.map(|position| Refusal { number, position }))
}

/// Both calls must be refused so, or done where nothing is wrong.
fn expect_by_rule(size: u32, words: &[u32], lent: usize) {
    for transform in [INTERPOLATE, EVALUATE] {
        let answer = compare_transform(transform, size, words, lent).answer;
        let name = transform.name;
        assert_eq!(answer.err(), first_refusal(size, words, lent), "{name} on {size}, {lent} words lent, {words:?}");
    }
}

/// 4 for every number up to twice the largest size and about every higher power of two, whatever the lengths and the words are.
#[test]
fn refused_sizes() {
    let powers = (11..32).flat_map(|bit| [(1 << bit) - 1, 1 << bit, (1 << bit) + 1]);
    let numbers = (0..=2048).chain(powers).chain(NO_SIZES);
    for size in numbers.filter(|size| !SIZES.contains(size)) {
        let right = size.min(2050) as usize;
        expect_by_rule(size, &vec![1; right], right);
        expect_by_rule(size, &vec![MODULUS; right], right + 1);
        for length in [0, 1, 1024] {
            expect_by_rule(size, &vec![MODULUS; length], length);
        }
    }
}

/// 5 at the list, then at the lent slice, whatever the words are; with both lengths right, 6 or done.
#[test]
fn refused_lengths() {
    for size in SIZES {
        let right = size as usize;
        let lengths = [0, 1, right / 2, right - 1, right, right + 1, 2 * right, 1023, 1025, 2048];
        for given in lengths {
            for lent in lengths {
                for word in [1, MODULUS] {
                    expect_by_rule(size, &vec![word; given], lent);
                }
            }
        }
    }
}

/// 6 at every place of every size, where it is the only wrong one and where all after it are wrong, too.
#[test]
fn refused_words() {
    for size in SIZES {
        let right = size as usize;
        for place in 0..right {
            for word in NO_FIELD_WORDS {
                let mut words = vec![LAST; right];
                words[place] = word;
                expect_by_rule(size, &words, right);
                words[place..].fill(word);
                expect_by_rule(size, &words, right);
            }
        }
    }
}

/// Any of these faults at once, or none.
#[test]
fn damaged_inputs() {
    let mut random = Random::new(133);
    let mut compared = Compared::default();
    for _ in 0..count(5_000) {
        let right = 1 << random.below(7);
        let size = if random.one_in(10) { random.damaged() } else { right };
        let [given, lent] = [(); 2].map(|()| right as usize + usize::from(random.one_in(10)));
        let mut words = field_words(&mut random, given);
        for _ in 0..random.below(3) {
            let place = random.place(given);
            words[place] = random.damaged();
        }
        expect_by_rule(size, &words, lent);
        compared.one();
    }
}

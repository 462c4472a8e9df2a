//! Evaluation taken up midway: parts from any sum and power, and the value of a list from its parts, however it is cut.

use compare::library;
use compare::random::{count, elements, Compared, Random, BOUNDARY_WORDS, SIZES};
use second::{Refusal, MODULUS};
use std::ops::Range;

/// The most words of a part.
const PART_LIMIT: usize = 2048;
/// Field words at the boundaries.
const FIELD_WORDS: [u32; 4] = [0, 1, 2, MODULUS - 1];
/// Words that are none of the field.
const NO_FIELD_WORDS: [u32; 3] = [MODULUS, MODULUS + 1, u32::MAX];

/// A sum and a power, before a part or after it.
type Running = (u32, u32);

/// What a list begins with.
const BEGUN: Running = (0, 1);

/// Takes up the evaluation on both sides; the answer is that of both.
fn compare_part((sum, power): Running, point: u32, part: &[u32]) -> Result<Running, Refusal> {
    let [ours, theirs] = [library::evaluate_part, second::evaluate_part].map(|call| call(sum, power, point, part));
    assert_eq!(ours, theirs, "evaluate_part {sum} {power} at {point}, part {part:?}");
    ours
}

/// The parts one after the other, on both sides.
fn carried(begun: Running, point: u32, parts: &[&[u32]]) -> Running {
    parts.iter().fold(begun, |running, part| compare_part(running, point, part).expect("parts of field words"))
}

/// What a list of any length must end at, by the second implementation's calls on words: the sum plus power times each coefficient
/// times the point to the power of its place, and power times the point to the power of the length.
fn at_the_end((sum, power): Running, point: u32, list: &[u32]) -> Running {
    let times = |a, b| second::multiply(a, b).expect("field words");
    let scaled = |exponent| times(power, second::power(point, exponent).expect("a field word"));
    let terms = (0..).zip(list).map(|(place, &coefficient)| times(coefficient, scaled(place)));
    let next_sum = terms.fold(sum, |sum, term| second::add(sum, term).expect("field words"));
    (next_sum, scaled(list.len() as u32))
}

/// A part must be answered by the rule: 5 for too many words, 6 at the first word that is none of the field, or what it ends at.
fn expect_by_rule(running: Running, point: u32, part: &[u32]) {
    let mut words = [running.0, running.1, point].into_iter().chain(part.iter().copied());
    let expected = match words.position(|word| word >= MODULUS) {
        _ if part.len() > PART_LIMIT => Err(Refusal { number: 5, position: 0 }),
        Some(position) => Err(Refusal { number: 6, position }),
        None => Ok(at_the_end(running, point, part)),
    };
    assert_eq!(compare_part(running, point, part), expected, "from {running:?} at {point}, part {part:?}");
}

/// A list cut anywhere into parts that a call takes, with empty ones before, between and after the others.
fn cut<'a>(random: &mut Random, list: &'a [u32]) -> Vec<&'a [u32]> {
    let longest = random.one_of(&[1, 2, 3, 64, 1000, PART_LIMIT]);
    let mut parts = Vec::new();
    let mut rest = list;
    while !rest.is_empty() || random.one_in(2) {
        let length = match random.below(4) {
            0 => 0,
            1 => longest,
            _ => random.place(longest + 1),
        };
        let (part, after) = rest.split_at(length.min(rest.len()));
        parts.push(part);
        rest = after;
    }
    parts
}

/// A field word, at a boundary now and then.
fn field_word(random: &mut Random) -> u32 {
    if random.one_in(4) {
        random.one_of(&FIELD_WORDS)
    } else {
        random.word()
    }
}

fn field_words(random: &mut Random, length: usize) -> Vec<u32> {
    (0..length).map(|_| field_word(random)).collect()
}

/// A field word, an element of a domain now and then.
fn any_point(random: &mut Random) -> u32 {
    if random.one_in(4) {
        random.root()
    } else {
        field_word(random)
    }
}

/// All lengths about the bounds, with boundary words for sum, power and point and for every word of the part.
#[test]
fn lengths_and_boundary_words() {
    let mut random = Random::new(123);
    for length in [0, 1, 2, 3, 63, 64, 65, 1023, 1024, 1025, 2047, 2048, 2049, 2050, 5000] {
        let good = random.words(length);
        for point in BOUNDARY_WORDS.into_iter().chain([random.word(), random.root()]) {
            for running in [BEGUN, (random.word(), random.word()), (MODULUS - 1, MODULUS - 1), (1, 0)] {
                expect_by_rule(running, point, &good);
                for word in [0, 1, MODULUS - 1, MODULUS] {
                    expect_by_rule(running, point, &vec![word; length]);
                }
            }
        }
    }
    for sum in BOUNDARY_WORDS {
        for power in BOUNDARY_WORDS {
            for point in BOUNDARY_WORDS {
                expect_by_rule((sum, power), point, &[]);
                for word in BOUNDARY_WORDS {
                    expect_by_rule((sum, power), point, &[word]);
                    expect_by_rule((sum, power), point, &[word, 1, word]);
                }
            }
        }
    }
}

/// From any sum and power; an empty part gives both back.
#[test]
fn taken_up_anywhere() {
    let mut random = Random::new(124);
    let mut compared = Compared::default();
    for _ in 0..count(2_000) {
        let running = (field_word(&mut random), field_word(&mut random));
        let point = any_point(&mut random);
        let length = if random.one_in(20) { random.place(PART_LIMIT + 1) } else { random.place(70) };
        let part = field_words(&mut random, length);
        expect_by_rule(running, point, &part);
        assert_eq!(compare_part(running, point, &[]), Ok(running));
        compared.one();
    }
}

/// A part of so many words must be refused so, where input words, counted from the sum on, are replaced by one that is none of the
/// field.
fn expect_refused(length: usize, replaced: Range<usize>, number: u32, position: usize) {
    for word in NO_FIELD_WORDS {
        let mut words = vec![MODULUS - 1; 3 + length];
        words[replaced.clone()].fill(word);
        let answer = compare_part((words[0], words[1]), words[2], &words[3..]);
        assert_eq!(answer, Err(Refusal { number, position }), "{word} at {replaced:?}, {length} words in the part");
    }
}

/// 6 at every input word, where it is the only wrong one and where all after it are wrong, too.
#[test]
fn refused_words() {
    for length in [0, 1, 2, 3, 64, PART_LIMIT] {
        let end = 3 + length;
        for place in 0..end {
            expect_refused(length, place..place + 1, 6, place);
            expect_refused(length, place..end, 6, place);
        }
    }
}

/// 5 for a part of too many words, whatever the words are.
#[test]
fn refused_lengths() {
    for length in [2049, 2050, 3072, 4096, 4097, 65_536, 70_000] {
        let end = 3 + length;
        for replaced in [0..0, 0..1, 1..2, 2..3, 3..4, end - 1..end, 0..end] {
            expect_refused(length, replaced, 5, 0);
        }
    }
}

/// Any words at any places, good and bad.
#[test]
fn damaged_words() {
    let mut random = Random::new(125);
    let mut compared = Compared::default();
    for _ in 0..count(5_000) {
        let length = random.place(12);
        let mut words = random.words(3 + length);
        for _ in 0..random.below(3) {
            let place = random.place(words.len());
            words[place] = random.damaged();
        }
        expect_by_rule((words[0], words[1]), words[2], &words[3..]);
        compared.one();
    }
}

/// Every cut of a list into four parts, empty ones among them.
fn cuts_in_four(list: &[u32]) -> Vec<[&[u32]; 4]> {
    let from = |place| place..=list.len();
    let places = from(0).flat_map(|first| from(first).map(move |middle| (first, middle)));
    let places = places.flat_map(|(first, middle)| from(middle).map(move |last| (first, middle, last)));
    places
        .map(|(first, middle, last)| [&list[..first], &list[first..middle], &list[middle..last], &list[last..]])
        .collect()
}

/// Every cut of short lists; and no part at all.
#[test]
fn all_cuts_of_short_lists() {
    let mut random = Random::new(126);
    for length in 0..=6 {
        for point in FIELD_WORDS.into_iter().chain([random.word(), random.root()]) {
            let list = field_words(&mut random, length);
            for running in [BEGUN, (random.word(), random.word())] {
                let expected = at_the_end(running, point, &list);
                for parts in cuts_in_four(&list) {
                    assert_eq!(carried(running, point, &parts), expected, "{parts:?} at {point}");
                }
                assert_eq!(carried(running, point, &[]), running);
            }
        }
    }
}

/// However a list is cut, its parts, begun with 0 and 1, end at the value of the whole, and at the power of its length.
#[test]
fn parts_end_at_the_whole() {
    let mut random = Random::new(127);
    let mut compared = Compared::default();
    for _ in 0..count(400) {
        let length = match random.below(4) {
            0 => random.place(PART_LIMIT + 1),
            1 => random.one_of(&[0, 1, 2, 64, 1023, 1024, 2047, PART_LIMIT]),
            _ => random.place(200),
        };
        let list = field_words(&mut random, length);
        let point = any_point(&mut random);
        let parts = cut(&mut random, &list);
        let (sum, power) = carried(BEGUN, point, &parts);
        let values = [library::evaluate(&list, point), second::evaluate(&list, point)];
        let powers = [library::power(point, length as u32), second::power(point, length as u32)];
        let lengths: Vec<usize> = parts.iter().map(|part| part.len()).collect();
        assert_eq!(values, [Ok(sum); 2], "{list:?} at {point} in parts of {lengths:?} words");
        assert_eq!(powers, [Ok(power); 2], "{point} after parts of {lengths:?} words");
        compared.one();
    }
}

/// Lists of more words than a call takes, from any sum and power, in parts of which each has at most as many.
#[test]
fn long_lists() {
    let mut random = Random::new(128);
    let mut compared = Compared::default();
    for length in [2049, 4096, 4097, 6000, 20_000] {
        let list = random.words(length);
        assert_eq!(library::evaluate(&list, 1), Err(Refusal { number: 5, position: 0 }));
        for point in FIELD_WORDS {
            let parts: Vec<&[u32]> = list.chunks(PART_LIMIT).collect();
            assert_eq!(carried(BEGUN, point, &parts), at_the_end(BEGUN, point, &list), "{length} words at {point}");
        }
    }
    for _ in 0..count(20) {
        let length = PART_LIMIT + 1 + random.place(8_000);
        let list = field_words(&mut random, length);
        let point = any_point(&mut random);
        let running = if random.one_in(2) { BEGUN } else { (random.word(), random.word()) };
        let parts = cut(&mut random, &list);
        assert_eq!(carried(running, point, &parts), at_the_end(running, point, &list), "{length} words at {point}");
        compared.one();
    }
}

/// At the elements of a domain the parts of an interpolated polynomial end at its values, and the power of the domain's size is 1.
#[test]
fn values_on_domains() {
    let mut random = Random::new(129);
    for size in SIZES {
        let values = random.words(size as usize);
        let mut coefficients = vec![0; size as usize];
        library::interpolate(size, &values, &mut coefficients).expect("a list as long as the domain");
        for (place, element) in elements(size).into_iter().enumerate().step_by(1 + size as usize / 16) {
            let parts = cut(&mut random, &coefficients);
            assert_eq!(carried(BEGUN, element, &parts), (values[place], 1), "element {place} of {size}");
        }
    }
}

//! Field, domain and polynomial calls: answers and refusals at their boundaries.

use crate::arithmetic::{self, P};
use crate::case::refusal;
use crate::random::{count, Checked, Random};

const LAST: u32 = 2013265920;

#[test]
fn field_words() {
    assert_eq!(P, u64::from(second::MODULUS));
    assert_eq!(second::add(LAST, LAST), Ok(LAST - 1));
    assert_eq!(second::add(LAST, 1), Ok(0));
    assert_eq!(second::subtract(0, LAST), Ok(1));
    assert_eq!(second::subtract(0, 1), Ok(LAST));
    assert_eq!(second::power(0, 0), Ok(1));
    assert_eq!(second::power(0, u32::MAX), Ok(0));
    assert_eq!(second::power(LAST, u32::MAX), Ok(LAST));
    assert_eq!(second::power(31, LAST), Ok(1));
    assert_eq!(refusal(second::inverse(0)), Some((12, 0)));
    assert_eq!(second::inverse(1), Ok(1));
    assert_eq!(second::inverse(LAST), Ok(LAST));
    for word in [LAST + 1, u32::MAX] {
        for call in [second::add, second::subtract, second::multiply] {
            assert_eq!(refusal(call(word, word)), Some((6, 0)));
            assert_eq!(refusal(call(0, word)), Some((6, 1)));
        }
        assert_eq!(refusal(second::power(word, 0)), Some((6, 0)));
        assert_eq!(refusal(second::inverse(word)), Some((6, 0)));
    }
}

#[test]
fn random_field_words() {
    let mut random = Random::new(1);
    let mut checked = Checked::default();
    for _ in 0..count(1000) {
        let [a, b] = [random.word(), random.word()];
        let [wide_a, wide_b] = [u64::from(a), u64::from(b)];
        assert_eq!(second::add(a, b).map(u64::from), Ok(arithmetic::plus(wide_a, wide_b)));
        assert_eq!(second::subtract(a, b).map(u64::from), Ok(arithmetic::minus(wide_a, wide_b)));
        assert_eq!(second::multiply(a, b).map(u64::from), Ok(arithmetic::times(wide_a, wide_b)));
        assert_eq!(second::power(a, b).map(u64::from), Ok(arithmetic::power(wide_a, wide_b)));
        match second::inverse(a) {
            Ok(inverse) => assert_eq!(arithmetic::times(wide_a, u64::from(inverse)), 1),
            Err(refused) => assert_eq!((a, refused.number, refused.position), (0, 12, 0)),
        }
        checked.one();
    }
}

#[test]
fn domains() {
    for place in 0..11 {
        let size = 1 << place;
        let mut lent = vec![0; size];
        assert_eq!(second::domain(size as u32, &mut lent), Ok(()));
        let words: Vec<u64> = lent.iter().map(|&word| u64::from(word)).collect();
        assert_eq!(words, arithmetic::elements(size));
        let mut sorted = words.clone();
        sorted.sort();
        sorted.dedup();
        assert_eq!(sorted.len(), size);
        assert!(words.iter().all(|&word| arithmetic::power(word, size as u64) == 1));
    }
}

#[test]
fn domain_refusals() {
    for size in [0, 3, 6, 1023, 1025, 2048, 1 << 31, u32::MAX] {
        assert_eq!(refusal(second::domain(size, &mut [])), Some((4, 0)));
    }
    let mut lent = [5; 3];
    assert_eq!(refusal(second::domain(2, &mut lent)), Some((5, 0)));
    assert_eq!(refusal(second::domain(4, &mut lent)), Some((5, 0)));
    assert_eq!(lent, [5; 3]);
}

#[test]
fn evaluate() {
    assert_eq!(second::evaluate(&[], 7), Ok(0));
    assert_eq!(second::evaluate(&[3, 0, 2], 10), Ok(203));
    assert_eq!(second::evaluate(&[LAST], LAST), Ok(LAST));
    assert_eq!(second::evaluate(&[1; 2048], 1), Ok(2048));
    assert_eq!(refusal(second::evaluate(&[u32::MAX; 2049], LAST + 1)), Some((5, 0)));
    assert_eq!(refusal(second::evaluate(&[0, LAST + 1, LAST + 1], LAST + 1)), Some((6, 1)));
    assert_eq!(refusal(second::evaluate(&[0, 0, 0], LAST + 1)), Some((6, 3)));
    assert_eq!(refusal(second::evaluate(&[], LAST + 1)), Some((6, 0)));
}

#[test]
fn evaluate_part() {
    assert_eq!(second::evaluate_part(0, 1, 10, &[3, 0, 2]), Ok((203, 1000)));
    assert_eq!(second::evaluate_part(203, 1000, 10, &[4, 5]), Ok((54_203, 100_000)));
    assert_eq!(second::evaluate_part(5, 9, 7, &[]), Ok((5, 9)));
    assert_eq!(second::evaluate_part(2, 3, 0, &[]), Ok((2, 3)));
    assert_eq!(second::evaluate_part(2, 3, 0, &[5, 6]), Ok((17, 0)));
    assert_eq!(second::evaluate_part(2, 0, 10, &[5, 6]), Ok((2, 0)));
    assert_eq!(second::evaluate_part(LAST, LAST, LAST, &[LAST; 2]), Ok((LAST, LAST)));
    assert_eq!(second::evaluate_part(LAST, LAST, LAST, &[LAST; 3]), Ok((0, 1)));
    assert_eq!(second::evaluate_part(1, 2, 1, &[1; 2047]), Ok((4095, 2)));
    assert_eq!(second::evaluate_part(1, 2, 1, &[1; 2048]), Ok((4097, 2)));
}

#[test]
fn evaluate_part_refusals() {
    assert_eq!(refusal(second::evaluate_part(0, 1, 1, &[0; 2049])), Some((5, 0)));
    for word in [LAST + 1, LAST + 2, u32::MAX] {
        assert_eq!(refusal(second::evaluate_part(word, word, word, &[word; 2049])), Some((5, 0)));
        assert_eq!(refusal(second::evaluate_part(word, word, word, &[word; 2048])), Some((6, 0)));
        assert_eq!(refusal(second::evaluate_part(0, word, word, &[word, word])), Some((6, 1)));
        assert_eq!(refusal(second::evaluate_part(0, 0, word, &[word, word])), Some((6, 2)));
        assert_eq!(refusal(second::evaluate_part(0, 0, 0, &[word, word])), Some((6, 3)));
        assert_eq!(refusal(second::evaluate_part(0, 0, 0, &[0, word])), Some((6, 4)));
        assert_eq!(refusal(second::evaluate_part(0, 0, word, &[])), Some((6, 2)));
        let mut part = [LAST; 2048];
        part[2047] = word;
        assert_eq!(refusal(second::evaluate_part(LAST, LAST, LAST, &part)), Some((6, 2050)));
    }
}

/// What the parts of a list end at, one after the other, begun with 0 and 1.
fn carried<'a>(point: u32, parts: impl IntoIterator<Item = &'a [u32]>) -> (u32, u32) {
    let next = |(sum, power), part| second::evaluate_part(sum, power, point, part).expect("field words");
    parts.into_iter().fold((0, 1), next)
}

/// Every cut into three parts, which may be empty, of the digits of 654,321; and no part at all.
#[test]
fn digits_in_parts() {
    let digits = [1, 2, 3, 4, 5, 6];
    for last in 0..=digits.len() {
        for middle in 0..=last {
            let parts = [&digits[..middle], &digits[middle..last], &digits[last..]];
            assert_eq!(carried(10, parts), (654_321, 1_000_000), "{parts:?}");
        }
    }
    assert_eq!(carried(10, digits.chunks(1)), (654_321, 1_000_000));
    assert_eq!(carried(10, []), (0, 1));
}

/// Lists of more words than a call takes: 1 - 1 + 1 .. over 5,001 words, and any words in parts of any length.
#[test]
fn long_lists_in_parts() {
    assert_eq!(carried(LAST, [1; 5001].chunks(2048)), (1, LAST));
    let mut random = Random::new(32);
    let mut checked = Checked::default();
    for _ in 0..count(20) {
        let list = random.words(5000);
        let (point, length) = (random.word(), 1 + random.below(2048) as usize);
        let value = arithmetic::value_at(&list, u64::from(point));
        let power = arithmetic::power(u64::from(point), 5000);
        assert_eq!(carried(point, list.chunks(length)), (value as u32, power as u32), "parts of {length} words");
        checked.one();
    }
}

/// From any sum and power, not those of a list's beginning alone.
#[test]
fn parts_taken_up_anywhere() {
    let mut random = Random::new(33);
    let mut checked = Checked::default();
    for _ in 0..count(1000) {
        let [sum, power, point] = [random.word(), random.word(), random.word()];
        let length = random.below(20) as usize;
        let part = random.words(length);
        let [wide_sum, wide_power, wide_point] = [sum, power, point].map(u64::from);
        let value = arithmetic::value_at(&part, wide_point);
        let next_sum = arithmetic::plus(wide_sum, arithmetic::times(wide_power, value));
        let next_power = arithmetic::times(wide_power, arithmetic::power(wide_point, length as u64));
        let answer = second::evaluate_part(sum, power, point, &part);
        assert_eq!(answer, Ok((next_sum as u32, next_power as u32)), "{sum} {power} {point} {part:?}");
        checked.one();
    }
}

//! The proof record: refusals 2 to 6, sections, and the round trip.

use crate::case::{lengths, refusal, square};
use crate::random::{count, Checked, Random};
use second::Refusal;

const P: u32 = second::MODULUS;

fn square_record() -> Vec<u8> {
    let case = square();
    case.record(&case.proof().unwrap())
}

/// The square record with a word replaced.
fn with_word(place: usize, word: u32) -> Vec<u8> {
    let mut bytes = square_record();
    bytes[4 * place..4 * place + 4].copy_from_slice(&word.to_le_bytes());
    bytes
}

/// A record of given sizes whose sections are all zeros.
fn zeros(sizes: [u32; 6]) -> Vec<u8> {
    let sections = lengths(sizes).map(|length| vec![0; length]);
    let mut bytes = vec![1; 4 * sections.iter().map(Vec::len).sum::<usize>() + 72];
    let written = second::write_record(sizes, sections.each_ref().map(Vec::as_slice), &mut bytes);
    assert_eq!(written, Ok(()));
    bytes
}

#[test]
fn record_end() {
    let record = square_record();
    for length in (0..132).chain([0, 60]) {
        assert_eq!(refusal(second::read_record(&record[..length])), Some((2, 0)));
    }
    let mut longer = record.clone();
    longer.push(0);
    assert_eq!(refusal(second::read_record(&longer)), Some((2, 0)));
    longer.extend([0; 3]);
    assert_eq!(refusal(second::read_record(&longer)), Some((2, 0)));
    for last in [0, 59, 61, 64, 132, u32::MAX] {
        assert_eq!(refusal(second::read_record(&with_word(32, last))), Some((2, 0)));
    }
    assert_eq!(refusal(second::read_record(&[0; 68])), Some((2, 0)));
    assert_eq!(refusal(second::read_record(&[0; 72])), Some((3, 11)));
    assert_eq!(refusal(second::read_record(&[0; 73])), Some((2, 0)));
}

#[test]
fn trailer_sizes() {
    for place in 11..17 {
        for bad in [0, 3, 2048, u32::MAX] {
            assert_eq!(refusal(second::read_record(&with_word(15 + place, bad))), Some((3, place)));
        }
    }
    assert_eq!(refusal(second::read_record(&with_word(28, 4))), Some((3, 13)));
}

#[test]
fn trailer_starts() {
    for place in 0..11 {
        for bad in [1, 4, 61, u32::MAX] {
            assert_eq!(refusal(second::read_record(&with_word(15 + place, bad))), Some((3, place)));
        }
    }
    assert_eq!(refusal(second::read_record(&with_word(26, 2))), Some((3, 3)));
    let mut sizes_first = with_word(15, 1);
    sizes_first[4 * 31..4 * 32].copy_from_slice(&3u32.to_le_bytes());
    assert_eq!(refusal(second::read_record(&sizes_first)), Some((3, 16)));
}

#[test]
fn trailer_total() {
    let record = square_record();
    let mut longer = record[..60].to_vec();
    longer.extend(P.to_le_bytes());
    longer.extend(&record[60..128]);
    longer.extend(64u32.to_le_bytes());
    assert_eq!(refusal(second::read_record(&longer)), Some((3, 17)));
    let mut shorter = record[4..128].to_vec();
    shorter.extend(56u32.to_le_bytes());
    assert_eq!(refusal(second::read_record(&shorter)), Some((3, 17)));
}

#[test]
fn words() {
    for place in 0..15 {
        assert_eq!(refusal(second::read_record(&with_word(place, P))), Some((6, place)));
        assert_eq!(refusal(second::read_record(&with_word(place, P - 1))), None);
    }
}

#[test]
fn sections() {
    let record = square_record();
    let starts = [0, 8, 24, 24, 36, 40, 48, 60, 60, 60, 60, 60];
    for number in 0..11 {
        let section = second::section(&record, number).unwrap();
        assert_eq!(section, &record[starts[number]..starts[number + 1]]);
        assert_eq!(section.as_ptr(), record[starts[number]..].as_ptr());
    }
}

#[test]
fn section_refusals() {
    let section = |bytes: &[u8], number| refusal(second::section(bytes, number));
    for number in [11, 12, u32::MAX as usize, usize::MAX] {
        assert_eq!(section(&square_record(), number), Some((5, number)));
        assert_eq!(section(&[], number), Some((2, 0)));
        assert_eq!(section(&with_word(16, 9), number), Some((3, 1)));
        assert_eq!(section(&with_word(3, P), number), Some((5, number)));
    }
    for number in 0..11 {
        assert_eq!(section(&square_record()[4..], number), Some((2, 0)));
        assert_eq!(section(&with_word(16, 9), number), Some((3, 1)));
        assert_eq!(section(&with_word(3, P), number), Some((6, 3)));
    }
}

#[test]
fn write_refusals() {
    let sizes = [2, 4, 2, 1, 2, 4];
    let right = lengths(sizes);
    let write = |sizes: [u32; 6], lengths: [usize; 11], word: u32, bytes: usize| {
        let sections = lengths.map(|length| vec![word; length]);
        let mut lent = vec![9; bytes];
        let answer = second::write_record(sizes, sections.each_ref().map(Vec::as_slice), &mut lent);
        assert!(answer.is_ok() || lent.iter().all(|&byte| byte == 9));
        refusal(answer)
    };
    let total = 4 * right.iter().sum::<usize>() + 72;
    assert_eq!(write(sizes, right, P - 1, total), None);
    for place in 0..6 {
        let mut bad = sizes;
        bad[place] = 3;
        assert_eq!(write(bad, [0; 11], P, 0), Some((4, place)));
    }
    assert_eq!(write([1, 2, 4, 5, 1, 1], right, P, total), Some((4, 2)));
    for place in 0..11 {
        let mut bad = right;
        bad[place] += 1;
        assert_eq!(write(sizes, bad, P, 0), Some((5, place)));
    }
    assert_eq!(write(sizes, right, P, total - 1), Some((5, 11)));
    assert_eq!(write(sizes, right, P, total + 4), Some((5, 11)));
    assert_eq!(write(sizes, right, P, total), Some((6, 0)));
}

#[test]
fn write_words_in_order() {
    let sizes = [2, 2, 1, 1, 1, 1];
    let count: usize = lengths(sizes).iter().sum();
    for bad in 0..count {
        let mut words = (0..count).map(|place| if place >= bad { P } else { P - 1 });
        let sections = lengths(sizes).map(|length| words.by_ref().take(length).collect::<Vec<u32>>());
        let mut bytes = vec![0; 4 * count + 72];
        let answer = second::write_record(sizes, sections.each_ref().map(Vec::as_slice), &mut bytes);
        assert_eq!(refusal(answer), Some((6, bad)));
    }
}

#[test]
fn round_trip() {
    let mut random = Random::new(3);
    let mut checked = Checked::default();
    for _ in 0..count(100) {
        let three = random.sizes(10);
        let places = [0, 1, 2].map(|_| 1 << random.below(11));
        let sizes = [three[0], three[1], three[2], places[0], places[1], places[2]];
        let sections = lengths(sizes).map(|length| (0..length).map(|_| random.word()).collect::<Vec<u32>>());
        let mut bytes = vec![0; 4 * sections.iter().map(Vec::len).sum::<usize>() + 72];
        let written = second::write_record(sizes, sections.each_ref().map(Vec::as_slice), &mut bytes);
        assert_eq!((written, second::read_record(&bytes)), (Ok(()), Ok(sizes)));
        for (number, section) in sections.iter().enumerate() {
            let expected: Vec<u8> = section.iter().flat_map(|word| word.to_le_bytes()).collect();
            assert_eq!(second::section(&bytes, number), Ok(&expected[..]));
        }
        checked.one();
    }
    assert_eq!(second::read_record(&zeros([1; 6])), Ok([1; 6]));
    assert_eq!(second::read_record(&zeros([1024; 6])), Ok([1024; 6]));
}

#[test]
fn any_bytes_have_an_answer() {
    let mut random = Random::new(4);
    let mut checked = Checked::default();
    for _ in 0..count(2000) {
        let mut bytes = square_record();
        for _ in 0..=random.below(3) {
            let place = random.below(132) as usize;
            bytes[place] = random.below(256) as u8;
        }
        bytes.truncate(132 - 4 * random.below(3) as usize);
        let answer = second::read_record(&bytes);
        let sections: Result<Vec<&[u8]>, Refusal> = (0..11).map(|number| second::section(&bytes, number)).collect();
        assert_eq!(sections.as_ref().err(), answer.as_ref().err());
        assert_eq!(sections.map_or(60, |sections| sections.concat().len()), 60);
        checked.one();
    }
}

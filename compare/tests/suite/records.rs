//! Proof records: written, read, and their sections found; good and damaged.

use compare::calls;
use compare::calls::Input;
use compare::case::{lengths, Case};
use compare::library::{self, UNWRITTEN};
use compare::random::{count, Compared, Random, BOUNDARY_WORDS, NO_SIZES, SIZES};
use second::{Refusal, MODULUS};
use std::fmt;

/// The inputs of the writer.
#[derive(Clone)]
struct Written {
    sizes: [u32; 6],
    sections: [Vec<u32>; 11],
    lent: usize,
}

type WriteRecord = fn([u32; 6], [&[u32]; 11], &mut [u8]) -> Result<(), Refusal>;

/// The writer's answer, and the bytes lent to it as the call left them.
#[derive(Debug, PartialEq, Eq)]
struct Outcome {
    answer: Result<(), Refusal>,
    bytes: Vec<u8>,
}

impl Written {
    /// Random words for sections of the right lengths.
    fn new(random: &mut Random, sizes: [u32; 6]) -> Written {
        let sections = lengths(sizes).map(|length| random.words(length));
        let lent = 4 * sections.iter().map(Vec::len).sum::<usize>() + 72;
        Written { sizes, sections, lent }
    }

    /// The call on one side.
    fn write(&self, call: WriteRecord) -> Outcome {
        let guard = UNWRITTEN.to_le_bytes()[0];
        let mut bytes = vec![guard; self.lent + 2];
        let end = self.lent + 1;
        let answer = call(self.sizes, self.sections.each_ref().map(Vec::as_slice), &mut bytes[1..end]);
        assert_eq!((bytes[0], bytes[end]), (guard, guard), "a call has written past the lent bytes");
        let untouched = bytes.iter().all(|&byte| byte == guard);
        assert!(answer.is_ok() || untouched, "a refused call has changed the lent bytes");
        Outcome { answer, bytes: bytes[1..end].to_vec() }
    }

    /// Writes on both sides and compares; the outcome is that of both.
    fn compare(&self) -> Outcome {
        let _input = Input(self);
        let [ours, theirs] = [library::write_record, second::write_record].map(|call| self.write(call));
        assert_eq!(ours, theirs, "write_record: the library, then the second implementation");
        ours
    }

    fn record(&self) -> Vec<u8> {
        let outcome = self.compare();
        assert_eq!(outcome.answer, Ok(()), "a good record is refused:\n{self}");
        outcome.bytes
    }
}

impl fmt::Display for Written {
    fn fmt(&self, text: &mut fmt::Formatter) -> fmt::Result {
        writeln!(text, "sizes {:?}, {} bytes lent", self.sizes, self.lent)?;
        self.sections.iter().enumerate().try_for_each(|(place, section)| writeln!(text, "section {place}: {section:?}"))
    }
}

/// Bytes to read.
struct Bytes<'a>(&'a [u8]);

impl fmt::Display for Bytes<'_> {
    fn fmt(&self, text: &mut fmt::Formatter) -> fmt::Result {
        write!(text, "{} bytes:\n{}{:?}", self.0.len(), jobtext::show_record(self.0), self.0)
    }
}

/// The numbers of all sections, the next ones, and huge ones.
fn section_numbers() -> impl Iterator<Item = usize> {
    (0..13).chain([u32::MAX as usize, 1 << 32, usize::MAX])
}

/// Finds a section on both sides; the answer, its start and length in bytes, is that of both.
fn compare_section(bytes: &[u8], number: usize) -> Result<(usize, usize), Refusal> {
    let answer = library::section(bytes, number);
    let start = |section: &[u8]| section.as_ptr() as usize - bytes.as_ptr() as usize;
    let expected = second::section(bytes, number).map(|section| (start(section), section.len()));
    assert_eq!(answer, expected, "section {number}: the library, then the second implementation");
    answer
}

/// Reads on both sides, and finds every section and those past the last; the answer is that of both.
fn compare_read(bytes: &[u8]) -> Result<[u32; 6], Refusal> {
    let shown = Bytes(bytes);
    let _input = Input(&shown);
    let answer = library::read_record(bytes);
    assert_eq!(answer, second::read_record(bytes), "read_record: the library, then the second implementation");
    for number in section_numbers() {
        let _ = compare_section(bytes, number);
    }
    answer
}

/// A record with one word replaced.
fn with_word(record: &[u8], place: usize, word: u32) -> Vec<u8> {
    let mut bytes = record.to_vec();
    bytes[4 * place..4 * place + 4].copy_from_slice(&word.to_le_bytes());
    bytes
}

fn square_record() -> Vec<u8> {
    let case = Case::square();
    let proof = calls::prove(calls::Side::Second, &case).expect("the square case is proved");
    Written { sizes: case.six_sizes(), sections: proof.sections, lent: 132 }.record()
}

#[test]
fn square() {
    let record = square_record();
    assert_eq!(record.len(), 132);
    assert_eq!(compare_read(&record), Ok([1, 2, 1, 1, 1, 1]));
}

#[test]
fn round_trip() {
    let mut random = Random::new(30);
    let mut compared = Compared::default();
    for size in SIZES {
        let written = Written::new(&mut random, [size; 6]);
        assert_eq!(compare_read(&written.record()), Ok([size; 6]));
    }
    for _ in 0..count(200) {
        let sizes = random.six_sizes(10);
        let written = Written::new(&mut random, sizes);
        assert_eq!(compare_read(&written.record()), Ok(sizes));
        compared.one();
    }
}

/// The sections of a good record and of ones with an end, a start, a size or a word replaced: each kind of refusal must occur.
#[test]
fn sections() {
    let good = square_record();
    let damaged = [(32, 64), (16, 9), (28, 4), (3, MODULUS)].map(|(place, word)| with_word(&good, place, word));
    let mut numbers = [0; 7];
    for record in [good].iter().chain(&damaged) {
        let shown = Bytes(record);
        let _input = Input(&shown);
        for number in section_numbers() {
            let answer = compare_section(record, number);
            numbers[answer.err().map_or(0, |refusal| refusal.number as usize)] += 1;
        }
    }
    assert_eq!(numbers, [11, 0, 16, 32, 0, 10, 11]);
}

/// Every size, section and length of the writer's inputs replaced.
#[test]
fn damaged_inputs() {
    let mut random = Random::new(31);
    for sizes in [[1; 6], [2, 4, 2, 1, 2, 4], [4, 8, 8, 2, 1, 1]] {
        let good = Written::new(&mut random, sizes);
        for (place, size) in (0..6).flat_map(|place| NO_SIZES.into_iter().chain(SIZES).map(move |size| (place, size))) {
            let mut bad = good.clone();
            bad.sizes[place] = size;
            bad.compare();
        }
        for lent in [0, 1, 71, 72, good.lent - 4, good.lent - 1, good.lent + 1, good.lent + 4] {
            Written { lent, ..good.clone() }.compare();
        }
        for section in 0..11 {
            compare_section_damages(&good, section);
        }
    }
}

/// Other lengths of a section, and other words in each of its places.
fn compare_section_damages(good: &Written, section: usize) {
    let right = good.sections[section].len();
    for length in [0, right.saturating_sub(1), right + 1, right + 4, 5000] {
        let mut bad = good.clone();
        bad.sections[section].resize(length, MODULUS);
        bad.compare();
    }
    for (place, word) in (0..right).flat_map(|place| BOUNDARY_WORDS.map(|word| (place, word))) {
        let mut bad = good.clone();
        bad.sections[section][place] = word;
        bad.compare();
    }
}

#[test]
fn inputs_damaged_in_several_places() {
    let mut random = Random::new(36);
    let mut refusals = [0; 7];
    for _ in 0..count(3_000) {
        let sizes = random.six_sizes(3);
        let mut bad = Written::new(&mut random, sizes);
        for _ in 0..=random.below(3) {
            damage(&mut random, &mut bad);
        }
        if let Err(refusal) = bad.compare().answer {
            refusals[refusal.number as usize] += 1;
        }
    }
    assert!((4..=6).all(|number| refusals[number] > 50), "{refusals:?}");
}

fn damage(random: &mut Random, written: &mut Written) {
    let (word, section) = (random.damaged(), random.place(11));
    let length = written.sections[section].len();
    match random.below(5) {
        0 => written.sizes[section % 6] = word,
        1 => written.lent = (written.lent + random.place(9)).saturating_sub(4),
        2 => written.sections[section].push(word),
        _ if length > 0 => written.sections[section][random.place(length)] = word,
        _ => written.sections[section].push(word),
    }
}

/// Every word of a record replaced, every length cut, and bytes added.
#[test]
fn damaged_records() {
    let mut random = Random::new(32);
    let sizes = [[1; 6], [2, 4, 2, 1, 2, 4], [4, 2, 1, 4, 1, 1]];
    let mut records = sizes.map(|sizes| Written::new(&mut random, sizes).record()).to_vec();
    records.push(square_record());
    for record in &records {
        let count = record.len() / 4;
        for place in 0..count {
            let word = u32::from_le_bytes(record[4 * place..4 * place + 4].try_into().expect("four bytes"));
            let near = [word.wrapping_add(1), word.wrapping_sub(1), word.wrapping_add(4), word.wrapping_sub(4)];
            for bad in BOUNDARY_WORDS.into_iter().chain(NO_SIZES).chain(SIZES).chain(near) {
                let answer = compare_read(&with_word(record, place, bad));
                assert!(answer.is_err() || bad == word || place < count - 18);
            }
        }
        for length in 0..record.len() {
            assert!(compare_read(&record[..length]).is_err());
            assert!(compare_read(&record[record.len() - length..]).is_err());
        }
        for extra in 1..80 {
            assert!(compare_read(&[&record[..], &vec![0; extra]].concat()).is_err());
            assert!(compare_read(&[&vec![0; extra], &record[..]].concat()).is_err());
        }
    }
}

/// Words put in or taken out before the trailer, with the last word set right.
#[test]
fn other_total_lengths() {
    let mut random = Random::new(33);
    let mut compared = Compared::default();
    for _ in 0..count(200) {
        let sizes = random.six_sizes(3);
        let record = Written::new(&mut random, sizes).record();
        let (body, trailer) = record.split_at(record.len() - 72);
        let changed = if random.one_in(2) {
            [body, &vec![random.below(256) as u8; 4 * (1 + random.place(3))], trailer].concat()
        } else {
            [&body[4 * (1 + random.place(3))..], trailer].concat()
        };
        let last = changed.len() / 4 - 1;
        let changed = with_word(&changed, last, changed.len() as u32 - 72);
        assert_eq!(compare_read(&changed), Err(Refusal { number: 3, position: 17 }));
        compared.one();
    }
}

#[test]
fn random_damage() {
    let mut random = Random::new(34);
    let mut compared = Compared::default();
    for _ in 0..count(3_000) {
        let sizes = random.six_sizes(2);
        let mut record = Written::new(&mut random, sizes).record();
        for _ in 0..=random.below(4) {
            let place = random.place(record.len() / 4);
            record = match random.below(6) {
                0 => record[..record.len() - 4].to_vec(),
                1 => with_word(&record, record.len() / 4 - 1 - random.place(18), random.damaged()),
                2 => with_word(&record, record.len() / 4 - 1, record.len() as u32 - 72),
                _ => with_word(&record, place, random.damaged()),
            };
        }
        let _ = compare_read(&record);
        compared.one();
    }
}

#[test]
fn random_bytes() {
    let mut random = Random::new(35);
    let mut compared = Compared::default();
    for _ in 0..count(3_000) {
        let length = random.place(200);
        let mut bytes: Vec<u8> = (0..length).map(|_| random.below(256) as u8).collect();
        if length >= 72 && length.is_multiple_of(4) {
            bytes = with_word(&bytes, length / 4 - 1, length as u32 - 72);
        }
        assert!(compare_read(&bytes).is_err());
        compared.one();
    }
}

/// A field word of p or more far in a record, past its first KiB, is refused at its place by the writer, the reader and the finder of
/// sections.
#[test]
fn words_far_in() {
    let mut random = Random::new(37);
    for sizes in [[1024; 6], [64, 1024, 1, 128, 512, 256], [1024, 16, 4, 256, 1, 2]] {
        let good = Written::new(&mut random, sizes);
        let record = good.record();
        let mut place = 0;
        for section in 0..11 {
            let length = good.sections[section].len();
            for word in [0, length / 2, length.saturating_sub(1)].into_iter().filter(|&word| word < length) {
                let refusal = Refusal { number: 6, position: place + word };
                let mut bad = good.clone();
                bad.sections[section][word] = MODULUS;
                assert_eq!(bad.compare().answer, Err(refusal));
                assert_eq!(compare_read(&with_word(&record, place + word, u32::MAX)), Err(refusal));
            }
            place += length;
        }
        assert!(place > 1024, "the record's words go on past 4 KiB");
    }
}

//! The calls on a circuit's words: the same as on its lists where calls made them, and total on all others.

use crate::case::{refusal, UNTOUCHED};
use crate::random::{count, Checked, Random};
use second::{CircuitWords, CIRCUIT_WORDS};

const P: u32 = second::MODULUS;

/// Where matrix B has its total, its counts and its entries.
const TOTAL: usize = 4100;
const COUNTS: usize = 4101;
const ENTRIES: usize = 5125;

/// Words of which all but some are 0.
fn words(given: &[(usize, &[u32])]) -> CircuitWords {
    let mut words = [0; CIRCUIT_WORDS];
    for (place, given) in given {
        words[*place..][..given.len()].copy_from_slice(given);
    }
    CircuitWords::from_words(&words)
}

/// Random changes and looks on lists and on words: every answer and every word must be the same.
#[test]
fn words_that_calls_made() {
    let mut random = Random::new(27);
    let mut checked = Checked::default();
    for _ in 0..count(40) {
        let sizes = random.sizes(5);
        let case = random.case(sizes, 40);
        let mut lists = second::begin_from(sizes, case.lists()).expect("a case's lists are taken");
        let mut words = words(&[]);
        assert_eq!(words.begin(Ok(lists.clone())), Ok(()));
        for _ in 0..100 {
            let matrix = random.below(4) as u32;
            let [row, column] = [sizes[0], sizes[1]].map(|size| random.below(u64::from(size) + 1) as u32);
            let value = if random.below(10) == 0 { P } else { random.below(5) as u32 };
            let entry = [row, column, value];
            assert_eq!(words.add(matrix, entry), lists.add(matrix, entry));
            assert_eq!(words.words(), lists.words());
            assert_eq!(words.find_row(matrix, row), lists.find_row(matrix, row));
            let [row, column] = [sizes[0], sizes[1]].map(|size| random.below(u64::from(size) + 1) as u32);
            assert_eq!(words.remove(matrix, row, column), lists.remove(matrix, row, column));
            assert_eq!(words.words(), lists.words());
            assert_eq!((words.sizes(), words.lists().map(<[u32]>::to_vec)), (lists.sizes(), lists.lists()));
            checked.one();
        }
    }
}

/// A refused beginning leaves the words.
#[test]
fn beginnings() {
    let mut any = words(&[(0, &[u32::MAX]), (TOTAL, &[7, 7, 7])]);
    let before = any.clone();
    assert_eq!(refusal(any.begin(second::begin([1, 2, 4]))), Some((4, 2)));
    assert_eq!(any, before);
    assert_eq!(any.begin(second::begin([1, 2, 2])), Ok(()));
    assert_eq!(any, words(&[(0, &[1, 2, 2])]));
}

/// A total over 1,024 is 1,024 entries, and a count that goes past the total ends there.
#[test]
fn totals_and_counts_too_large() {
    let full = words(&[(0, &[u32::MAX; 3]), (TOTAL, &[u32::MAX, 5, u32::MAX, u32::MAX]), (ENTRIES + 3 * 5 + 1, &[8])]);
    assert_eq!(full.find_row(1, 0), Ok((ENTRIES, 15)));
    assert_eq!(full.find_row(1, 1), Ok((ENTRIES + 15, 3 * 1019)));
    assert_eq!(full.find_row(1, 2), Ok((ENTRIES + 3072, 0)));
    assert_eq!(full.find_row(1, 1023), Ok((ENTRIES + 3072, 0)));
    assert_eq!(refusal(full.find_row(1, 1024)), Some((7, 0)));
    assert_eq!(full.lists()[1].len(), 3072);
    assert_eq!(refusal(full.clone().add(1, [0, 9, 1])), Some((5, 0)));
    let mut removed = full.clone();
    assert_eq!(removed.remove(1, 0, 0), Ok(()));
    let moved = [(0, &[u32::MAX; 3][..]), (TOTAL, &[1023, 4, u32::MAX, u32::MAX]), (ENTRIES + 3 * 4 + 1, &[8])];
    assert_eq!(removed, words(&moved));
    assert_eq!(refusal(full.clone().remove(1, 1, 1)), Some((14, 0)));
    assert_eq!(refusal(full.clone().remove(1, 2, 0)), Some((14, 0)));
    assert_eq!(refusal(full.clone().remove(1, 1024, 0)), Some((14, 0)));
}

/// A row of four entries, as counts have it, of which a total of three leaves three: they are found by column, whatever row they
/// name, and the entry after the total is written over.
#[test]
fn additions_to_any_words() {
    let given: [u32; 12] = [9, 2, 1, 9, 4, 1, 9, 6, 1, 9, 9, 9];
    let memory = words(&[(0, &[4096, 8, 1]), (TOTAL, &[3, 0, 4]), (ENTRIES, &given)]);
    assert_eq!(memory.find_row(1, 1), Ok((ENTRIES, 9)));
    for column in [2, 4, 6] {
        assert_eq!(refusal(memory.clone().add(1, [1, column, 1])), Some((14, 0)));
    }
    let mut added = memory.clone();
    assert_eq!(added.add(1, [1, 3, 7]), Ok(()));
    let moved = [9, 2, 1, 1, 3, 7, 9, 4, 1, 9, 6, 1];
    assert_eq!(added, words(&[(0, &[4096, 8, 1]), (TOTAL, &[4, 0, 4]), (ENTRIES, &moved)]));
    let mut added = memory.clone();
    assert_eq!(added.add(1, [0, 2, 7]), Ok(()));
    let moved = [0, 2, 7, 9, 2, 1, 9, 4, 1, 9, 6, 1];
    assert_eq!(added, words(&[(0, &[4096, 8, 1]), (TOTAL, &[4, 1, 4]), (ENTRIES, &moved)]));
    assert_eq!(refusal(memory.clone().add(1, [1023, 7, 1])), None);
    assert_eq!(refusal(memory.clone().add(1, [1024, 7, 1])), Some((7, 0)));
    assert_eq!(refusal(memory.clone().add(1, [1, 8, 1])), Some((7, 0)));
}

/// A removal looks at rows and columns as the counts and entries have them, past |R| and |C| too. Columns that do not rise are
/// found or not as halving goes, and a count of more entries than there are becomes that of those left.
#[test]
fn removals_from_any_words() {
    let memory = words(&[(TOTAL, &[3]), (COUNTS + 900, &[7]), (ENTRIES, &[0, 6, 1, 0, u32::MAX, 1, 0, 2, 1])]);
    for (column, expected) in [(6, None), (u32::MAX, None), (2, Some((14, 0)))] {
        assert_eq!(refusal(memory.clone().remove(1, 900, column)), expected, "{column}");
    }
    let mut removed = memory.clone();
    assert_eq!(removed.remove(1, 900, u32::MAX), Ok(()));
    assert_eq!(removed, words(&[(TOTAL, &[2]), (COUNTS + 900, &[2]), (ENTRIES, &[0, 6, 1, 0, 2, 1])]));
}

/// A place to add at or to remove from, often one where an entry stands, as the counts have it.
fn any_place(random: &mut Random, words: &CircuitWords, matrix: u32, most: u64) -> (u32, u32) {
    let [row, column] = [(); 2].map(|()| random.below(most.min(1100)) as u32);
    match words.find_row(matrix, row) {
        Ok((start, length)) if length > 0 => {
            let entry = start + 3 * random.below(length as u64 / 3) as usize;
            (row, if random.below(2) == 0 { column } else { words.words()[entry + 1] })
        }
        _ => (row, column),
    }
}

/// Every call answers for any words, and a refused one leaves them.
#[test]
fn any_words() {
    let mut random = Random::new(28);
    let mut done = [0; 3];
    for _ in 0..count(1000) {
        let most = 1 << random.below(32);
        let mut any = [0; CIRCUIT_WORDS];
        any.iter_mut().for_each(|word| *word = random.below(most) as u32);
        for matrix in any[3..].chunks_mut(4097) {
            matrix[0] = random.below(1100) as u32;
            matrix[1..1025].iter_mut().for_each(|count| *count %= 5);
        }
        let words = CircuitWords::from_words(&any);
        let matrix = random.below(4) as u32;
        let (row, column) = any_place(&mut random, &words, matrix, most);
        let mut added = words.clone();
        let is_added = added.add(matrix, [row, column, 1]).is_ok();
        assert_eq!(is_added, added != words);
        let mut removed = words.clone();
        let is_removed = removed.remove(matrix, row, column).is_ok();
        assert_eq!(is_removed, removed != words);
        let found = words.find_row(matrix, row);
        assert!(found.map_or(true, |(start, length)| start + length <= CIRCUIT_WORDS));
        let mut lent: [Vec<u32>; 12] = std::array::from_fn(|_| vec![UNTOUCHED; 1024]);
        let is_indexed = words.index(lent.each_mut().map(Vec::as_mut_slice)).is_ok();
        assert_eq!(is_indexed, lent.iter().flatten().any(|&word| word != UNTOUCHED));
        for (done, answer) in done.iter_mut().zip([is_added, is_removed, found.is_ok()]) {
            *done += u64::from(answer);
        }
    }
    assert!(done.iter().all(|&done| done > 10), "additions, removals and rows: {done:?}");
}

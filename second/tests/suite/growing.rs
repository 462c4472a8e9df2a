//! Circuits that grow by the entry: each refusal at its boundary and in precedence, the words in memory, rows, and entries in any
//! order.

use crate::case::{refusal, square, UNTOUCHED};
use crate::random::{count, Checked, Random};
use second::{GrowingCircuit, Refusal, CIRCUIT_WORDS};

const P: u32 = second::MODULUS;

/// Where the total, the counts and the entries of matrix 0, 1 or 2 stand among the words.
const TOTALS: [usize; 3] = [3, 4100, 8197];
const COUNTS: [usize; 3] = [4, 4101, 8198];
const ENTRIES: [usize; 3] = [1028, 5125, 9222];

fn begin(sizes: [u32; 3]) -> GrowingCircuit {
    second::begin(sizes).expect("these are sizes")
}

/// A circuit of 1,024 rows and columns, one matrix of which has 1,024 entries, one in each row.
fn full(matrix: usize) -> GrowingCircuit {
    let list: Vec<u32> = (0..1024).flat_map(|row| [row, 1023 - row, P - 1]).collect();
    let mut lists = [&[][..]; 3];
    lists[matrix] = &list;
    second::begin_from([1024, 1024, 1], lists).expect("1,024 entries are taken")
}

/// An addition must be refused so, and leave the circuit as it was.
fn check_add(circuit: &GrowingCircuit, matrix: u32, entry: [u32; 3], expected: Option<(u32, usize)>) {
    let mut added = circuit.clone();
    assert_eq!(refusal(added.add(matrix, entry)), expected, "{entry:?} into {matrix}");
    assert_eq!(expected.is_some(), added == *circuit);
}

/// A removal likewise.
fn check_remove(circuit: &GrowingCircuit, matrix: u32, row: u32, column: u32, expected: Option<(u32, usize)>) {
    let mut removed = circuit.clone();
    assert_eq!(refusal(removed.remove(matrix, row, column)), expected, "{row} {column} of {matrix}");
    assert_eq!(expected.is_some(), removed == *circuit);
}

#[test]
fn empty_beginnings() {
    for sizes in [[1, 1, 1], [4, 8, 2], [1024, 1024, 1024], [1, 1024, 1], [1024, 1, 1]] {
        let mut expected = sizes.to_vec();
        expected.resize(CIRCUIT_WORDS, 0);
        assert_eq!(begin(sizes).words(), expected);
        assert_eq!(second::begin_from(sizes, [&[], &[], &[]]), second::begin(sizes));
    }
    for size in [0, 3, 1023, 1025, 2048, 1 << 31, u32::MAX] {
        assert_eq!(refusal(second::begin([size, size, size])), Some((4, 0)));
        assert_eq!(refusal(second::begin([1024, size, size])), Some((4, 1)));
        assert_eq!(refusal(second::begin([1024, 1024, size])), Some((4, 2)));
    }
    assert_eq!(refusal(second::begin([4, 2, 4])), Some((4, 2)));
}

#[test]
fn beginnings_from_lists() {
    let begin_from = |sizes, entries| refusal(second::begin_from(sizes, entries));
    let (good, long) = ([0, 1, 1].as_slice(), [P; 3 * 1025].as_slice());
    assert_eq!(begin_from([2, 2, 1], [good; 3]), None);
    assert_eq!(begin_from([2, 3, 1], [long; 3]), Some((4, 1)));
    assert_eq!(begin_from([2, 2, 1], [good, &[0, 1], long]), Some((5, 1)));
    assert_eq!(begin_from([2, 2, 1], [&[5, 5, P], good, long]), Some((5, 2)));
    assert_eq!(begin_from([2, 2, 1], [&[5, 5, 0], good, &[0, 0, 1, 0, 0, P]]), Some((6, 3)));
    assert_eq!(begin_from([2, 2, 1], [good, &[2, 1, 1], good]), Some((7, 1)));
    assert_eq!(begin_from([2, 2, 1], [good, good, &[0, 2, 1]]), Some((7, 2)));
    assert_eq!(begin_from([2, 2, 1], [good, good, &[0, 0, 1, 0, 1, 0]]), Some((7, 3)));
    assert_eq!(begin_from([2, 2, 1], [&[1, 0, 1, 0, 1, 1], good, good]), Some((7, 1)));
    assert_eq!(begin_from([2, 2, 1], [good, &[0, 1, 1, 0, 1, 1], good]), Some((7, 2)));
}

/// The circuit of the square case, with one entry more in A.
#[test]
fn words() {
    let mut circuit =
        second::begin_from([2, 2, 1], [&[0, 1, 1], &[0, 1, 1], &[0, 0, 9]]).expect("lists of the indexer");
    assert_eq!(circuit.add(0, [1, 0, 7]), Ok(()));
    let mut expected = vec![0; 12_294];
    expected[..3].copy_from_slice(&[2, 2, 1]);
    for (matrix, counts) in [[1, 1], [1, 0], [1, 0]].into_iter().enumerate() {
        expected[TOTALS[matrix]] = counts.iter().sum();
        expected[COUNTS[matrix]..][..2].copy_from_slice(&counts);
    }
    expected[ENTRIES[0]..][..6].copy_from_slice(&[0, 1, 1, 1, 0, 7]);
    expected[ENTRIES[1]..][..3].copy_from_slice(&[0, 1, 1]);
    expected[ENTRIES[2]..][..3].copy_from_slice(&[0, 0, 9]);
    assert_eq!(circuit.words(), expected);
    assert_eq!(circuit.remove(0, 0, 1), Ok(()));
    expected[TOTALS[0]] = 1;
    expected[COUNTS[0]..][..2].copy_from_slice(&[0, 1]);
    expected[ENTRIES[0]..][..6].copy_from_slice(&[1, 0, 7, 0, 0, 0]);
    assert_eq!(circuit.words(), expected);
    assert_eq!(CIRCUIT_WORDS, expected.len());
}

#[test]
fn additions_at_boundaries() {
    let circuit = begin([4, 8, 2]);
    for matrix in 0..3 {
        check_add(&circuit, matrix, [3, 7, P - 1], None);
        check_add(&circuit, matrix, [0, 0, 1], None);
        check_add(&circuit, matrix, [0, 0, P], Some((6, 0)));
        check_add(&circuit, matrix, [0, 0, u32::MAX], Some((6, 0)));
        check_add(&circuit, matrix, [4, 0, 1], Some((7, 0)));
        check_add(&circuit, matrix, [0, 8, 1], Some((7, 0)));
        check_add(&circuit, matrix, [u32::MAX, u32::MAX, 1], Some((7, 0)));
        check_add(&circuit, matrix, [0, 0, 0], Some((7, 0)));
        let mut added = circuit.clone();
        assert_eq!(added.add(matrix, [2, 5, 1]), Ok(()));
        check_add(&added, matrix, [2, 5, 1], Some((14, 0)));
        check_add(&added, matrix, [2, 5, 2], Some((14, 0)));
        check_add(&added, matrix, [2, 4, 1], None);
        check_add(&added, matrix, [1, 5, 1], None);
        check_add(&added, (matrix + 1) % 3, [2, 5, 1], None);
    }
    for matrix in [3, 4, 1 << 16, 1 << 31, u32::MAX] {
        check_add(&circuit, matrix, [0, 0, 1], Some((5, 0)));
    }
}

/// 5 before 6 before 7 before 14.
#[test]
fn additions_in_precedence() {
    for matrix in 0..3 {
        let circuit = full(matrix as usize);
        for entry in [[0, 0, 1], [0, 1023, 1], [0, 1023, P], [1024, 1023, 1], [0, 1023, 0], [u32::MAX; 3]] {
            check_add(&circuit, matrix, entry, Some((5, 0)));
            check_add(&circuit, 3, entry, Some((5, 0)));
        }
        let mut circuit = circuit;
        assert_eq!(circuit.remove(matrix, 1023, 0), Ok(()));
        check_add(&circuit, matrix, [1024, 1024, P], Some((6, 0)));
        check_add(&circuit, matrix, [0, 1023, P], Some((6, 0)));
        check_add(&circuit, matrix, [0, 1023, 0], Some((7, 0)));
        check_add(&circuit, matrix, [0, 1023, 1], Some((14, 0)));
        check_add(&circuit, matrix, [1023, 1023, 1], None);
    }
}

#[test]
fn removals() {
    let mut circuit = begin([4, 8, 2]);
    check_remove(&circuit, 0, 0, 0, Some((14, 0)));
    assert_eq!(circuit.add(1, [2, 5, 6]), Ok(()));
    check_remove(&circuit, 1, 2, 5, None);
    for (row, column) in [(2, 4), (2, 6), (1, 5), (3, 5), (5, 2), (4, 0), (0, 8), (2, u32::MAX), (u32::MAX, 5)] {
        check_remove(&circuit, 1, row, column, Some((14, 0)));
    }
    for matrix in [0, 2, 3, 1 << 31, u32::MAX] {
        check_remove(&circuit, matrix, 2, 5, Some((14, 0)));
    }
    let mut removed = circuit.clone();
    assert_eq!(removed.remove(1, 2, 5), Ok(()));
    assert_eq!(removed, begin([4, 8, 2]));
    check_remove(&removed, 1, 2, 5, Some((14, 0)));
}

#[test]
fn rows() {
    let mut circuit = begin([4, 8, 2]);
    for entry in [[3, 0, 1], [1, 7, 2], [1, 0, 3], [1, 3, 4], [0, 5, 6]] {
        assert_eq!(circuit.add(2, entry), Ok(()));
    }
    let start = ENTRIES[2];
    assert_eq!(circuit.find_row(2, 0), Ok((start, 3)));
    assert_eq!(circuit.find_row(2, 1), Ok((start + 3, 9)));
    assert_eq!(circuit.find_row(2, 2), Ok((start + 12, 0)));
    assert_eq!(circuit.find_row(2, 3), Ok((start + 12, 3)));
    assert_eq!(circuit.row(2, 1), Ok(vec![1, 0, 3, 1, 3, 4, 1, 7, 2]));
    assert_eq!(circuit.words()[start + 3..][..9], [1, 0, 3, 1, 3, 4, 1, 7, 2]);
    assert_eq!(circuit.row(2, 2), Ok(vec![]));
    assert_eq!(circuit.find_row(0, 3), Ok((ENTRIES[0], 0)));
    for (matrix, row) in [(2, 4), (2, 1024), (0, u32::MAX), (3, 0), (3, 4), (u32::MAX, 1)] {
        assert_eq!(refusal(circuit.find_row(matrix, row)), Some((7, 0)));
        assert_eq!(refusal(circuit.row(matrix, row)), Some((7, 0)));
    }
    assert_eq!(refusal(begin([1024, 1, 1]).find_row(0, 1023)), None);
    assert_eq!(refusal(begin([1024, 1, 1]).find_row(0, 1024)), Some((7, 0)));
}

/// All cells of a matrix with 32 rows and columns, which are 1,024, in random orders: each order ends in the same words.
#[test]
fn full_matrices_in_any_order() {
    let mut random = Random::new(25);
    for matrix in 0..3 {
        let list: Vec<u32> = (0..1024).flat_map(|place| [place / 32, place % 32, 1 + place]).collect();
        let mut lists = [&[][..]; 3];
        lists[matrix] = &list;
        let expected = second::begin_from([32, 32, 4], lists).expect("1,024 entries are taken");
        let mut circuit = begin([32, 32, 4]);
        for place in random.order(1024) {
            assert_eq!(circuit.add(matrix as u32, [place / 32, place % 32, 1 + place]), Ok(()));
        }
        assert_eq!(circuit, expected);
        assert_eq!(circuit.words()[ENTRIES[matrix]..][..3072], list);
        assert_eq!(circuit.words()[COUNTS[matrix]..][..33], [&[32; 32][..], &[0]].concat());
        check_add(&circuit, matrix as u32, [0, 0, 1], Some((5, 0)));
        for place in random.order(1024) {
            assert_eq!(circuit.remove(matrix as u32, place / 32, place % 32), Ok(()));
        }
        assert_eq!(circuit, begin([32, 32, 4]));
    }
}

/// The indexer's call on a grown circuit, with lent slices of given lengths, and that on the same entries as lists.
fn check_index(circuit: &GrowingCircuit, lengths: [usize; 12]) -> Result<(), Refusal> {
    let [mut grown, mut listed] = [(); 2].map(|()| lengths.map(|length| vec![UNTOUCHED; length]));
    let answer = circuit.index(grown.each_mut().map(Vec::as_mut_slice));
    let lists = circuit.lists();
    let lent = listed.each_mut().map(Vec::as_mut_slice);
    assert_eq!(answer, second::index(circuit.sizes(), lists.each_ref().map(Vec::as_slice), lent));
    assert_eq!(grown, listed);
    assert_eq!(answer.is_err(), grown.iter().flatten().all(|&word| word == UNTOUCHED));
    answer
}

#[test]
fn indices() {
    let case = square();
    let mut circuit = begin(case.sizes);
    for (matrix, list) in case.entries.iter().enumerate() {
        assert_eq!(circuit.add(matrix as u32, [list[0], list[1], list[2]]), Ok(()));
    }
    assert_eq!(circuit.lists(), case.entries);
    assert_eq!(check_index(&circuit, [1; 12]), Ok(()));
    for slice in 0..12 {
        let mut lengths = [1; 12];
        lengths[slice] = 2;
        assert_eq!(refusal(check_index(&circuit, lengths)), Some((5, 3 + slice)));
    }
    let mut random = Random::new(26);
    let mut checked = Checked::default();
    for _ in 0..count(100) {
        let sizes = random.sizes(4);
        let case = random.case(sizes, 20);
        let grown = second::begin_from(sizes, case.lists()).expect("a case's lists are taken");
        let [a, b, c] = case.places().map(|size| size as usize);
        assert_eq!(check_index(&grown, [a, a, a, a, b, b, b, b, c, c, c, c]), Ok(()));
        checked.one();
    }
}

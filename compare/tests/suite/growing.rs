//! Circuits that grow by the entry beside the second implementation's: long sequences of additions, removals and looks, full matrices,
//! refusals in precedence, entries in any order, and memory that no call made.

use compare::calls::{circuit_call, CircuitCall, Side};
use compare::damage::{combined, Fault};
use compare::growing::{count_place, entry_place, total_place, Answers, Beginning, Call, Pair, Words};
use compare::library::{CIRCUIT_WORDS, UNWRITTEN};
use compare::random::{count, Compared, Random, BOUNDARY_WORDS, NO_SIZES, SIZES};
use second::{Refusal, MODULUS};

/// Numbers that no matrix has.
const NO_MATRICES: [u32; 5] = [3, 4, 1 << 16, 1 << 31, u32::MAX];
/// A place where an entry may be added is looked for so often.
const TRIES: usize = 20;

/// A circuit that begins as it must.
fn begun(answers: &mut Answers, beginning: &Beginning) -> Pair {
    let (pair, answer) = Pair::begun(answers, beginning);
    assert_eq!(answer, Ok(()), "{beginning:?}");
    pair
}

/// Each of these calls must be answered so.
fn expect(pair: &Pair, answers: &mut Answers, calls: &[Call], refused: Option<u32>) {
    for call in calls {
        let answer = pair.clone().call(answers, call).answer;
        assert_eq!(answer.err(), refused.map(|number| Refusal { number, position: 0 }), "{call:?}");
    }
}

/// The row and column of an entry of a matrix, where it has any.
fn standing(random: &mut Random, pair: &Pair, matrix: usize) -> Option<(u32, u32)> {
    let entries = pair.entries(matrix);
    (entries > 0).then(|| {
        let place = entry_place(matrix, random.place(entries));
        (pair.memory()[place], pair.memory()[place + 1])
    })
}

/// A row and column of a circuit with any sizes.
fn any_cell(random: &mut Random, sizes: [u32; 3]) -> (u32, u32) {
    (random.below(u64::from(sizes[0].max(1))) as u32, random.below(u64::from(sizes[1].max(1))) as u32)
}

/// A number past a size, or near it.
fn past(random: &mut Random, size: u32) -> u32 {
    random.one_of(&[size, size.wrapping_add(1), 1023, 1024, 1025, u32::MAX])
}

/// An addition that is mostly done: the value, the place or the matrix may be at fault, or several, and an entry may stand there.
fn any_addition(random: &mut Random, pair: &Pair) -> Call {
    let (mut matrix, sizes) = (random.place(3) as u32, pair.sizes());
    let (mut row, mut column) = any_cell(random, sizes);
    let mut value = random.nonzero();
    if random.one_in(8) {
        (row, column) = standing(random, pair, matrix as usize).unwrap_or((row, column));
    }
    for _ in 0..2 {
        match random.below(30) {
            0 => value = random.one_of(&BOUNDARY_WORDS),
            1 => value = 0,
            2 => row = past(random, sizes[0]),
            3 => column = past(random, sizes[1]),
            4 => matrix = random.one_of(&NO_MATRICES),
            _ => (),
        }
    }
    Call::Add(matrix, [row, column, value])
}

/// A removal that is mostly done: the place may be empty or off the matrix.
fn any_removal(random: &mut Random, pair: &Pair) -> Call {
    let (mut matrix, sizes) = (random.place(3) as u32, pair.sizes());
    let (mut row, mut column) = any_cell(random, sizes);
    if !random.one_in(6) {
        (row, column) = standing(random, pair, matrix as usize).unwrap_or((row, column));
    }
    match random.below(30) {
        0 => row = past(random, sizes[0]),
        1 => column = past(random, sizes[1]),
        2 => matrix = random.one_of(&NO_MATRICES),
        _ => (),
    }
    Call::Remove(matrix, row, column)
}

/// A look at a row, which may be past its domain or of no matrix.
fn any_look(random: &mut Random, pair: &Pair) -> Call {
    let (mut matrix, sizes) = (random.place(3) as u32, pair.sizes());
    let mut row = any_cell(random, sizes).0;
    match random.below(10) {
        0 => row = past(random, sizes[0]),
        1 => matrix = random.one_of(&NO_MATRICES),
        2..=5 => row = standing(random, pair, matrix as usize).map_or(row, |(row, _)| row),
        _ => (),
    }
    Call::Row(matrix, row)
}

/// The index with lent slices of the right lengths, or of a wrong one.
fn any_index(random: &mut Random, pair: &Pair) -> Call {
    let mut lengths = pair.index_lengths();
    if random.one_in(2) {
        let length = &mut lengths[random.place(12)];
        *length = random.one_of(&[0, 1, *length - 1, *length + 1, 2 * *length]);
    }
    Call::Index(lengths)
}

/// A call of a sequence: of ten changes so many are additions.
fn any_call(random: &mut Random, pair: &Pair, additions: u64) -> Call {
    match random.below(5) {
        0 => any_look(random, pair),
        _ if random.below(10) < additions => any_addition(random, pair),
        _ => any_removal(random, pair),
    }
}

/// A sequence of calls, in which the circuit grows for a while and then shrinks, and so on; then all rows, and the index.
fn compare_sequence(random: &mut Random, pair: &mut Pair, answers: &mut Answers, calls: usize) {
    let mut additions = 8;
    for _ in 0..calls {
        if random.one_in(100) {
            additions = random.one_of(&[1, 3, 5, 8, 9]);
        }
        let call = any_call(random, pair, additions);
        pair.call(answers, &call);
    }
    compare_rows(pair, answers);
    for _ in 0..2 {
        let call = any_index(random, pair);
        pair.call(answers, &call);
    }
}

/// Every row, and the first past the last: together the rows are the matrix's part of memory.
fn compare_rows(pair: &mut Pair, answers: &mut Answers) {
    for matrix in 0..3 {
        let mut next = entry_place(matrix as usize, 0);
        for row in 0..=pair.sizes()[0] {
            match pair.call(answers, &Call::Row(matrix, row)).answer {
                Ok(place) => {
                    assert_eq!(place[0] as usize, next, "row {row} of {matrix} begins where the one before it ends");
                    next += place[1] as usize;
                }
                Err(refusal) => assert_eq!((row, refusal.number), (pair.sizes()[0], 7)),
            }
        }
        assert_eq!(next, entry_place(matrix as usize, pair.entries(matrix as usize)), "the last row of {matrix}");
    }
}

/// Fails unless every call but the beginnings gave every answer that it can give on a circuit that calls made.
fn expect_all(answers: &Answers, least: u64) {
    answers.expect(least, "add", &[0, 5, 6, 7, 14]);
    answers.expect(least, "remove", &[0, 14]);
    answers.expect(least, "row", &[0, 7]);
    answers.expect(least, "index", &[0, 5]);
}

#[test]
fn small_sizes() {
    let mut random = Random::new(100);
    let mut answers = Answers::default();
    for round in 0..count(200) {
        let beginning = match round % 2 {
            0 => Beginning::Empty(random.sizes(4)),
            _ => {
                let case = random.case(4);
                Beginning::From(case.sizes, case.entries)
            }
        };
        let mut pair = begun(&mut answers, &beginning);
        compare_sequence(&mut random, &mut pair, &mut answers, 400);
    }
    expect_all(&answers, 20);
    answers.expect(20, "begin", &[0]);
    answers.expect(20, "begin_from", &[0]);
}

#[test]
fn large_sizes() {
    let mut random = Random::new(101);
    let mut answers = Answers::default();
    for _ in 0..count(4) {
        for sizes in [[1024, 1024, 256], [512, 8, 8], [16, 512, 4], [1, 1024, 1], [1024, 1, 1]] {
            let case = random.case_of(sizes, 200);
            let mut pair = begun(&mut answers, &Beginning::From(sizes, case.entries));
            compare_sequence(&mut random, &mut pair, &mut answers, 1_000);
            pair = begun(&mut answers, &Beginning::Empty(sizes));
            compare_sequence(&mut random, &mut pair, &mut answers, 1_000);
        }
    }
    expect_all(&answers, 4);
}

/// A free cell of a matrix, where one is found soon.
fn free_cell(random: &mut Random, pair: &Pair, matrix: usize) -> Option<(u32, u32)> {
    let part = pair.parts()[matrix];
    let stands = |(row, column)| part.chunks(3).any(|entry| entry[..2] == [row, column]);
    (0..TRIES).map(|_| any_cell(random, pair.sizes())).find(|&cell| !stands(cell))
}

/// All cells of a matrix or, where they are more than 1,024, so many of them, in any order.
fn cells(random: &mut Random, sizes: [u32; 3]) -> Vec<(u32, u32)> {
    let (rows, columns) = (sizes[0], sizes[1]);
    let most = (rows * columns) as usize;
    let mut cells: Vec<(u32, u32)> =
        random.order(most).into_iter().map(|cell| (cell / columns, cell % columns)).collect();
    cells.truncate(1024);
    cells
}

/// A matrix grows to 1,024 entries, takes no more, and shrinks to none, which leaves memory as it was at first. The other matrices
/// hold some entries all the while.
fn full_and_back(random: &mut Random, answers: &mut Answers, sizes: [u32; 3], matrix: u32) {
    let mut case = random.case_of(sizes, 50);
    case.entries[matrix as usize].clear();
    let mut pair = begun(answers, &Beginning::From(sizes, case.entries));
    let first = *pair.memory();
    let entries = cells(random, sizes);
    assert_eq!(entries.len(), 1024);
    for &(row, column) in &entries {
        let answer = pair.call(answers, &Call::Add(matrix, [row, column, random.nonzero()])).answer;
        assert_eq!(answer, Ok(Vec::new()));
    }
    assert_eq!(pair.memory()[total_place(matrix as usize)], 1024);
    let (row, column) = entries[0];
    let occupied = [[row, column, 1], [row, column, 0], [row, column, MODULUS], [sizes[0], column, 1], [u32::MAX; 3]];
    expect(&pair, answers, &occupied.map(|entry| Call::Add(matrix, entry)), Some(5));
    if let Some((row, column)) = free_cell(random, &pair, matrix as usize) {
        expect(&pair, answers, &[Call::Add(matrix, [row, column, 1])], Some(5));
    }
    compare_rows(&mut pair, answers);
    for place in random.order(1024) {
        let (row, column) = entries[place as usize];
        assert_eq!(pair.call(answers, &Call::Remove(matrix, row, column)).answer, Ok(Vec::new()));
    }
    assert!(*pair.memory() == first, "a matrix that was filled and emptied again leaves other words than before");
    expect(&pair, answers, &[Call::Remove(matrix, row, column)], Some(14));
    expect(&pair, answers, &[Call::Add(matrix, [row, column, 1])], None);
}

#[test]
fn up_to_full_matrices_and_back() {
    let mut random = Random::new(102);
    let mut answers = Answers::default();
    for _ in 0..count(1) {
        for (sizes, matrix) in [
            ([32, 32, 4], 0),
            ([32, 32, 32], 1),
            ([64, 16, 1], 2),
            ([1024, 1024, 256], 0),
            ([256, 512, 2], 1),
            ([1, 1024, 1], 2),
            ([1024, 1, 1], 0),
            ([1024, 1024, 1], 2),
        ] {
            full_and_back(&mut random, &mut answers, sizes, matrix);
        }
    }
    answers.expect(8 * 1024, "add", &[0]);
    answers.expect(8 * 1024, "remove", &[0]);
    answers.expect(40, "add", &[5]);
}

/// Three lists of 1,024 entries.
fn full_lists(random: &mut Random, sizes: [u32; 3]) -> [Vec<u32>; 3] {
    [(); 3].map(|()| {
        let mut cells = cells(random, sizes);
        cells.sort();
        cells.into_iter().flat_map(|(row, column)| [row, column, random.nonzero()]).collect()
    })
}

/// Sequences that begin a few entries below 1,024 and grow more than they shrink: matrices are full again and again.
#[test]
fn about_full_matrices() {
    let mut random = Random::new(109);
    let mut answers = Answers::default();
    let mut full = 0;
    for _ in 0..count(1) {
        for sizes in [[64, 64, 4], [1024, 1024, 1], [2, 1024, 2], [1024, 2, 1]] {
            let lists = full_lists(&mut random, sizes).map(|list| list[3 * random.place(12)..].to_vec());
            let mut pair = begun(&mut answers, &Beginning::From(sizes, lists));
            for _ in 0..800 {
                let call = any_call(&mut random, &pair, 8);
                pair.call(&mut answers, &call);
                full += (0..3).filter(|&matrix| pair.entries(matrix) == 1024).count();
            }
            compare_rows(&mut pair, &mut answers);
        }
    }
    assert!(full > 500, "a matrix was full after {full} calls");
    answers.expect(100, "add", &[0, 5]);
    answers.expect(30, "remove", &[0, 14]);
}

/// Three matrices of 1,024 entries, the first of which was added last: additions that all refuse, and the index.
#[test]
fn three_full_matrices() {
    let mut random = Random::new(103);
    let mut answers = Answers::default();
    let sizes = [1024, 1024, 256];
    let lists = full_lists(&mut random, sizes);
    let full = begun(&mut answers, &Beginning::From(sizes, lists.clone()));
    let mut pair = begun(&mut answers, &Beginning::From(sizes, lists.clone().map(|list| list[3..].to_vec())));
    for (matrix, list) in (0..).zip(&lists) {
        let first = [list[0], list[1], list[2]];
        assert_eq!(pair.call(&mut answers, &Call::Add(matrix, first)).answer, Ok(Vec::new()));
        expect(&pair, &mut answers, &[Call::Add(matrix, first)], Some(5));
    }
    assert!(pair.memory() == full.memory(), "the first entry added last gives other words");
    assert_eq!(pair.call(&mut answers, &Call::Index([1024; 12])).answer, Ok(Vec::new()));
    for slice in 0..12 {
        let mut lengths = [1024; 12];
        lengths[slice] = random.one_of(&[0, 1, 512, 1023, 1025, 2048]);
        let refused = Err(Refusal { number: 5, position: 3 + slice });
        assert_eq!(pair.call(&mut answers, &Call::Index(lengths)).answer, refused);
    }
}

/// The matrix full, the value p, the column past its domain and the place occupied, in every combination: the first down the table
/// must win. A value of 0 comes after a full matrix and before an occupied place.
#[test]
fn additions_in_precedence() {
    type Addition = (Vec<u32>, [u32; 3]);
    let refusal = |number| Refusal { number, position: 0 };
    let faults: [Fault<Addition>; 4] = [
        (refusal(5), |(list, _)| *list = (0..1024).flat_map(|place| [1 + place / 32, place % 32, 1]).collect()),
        (refusal(6), |(_, entry)| entry[2] = MODULUS),
        (refusal(7), |(_, entry)| entry[1] = 32),
        (refusal(14), |(list, _)| {
            list.truncate(3069);
            list.extend([40, 9, 5]);
        }),
    ];
    let mut answers = Answers::default();
    for matrix in 0..3 {
        for ((list, entry), first) in combined(&(vec![7, 3, 1], [40, 9, 2]), &faults) {
            let mut lists = [Vec::new(), Vec::new(), Vec::new()];
            lists[matrix as usize] = list;
            let pair = begun(&mut answers, &Beginning::From([64, 32, 2], lists));
            expect(&pair, &mut answers, &[Call::Add(matrix, entry)], first.map(|refusal| refusal.number));
            for no_matrix in NO_MATRICES {
                expect(&pair, &mut answers, &[Call::Add(no_matrix, entry)], Some(5));
            }
            let zero = first.filter(|refusal| refusal.number == 5).map_or(7, |refusal| refusal.number);
            expect(&pair, &mut answers, &[Call::Add(matrix, [entry[0], entry[1], 0])], Some(zero));
        }
    }
    answers.expect(3, "add", &[0, 5, 6, 7, 14]);
}

/// Rows, columns and values next to their limits, at every size, and rows past their domain.
#[test]
fn boundaries() {
    let mut answers = Answers::default();
    for rows in SIZES {
        for columns in SIZES {
            let mut pair = begun(&mut answers, &Beginning::Empty([rows, columns, 1]));
            for matrix in 0..3 {
                let (row, column) = (rows - 1, columns - 1);
                let add = |row, column, value| Call::Add(matrix, [row, column, value]);
                expect(&pair, &mut answers, &[add(row, column, MODULUS), add(row, column, u32::MAX)], Some(6));
                expect(
                    &pair,
                    &mut answers,
                    &[add(rows, column, 1), add(row, columns, 1), add(row, column, 0)],
                    Some(7),
                );
                expect(&pair, &mut answers, &[Call::Remove(matrix, row, column)], Some(14));
                assert_eq!(pair.call(&mut answers, &add(row, column, MODULUS - 1)).answer, Ok(Vec::new()));
                expect(&pair, &mut answers, &[add(row, column, 1)], Some(14));
                let off = [(rows, column), (row, columns), (u32::MAX, column), (row, u32::MAX), (1024, 0)];
                expect(&pair, &mut answers, &off.map(|(row, column)| Call::Remove(matrix, row, column)), Some(14));
                expect(&pair, &mut answers, &[Call::Row(matrix, row)], None);
                let past = [rows, rows + 1, 1024, u32::MAX].map(|row| Call::Row(matrix, row));
                expect(&pair, &mut answers, &past, Some(7));
            }
            for matrix in NO_MATRICES {
                expect(&pair, &mut answers, &[Call::Remove(matrix, 0, 0)], Some(14));
                expect(&pair, &mut answers, &[Call::Row(matrix, 0)], Some(7));
            }
        }
    }
}

/// Sizes that are refused, and those that are not, each at its place.
#[test]
fn empty_beginnings() {
    let mut answers = Answers::default();
    for size in SIZES.into_iter().chain(NO_SIZES).chain(BOUNDARY_WORDS) {
        for sizes in [[size, 8, 2], [4, size, 1], [4, 8, size], [size, size, size], [4, size, 2 * (size % 1024)]] {
            Pair::begun(&mut answers, &Beginning::Empty(sizes)).1.ok();
            Pair::begun(&mut answers, &Beginning::From(sizes, [vec![7, 7], vec![], vec![1; 4000]])).1.ok();
        }
    }
    answers.expect(20, "begin", &[0, 4]);
    answers.expect(20, "begin_from", &[4, 5]);
}

/// Good lists and damaged ones: a beginning is refused as the indexer is.
#[test]
fn beginnings_from_lists() {
    let mut random = Random::new(104);
    let mut answers = Answers::default();
    for _ in 0..count(2_500) {
        let mut case = random.case(4);
        if !random.one_in(4) {
            case = random.damaged_case(&case);
        }
        case.lend_again();
        let indexed = circuit_call(Side::Library, CircuitCall::Index, &case).answer;
        let (mut pair, answer) = Pair::begun(&mut answers, &Beginning::From(case.sizes, case.entries.clone()));
        assert_eq!(answer.err(), indexed.err(), "{case}");
        match answer {
            Ok(()) => compare_sequence(&mut random, &mut pair, &mut answers, 10),
            Err(_) => assert!(*pair.memory() == [UNWRITTEN; CIRCUIT_WORDS]),
        }
    }
    answers.expect(10, "begin_from", &[0, 4, 5, 6, 7]);
}

/// Lists of 1,024 entries are taken, of 1,025 refused.
#[test]
fn entry_limit() {
    let mut answers = Answers::default();
    let long: Vec<u32> = (0..1025).flat_map(|place| [place / 32, place % 32, 1 + place]).collect();
    for matrix in 0..3 {
        let mut lists = [Vec::new(), Vec::new(), Vec::new()];
        lists[matrix] = long[..3072].to_vec();
        let pair = begun(&mut answers, &Beginning::From([64, 32, 4], lists.clone()));
        expect(&pair, &mut answers, &[Call::Add(matrix as u32, [32, 0, 1])], Some(5));
        lists[matrix] = long.clone();
        let (_, answer) = Pair::begun(&mut answers, &Beginning::From([64, 32, 4], lists));
        assert_eq!(answer, Err(Refusal { number: 5, position: matrix }));
    }
}

/// The entries of three lists, each with its matrix, in any order.
fn shuffled(random: &mut Random, lists: &[Vec<u32>; 3]) -> Vec<(u32, [u32; 3])> {
    let of_matrix = |(matrix, list): (u32, &Vec<u32>)| {
        let entries: Vec<_> = list.chunks(3).map(|entry| (matrix, [entry[0], entry[1], entry[2]])).collect();
        entries
    };
    let entries: Vec<(u32, [u32; 3])> = (0..).zip(lists).flat_map(of_matrix).collect();
    random.order(entries.len()).into_iter().map(|place| entries[place as usize]).collect()
}

/// The same entries in several orders give the memory of their lists.
#[test]
fn any_order() {
    let mut random = Random::new(105);
    let mut compared = Compared::default();
    let mut answers = Answers::default();
    for round in 0..count(30) {
        let case = match round % 10 {
            0 => random.case_of([1024, 64, 4], 600),
            _ => random.case(4),
        };
        let listed = begun(&mut answers, &Beginning::From(case.sizes, case.entries.clone()));
        for _ in 0..2 {
            let mut pair = begun(&mut answers, &Beginning::Empty(case.sizes));
            for (matrix, entry) in shuffled(&mut random, &case.entries) {
                assert_eq!(pair.call(&mut answers, &Call::Add(matrix, entry)).answer, Ok(Vec::new()), "{case}");
            }
            assert!(pair.memory() == listed.memory(), "entries in another order give other words:\n{case}");
            compared.one();
        }
    }
    answers.expect(200, "add", &[0]);
}

/// Words of any size, few of which are as calls leave them.
fn any_words(random: &mut Random) -> Words {
    let mut words = [0; CIRCUIT_WORDS];
    let bits = 1 + random.below(32);
    words.iter_mut().for_each(|word| *word = (u64::from(random.any()) & ((1 << bits) - 1)) as u32);
    if random.one_in(2) {
        words[..3].copy_from_slice(&random.sizes(10));
    }
    for matrix in 0..3 {
        match random.below(4) {
            0 => (),
            1 => words[total_place(matrix)] = random.damaged(),
            _ => words[total_place(matrix)] = random.below(1100) as u32,
        }
        if !random.one_in(4) {
            let most = random.one_of(&[1, 2, 3, 5, 20]) + 1;
            (0..1024).for_each(|row| words[count_place(matrix, row)] %= most);
        }
    }
    words
}

/// A good circuit's words with some replaced: sizes, totals, counts, words of entries, or entries that change places.
fn damaged_words(random: &mut Random, good: &Pair) -> Words {
    let mut words = *good.memory();
    for _ in 0..=random.below(4) {
        let (matrix, row) = (random.place(3), random.place(1024).min(random.place(1024)));
        let near = random.place(good.entries(matrix) + 2).min(1023);
        let word = match random.below(3) {
            0 => random.one_of(&SIZES),
            1 => random.below(6) as u32,
            _ => random.damaged(),
        };
        match random.below(9) {
            0 => words[random.place(3)] = word,
            1 => words[total_place(matrix)] = word,
            2 => words[total_place(matrix)] = words[total_place(matrix)].wrapping_add(random.one_of(&[1, 2, u32::MAX])),
            3 => words[count_place(matrix, row)] = word,
            4 => {
                let row = standing(random, good, matrix).map_or(row, |(row, _)| row as usize);
                let count = &mut words[count_place(matrix, row)];
                *count = count.wrapping_add(random.one_of(&[1, 2, 3, u32::MAX]));
            }
            5 => words[entry_place(matrix, near) + random.place(3)] = word,
            6 => words[entry_place(matrix, near) + 2] = random.one_of(&[MODULUS, MODULUS + 1, u32::MAX]),
            _ => {
                let [first, second] = [near, random.place(near + 1)].map(|entry| entry_place(matrix, entry));
                (0..3).for_each(|word| words.swap(first + word, second + word));
            }
        }
    }
    words
}

/// A cell to change in memory that no call made: mostly one that stands there, as the counts have it.
fn found_cell(random: &mut Random, pair: &mut Pair, answers: &mut Answers, matrix: u32) -> Option<(u32, u32)> {
    let row = random.place(1024).min(random.place(64)) as u32;
    let place = pair.call(answers, &Call::Row(matrix, row)).answer.ok()?;
    let entries = place[1] as usize / 3;
    (entries > 0).then(|| (row, pair.memory()[place[0] as usize + 3 * random.place(entries) + 1]))
}

/// All calls on memory that no call made, one after the other.
fn compare_any_memory(random: &mut Random, answers: &mut Answers, words: &Words) {
    let mut pair = Pair::of_words(words);
    for _ in 0..4 {
        let matrix = random.place(3) as u32;
        let cell = found_cell(random, &mut pair, answers, matrix);
        let mut calls = vec![any_addition(random, &pair), any_removal(random, &pair), any_look(random, &pair)];
        if let Some((row, column)) = cell {
            let other = column.wrapping_add(random.one_of(&[1, 2, u32::MAX]));
            calls.push(Call::Add(matrix, [row, other, 1]));
            calls.push(Call::Add(matrix, [row, column, 1]));
            calls.push(Call::Remove(matrix, row, column));
        }
        for call in calls {
            pair.call(answers, &call);
        }
    }
    if pair.parts().iter().all(|part| part.len() <= 3 * 64) || random.one_in(20) {
        let call = any_index(random, &pair);
        pair.call(answers, &call);
    }
}

/// Random words.
#[test]
fn memory_of_any_words() {
    let mut random = Random::new(106);
    let mut answers = Answers::default();
    for _ in 0..count(3_000) {
        let words = any_words(&mut random);
        compare_any_memory(&mut random, &mut answers, &words);
    }
    answers.expect(20, "add", &[0, 5, 6, 7, 14]);
    answers.expect(20, "remove", &[0, 14]);
    answers.expect(20, "row", &[0, 7]);
    answers.expect(5, "index", &[4, 5, 7]);
}

/// Good circuits with some words damaged.
#[test]
fn damaged_memory() {
    let mut random = Random::new(107);
    let mut answers = Answers::default();
    for round in 0..count(400) {
        let case = random.case(if round % 10 == 0 { 7 } else { 4 });
        let good = begun(&mut answers, &Beginning::From(case.sizes, case.entries));
        for _ in 0..8 {
            let words = damaged_words(&mut random, &good);
            compare_any_memory(&mut random, &mut answers, &words);
        }
    }
    answers.expect(20, "add", &[0, 5, 6, 7, 14]);
    answers.expect(20, "remove", &[0, 14]);
    answers.expect(20, "row", &[0, 7]);
    answers.expect(20, "index", &[0, 4, 5, 6, 7]);
}

/// A beginning over memory that no call made sets every word.
#[test]
fn beginnings_over_any_words() {
    let mut random = Random::new(108);
    let mut answers = Answers::default();
    for _ in 0..count(50) {
        let mut pair = Pair::of_words(&any_words(&mut random));
        let case = random.case(4);
        assert_eq!(pair.begin(&mut answers, &Beginning::From(case.sizes, case.entries)), Ok(()));
        compare_sequence(&mut random, &mut pair, &mut answers, 10);
        assert_eq!(pair.begin(&mut answers, &Beginning::Empty(case.sizes)), Ok(()));
        assert!(pair.memory()[3..].iter().all(|&word| word == 0), "an empty circuit holds words");
        compare_sequence(&mut random, &mut pair, &mut answers, 10);
    }
    answers.expect(50, "begin", &[0]);
    answers.expect(50, "begin_from", &[0]);
}

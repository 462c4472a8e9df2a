//! Blinding beside the second implementation's: every small size, every reserved place, full lists, extreme words, refusals at every
//! boundary and in precedence, and blinded circuits through the prover's calls and a session.

use crate::circuits::compare_good;
use compare::blinding::{free_columns, reserved_columns, Blinding};
use compare::calls::{compare_call, CircuitCall, CIRCUIT_CALLS, REFUSAL_NUMBERS};
use compare::case::{Case, GAMMA};
use compare::damage::{combined, Fault};
use compare::growing::{Answers, Beginning, Call, Pair};
use compare::random::{count, Compared, Random, SIZES};
use second::{Refusal, MODULUS};

/// The most entries of a list that is blinded.
const MOST: u64 = 1023;
/// Places about the ends of bytes and of lists.
const FAR: [usize; 7] = [255, 256, 511, 512, 1000, 1021, 1022];

/// The call must be done, with the words that the rule gives.
fn expect_done(blinding: &Blinding) {
    let outcome = blinding.compare();
    assert_eq!(outcome.answer, Ok(Vec::new()), "{blinding}");
    assert_eq!(outcome.lent, blinding.expected(), "the words of both sides, then those of the rule:\n{blinding}");
}

/// The call must be refused so.
fn expect_refused(blinding: &Blinding, number: u32, position: usize) {
    assert_eq!(blinding.compare().answer, Err(Refusal { number, position }), "{blinding}");
}

/// A column is reserved when it is not public and fewer than three such columns stand above it.
fn is_reserved([_, columns, public]: [u32; 3], column: u32) -> bool {
    let private = |column: &u32| !column.is_multiple_of(columns / public);
    private(&column) && (column + 1..columns).filter(private).count() < 3
}

/// A call that nothing else is wrong with is refused with 15 exactly when |C| - |X| is below 3 or an entry is reserved.
fn expect_by_statement(blinding: &Blinding) {
    let sizes = blinding.case.sizes;
    let stands = |entry: &[u32]| entry[0] == sizes[0] - 1 || is_reserved(sizes, entry[1]);
    let reserved = blinding.case.entries.iter().any(|list| list.chunks(3).any(stands));
    if sizes[1] - sizes[2] < 3 || reserved {
        expect_refused(blinding, 15, 0);
    } else {
        expect_done(blinding);
    }
}

/// The triples of sizes with |X| up to |C|.
fn all_sizes() -> impl Iterator<Item = [u32; 3]> {
    let pairs = SIZES.into_iter().flat_map(|columns| SIZES.map(|public| (columns, public)));
    let pairs = pairs.filter(|(columns, public)| public <= columns);
    pairs.flat_map(|(columns, public)| SIZES.map(|rows| [rows, columns, public]))
}

/// Inputs that fit, of given sizes, with at most so many entries in A and in B.
fn fitting(random: &mut Random, sizes: [u32; 3], limit: u64) -> Blinding {
    Blinding::new(random.case_to_blind(sizes, limit), random.three())
}

/// |R| from 1 to 8, and every |C| from 1 to 16 and every |X| up to it, the numbers that are no sizes among them.
#[test]
fn small_sizes() {
    let mut random = Random::new(110);
    let mut done = 0;
    for _ in 0..count(20) {
        for (rows, columns) in [1, 2, 4, 8].into_iter().flat_map(|rows| (1..=16).map(move |columns| (rows, columns))) {
            for public in 1..=columns {
                let blinding = fitting(&mut random, [rows, columns, public], 40);
                if !columns.is_power_of_two() {
                    expect_refused(&blinding, 4, 1);
                } else if !public.is_power_of_two() {
                    expect_refused(&blinding, 4, 2);
                } else if columns - public < 3 {
                    expect_refused(&blinding, 15, 0);
                } else {
                    expect_done(&blinding);
                    done += 1;
                }
            }
        }
    }
    assert!(done >= 20 * 4 * 8, "{done} calls were done");
}

/// All sizes: entries outside the reserved places, and then one more entry, which may stand anywhere.
#[test]
fn refused_exactly_by_the_statement() {
    let mut random = Random::new(111);
    let mut compared = Compared::default();
    for _ in 0..count(2) {
        for sizes in all_sizes() {
            let good = fitting(&mut random, sizes, 60);
            expect_by_statement(&good);
            for matrix in 0..3 {
                let mut blinding = good.clone();
                let [row, column] = [sizes[0], sizes[1]].map(|size| random.below(u64::from(size)) as u32);
                let column = if random.one_in(2) { column } else { sizes[1] - 1 - column % 8 };
                blinding.put_alone(matrix, [row, column, random.nonzero()]);
                expect_by_statement(&blinding);
                compared.one();
            }
        }
    }
}

/// An entry at every place of every matrix, alone and beside others: in the reserved row and columns it is refused.
#[test]
fn reserved_places() {
    let mut random = Random::new(112);
    for sizes in [[1, 8, 2], [2, 4, 1], [4, 8, 1], [4, 8, 2], [4, 8, 4], [2, 16, 8], [8, 16, 4], [1, 1024, 512]] {
        let reserved = reserved_columns(sizes[1], sizes[2]).expect("three columns are not public");
        for (row, column) in (0..sizes[0]).flat_map(|row| (0..sizes[1]).map(move |column| (row, column))) {
            let is_reserved = row == sizes[0] - 1 || reserved.contains(&column);
            for matrix in 0..3 {
                let empty = Case::new(sizes, [vec![], vec![], vec![]], random.public_words(sizes[1] as usize));
                for mut blinding in [Blinding::new(empty, random.three()), fitting(&mut random, sizes, 6)] {
                    blinding.put_alone(matrix, [row, column, random.nonzero()]);
                    match is_reserved {
                        true => expect_refused(&blinding, 15, 0),
                        false => expect_done(&blinding),
                    }
                }
            }
        }
    }
}

/// A sorted list of so many entries outside the reserved places.
fn free_list(random: &mut Random, sizes: [u32; 3], entries: usize) -> Vec<u32> {
    let free = free_columns(sizes[1], sizes[2]);
    let mut cells = random.order((sizes[0] as usize - 1) * free.len());
    cells.truncate(entries);
    cells.sort();
    assert_eq!(cells.len(), entries, "too few places are free");
    let place = |cell: u32| (cell / free.len() as u32, free[cell as usize % free.len()]);
    cells.into_iter().map(place).flat_map(|(row, column)| [row, column, random.nonzero()]).collect()
}

/// Inputs that fit, of given sizes, with so many entries in each matrix or, where fewer places are free, with all of them.
fn filled(random: &mut Random, sizes: [u32; 3], entries: usize) -> Blinding {
    let free = (sizes[0] as usize - 1) * free_columns(sizes[1], sizes[2]).len();
    let lists = [(); 3].map(|()| free_list(random, sizes, entries.min(free)));
    Blinding::new(Case::new(sizes, lists, random.public_words(sizes[1] as usize)), random.three())
}

/// 1,023 entries are taken, in one list and in all; 1,024 are refused, at the place of the first such list, whatever else is wrong.
#[test]
fn full_lists() {
    let mut random = Random::new(113);
    for sizes in
        [[1024, 1024, 256], [1024, 1024, 512], [1024, 1024, 1], [64, 64, 4], [256, 16, 8], [1024, 4, 1], [8, 512, 2]]
    {
        let mut full = filled(&mut random, sizes, 1023);
        for matrix in 0..3 {
            let mut blinding = fitting(&mut random, sizes, 10);
            blinding.case.entries[matrix] = full.case.entries[matrix].clone();
            blinding.lend_again();
            expect_done(&blinding);
            for entry in [[sizes[0] - 1, 0, 1], [sizes[0] - 1, sizes[1] - 1, MODULUS - 1], [u32::MAX; 3], [0; 3]] {
                let mut longer = blinding.clone();
                longer.put(matrix, entry);
                expect_refused(&longer, 5, matrix);
                longer.lend_again();
                longer.case.assignment[0] = MODULUS;
                expect_refused(&longer, 5, matrix);
            }
        }
        expect_done(&full);
        for matrix in [2, 1, 0] {
            full.put(matrix, [sizes[0] - 1, 0, 1]);
            full.lend_again();
            expect_refused(&full, 5, matrix);
        }
    }
}

/// Every damage of every input, alone, with the lent slices as they were and as they should be then.
#[test]
fn damaged_everywhere() {
    let mut random = Random::new(114);
    let mut compared = Compared::default();
    for round in 0..count(24) {
        let sizes = [[2, 4, 1], [4, 8, 4], [4, 8, 2], [1, 8, 1], [2, 2, 1], [8, 16, 8]][round as usize % 6];
        for mut damaged in fitting(&mut random, sizes, 5).damaged_everywhere() {
            damaged.compare();
            damaged.lend_again();
            damaged.compare();
            compared.one();
        }
    }
}

/// Several damages at once: the first refusal down the table must win on both sides. 9 is never answered.
#[test]
fn damaged_in_several_places() {
    let mut random = Random::new(115);
    let mut seen = [0; REFUSAL_NUMBERS];
    for round in 0..count(12_000) {
        let sizes = random.sizes(if round % 40 == 0 { 10 } else { 4 });
        let good = fitting(&mut random, sizes, if round % 40 == 0 { MOST } else { 12 });
        let answer = random.damaged_blinding(&good).compare().answer;
        seen[answer.map_or_else(|refusal| refusal.number as usize, |_| 0)] += 1;
    }
    let rows = [0, 4, 5, 6, 7, 13, 15];
    assert!(rows.into_iter().all(|number| seen[number] > 200), "too few answers of some number: {seen:?}");
    assert_eq!(
        seen.iter().sum::<u64>(),
        rows.map(|number| seen[number]).iter().sum(),
        "an answer of another row: {seen:?}"
    );
}

/// The circuit of x³ + x + 5 = total with x = 3, whose last row and columns 5, 6, 7 are free.
fn cubic() -> Blinding {
    let a = vec![0, 1, 1, 1, 2, 1, 2, 0, 5, 2, 1, 1, 2, 3, 1];
    let (b, c) = (vec![0, 1, 1, 1, 1, 1, 2, 0, 1], vec![0, 2, 1, 1, 3, 1, 2, 4, 1]);
    Blinding::new(Case::new([4, 8, 2], [a, b, c], vec![1, 3, 9, 27, 35, 0, 0, 0]), [2, 3, 7])
}

/// A fault of each of the six rows, in every combination, in several choices: the first down the table must win. A row that fails,
/// the original's or the blinding one, is no fault.
#[test]
fn precedence() {
    let refusal = |number, position| Refusal { number, position };
    let sizes: [Fault<Blinding>; 3] = [
        (refusal(4, 0), |blinding| blinding.case.sizes[0] = 3),
        (refusal(4, 1), |blinding| blinding.case.sizes[1] = 2048),
        (refusal(4, 2), |blinding| blinding.case.sizes[2] = 16),
    ];
    let lists: [Fault<Blinding>; 4] = [
        (refusal(5, 1), |blinding| blinding.case.entries[1].push(0)),
        (refusal(5, 3), |blinding| blinding.case.assignment.push(0)),
        (refusal(5, 5), |blinding| blinding.lent[1] += 3),
        (refusal(5, 7), |blinding| blinding.lent[3] = 7),
    ];
    let words: [Fault<Blinding>; 3] = [
        (refusal(6, 4), |blinding| blinding.case.entries[0][14] = MODULUS),
        (refusal(6, 16), |blinding| blinding.case.assignment[5] = u32::MAX),
        (refusal(6, 21), |blinding| blinding.rho[2] = MODULUS),
    ];
    let entries: [Fault<Blinding>; 3] = [
        (refusal(7, 5), |blinding| blinding.case.entries[1][2] = 0),
        (refusal(7, 6), |blinding| blinding.case.entries[1][3] = 0),
        (refusal(7, 7), |blinding| blinding.case.entries[1][6] = 4),
    ];
    let reserved: [Fault<Blinding>; 3] = [
        (refusal(15, 0), |blinding| blinding.case.sizes[2] = 8),
        (refusal(15, 0), |blinding| blinding.case.entries[2][6] = 3),
        (refusal(15, 0), |blinding| blinding.case.entries[2][7] = 5),
    ];
    let constant: Fault<Blinding> = (refusal(13, 0), |blinding| blinding.case.assignment[0] = 2);
    let mut compared = Compared::default();
    for choice in 0..12 {
        let of = |row: &[Fault<Blinding>]| row[choice % row.len()];
        let faults = [of(&sizes), of(&lists), of(&words), of(&entries), of(&reserved), constant];
        for (blinding, first) in combined(&cubic(), &faults) {
            assert_eq!(blinding.compare().answer.err(), first, "{blinding}");
            compared.one();
        }
    }
}

/// p - 1, p and 2^32 - 1 as each value, each word of z and each ρ.
#[test]
fn extreme_words() {
    let mut random = Random::new(116);
    for sizes in [[4, 8, 2], [4, 8, 4], [2, 4, 1], [1, 16, 1], [8, 64, 32]] {
        let good = filled(&mut random, sizes, 4);
        expect_done(&good);
        let counts = good.case.lists().map(|list| list.len() / 3);
        let values = counts.iter().sum::<usize>();
        for (word, taken) in [(MODULUS - 1, true), (MODULUS, false), (u32::MAX, false)] {
            let expect = |blinding: &Blinding, position: usize| match taken {
                _ if blinding.case.assignment[0] == MODULUS - 1 => expect_refused(blinding, 13, 0),
                true => expect_done(blinding),
                false => expect_refused(blinding, 6, position),
            };
            for (matrix, entry) in (0..3).flat_map(|matrix| (0..counts[matrix]).map(move |entry| (matrix, entry))) {
                let mut blinding = good.clone();
                blinding.case.entries[matrix][3 * entry + 2] = word;
                expect(&blinding, counts[..matrix].iter().sum::<usize>() + entry);
            }
            for column in 0..sizes[1] as usize {
                let mut blinding = good.clone();
                blinding.case.assignment[column] = word;
                expect(&blinding, values + column);
            }
            for place in 0..3 {
                let mut blinding = good.clone();
                blinding.rho[place] = word;
                expect(&blinding, values + sizes[1] as usize + place);
            }
            let all = Blinding { rho: [word; 3], ..good.clone() };
            expect(&all, values + sizes[1] as usize);
        }
    }
}

/// Positions far in: lists of 1,023 entries, and z of 1,024 words.
#[test]
fn far_positions() {
    let mut random = Random::new(117);
    let good = filled(&mut random, [1024, 1024, 256], 1023);
    expect_done(&good);
    for place in FAR {
        for matrix in 0..3 {
            for (number, word, value) in [(6, 2, MODULUS), (7, 2, 0), (7, 0, 1024), (7, 1, 1024), (7, 0, 0)] {
                let mut bad = good.clone();
                bad.case.entries[matrix][3 * place + word] = value;
                expect_refused(&bad, number, 1023 * matrix + place);
            }
        }
        let mut bad = good.clone();
        bad.case.assignment[place] = MODULUS;
        expect_refused(&bad, 6, 3069 + place);
    }
    for place in 0..3 {
        let mut bad = good.clone();
        bad.rho[place] = MODULUS;
        expect_refused(&bad, 6, 4093 + place);
    }
    for (slice, length) in good.lent.into_iter().enumerate() {
        for wrong in [0, length - 1, length + 1, length - 3, length + 3, length + 65_536] {
            let mut bad = good.clone();
            bad.lent[slice] = wrong;
            expect_refused(&bad, 5, 4 + slice);
        }
    }
}

/// Two words and their product, and the same with another third one.
fn right_and_wrong(random: &mut Random) -> [[u32; 3]; 2] {
    let [a, b] = [(); 2].map(|()| if random.one_in(10) { random.one_of(&[0, 1, MODULUS - 1]) } else { random.word() });
    let product = second::multiply(a, b).expect("field words");
    let other = second::add(product, random.nonzero()).expect("field words");
    [[a, b, product], [a, b, other]]
}

/// Sizes up to 2^most with three columns that are not public.
fn sizes_to_blind(random: &mut Random, most: u64) -> [u32; 3] {
    loop {
        let sizes = random.sizes(most);
        if sizes[1] - sizes[2] >= 3 {
            return sizes;
        }
    }
}

/// Blinds a satisfied case. With ρ_A ρ_B = ρ_C every call and a whole session take it, and the public words are those of before;
/// else every round is refused with 9 at the last row.
fn compare_blinded(random: &mut Random, case: &Case) {
    let [right, wrong] = right_and_wrong(random);
    let mut blinded =
        Blinding::new(case.clone(), right).blinded().unwrap_or_else(|refusal| panic!("{refusal:?}\n{case}"));
    blinded.challenges[GAMMA] = random.outside(1024);
    assert_eq!(blinded.public_words(), case.public_words(), "{case}");
    compare_good(&blinded);
    let blinded = Blinding::new(case.clone(), wrong).blinded().unwrap_or_else(|refusal| panic!("{refusal:?}\n{case}"));
    expect_row_fails(&blinded, case.sizes[0] as usize - 1);
}

/// The indexer takes the circuit, and every round is refused with 9 at a row.
fn expect_row_fails(case: &Case, row: usize) {
    assert_eq!(compare_call(CircuitCall::Index, case).answer, Ok(Vec::new()), "{case}");
    for &call in &CIRCUIT_CALLS[1..] {
        assert_eq!(compare_call(call, case).answer, Err(Refusal { number: 9, position: row }), "{call:?}\n{case}");
    }
}

#[test]
fn blinded_circuits_are_ordinary() {
    let mut random = Random::new(118);
    let mut compared = Compared::default();
    for round in 0..count(300) {
        let sizes = sizes_to_blind(&mut random, if round % 30 == 0 { 7 } else { 4 });
        let case = random.case_to_blind(sizes, 40);
        compare_blinded(&mut random, &case);
        compared.one();
    }
}

/// Each |C| and |X| that can be blinded.
#[test]
fn blinded_circuits_of_all_sizes() {
    let mut random = Random::new(119);
    let mut compared = Compared::default();
    for columns in SIZES {
        for public in SIZES.into_iter().filter(|&public| public + 3 <= columns) {
            let rows = random.one_of(&[1, 2, 8, 32]);
            let case = random.case_to_blind([rows, columns, public], 16);
            compare_blinded(&mut random, &case);
            compared.one();
        }
    }
}

/// 1,024 rows and columns, with an entry of each matrix in every row but the last: blinding makes the lists full. What would stand
/// in a reserved column stands in column 0, which holds 1, with its value times the word of that column.
#[test]
fn largest_blinded_circuit() {
    let mut random = Random::new(120);
    let mut case = random.full_case(1024);
    let reserved = reserved_columns(case.sizes[1], case.sizes[2]).expect("three columns are not public");
    for list in &mut case.entries {
        list.truncate(3 * 1023);
        for entry in list.chunks_mut(3).filter(|entry| reserved.contains(&entry[1])) {
            entry[2] = second::multiply(entry[2], case.assignment[entry[1] as usize]).expect("field words");
            entry[1] = 0;
        }
    }
    case.lend_again();
    compare_blinded(&mut random, &case);
}

/// A row that fails before blinding fails after it, whatever the ρ, and blinding takes such an assignment.
#[test]
fn failing_rows_still_fail() {
    let mut random = Random::new(121);
    let mut compared = Compared::default();
    for _ in 0..count(300) {
        let sizes = sizes_to_blind(&mut random, 4);
        let mut case = random.case_to_blind(sizes, 24);
        let column = 1 + random.place(case.assignment.len() - 1);
        case.assignment[column] = random.word();
        let Err(Refusal { number: 9, position }) = compare_call(CircuitCall::FirstRound, &case).answer else {
            continue;
        };
        for rho in right_and_wrong(&mut random) {
            let blinded = Blinding::new(case.clone(), rho).blinded().expect("blinding looks at no row");
            expect_row_fails(&blinded, position);
        }
        compared.one();
    }
}

/// The blinded lists are those of the circuit to which the three entries are added one by one.
#[test]
fn three_entries_are_added() {
    let mut random = Random::new(122);
    let mut answers = Answers::default();
    for _ in 0..count(60) {
        let sizes = sizes_to_blind(&mut random, 6);
        let case = random.case_to_blind(sizes, 40);
        let (mut pair, begun) = Pair::begun(&mut answers, &Beginning::From(sizes, case.entries.clone()));
        assert_eq!(begun, Ok(()), "{case}");
        let reserved = reserved_columns(sizes[1], sizes[2]).expect("three columns are not public");
        for (matrix, column) in (0..).zip(reserved) {
            let added = pair.call(&mut answers, &Call::Add(matrix, [sizes[0] - 1, column, 1])).answer;
            assert_eq!(added, Ok(Vec::new()), "{case}");
        }
        let blinded = Blinding::new(case, random.three()).blinded().expect("the reserved places are free");
        assert_eq!(pair.parts(), blinded.lists(), "{blinded}");
    }
    answers.expect(180, "add", &[0]);
}

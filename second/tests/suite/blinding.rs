//! Blinding: which row and columns are reserved, the blinded words, each refusal at its boundary and in precedence, and what a
//! blinded circuit is satisfied by.

use crate::arithmetic::{lagrange, plus, times};
use crate::case::{refusal, Case, UNTOUCHED};
use crate::random::{count, Checked, Random};
use second::Verdict;

const P: u32 = second::MODULUS;

/// The circuit of x³ + x + 5 = total with x = 3, whose last row and columns 5, 6, 7 are free; column 4 is public.
fn cubic() -> Case {
    Case {
        sizes: [4, 8, 2],
        entries: [
            vec![0, 1, 1, 1, 2, 1, 2, 0, 5, 2, 1, 1, 2, 3, 1],
            vec![0, 1, 1, 1, 1, 1, 2, 0, 1],
            vec![0, 2, 1, 1, 3, 1, 2, 4, 1],
        ],
        assignment: vec![1, 3, 9, 27, 35, 0, 0, 0],
        mask_word: 4,
        mask: vec![11, 2, 3, 5, 8, 13, 21, 34, P - 11, 1, 4, 9, 16, 25, 36, 49],
        alpha: 2,
        eta: [6, 7, 8],
        beta: 3,
        delta: [9, 10, 11],
        gamma: 5,
    }
}

/// A case of given sizes without entries, with the words 1, 2, .. as its assignment.
fn empty(sizes: [u32; 3]) -> Case {
    let mask = vec![0; 2 * sizes[1] as usize];
    Case { sizes, entries: [vec![], vec![], vec![]], assignment: (1..=sizes[1]).collect(), mask, ..cubic() }
}

/// Blinding must be refused so.
fn check(case: &Case, rho: [u32; 3], expected: Option<(u32, usize)>) {
    assert_eq!(refusal(case.blinded(rho)), expected, "{:?} {:?} {:?}", case.sizes, case.entries, case.assignment);
}

#[test]
fn words() {
    let blinded = cubic().blinded([17, 19, 323]).expect("the last row and three columns are free");
    assert_eq!(blinded.entries[0], [0, 1, 1, 1, 2, 1, 2, 0, 5, 2, 1, 1, 2, 3, 1, 3, 5, 1]);
    assert_eq!(blinded.entries[1], [0, 1, 1, 1, 1, 1, 2, 0, 1, 3, 6, 1]);
    assert_eq!(blinded.entries[2], [0, 2, 1, 1, 3, 1, 2, 4, 1, 3, 7, 1]);
    assert_eq!(blinded.assignment, [1, 3, 9, 27, 35, 17, 19, 323]);
    assert_eq!(blinded.verdict(&blinded.proof().unwrap()), Ok(Verdict::Accept));
}

/// Where |X| is |C|/2 every second column is public; where it is less the last three columns are not.
#[test]
fn reserved_columns() {
    for (columns, public, reserved) in [
        (4, 1, [1, 2, 3]),
        (8, 4, [3, 5, 7]),
        (8, 2, [5, 6, 7]),
        (8, 1, [5, 6, 7]),
        (16, 8, [11, 13, 15]),
        (16, 4, [13, 14, 15]),
        (16, 1, [13, 14, 15]),
        (1024, 512, [1019, 1021, 1023]),
        (1024, 256, [1021, 1022, 1023]),
        (1024, 1, [1021, 1022, 1023]),
    ] {
        for rows in [1, 2, 4, 1024] {
            let case = empty([rows, columns, public]);
            let rho = [0, P - 1, 5];
            let blinded = case.blinded(rho).expect("three columns are not public");
            assert_eq!(blinded.entries, reserved.map(|column| vec![rows - 1, column, 1]), "{:?}", case.sizes);
            let mut expected = case.assignment.clone();
            (0..3).for_each(|matrix| expected[reserved[matrix] as usize] = rho[matrix]);
            assert_eq!(blinded.assignment, expected, "{:?}", case.sizes);
            assert_eq!(blinded.public_words(), case.public_words(), "{:?}", case.sizes);
        }
    }
}

#[test]
fn too_few_columns() {
    for (columns, public) in [(1, 1), (2, 1), (2, 2), (4, 2), (4, 4), (8, 8), (16, 16), (1024, 1024)] {
        for rows in [1, 2, 1024] {
            check(&empty([rows, columns, public]), [0; 3], Some((15, 0)));
        }
    }
}

/// The only row is reserved, so only empty matrices pass.
#[test]
fn one_row() {
    check(&empty([1, 8, 2]), [1, 1, 1], None);
    for matrix in 0..3 {
        for column in 0..8 {
            let mut case = empty([1, 8, 2]);
            case.entries[matrix] = vec![0, column, 1];
            check(&case, [1, 1, 1], Some((15, 0)));
        }
    }
}

/// An entry at each place of each matrix, alone and after another: refused in the last row and in the reserved columns alone.
#[test]
fn reserved_places() {
    for (sizes, reserved) in
        [([4, 8, 2], [5, 6, 7]), ([4, 8, 4], [3, 5, 7]), ([2, 4, 1], [1, 2, 3]), ([4, 16, 8], [11, 13, 15])]
    {
        for matrix in 0..3 {
            for (row, column) in (0..sizes[0]).flat_map(|row| (0..sizes[1]).map(move |column| (row, column))) {
                let expected = (row == sizes[0] - 1 || reserved.contains(&column)).then_some((15, 0));
                let mut case = empty(sizes);
                case.entries[matrix] = vec![row, column, P - 1];
                check(&case, [2, 3, 4], expected);
                if (row, column) > (0, 0) {
                    case.entries[matrix] = vec![0, 0, 1, row, column, 1];
                    check(&case, [2, 3, 4], expected);
                }
            }
        }
    }
}

#[test]
fn sizes() {
    for bad in [0, 3, 2048, u32::MAX] {
        for (sizes, position) in [([bad, bad, bad], 0), ([4, bad, bad], 1), ([4, 8, bad], 2)] {
            check(&Case { sizes, ..cubic() }, [P; 3], Some((4, position)));
        }
    }
    check(&Case { sizes: [4, 8, 16], ..cubic() }, [P; 3], Some((4, 2)));
}

#[test]
fn lists() {
    for matrix in 0..3 {
        for length in [1, 2, 4, 3071, 3072, 3073, 3075] {
            let mut case = cubic();
            case.entries[matrix] = vec![P; length];
            check(&case, [P; 3], Some((5, matrix)));
        }
        let mut case = empty([1024, 1024, 1]);
        case.entries[matrix] = (0..1023).flat_map(|row| [row, 1020, P - 1]).collect();
        check(&case, [P - 1; 3], None);
        case.entries[matrix].extend([1023, 0, 1]);
        check(&case, [P - 1; 3], Some((5, matrix)));
    }
    for assignment in [vec![], vec![P; 7], vec![P; 9]] {
        check(&Case { assignment, ..cubic() }, [P; 3], Some((5, 3)));
    }
}

/// Each lent slice a word or an entry too short or too long, or empty: it and all others stay as they were.
#[test]
fn lent_slices() {
    let case = cubic();
    let right = [18, 12, 12, 8];
    for slice in 0..4 {
        for length in [0, right[slice] - 3, right[slice] - 1, right[slice] + 1, right[slice] + 3] {
            let mut lengths = right;
            lengths[slice] = length;
            let mut lent = lengths.map(|length| vec![UNTOUCHED; length]);
            let [a, b, c, z] = lent.each_mut().map(Vec::as_mut_slice);
            let answer = second::blind(case.sizes, case.lists(), &case.assignment, [P; 3], [a, b, c], z);
            assert_eq!(refusal(answer), Some((5, 4 + slice)));
            assert!(lent.iter().flatten().all(|&word| word == UNTOUCHED));
        }
    }
}

/// The values of the 5, 3 and 3 entries, the 8 words of z, and the three ρ, counted on.
#[test]
fn field_words() {
    for word in [P, u32::MAX] {
        for (matrix, first) in [(0, 0), (1, 5), (2, 8)] {
            for entry in 0..cubic().entries[matrix].len() / 3 {
                let mut case = cubic();
                case.entries[matrix][3 * entry + 2] = word;
                check(&case, [word; 3], Some((6, first + entry)));
            }
        }
        for column in 0..8 {
            let mut case = cubic();
            case.assignment[column] = word;
            check(&case, [word; 3], Some((6, 11 + column)));
        }
        for (rho, position) in [([word; 3], 19), ([0, word, word], 20), ([0, 0, word], 21)] {
            check(&cubic(), rho, Some((6, position)));
        }
    }
    check(&Case { assignment: vec![1, P - 1, P - 1, P - 1, P - 1, P - 1, P - 1, P - 1], ..cubic() }, [P - 1; 3], None);
}

#[test]
fn entries() {
    let changes = [(0, 0, 4), (0, 1, 8), (0, 2, 0), (4, 1, 1), (4, 0, 1), (3, 1, u32::MAX)];
    for (entry, word, value) in changes {
        let mut case = cubic();
        case.entries[0][3 * entry + word] = value;
        check(&case, [0; 3], Some((7, entry)));
    }
    for (matrix, first) in [(1, 5), (2, 8)] {
        for entry in 0..3 {
            let mut case = cubic();
            case.entries[matrix][3 * entry + 2] = 0;
            check(&case, [0; 3], Some((7, first + entry)));
        }
    }
}

/// The words of z at the three columns are not looked at, but that they are below p; nor is a row that fails.
#[test]
fn replaced_words() {
    let expected = cubic().blinded([2, 3, 5]).expect("a circuit that is blinded");
    for replaced in [[7, 8, 9], [P - 1; 3], [1, 0, 1]] {
        let mut case = cubic();
        case.assignment[5..].copy_from_slice(&replaced);
        assert_eq!(case.blinded([2, 3, 5]).unwrap().assignment, expected.assignment);
    }
    let wrong = Case { assignment: vec![1, 4, 9, 27, 35, 0, 0, 0], ..cubic() };
    assert_eq!(wrong.blinded([2, 3, 7]).unwrap().assignment, [1, 4, 9, 27, 35, 2, 3, 7]);
}

#[test]
fn constant() {
    for word in [0, 2, P - 1] {
        let mut case = cubic();
        case.assignment[0] = word;
        check(&case, [17, 19, 323], Some((13, 0)));
    }
}

/// 4 before 5 before 6 before 7 before 15 before 13, and never 9; 15 for a place and for too few columns.
#[test]
fn precedence() {
    let mut case = cubic();
    case.assignment = vec![2, 4, 9, 27, 35, 0, 0, 0];
    check(&case, [2, 3, 7], Some((13, 0)));
    for (public, entry) in [(2, [3, 0, 1]), (2, [2, 5, 1]), (8, [2, 4, 1])] {
        case.sizes[2] = public;
        case.entries[2].splice(6.., entry);
        check(&case, [2, 3, 7], Some((15, 0)));
        case.entries[1][8] = 0;
        check(&case, [2, 3, 7], Some((7, 7)));
        check(&case, [2, 3, P], Some((6, 21)));
        let short = Case { assignment: case.assignment[..7].to_vec(), ..case.clone() };
        check(&short, [2, 3, P], Some((5, 3)));
        check(&Case { sizes: [3, 8, public], ..short }, [2, 3, P], Some((4, 0)));
        case.entries[1][8] = 1;
    }
}

/// A satisfied case that leaves the last row and the reserved columns free: one of smaller sizes, in which every column is moved
/// to twice or four times its place and the rows are doubled. Twice only where every column was public, so that none but odd ones
/// are reserved.
fn spread(random: &mut Random, public_half: bool) -> Case {
    let mut sizes = random.sizes(3);
    let factor = if public_half { 2 } else { 4 };
    if public_half {
        sizes[1] = sizes[1].max(4);
        sizes[2] = sizes[1];
    }
    let small = random.case(sizes, 12);
    let move_column = |(place, word): (usize, u32)| if place % 3 == 1 { factor * word } else { word };
    let entries = small.entries.map(|list| list.into_iter().enumerate().map(move_column).collect());
    let columns = factor * sizes[1];
    let assignment: Vec<u32> = (0..columns)
        .map(|column| if column % factor == 0 { small.assignment[(column / factor) as usize] } else { random.word() })
        .collect();
    random.with_challenges([2 * sizes[0], columns, sizes[2]], entries, assignment)
}

/// The product of two words.
fn product(a: u32, b: u32) -> u32 {
    times(u64::from(a), u64::from(b)) as u32
}

/// Satisfied exactly when ρ_A ρ_B = ρ_C: then the honest proof is accepted, and else the last row fails. The public words stay.
#[test]
fn satisfied_exactly_where_the_product_holds() {
    let mut random = Random::new(29);
    let mut checked = Checked::default();
    for round in 0..count(200) {
        let case = spread(&mut random, round % 2 == 0);
        assert_eq!(refusal(case.proof()), None);
        let [a, b] = if round % 5 == 0 { [0, random.word()] } else { [random.word(), random.word()] };
        let right = random.with_gamma(case.blinded([a, b, product(a, b)]).expect("the reserved places are free"));
        assert_eq!(right.public_words(), case.public_words());
        assert_eq!(right.verdict(&right.proof().unwrap()), Ok(Verdict::Accept));
        let wrong = case.blinded([a, b, (product(a, b) + 1) % P]).expect("blinding does not look at rows");
        assert_eq!(refusal(wrong.first_round()), Some((9, case.sizes[0] as usize - 1)));
        checked.one();
    }
}

/// Not satisfied where the original is not, whatever the ρ: the lowest row is that of the original.
#[test]
fn failing_rows_still_fail() {
    let mut random = Random::new(30);
    let mut checked = Checked::default();
    for round in 0..count(200) {
        let mut case = spread(&mut random, round % 2 == 0);
        let column = random.below(case.assignment.len() as u64) as usize;
        case.assignment[column] = random.word();
        let failing = refusal(case.first_round());
        if failing.is_none_or(|(number, _)| number != 9) {
            continue;
        }
        for rho in [[2, 3, 6], [2, 3, 7]] {
            let blinded = case.blinded(rho).expect("blinding does not look at rows");
            assert_eq!(refusal(blinded.first_round()), failing);
        }
        checked.one();
    }
}

/// Each σ is moved by the last row's Lagrange polynomial at α times its ρ.
#[test]
fn sums_are_moved() {
    let mut random = Random::new(31);
    let mut checked = Checked::default();
    for round in 0..count(100) {
        let case = spread(&mut random, round % 2 == 0);
        let (a, b) = (random.word(), random.word());
        let rho = [a, b, product(a, b)];
        let blinded = case.blinded(rho).expect("the reserved places are free");
        let [before, after] = [&case, &blinded].map(|case| case.second_round().expect("both are satisfied"));
        let last = *lagrange(case.sizes[0] as usize, u64::from(case.alpha)).last().expect("there is a row");
        for matrix in 0..3 {
            let moved = plus(u64::from(before[matrix]), times(last, u64::from(rho[matrix])));
            assert_eq!(u64::from(after[matrix]), moved);
        }
        checked.one();
    }
}

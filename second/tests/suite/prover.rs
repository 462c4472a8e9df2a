//! Refusals 4 to 10 and 13 of the prover calls, at their boundaries and in their order.

use crate::case::{refusal, square, Case, UNTOUCHED};
use crate::random::{count, Checked, Random};

const P: u32 = second::MODULUS;

/// The refusals of the six calls in order.
fn refusals(case: &Case) -> [Option<(u32, usize)>; 6] {
    [
        refusal(case.first_round()),
        refusal(case.second_round()),
        refusal(case.third_round()),
        refusal(case.fourth_round()),
        refusal(case.fifth_round()),
        refusal(case.openings()),
    ]
}

/// The square case with a change.
fn changed(change: impl FnOnce(&mut Case)) -> [Option<(u32, usize)>; 6] {
    let mut case = square();
    change(&mut case);
    refusals(&case)
}

/// A refusal of the calls from one on.
fn from(call: usize, expected: (u32, usize)) -> [Option<(u32, usize)>; 6] {
    [0, 1, 2, 3, 4, 5].map(|place| (place >= call).then_some(expected))
}

#[test]
fn sizes() {
    for bad in [0, 3, 2048, u32::MAX] {
        assert_eq!(changed(|case| case.sizes = [bad, bad, bad]), from(0, (4, 0)));
        assert_eq!(changed(|case| case.sizes = [1, bad, bad]), from(0, (4, 1)));
        assert_eq!(changed(|case| case.sizes = [1, 2, bad]), from(0, (4, 2)));
    }
    assert_eq!(changed(|case| case.sizes = [1, 2, 4]), from(0, (4, 2)));
    assert_eq!(changed(|case| case.sizes = [1024, 2, 2]), [None; 6]);
}

#[test]
fn lists() {
    assert_eq!(changed(|case| case.assignment = vec![P]), from(0, (5, 3)));
    assert_eq!(changed(|case| case.assignment.push(0)), from(0, (5, 3)));
    assert_eq!(changed(|case| case.mask = vec![P; 3]), from(0, (5, 4)));
    assert_eq!(changed(|case| case.mask.push(0)), from(0, (5, 4)));
    assert_eq!(changed(|case| case.mask.clear()), from(0, (5, 4)));
}

#[test]
fn lent_slices() {
    let (case, bad) = (square(), &mut [UNTOUCHED; 9][..]);
    let (s, l, z, r, m) = (case.sizes, case.lists(), &case.assignment[..], P, &case.mask[..]);
    let first = |w: usize, h0: usize| {
        let answer = second::first_round(s, l, z, r, m, &mut vec![0; w], &mut vec![0; h0]);
        refusal(answer)
    };
    assert_eq!([first(1, 1), first(3, 0), first(2, 1)], [Some((5, 5)), Some((5, 5)), Some((5, 6))]);
    assert_eq!(first(2, 0), Some((6, 5)));
    let third = |g1: usize, h1: usize| {
        let answer = second::third_round(s, l, z, r, m, 1, [0; 3], &mut vec![0; g1], &mut vec![0; h1]);
        refusal(answer)
    };
    assert_eq!([third(0, 0), third(1, 1), third(1, 2)], [Some((5, 5)), Some((5, 6)), Some((6, 5))]);
    for place in 0..3 {
        let [mut a, mut b, mut c] = [0, 1, 2].map(|slice| vec![0; usize::from(slice == place)]);
        let answer = second::fourth_round(s, l, z, r, m, 1, [0; 3], 1, [&mut a, &mut b, &mut c]);
        assert_eq!(refusal(answer), Some((5, 5 + place)));
    }
    let answer = second::fifth_round(s, l, z, r, m, 1, [0; 3], 1, [0; 3], bad);
    assert_eq!(refusal(answer), Some((5, 5)));
    assert_eq!(bad, [UNTOUCHED; 9]);
}

#[test]
fn index_lent_slices() {
    let case = square();
    for bad in 0..12 {
        let mut lent: [Vec<u32>; 12] = std::array::from_fn(|place| vec![7; 1 + usize::from(place == bad)]);
        let answer = second::index(case.sizes, case.lists(), lent.each_mut().map(Vec::as_mut_slice));
        assert_eq!(refusal(answer), Some((5, 3 + bad)));
        assert!(lent.iter().flatten().all(|&word| word == 7));
    }
}

#[test]
fn words() {
    assert_eq!(changed(|case| case.entries[2][2] = P), from(0, (6, 2)));
    assert_eq!(changed(|case| case.assignment[0] = P), from(0, (6, 3)));
    assert_eq!(changed(|case| case.assignment[1] = u32::MAX), from(0, (6, 4)));
    assert_eq!(changed(|case| case.mask_word = P), from(0, (6, 5)));
    assert_eq!(changed(|case| case.mask_word = P - 1), [None; 6]);
    assert_eq!(changed(|case| case.mask[0] = P), from(0, (6, 6)));
    assert_eq!(changed(|case| case.mask[3] = P), from(0, (6, 9)));
    assert_eq!(changed(|case| case.alpha = P), from(1, (6, 10)));
    assert_eq!(changed(|case| case.eta[0] = P), from(2, (6, 11)));
    assert_eq!(changed(|case| case.eta[2] = P), from(2, (6, 13)));
    assert_eq!(changed(|case| case.beta = P), from(3, (6, 14)));
    assert_eq!(changed(|case| case.delta[0] = P), from(4, (6, 15)));
    assert_eq!(changed(|case| case.delta[2] = P), from(4, (6, 17)));
    assert_eq!(changed(|case| case.gamma = P), from(5, (6, 18)));
}

#[test]
fn mask() {
    assert_eq!(changed(|case| case.mask[0] = 2), from(0, (8, 0)));
    assert_eq!(changed(|case| case.mask[2] = 0), from(0, (8, 0)));
    assert_eq!(changed(|case| case.mask = vec![0, 5, 0, P - 1]), [None; 6]);
}

/// Alone, where the row holds all the same (0 times 0 is 9 times 0, and 6 times 6 is 9 times 4), and beside other faults.
#[test]
fn constant() {
    type Fault = fn(&mut Case);
    for assignment in [[0, 0], [4, 6]] {
        assert_eq!(changed(|case| case.assignment = assignment.to_vec()), from(0, (13, 0)));
    }
    let faults: [(Fault, (u32, usize)); 6] = [
        (|case| case.assignment[0] = P + 1, (6, 3)),
        (|case| case.mask_word = P, (6, 5)),
        (|case| case.entries[2][1] = 2, (7, 2)),
        (|case| case.mask[0] = 2, (8, 0)),
        (|case| case.assignment[1] = 3, (13, 0)),
        (|case| (case.alpha, case.beta, case.gamma) = (1, 1, 1), (13, 0)),
    ];
    for (fault, expected) in faults {
        let both = |case: &mut Case| {
            case.assignment = vec![4, 6];
            fault(case);
        };
        assert_eq!(changed(both), from(0, expected));
    }
}

/// Every row holds, 0 times 0 is 0, and no circuit takes it.
#[test]
fn all_zero_assignment() {
    let mut random = Random::new(24);
    let mut checked = Checked::default();
    for _ in 0..count(100) {
        let sizes = random.sizes(4);
        let mut case = random.case(sizes, 16);
        case.assignment.fill(0);
        assert_eq!(refusals(&case), from(0, (13, 0)));
        checked.one();
    }
}

#[test]
fn assignment() {
    assert_eq!(changed(|case| case.assignment = vec![1, P - 3]), [None; 6]);
    let many = |case: &mut Case| {
        case.sizes[0] = 4;
        case.entries = [vec![0, 1, 1, 2, 1, 1, 3, 1, 1], vec![0, 1, 1, 3, 1, 1], vec![0, 0, 9, 2, 0, 1]];
    };
    assert_eq!(changed(many), from(0, (9, 2)));
}

#[test]
fn challenges() {
    assert_eq!(changed(|case| case.alpha = 1), from(1, (10, 0)));
    assert_eq!(changed(|case| case.alpha = 0), [None; 6]);
    assert_eq!(changed(|case| case.beta = P - 1), from(3, (10, 1)));
    assert_eq!(changed(|case| case.beta = 1), from(3, (10, 1)));
    assert_eq!(changed(|case| case.beta = 0), [None; 6]);
    assert_eq!(changed(|case| case.gamma = 1), from(5, (10, 2)));
    assert_eq!(changed(|case| case.gamma = P - 1), [None; 6]);
    let wider = |case: &mut Case| {
        case.entries[0] = vec![0, 0, 6, 0, 1, P - 1];
        case.gamma = P - 1;
    };
    assert_eq!(changed(wider), from(5, (10, 2)));
}

#[test]
fn order() {
    let mut case = square();
    case.sizes[2] = 3;
    case.assignment.push(0);
    case.mask[0] = P;
    case.entries[1][0] = 1;
    (case.alpha, case.beta, case.gamma) = (1, 1, 1);
    assert_eq!(refusals(&case), from(0, (4, 2)));
    case.sizes[2] = 1;
    assert_eq!(refusals(&case), from(0, (5, 3)));
    case.assignment = vec![2, 4];
    assert_eq!(refusals(&case), from(0, (6, 6)));
    case.mask[0] = 2;
    assert_eq!(refusals(&case), from(0, (7, 1)));
    case.entries[1][0] = 0;
    assert_eq!(refusals(&case), from(0, (8, 0)));
    case.mask[0] = 1;
    assert_eq!(refusals(&case), from(0, (13, 0)));
    case.assignment[0] = 1;
    assert_eq!(refusals(&case), from(0, (9, 0)));
    case.assignment[1] = 3;
    assert_eq!(refusals(&case), from(1, (10, 0)));
    case.alpha = 2;
    assert_eq!(refusals(&case), from(3, (10, 1)));
    case.beta = 2;
    assert_eq!(refusals(&case), from(5, (10, 2)));
}

#[test]
fn empty_matrices_of_size_one() {
    let mut case = Case {
        sizes: [1, 1, 1],
        entries: [vec![], vec![], vec![]],
        assignment: vec![1],
        mask: vec![3, P - 3],
        ..square()
    };
    let proof = case.proof().unwrap();
    let expected: [&[u32]; 11] = [&[1], &[3, P - 3], &[], &[0; 3], &[], &[P - 3], &[0; 3], &[], &[], &[], &[]];
    assert_eq!(proof.sections.each_ref().map(Vec::as_slice), expected);
    assert_eq!(case.verdict(&proof), Ok(second::Verdict::Accept));
    assert_eq!(case.record(&proof).len(), 10 * 4 + 72);
    for word in [0, 2] {
        case.assignment[0] = word;
        assert_eq!(refusals(&case), from(0, (13, 0)));
    }
}

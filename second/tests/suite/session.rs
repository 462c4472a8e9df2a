//! The verifier session: turns, the refusals of each step at their boundaries, and what asking and committing do.

use crate::case::{judged, refusal, square};
use second::{Check, Refusal, Session, Verdict};

const P: u32 = second::MODULUS;
const SIZES: [u32; 6] = [4, 8, 2, 1, 2, 4];

/// A step's refusal, which must leave the session as it was.
fn refused<Answer>(
    session: &Session,
    step: impl FnOnce(Session) -> (Session, Result<Answer, Refusal>),
) -> Option<(u32, usize)> {
    let (next, answer) = step(session.clone());
    assert!(answer.is_ok() || next == *session, "a refused step has changed the session");
    assert!(answer.is_err() || next != *session, "a step has left the session");
    refusal(answer)
}

/// The sessions of a good run with the sizes above, after 1 to 7 steps; asking is none of them.
fn run() -> Vec<Session> {
    run_from(second::open(SIZES, &[1, 2]).unwrap())
}

/// The sessions of the same steps from another first session on.
fn run_from(first: Session) -> Vec<Session> {
    let mut sessions = vec![first];
    let mut take = |step: &dyn Fn(Session) -> Session| {
        let last = sessions[sessions.len() - 1].clone();
        sessions.push(step(last));
    };
    take(&|session| session.alpha([7, 16, 3], 3).0);
    take(&|session| session.eta([P - 1; 3], [P - 1; 3]).0);
    take(&|session| session.beta([7, 8], 3).0);
    take(&|session| session.delta([P - 1; 3], [0, 1, 3], [P - 1; 3]).0);
    take(&|session| session.gamma(3, 3).0);
    take(&|session| session.commit([P - 1; 21]).0);
    sessions
}

#[test]
fn turns() {
    for (turn, session) in run().iter().enumerate() {
        let refusals = [
            refused(session, |session| session.alpha([0; 3], 0)),
            refused(session, |session| session.eta([0; 3], [0; 3])),
            refused(session, |session| session.beta([0; 2], 0)),
            refused(session, |session| session.delta([0; 3], [0; 3], [0; 3])),
            refused(session, |session| session.gamma(0, 0)),
            refusal(session.ask([0; 21])),
            refused(session, |session| session.commit([0; 21])),
        ];
        let expected = [0, 1, 2, 3, 4, 5, 5].map(|step| (step != turn).then_some((1, 0)));
        assert_eq!(refusals, expected);
    }
}

#[test]
fn turn_comes_first() {
    let sessions = run();
    let (opened, ended) = (&sessions[0], &sessions[6]);
    assert_eq!(refused(ended, |session| session.alpha([u32::MAX; 3], P)), Some((1, 0)));
    assert_eq!(refused(opened, |session| session.eta([P; 3], [P; 3])), Some((1, 0)));
    assert_eq!(refused(opened, |session| session.beta([u32::MAX; 2], P)), Some((1, 0)));
    assert_eq!(refused(opened, |session| session.delta([P; 3], [9; 3], [P; 3])), Some((1, 0)));
    assert_eq!(refused(opened, |session| session.gamma(u32::MAX, P)), Some((1, 0)));
    for session in [opened, ended] {
        assert_eq!(refusal(session.ask([P; 21])), Some((1, 0)));
        assert_eq!(refused(session, |session| session.commit([P; 21])), Some((1, 0)));
    }
}

#[test]
fn open() {
    let sizes = |place: usize, size: u32| {
        let mut sizes = SIZES;
        sizes[place] = size;
        refusal(second::open(sizes, &[P; 5]))
    };
    for bad in [0, 3, 2048] {
        for place in 0..6 {
            assert_eq!(sizes(place, bad), Some((4, place)));
        }
    }
    assert_eq!(sizes(2, 16), Some((4, 2)));
    assert_eq!(refusal(second::open([1, 1, 2, 3, 1, 1], &[])), Some((4, 2)));
    assert_eq!(refusal(second::open([1, 3, 4, 3, 1, 1], &[])), Some((4, 1)));
    assert_eq!(refusal(second::open(SIZES, &[P])), Some((5, 0)));
    assert_eq!(refusal(second::open(SIZES, &[P; 3])), Some((5, 0)));
    assert_eq!(refusal(second::open(SIZES, &[0])), Some((5, 0)));
    assert_eq!(refusal(second::open(SIZES, &[P - 1, P])), Some((6, 1)));
    assert_eq!(refusal(second::open(SIZES, &[P + 1, 0])), Some((6, 0)));
    for first in [0, 2, P - 1] {
        assert_eq!(refusal(second::open(SIZES, &[first, 1])), Some((13, 0)));
    }
    let mut longest = [P - 1; 1024];
    assert_eq!(refusal(second::open([1024; 6], &longest)), Some((13, 0)));
    longest[0] = 1;
    assert_eq!(refusal(second::open([1024; 6], &longest)), None);
}

#[test]
fn alpha() {
    let session = &run()[0];
    let root = second::power(31, (P - 1) / 4).unwrap();
    let alpha = |lengths, alpha| refused(session, |session| session.alpha(lengths, alpha));
    assert_eq!(alpha([9; 3], P), Some((6, 0)));
    for inside in [1, P - 1, root] {
        assert_eq!(alpha([u32::MAX; 3], inside), Some((10, 0)));
    }
    assert_eq!(alpha([8, 17, 4], 2), Some((11, 0)));
    assert_eq!(alpha([7, 17, 4], 2), Some((11, 1)));
    assert_eq!(alpha([7, 16, 4], 2), Some((11, 2)));
    assert_eq!(alpha([7, 16, u32::MAX], 2), Some((11, 2)));
    assert_eq!(alpha([7, 16, 3], 2), None);
    assert_eq!(alpha([0, 0, 0], 0), None);
}

#[test]
fn eta_and_openings() {
    let sessions = run();
    for bad in 0..6 {
        let word = |place: usize| if place >= bad { P } else { P - 1 };
        let (sums, eta) = ([0, 1, 2].map(word), [3, 4, 5].map(word));
        assert_eq!(refused(&sessions[1], |session| session.eta(sums, eta)), Some((6, bad)));
    }
    for bad in 0..21 {
        let openings = std::array::from_fn(|place| if place >= bad { P } else { 0 });
        assert_eq!(refusal(judged(&sessions[5], openings)), Some((6, bad)));
    }
}

#[test]
fn beta() {
    let session = &run()[2];
    let root = second::power(31, (P - 1) / 8).unwrap();
    let beta = |lengths, beta| refused(session, |session| session.beta(lengths, beta));
    assert_eq!(beta([9; 2], P), Some((6, 0)));
    for inside in [1, P - 1, root] {
        assert_eq!(beta([9; 2], inside), Some((10, 1)));
    }
    assert_eq!(beta([8, 9], 2), Some((11, 0)));
    assert_eq!(beta([7, 9], 2), Some((11, 1)));
    assert_eq!(beta([7, 8], 2), None);
    assert_eq!(beta([0, 0], 0), None);
}

#[test]
fn delta() {
    let session = &run()[3];
    for bad in 0..6 {
        let word = |place: usize| if place >= bad { P } else { 0 };
        let (values, delta) = ([0, 1, 2].map(word), [3, 4, 5].map(word));
        let answer = refused(session, |session| session.delta(values, [9; 3], delta));
        assert_eq!(answer, Some((6, bad)));
    }
    let delta = |lengths| refused(session, |session| session.delta([0; 3], lengths, [0; 3]));
    assert_eq!(delta([1, 2, 4]), Some((11, 0)));
    assert_eq!(delta([0, 2, 4]), Some((11, 1)));
    assert_eq!(delta([0, 1, 4]), Some((11, 2)));
    assert_eq!(delta([0, 1, 3]), None);
    assert_eq!(delta([0, 0, 0]), None);
}

#[test]
fn gamma() {
    let session = &run()[4];
    let root = second::power(31, (P - 1) / 4).unwrap();
    let gamma = |length, gamma| refused(session, |session| session.gamma(length, gamma));
    assert_eq!(gamma(9, P), Some((6, 0)));
    for inside in [1, P - 1, root] {
        assert_eq!(gamma(9, inside), Some((10, 2)));
    }
    assert_eq!(gamma(4, 2), Some((11, 0)));
    assert_eq!(gamma(3, 2), None);
    assert_eq!(gamma(0, second::power(31, (P - 1) / 8).unwrap()), None);
}

/// Openings, and what a session answers to them.
type Answered = ([u32; 21], Result<Verdict, Refusal>);

/// The square case's session before its openings, with the true ones, some that fail each check, and some that are refused.
fn square_openings() -> (Session, [Answered; 5]) {
    let case = square();
    let proof = case.proof().unwrap();
    let with = |place: usize, word: u32| {
        let mut openings = proof.openings;
        openings[place] = word;
        openings
    };
    let openings = [
        (proof.openings, Ok(Verdict::Accept)),
        (with(4, 1), Ok(Verdict::Fails(Check::Row))),
        (with(1, 1), Ok(Verdict::Fails(Check::Line))),
        (with(5, 1), Ok(Verdict::Fails(Check::Matrix))),
        (with(20, P), Err(Refusal { number: 6, position: 20 })),
    ];
    (case.session(&proof).unwrap(), openings)
}

/// Whatever is asked, and however often, leaves every word, and each answer is that to its own openings.
#[test]
fn asking_leaves_the_session() {
    let (session, openings) = square_openings();
    let words = session.words();
    for (one, one_answer) in openings {
        for (other, other_answer) in openings {
            let answers = [one, other, other, one].map(|openings| session.ask(openings));
            assert_eq!(answers, [one_answer, other_answer, other_answer, one_answer]);
            assert!(session.words() == words, "asking has changed the session");
        }
    }
}

/// A commit answers to its own openings, whatever was asked before it, and where nothing was.
#[test]
fn commit_answers_to_its_own_openings() {
    let (session, openings) = square_openings();
    for (committed, answer) in openings {
        assert_eq!(session.clone().commit(committed).1, answer);
        for (asked, asked_answer) in openings {
            let session = session.clone();
            assert_eq!(session.ask(asked), asked_answer);
            assert_eq!(session.commit(committed).1, answer);
        }
    }
}

#[test]
fn refused_commit_may_be_tried_again() {
    let (session, [(good, good_answer), .., (bad, bad_answer)]) = square_openings();
    let (session, answer) = session.commit(bad);
    assert_eq!(answer, bad_answer);
    let (session, answer) = session.commit(good);
    assert_eq!(answer, good_answer);
    assert_eq!(refusal(judged(&session, good)), Some((1, 0)));
}

#[test]
fn words() {
    for (turn, session) in run().iter().enumerate() {
        let words = session.words();
        let after = |steps: usize, word: u32| if turn >= steps { word } else { 0 };
        let top = |steps: usize| [after(steps, P - 1); 3];
        assert_eq!(words[..7], [turn as u32 + 1, 4, 8, 2, 1, 2, 4]);
        assert_eq!((&words[7..9], words[9..1031].iter().all(|&word| word == 0)), (&[1, 2][..], true));
        let transcript = [vec![after(1, 3)], [top(2), top(2)].concat(), vec![after(3, 3)], [top(4), top(4)].concat()];
        assert_eq!(words[1031..], [transcript.concat(), vec![after(5, 3)]].concat());
        assert_eq!(Session::from_words(&words), *session);
    }
}

/// The refusal of openings by a session that could be given a verdict, but for one word. Openings of p get the same one,
/// and 6 where there is none.
fn forged(place: usize, word: u32) -> Option<(u32, usize)> {
    let mut words = run()[5].words();
    words[place] = word;
    let session = Session::from_words(&words);
    assert_eq!(session.words(), words);
    let answer = refusal(judged(&session, [P - 1; 21]));
    assert_eq!(refusal(judged(&session, [P; 21])), answer.or(Some((6, 0))));
    answer
}

/// A verdict is given only on what steps can leave.
#[test]
fn forged_sessions() {
    for word in [P, u32::MAX] {
        for place in 0..1046 {
            assert_eq!(forged(place, word), Some((1, 0)), "{place}");
        }
    }
    for place in 9..1031 {
        assert_eq!(forged(place, 1), Some((1, 0)), "{place}");
    }
    for stage in (0..10).filter(|&stage| stage != 6) {
        assert_eq!(forged(0, stage), Some((1, 0)));
    }
    for (place, size) in [(1, 0), (2, 3), (3, 16), (6, 2048)] {
        assert_eq!(forged(place, size), Some((1, 0)));
    }
    for word in [0, 2, P - 1] {
        assert_eq!(forged(7, word), Some((1, 0)));
    }
    for place in [8].into_iter().chain(1032..1038).chain(1039..1045) {
        assert_eq!(forged(place, 0), None, "{place}");
        assert_eq!(forged(place, P - 1), None, "{place}");
    }
    for (place, size) in [(1031, 4), (1038, 8), (1045, 4)] {
        let root = second::power(31, (P - 1) / (2 * size)).unwrap();
        for exponent in 0..2 * size {
            let inside = (exponent % 2 == 0).then_some((1, 0));
            assert_eq!(forged(place, second::power(root, exponent).unwrap()), inside);
        }
        assert_eq!(forged(place, 0), None);
    }
}

/// Only asking and committing look at x: the other steps take a session whose x does not begin with 1.
#[test]
fn x_without_the_constant() {
    for first in [0, 2, P - 1] {
        let mut words = run()[0].words();
        words[7] = first;
        let sessions = run_from(Session::from_words(&words));
        let stages: Vec<u32> = sessions.iter().map(|session| session.words()[0]).collect();
        assert_eq!(stages, [1, 2, 3, 4, 5, 6, 6]);
        assert_eq!(refusal(sessions[5].ask([P - 1; 21])), Some((1, 0)));
    }
}

/// Other steps leave the words that they do not set, whatever these are.
#[test]
fn steps_on_any_words() {
    let mut words = [u32::MAX; 1046];
    words[..7].copy_from_slice(&[1, 4, 8, 2, 1, 2, 4]);
    let (session, answer) = Session::from_words(&words).alpha([7, 16, 3], 3);
    words[0] = 2;
    words[1031] = 3;
    assert_eq!((session.words(), answer), (words, Ok(())));
    for size in [0, 3, 2048, u32::MAX] {
        words[4] = size;
        let session = Session::from_words(&words);
        assert_eq!(refused(&session, |session| session.eta([0; 3], [0; 3])), Some((1, 0)));
    }
}

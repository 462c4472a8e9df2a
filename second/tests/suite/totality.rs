//! Every call has an answer for all words, lengths and orders of steps; a refusal changes no lent slice.

use crate::case::{Case, UNTOUCHED};
use crate::random::{count, Checked, Random};
use second::{Refusal, Session};

const P: u32 = second::MODULUS;

/// A word that is good, at a boundary, or anything.
fn any_word(random: &mut Random) -> u32 {
    match random.below(8) {
        0 => P,
        1 => P - 1,
        2 => u32::MAX,
        3 => random.next() as u32,
        4 => 1 << random.below(12),
        _ => random.below(20) as u32,
    }
}

/// A word that is mostly good as a challenge or a declared length.
fn tame_word(random: &mut Random) -> u32 {
    match random.below(20) {
        0 => any_word(random),
        1 => 2,
        _ => 0,
    }
}

fn three(random: &mut Random) -> [u32; 3] {
    [(); 3].map(|()| tame_word(random))
}

/// Words of a length near a good one.
fn any_words(random: &mut Random, length: usize) -> Vec<u32> {
    let length = (length + random.below(3) as usize).saturating_sub(1);
    (0..length).map(|_| any_word(random)).collect()
}

/// Puts a random fault into a case.
fn damage(random: &mut Random, case: &mut Case) {
    let matrix = random.below(3) as usize;
    match random.below(10) {
        0 => case.sizes[matrix] = any_word(random),
        1 => case.entries[matrix].extend(vec![any_word(random); 1 + random.below(4) as usize]),
        2 => case.assignment.push(any_word(random)),
        3 => case.assignment[0] = any_word(random),
        4 => case.mask_word = any_word(random),
        5 => case.mask[0] = any_word(random),
        6 => case.alpha = any_word(random),
        7 => case.beta = any_word(random),
        8 => case.gamma = any_word(random),
        _ => case.entries[matrix].iter_mut().for_each(|word| *word = any_word(random)),
    }
}

/// A lent slice of a length that is mostly good.
fn lent(random: &mut Random, length: usize) -> Vec<u32> {
    vec![UNTOUCHED; length + usize::from(random.below(10) == 0)]
}

fn check<Answer>(answer: Result<Answer, Refusal>, lent: &[&[u32]]) {
    let touched = lent.concat().iter().any(|&word| word != UNTOUCHED);
    let long = lent.concat().is_empty();
    assert!(if answer.is_err() { !touched } else { touched || long });
}

/// All prover calls, the indexer and the blinding, with lent slices of their own lengths.
fn call_all(random: &mut Random, case: &Case) {
    let (s, l, z, r, m) = (case.sizes, case.lists(), &case.assignment[..], case.mask_word, &case.mask[..]);
    let (alpha, eta, beta, delta) = (case.alpha, case.eta, case.beta, case.delta);
    let [w, _, h0, _, g1, h1, _, ga, gb, gc, h2] = case.lengths().map(|length| lent(random, length));
    let [mut w, mut h0, mut g1, mut h1, mut h2] = [w, h0, g1, h1, h2];
    let mut g = [ga, gb, gc];
    check(second::first_round(s, l, z, r, m, &mut w, &mut h0), &[&w, &h0]);
    assert!(second::second_round(s, l, z, r, m, alpha).map_or(true, |sums| sums.iter().all(|&word| word < P)));
    check(second::third_round(s, l, z, r, m, alpha, eta, &mut g1, &mut h1), &[&g1, &h1]);
    let answer = second::fourth_round(s, l, z, r, m, alpha, eta, beta, g.each_mut().map(Vec::as_mut_slice));
    check(answer, &g.each_ref().map(Vec::as_slice));
    check(second::fifth_round(s, l, z, r, m, alpha, eta, beta, delta, &mut h2), &[&h2]);
    let openings = second::openings(s, l, z, r, m, alpha, eta, beta, delta, case.gamma);
    assert!(openings.map_or(true, |words| words.iter().all(|&word| word < P)));
    let mut index: [Vec<u32>; 12] = std::array::from_fn(|place| lent(random, case.places()[place / 4] as usize));
    let answer = second::index(s, l, index.each_mut().map(Vec::as_mut_slice));
    check(answer, &index.each_ref().map(Vec::as_slice));
    let mut blinded = [l[0].len() + 3, l[1].len() + 3, l[2].len() + 3, z.len()].map(|length| lent(random, length));
    let [a, b, c, blinded_z] = blinded.each_mut().map(Vec::as_mut_slice);
    check(second::blind(s, l, z, eta, [a, b, c], blinded_z), &blinded.each_ref().map(Vec::as_slice));
}

#[test]
fn prover_and_indexer() {
    let mut random = Random::new(20);
    let mut checked = Checked::default();
    for _ in 0..count(3000) {
        let sizes = random.sizes(3);
        let mut case = random.case(sizes, 8);
        for _ in 0..random.below(4) {
            damage(&mut random, &mut case);
        }
        call_all(&mut random, &case);
        checked.one();
    }
}

/// The two calls between coefficients and values, with the same inputs: both are done, or both refused alike.
#[test]
fn transforms() {
    let mut random = Random::new(36);
    let mut done = 0;
    for _ in 0..count(3000) {
        let size = if random.below(10) == 0 { any_word(&mut random) } else { 1 << random.below(5) };
        let length = size.min(1100) as usize + usize::from(random.below(10) == 0);
        let words: Vec<u32> = (0..length).map(|_| tame_word(&mut random)).collect();
        let mut lent = lent(&mut random, size.min(1100) as usize);
        let answers = [second::interpolate, second::evaluate_on_domain].map(|call| {
            lent.fill(UNTOUCHED);
            let answer = call(size, &words, &mut lent);
            check(answer, &[&lent]);
            answer
        });
        assert_eq!(answers[0], answers[1], "{size} {words:?}");
        done += usize::from(answers[0].is_ok());
    }
    assert!(done > 1000, "{done}");
}

/// How often each step was taken and not refused: α, η, β, δ, γ, asking, committing.
type Taken = [u64; 7];
/// The place of asking among them.
const ASKING: usize = 5;

/// A random step with any words; the session must be the same where it asks or is refused.
fn any_step(random: &mut Random, session: Session, taken: &mut Taken) -> Session {
    let (a, b, c) = (three(random), three(random), three(random));
    let [x, y] = [tame_word(random), tame_word(random)];
    let openings = std::array::from_fn(|_| tame_word(random));
    let step = random.below(7) as usize;
    let (next, refused) = match step {
        0 => session.clone().alpha(a, x).map_refused(),
        1 => session.clone().eta(a, b).map_refused(),
        2 => session.clone().beta([x, y], a[0]).map_refused(),
        3 => session.clone().delta(a, b, c).map_refused(),
        4 => session.clone().gamma(x, y).map_refused(),
        ASKING => (session.clone(), session.ask(openings)).map_refused(),
        _ => session.clone().commit(openings).map_refused(),
    };
    assert_eq!(next == session, refused || step == ASKING);
    taken[step] += u64::from(!refused);
    next
}

/// A session of any words; stage and sizes are mostly those of a session.
fn any_session(random: &mut Random) -> Session {
    let stage = if random.below(10) == 0 { any_word(random) } else { random.below(8) as u32 };
    let size = |random: &mut Random| if random.below(20) == 0 { any_word(random) } else { 1 << random.below(11) };
    let words = std::array::from_fn(|place| match place {
        0 => stage,
        1..7 => size(random),
        _ => tame_word(random),
    });
    Session::from_words(&words)
}

/// A step's session, and whether it was refused.
trait MapRefused {
    fn map_refused(self) -> (Session, bool);
}

impl<Answer> MapRefused for (Session, Result<Answer, Refusal>) {
    fn map_refused(self) -> (Session, bool) {
        (self.0, self.1.is_err())
    }
}

#[test]
fn sessions() {
    let mut random = Random::new(21);
    let mut taken = Taken::default();
    for _ in 0..count(3000) {
        let sizes = [(); 6].map(|()| if random.below(10) == 0 { any_word(&mut random) } else { 1 << random.below(4) });
        let length = sizes[2].min(1100) as usize + usize::from(random.below(10) == 0);
        let mut public: Vec<u32> = (0..length).map(|_| tame_word(&mut random)).collect();
        if let Some(first) = public.first_mut().filter(|_| random.below(20) > 0) {
            *first = 1;
        }
        let Ok(mut session) = second::open(sizes, &public) else {
            continue;
        };
        for _ in 0..70 {
            session = any_step(&mut random, session, &mut taken);
        }
    }
    assert!(taken.iter().all(|&times| times > 500), "{taken:?}");
}

#[test]
fn sessions_of_any_words() {
    let mut random = Random::new(23);
    let mut taken = Taken::default();
    for _ in 0..count(5000) {
        let mut session = any_session(&mut random);
        for _ in 0..10 {
            session = any_step(&mut random, session, &mut taken);
        }
    }
    assert!(taken.iter().sum::<u64>() > 1000, "{taken:?}");
}

#[test]
fn records_and_jobs() {
    let mut random = Random::new(22);
    let mut checked = Checked::default();
    for _ in 0..count(5000) {
        let length = random.below(60) as usize;
        let mut words = any_words(&mut random, length);
        if let Some(last) = words.last_mut() {
            *last = 4 * (length as u32).saturating_sub(18);
        }
        let bytes: Vec<u8> = words.iter().flat_map(|word| word.to_le_bytes()).collect();
        let section = second::section(&bytes, random.below(11) as usize);
        assert_eq!(section.err(), second::read_record(&bytes).err());
        let text = second::prove(&bytes);
        assert!(["refused ", "job too ", "w "].iter().any(|start| text.starts_with(start)));
        checked.one();
    }
}

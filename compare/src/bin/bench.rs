//! Times of the proved library and of the second implementation, side by side.
//!
//!     cargo run --release --bin bench
//!
//! Each size n stands for |R| = |C| = n, n entries in each matrix and |X| = n/4. Evaluated is the mask polynomial, 2n words at β,
//! whole and in parts of at most 64 words. The assignment, n words, is interpolated on C, and its words are taken as coefficients and
//! evaluated on C. A session is the eight steps of a proof; a verdict is asked for once, with |X| = n. Times are medians in
//! microseconds, of more runs where a run is short. Every run begins with lent buffers cleared to zero, which is not timed. The ratio is
//! the library's time over the second implementation's, and the line below it has the inverse: how many times faster the library is.
//! Then come the library's nanoseconds for each of the n places. The exponent e says that from the last size but one to the last the
//! time grew as n^e.

#![forbid(unsafe_code)]

use compare::calls::{self, Proof, Side};
use compare::case::Case;
use compare::library::{self, OPENINGS};
use compare::random::Random;
use second::Verdict;
use std::hint::black_box;
use std::time::{Duration, Instant};

const SIZES: [u32; 4] = [16, 64, 256, 1024];
/// The time that the runs of one measurement fill, and the least and most of them.
const FILLED: Duration = Duration::from_millis(500);
const RUNS: (usize, usize) = (5, 1001);
/// The most words of a part in which a list is evaluated.
const PART: usize = 64;

/// The lent slices of all calls.
struct Buffers {
    transformed: Vec<u32>,
    sections: [Vec<u32>; 11],
    index: [Vec<u32>; 12],
    record: Vec<u8>,
}

impl Buffers {
    fn new(case: &Case) -> Buffers {
        let words: usize = case.lent_sections.iter().sum();
        Buffers {
            transformed: vec![0; case.assignment.len()],
            sections: case.lent_sections.map(|length| vec![0; length]),
            index: case.lent_index.map(|length| vec![0; length]),
            record: vec![0; 4 * words + 72],
        }
    }

    fn clear(&mut self) {
        self.transformed.fill(0);
        self.sections.iter_mut().chain(&mut self.index).for_each(|slice| slice.fill(0));
        self.record.fill(0);
    }
}

/// A case with its proof and record, and a verdict to ask for where all columns are public.
struct Work {
    case: Case,
    proof: Proof,
    record: Vec<u8>,
    public: Judged,
}

/// Both sides' sessions before the openings, and the openings.
struct Judged {
    library: library::Session,
    second: second::Session,
    openings: [u32; OPENINGS],
}

impl Judged {
    fn new(case: &Case) -> Judged {
        let proof = calls::prove(Side::Library, case).expect("a satisfied case is proved");
        let (library, second) = (library_session(case, &proof), second_session(case, &proof));
        Judged { library, second, openings: proof.openings }
    }
}

impl Work {
    fn new(size: u32) -> Work {
        let case = Random::new(70).full_case(size);
        let proof = calls::prove(Side::Library, &case).expect("a satisfied case is proved");
        let mut record = Buffers::new(&case).record;
        let sections = proof.sections.each_ref().map(Vec::as_slice);
        library::write_record(case.six_sizes(), sections, &mut record).expect("a proof's record is written");
        let mut all_public = case.clone();
        all_public.sizes[2] = all_public.sizes[1];
        all_public.lend_again();
        Work { public: Judged::new(&all_public), case, proof, record }
    }
}

/// What is timed: its name, and one run of it. A run fails where a call is refused.
type Task = (&'static str, fn(Side, &Work, &mut Buffers));

const TASKS: [Task; 16] = [
    ("evaluate", evaluate),
    ("in parts", evaluate_parts),
    ("interpolate", interpolate),
    ("on domain", evaluate_on_domain),
    ("index", index),
    ("round 1", first_round),
    ("round 2", second_round),
    ("round 3", third_round),
    ("round 4", fourth_round),
    ("round 5", fifth_round),
    ("openings", openings),
    ("whole proof", whole_proof),
    ("session", session),
    ("verdict", verdict),
    ("write record", write_record),
    ("read record", read_record),
];

fn evaluate(side: Side, work: &Work, _: &mut Buffers) {
    let call = match side {
        Side::Library => library::evaluate,
        Side::Second => second::evaluate,
    };
    black_box(call(&work.case.mask, work.case.beta()).expect("done"));
}

fn evaluate_parts(side: Side, work: &Work, _: &mut Buffers) {
    let call = match side {
        Side::Library => library::evaluate_part,
        Side::Second => second::evaluate_part,
    };
    let next = |(sum, power), part: &[u32]| call(sum, power, work.case.beta(), part).expect("done");
    black_box(work.case.mask.chunks(PART).fold((0, 1), next));
}

fn interpolate(side: Side, work: &Work, buffers: &mut Buffers) {
    let call = match side {
        Side::Library => library::interpolate,
        Side::Second => second::interpolate,
    };
    call(work.case.sizes[1], &work.case.assignment, &mut buffers.transformed).expect("done");
}

fn evaluate_on_domain(side: Side, work: &Work, buffers: &mut Buffers) {
    let call = match side {
        Side::Library => library::evaluate_on_domain,
        Side::Second => second::evaluate_on_domain,
    };
    call(work.case.sizes[1], &work.case.assignment, &mut buffers.transformed).expect("done");
}

fn index(side: Side, work: &Work, buffers: &mut Buffers) {
    calls::index(side, &work.case, buffers.index.each_mut().map(Vec::as_mut_slice)).expect("done");
}

fn first_round(side: Side, work: &Work, buffers: &mut Buffers) {
    let [w, _, h0, ..] = &mut buffers.sections;
    calls::first_round(side, &work.case, [w, h0]).expect("done");
}

fn second_round(side: Side, work: &Work, _: &mut Buffers) {
    black_box(calls::second_round(side, &work.case).expect("done"));
}

fn third_round(side: Side, work: &Work, buffers: &mut Buffers) {
    let [_, _, _, _, g1, h1, ..] = &mut buffers.sections;
    calls::third_round(side, &work.case, [g1, h1]).expect("done");
}

fn fourth_round(side: Side, work: &Work, buffers: &mut Buffers) {
    let [_, _, _, _, _, _, _, ga, gb, gc, _] = &mut buffers.sections;
    black_box(calls::fourth_round(side, &work.case, [ga, gb, gc]).expect("done"));
}

fn fifth_round(side: Side, work: &Work, buffers: &mut Buffers) {
    calls::fifth_round(side, &work.case, [&mut buffers.sections[10]]).expect("done");
}

fn openings(side: Side, work: &Work, _: &mut Buffers) {
    black_box(calls::openings(side, &work.case).expect("done"));
}

/// Rounds 1 to 5 and the openings.
fn whole_proof(side: Side, work: &Work, buffers: &mut Buffers) {
    for part in [first_round, second_round, third_round, fourth_round, fifth_round, openings] {
        part(side, work, buffers);
    }
}

/// The eight steps, with the verdict asked for and committed.
fn session(side: Side, work: &Work, _: &mut Buffers) {
    let (case, proof) = (&work.case, &work.proof);
    let verdicts = match side {
        Side::Library => {
            let mut session = library_session(case, proof);
            [session.ask(proof.openings), session.commit(proof.openings)]
        }
        Side::Second => {
            let session = second_session(case, proof);
            [session.ask(proof.openings), session.commit(proof.openings).1]
        }
    };
    assert_eq!(verdicts, [Ok(Verdict::Accept); 2]);
}

/// Asking alone.
fn verdict(side: Side, work: &Work, _: &mut Buffers) {
    let judged = &work.public;
    let verdict = match side {
        Side::Library => judged.library.ask(judged.openings),
        Side::Second => judged.second.ask(judged.openings),
    };
    assert_eq!(verdict, Ok(Verdict::Accept));
}

fn length(proof: &Proof, section: usize) -> u32 {
    proof.sections[section].len() as u32
}

fn three(proof: &Proof, section: usize) -> [u32; 3] {
    [0, 1, 2].map(|place| proof.sections[section][place])
}

fn library_session(case: &Case, proof: &Proof) -> library::Session {
    let length = |section: usize| length(proof, section);
    let mut session = library::Session::unopened();
    session.open(case.six_sizes(), &case.public_words()).expect("taken");
    session.alpha([0, 1, 2].map(length), case.alpha()).expect("taken");
    session.eta(three(proof, 3), case.eta()).expect("taken");
    session.beta([4, 5].map(length), case.beta()).expect("taken");
    session.delta(three(proof, 6), [7, 8, 9].map(length), case.delta()).expect("taken");
    session.gamma(length(10), case.gamma()).expect("taken");
    session
}

fn second_session(case: &Case, proof: &Proof) -> second::Session {
    let length = |section: usize| length(proof, section);
    let session = second::open(case.six_sizes(), &case.public_words()).expect("opened");
    let session = session.alpha([0, 1, 2].map(length), case.alpha()).0;
    let session = session.eta(three(proof, 3), case.eta()).0;
    let session = session.beta([4, 5].map(length), case.beta()).0;
    let session = session.delta(three(proof, 6), [7, 8, 9].map(length), case.delta()).0;
    session.gamma(length(10), case.gamma()).0
}

fn write_record(side: Side, work: &Work, buffers: &mut Buffers) {
    let call = match side {
        Side::Library => library::write_record,
        Side::Second => second::write_record,
    };
    let sections = work.proof.sections.each_ref().map(Vec::as_slice);
    call(work.case.six_sizes(), sections, &mut buffers.record).expect("written");
}

fn read_record(side: Side, work: &Work, _: &mut Buffers) {
    let call = match side {
        Side::Library => library::read_record,
        Side::Second => second::read_record,
    };
    black_box(call(&work.record).expect("read"));
}

/// The median times of a task's runs on both sides, in microseconds. The sides take turns, so that both meet the same machine.
fn medians(task: Task, work: &Work) -> [f64; 2] {
    let mut buffers = Buffers::new(&work.case);
    let mut times = [Vec::new(), Vec::new()];
    let mut filled = Duration::ZERO;
    while times[0].len() < RUNS.0 || filled < FILLED && times[0].len() < RUNS.1 {
        for (side, times) in [Side::Library, Side::Second].into_iter().zip(&mut times) {
            buffers.clear();
            let start = Instant::now();
            task.1(side, work, &mut buffers);
            let time = start.elapsed();
            filled += time;
            times.push(time);
        }
    }
    times.map(|mut times| {
        times.sort();
        times[times.len() / 2].as_secs_f64() * 1e6
    })
}

/// A line of the table: a name, a number for each size, and the exponent of growth.
fn print_line(name: &str, side: &str, numbers: &[f64], exponent: bool) {
    let cells: String = numbers.iter().map(|number| format!("{number:>14.3}")).collect();
    let [.., before, last] = numbers else {
        unreachable!("there are four sizes");
    };
    let growth = f64::from(SIZES[SIZES.len() - 1]) / f64::from(SIZES[SIZES.len() - 2]);
    let exponent = if exponent { format!("{:>10.2}", (last / before).ln() / growth.ln()) } else { String::new() };
    println!("{name:13} {side:8}{cells}{exponent}");
}

fn main() {
    let works = SIZES.map(Work::new);
    let heads: String = SIZES.iter().map(|size| format!("{size:>14}")).collect();
    println!("medians in microseconds; |R| = |C| = entries of each matrix = the size, |X| = a quarter of it\n");
    println!("{:22}{heads}  exponent", "");
    for task in TASKS {
        let medians = works.each_ref().map(|work| medians(task, work));
        let [ours, theirs] = [0, 1].map(|side| medians.map(|median| median[side]));
        let ratio = medians.map(|[ours, theirs]| ours / theirs);
        let faster = ratio.map(f64::recip);
        let each: [f64; SIZES.len()] = std::array::from_fn(|place| 1e3 * ours[place] / f64::from(SIZES[place]));
        print_line(task.0, "library", &ours, true);
        print_line("", "second", &theirs, true);
        print_line("", "ratio", &ratio, false);
        print_line("", "faster", &faster, false);
        print_line("", "ns each", &each, false);
    }
}

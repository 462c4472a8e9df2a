//! A second implementation of document 01's proof system, with the requests of document 02, made from
//! the documents alone.
//!
//! Every public call takes its inputs in the order of docs/CALLS.md and gives a complete result or the
//! first refusal that applies. A lent slice is filled only on success. Groups of a fixed number of
//! inputs are arrays: the three or six sizes, the three entry lists, an entry's row, column and value,
//! the three challenges of a kind, the three blinding words, the eleven sections, the twenty-one openings.

#![forbid(unsafe_code)]
#![allow(clippy::too_many_arguments)] // the calls have the inputs that docs/CALLS.md lists

mod blinding;
mod circuit;
mod domain;
mod field;
mod growing;
mod index;
mod job;
mod large;
mod memory;
mod message;
mod polynomial;
mod prover;
mod record;
mod refusal;
mod sheet;
mod statement;
mod transcript;
mod verdict;
mod verifier;

pub use blinding::blind;
pub use domain::domain;
pub use field::{add, inverse, multiply, power, subtract, MODULUS};
pub use growing::{begin, begin_from, GrowingCircuit, CIRCUIT_WORDS};
pub use index::index;
pub use job::prove;
pub use memory::CircuitWords;
pub use polynomial::{evaluate, evaluate_on_domain, evaluate_part, interpolate};
pub use prover::{fifth_round, first_round, fourth_round, openings, second_round, third_round};
pub use record::{read_record, section, write_record};
pub use refusal::Refusal;
pub use sheet::sheet;
pub use verdict::{Check, Verdict};
pub use verifier::{open, Session, SESSION_WORDS};

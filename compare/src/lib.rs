//! The proved library beside the second implementation.
//!
//! `library` wraps the C interface; `case` holds a prover's inputs and `damage` what is put wrong in them; `calls` makes any
//! public call on either side, `steps` takes those of a session on both, `growing` makes those on a circuit that grows and
//! `blinding` the one that blinds; `random` gives seeded words and circuits; `sources` finds a library or program that is older
//! than what it is made of.

#![allow(clippy::too_many_arguments)] // the calls have the inputs that docs/CALLS.md lists
#![deny(unsafe_code)] // but for the wrapper of the C interface

pub mod blinding;
pub mod calls;
pub mod case;
pub mod damage;
pub mod growing;
#[allow(unsafe_code)]
pub mod library;
pub mod random;
pub mod sources;
pub mod steps;

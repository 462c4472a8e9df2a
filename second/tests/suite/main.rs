//! The tests of the second implementation, through its public calls only.
//!
//!     cargo test --release                          one seed
//!     SEED=7 COUNT=100 cargo test --release         another seed, and the random part of each test a hundred times as long

mod arithmetic;
mod blinding;
mod calls;
mod case;
mod entries;
mod growing;
mod honest;
mod identities;
mod index;
mod job;
mod memory;
mod prover;
mod random;
mod record;
mod session;
mod square;
mod tampered;
mod totality;
mod transforms;

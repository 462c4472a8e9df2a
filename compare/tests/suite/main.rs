//! The proved library and the programs `prove` and `sheet` beside the second implementation, on the same inputs.
//!
//! Every answer, every word of every lent slice, every session and every circuit that grows is compared whole. A test stops at the
//! first difference and prints the input that shows it, a job as the text that `jobtext pack` takes.
//!
//! What is needed first, in the repository: target/staticlib/libvaruna_c.a, which `bash tests/c/run` makes and tests, and the programs
//! crates/prove/out/prove and crates/sheet/out/sheet, which `rt ci` makes, or `rt run < stdin` in crates/prove and crates/sheet; one
//! that is older than its sources is refused. VARUNA_LIBRARY names another folder for the library, VARUNA_PROVE and VARUNA_SHEET other
//! programs.
//!
//!     cargo test --release                          one seed, under two minutes
//!     SEED=7 COUNT=100 cargo test --release         another seed, and the random part of each test a hundred times as long
//!     COUNT=1000 cargo test --release jobs          a long run of one module

#![forbid(unsafe_code)]

mod arithmetic;
mod blinding;
mod circuits;
mod examples;
mod forged;
mod growing;
mod hiding;
mod jobs;
mod parts;
mod positions;
mod program;
mod records;
mod sessions;
mod sheet;
mod tampered;
mod texts;
mod transforms;

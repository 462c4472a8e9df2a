//! The programs `prove` and `sheet`, run once for each input.

use compare::sources;
use std::io::Write;
use std::path::{Path, PathBuf};
use std::process::{Command, Stdio};
use std::sync::OnceLock;
use std::thread;
use std::time::Duration;

/// A program: its name, and the environment variable that can name another file for it.
struct Program {
    name: &'static str,
    variable: &'static str,
    path: OnceLock<PathBuf>,
}

static PROVE: Program = Program { name: "prove", variable: "VARUNA_PROVE", path: OnceLock::new() };
static SHEET: Program = Program { name: "sheet", variable: "VARUNA_SHEET", path: OnceLock::new() };

impl Program {
    /// The variable's file, or that in the crate's folder out. A test without it fails, and so does one with a program that
    /// is older than its sources.
    fn path(&self) -> &Path {
        self.path.get_or_init(|| {
            let given = std::env::var_os(self.variable).map(PathBuf::from);
            let path =
                given.unwrap_or_else(|| sources::in_repository("crates").join(self.name).join("out").join(self.name));
            // `rt run` alone makes nothing where only a file's time has changed
            let command = format!("(cd crates/{0} && rm -f out/{0} && rt run < stdin)", self.name);
            if let Err(fault) = sources::check_made(&path, &command) {
                panic!("{fault}, or set {} to the program", self.variable);
            }
            path
        })
    }

    /// What the program prints for an input that is written in pieces with a pause after each. It must end well and print
    /// nothing on standard error.
    fn run(&self, pieces: &[&[u8]], pause: Duration) -> String {
        let mut command = Command::new(self.path());
        command.stdin(Stdio::piped()).stdout(Stdio::piped()).stderr(Stdio::piped());
        let mut child = command.spawn().expect("the program starts");
        let mut input = child.stdin.take().expect("standard input is a pipe");
        for piece in pieces {
            // the program may stop reading an input that is too long, so a broken pipe is no fault
            let _ = input.write_all(piece);
            thread::sleep(pause);
        }
        drop(input);
        let output = child.wait_with_output().expect("the program ends");
        assert!(output.status.success(), "the program ended with {}", output.status);
        assert_eq!(String::from_utf8_lossy(&output.stderr), "", "the program wrote to standard error");
        String::from_utf8(output.stdout).expect("the program prints text")
    }
}

/// What `prove` prints for a job.
pub fn prove(job: &[u8]) -> String {
    prove_in_pieces(&[job], Duration::ZERO)
}

/// What `prove` prints for a job that is written in pieces with a pause after each.
pub fn prove_in_pieces(pieces: &[&[u8]], pause: Duration) -> String {
    PROVE.run(pieces, pause)
}

/// What `sheet` prints for a text.
pub fn sheet(text: &[u8]) -> String {
    SHEET.run(&[text], Duration::ZERO)
}

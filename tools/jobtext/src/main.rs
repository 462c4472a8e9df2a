//! Jobs and proof records between text and bytes.

#![forbid(unsafe_code)]

use std::io::{self, Read, Write};
use std::process::ExitCode;

const USAGE: &str = "\
usage:
  jobtext pack < TEXT > JOB             the bytes of a job from its decimal text
  jobtext show < JOB                    the text of a job, a field to a line
  jobtext record JOB < LINES > RECORD   the proof record of a job, from the lines that prove printed for it
  jobtext show-record < RECORD          the text of a proof record, a section to a line
A record, and the lines that prove prints, hold the whole witness: they are the prover's own, to be kept from others.
A mistake is named on standard error: the exit status is 1 and nothing is written to standard output.";

/// What is said of a record that was written.
const WARNING: &str =
    "this record holds the whole witness: it is the prover's own file, and others get commitments and openings only";

fn text(input: Vec<u8>) -> Result<String, String> {
    String::from_utf8(input).map_err(|_| "the text is not UTF-8".to_string())
}

fn input() -> Result<Vec<u8>, String> {
    let mut input = Vec::new();
    io::stdin().read_to_end(&mut input).map_err(|error| error.to_string())?;
    Ok(input)
}

/// What a command writes.
fn output(arguments: &[&str]) -> Result<Vec<u8>, String> {
    match arguments {
        ["pack"] => jobtext::pack(&text(input()?)?).map_err(|error| error.to_string()),
        ["show"] => Ok(jobtext::show(&input()?).into_bytes()),
        ["record", file] => {
            let job = std::fs::read(file).map_err(|error| format!("{file}: {error}"))?;
            jobtext::record(&job, &text(input()?)?)
        }
        ["show-record"] => {
            let record = input()?;
            match jobtext::record_fault(&record) {
                Some(fault) => Err(fault),
                None => Ok(jobtext::show_record(&record).into_bytes()),
            }
        }
        _ => Err(USAGE.to_string()),
    }
}

fn run() -> Result<(), String> {
    let arguments: Vec<String> =
        std::env::args_os().skip(1).map(|argument| argument.to_string_lossy().into_owned()).collect();
    let arguments: Vec<&str> = arguments.iter().map(String::as_str).collect();
    io::stdout().write_all(&output(&arguments)?).map_err(|error| error.to_string())?;
    if arguments.first() == Some(&"record") {
        eprintln!("{WARNING}");
    }
    Ok(())
}

fn main() -> ExitCode {
    match run() {
        Ok(()) => ExitCode::SUCCESS,
        Err(problem) => {
            eprintln!("{problem}");
            ExitCode::FAILURE
        }
    }
}

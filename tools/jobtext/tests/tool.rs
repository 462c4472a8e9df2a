//! The tool's commands: what each writes, the mistakes that each names, and how the tool is used.

#![forbid(unsafe_code)]

use std::io::Write;
use std::process::{Command, Output, Stdio};

const P: u32 = 2_013_265_921;

/// Document 01's square case.
fn square() -> Vec<u8> {
    let circuit = [1, 2, 1, 1, 1, 1, 0, 1, 1, 0, 1, 1, 0, 0, 9];
    let rest = [1, 3, 1, 1, 0, P - 1, 1, 2, 1, 1, 2, 3, 1, 1, 1, 5];
    jobtext::bytes(&[&circuit[..], &rest].concat())
}

fn tool(arguments: &[&str], input: &[u8]) -> Output {
    let mut command = Command::new(env!("CARGO_BIN_EXE_jobtext"));
    command.args(arguments).stdin(Stdio::piped()).stdout(Stdio::piped()).stderr(Stdio::piped());
    let mut child = command.spawn().expect("the tool starts");
    // with wrong arguments the tool ends without reading
    let _ = child.stdin.take().expect("standard input is a pipe").write_all(input);
    child.wait_with_output().expect("the tool ends")
}

/// What the tool writes where it succeeds and says nothing.
fn good(arguments: &[&str], input: &[u8]) -> Vec<u8> {
    let output = tool(arguments, input);
    assert!(output.status.success() && output.stderr.is_empty(), "{output:?}");
    output.stdout
}

/// The lines that the tool writes where it succeeds, each with its words one blank apart.
fn lines(arguments: &[&str], input: &[u8]) -> Vec<String> {
    let text = String::from_utf8(good(arguments, input)).expect("what is shown is text");
    text.lines().map(|line| line.split_whitespace().collect::<Vec<_>>().join(" ")).collect()
}

/// What the tool says where it fails, with exit status 1 and nothing on standard output.
fn problem(arguments: &[&str], input: &[u8]) -> String {
    let output = tool(arguments, input);
    assert_eq!((output.status.code(), &output.stdout[..]), (Some(1), &[][..]));
    String::from_utf8(output.stderr).expect("a message is text")
}

#[test]
fn packs_numbers() {
    let text = "1,2 , 3\t4 # 5 6\n\n#7\n 4294967295,\r\n0#8\n007";
    let words = [1, 2, 3, 4, u32::MAX, 0, 7];
    assert_eq!(good(&["pack"], text.as_bytes()), jobtext::bytes(&words));
    assert_eq!(good(&["pack"], b""), b"");
    assert_eq!(good(&["pack"], b"# nothing"), b"");
}

#[test]
fn names_line_and_column() {
    assert_eq!(problem(&["pack"], b"1 2\n 3,x4 5"), "line 2, column 4: 'x4' is not a number\n");
    assert_eq!(problem(&["pack"], b"+1"), "line 1, column 1: '+1' is not a number\n");
    assert_eq!(problem(&["pack"], b"1 - 2"), "line 1, column 3: '-' is not a number\n");
    assert_eq!(problem(&["pack"], b"--1"), "line 1, column 1: '--1' is not a number\n");
    assert_eq!(problem(&["pack"], b"1\n\n12 4294967296"), "line 3, column 4: 4294967296 is 2^32 or more\n");
    assert_eq!(problem(&["pack"], "1 \u{b2}".as_bytes()), "line 1, column 3: '\u{b2}' is not a number\n");
    assert_eq!(problem(&["pack"], &[b'1', 0xff]), "the text is not UTF-8\n");
}

/// Field words: the values of entries, and all that follows the entries.
#[test]
fn reads_negative_field_words_modulo_p() {
    let text = "1 2 1, 1 1 0, 0 1 -1, 0 1 -2013265920, -3 -0, -2013265921, -2013265922 -100000000000000000000";
    let words = [1, 2, 1, 1, 1, 0, 0, 1, P - 1, 0, 1, 1, P - 3, 0, 0, P - 1];
    let packed = good(&["pack"], text.as_bytes());
    assert_eq!(packed[..64], jobtext::bytes(&words));
    let last = (10u128.pow(20) % u128::from(P)) as u32;
    assert_eq!(packed[64..], jobtext::bytes(&[P - last]));
    assert_eq!(good(&["pack"], b"1 1 1 0 0 0 -1"), jobtext::bytes(&[1, 1, 1, 0, 0, 0, P - 1]));
    assert_eq!(good(&["pack"], b"1 1 1 0 0 0 2013265921"), jobtext::bytes(&[1, 1, 1, 0, 0, 0, P]));
}

#[test]
fn names_what_is_never_negative() {
    let refused = |text: &str| problem(&["pack"], text.as_bytes());
    let is = |place: &str, name: &str| format!("{place}: -1 is {name}, and only field words can be negative\n");
    assert_eq!(refused("1\n2 -1"), is("line 2, column 3", "a size"));
    assert_eq!(refused("1 2 1\n1 1 -1"), is("line 2, column 5", "an entry count"));
    assert_eq!(refused("1 2 1\n1 1 1\n-1 1 1"), is("line 3, column 1", "a row"));
    assert_eq!(refused("1 2 1\n1 1 1\n0 1 1, 0 -1 1"), is("line 3, column 10", "a column"));
    assert_eq!(refused("1 2 1\n0 0 1\n-1 1 1"), is("line 3, column 1", "a row"));
    assert!(refused("-0 2 1").contains("-0 is a size"));
}

#[test]
fn asks_for_a_command() {
    let wrong: [&[&str]; 7] = [
        &[],
        &["unpack"],
        &["pack", "file"],
        &["show", "file"],
        &["record"],
        &["record", "a", "b"],
        &["show-record", "a"],
    ];
    for arguments in wrong {
        let usage = problem(arguments, b"");
        for command in ["pack < TEXT > JOB ", "show < JOB ", "record JOB < LINES > RECORD ", "show-record < RECORD "] {
            assert!(usage.contains(&format!("\n  jobtext {command}")), "{usage}");
        }
        assert!(usage.starts_with("usage:\n") && usage.contains("exit status is 1"), "{usage}");
        assert!(usage.contains("\nA record, and the lines that prove prints, hold the whole witness: "), "{usage}");
    }
}

#[test]
fn shows_the_square_job() {
    let expected = [
        "1 2 1 # |R| |C| |X|",
        "1 1 1 # entries of A, B, C",
        "0 1 1 # A: row, column, value",
        "0 1 1 # B: row, column, value",
        "0 0 9 # C: row, column, value",
        "1 3 # z",
        "1 # r",
        "1 0 2013265920 1 # m",
        "2 # alpha",
        "1 1 2 # eta",
        "3 # beta",
        "1 1 1 # delta",
        "5 # gamma",
    ];
    assert_eq!(lines(&["show"], &square()), expected);
}

#[test]
fn says_what_is_missing_or_left_over() {
    let job = square();
    let comments = |bytes: &[u8]| {
        let shown = jobtext::show(bytes);
        let comments = shown.lines().filter_map(|line| line.strip_prefix("# "));
        comments.map(str::to_string).collect::<Vec<_>>()
    };
    let expected = [
        "2 bytes of a word: [3, 0]",
        "missing: 1 of 2 words of z",
        "missing: 1 of 1 words of r",
        "missing: 4 of 4 words of m",
        "missing: 1 of 1 words of alpha",
        "missing: 3 of 3 words of eta",
        "missing: 1 of 1 words of beta",
        "missing: 3 of 3 words of delta",
        "missing: 1 of 1 words of gamma",
    ];
    assert_eq!(comments(&job[..66]), expected);
    let expected = ["missing: 1 of 3 words of |R| |C| |X|", "missing: 3 of 3 words of entries of A, B, C"];
    assert_eq!(comments(&job[..8]), [&expected[..], &["missing: all after them"]].concat());
    let longer = jobtext::show(&[&job[..], &[7, 0, 0, 0]].concat());
    let last = longer.lines().last().map(|line| line.split_whitespace().collect::<Vec<_>>());
    assert_eq!(last, Some(vec!["7", "#", "left", "over"]));
    assert_eq!(comments(&job), [""; 0]);
}

#[test]
fn shown_square_job_packs_again() {
    assert_eq!(good(&["pack"], &good(&["show"], &square())), square());
}

/// What the program prints for the square case.
const SQUARE_LINES: &str = "\
w 0 1
m 1 0 2013265920 1
h0
s 3 3 9
g1 7
h1 1 9
o 2013265920 2013265920 18
ga
gb
gc
h2
verdict accept
";

/// The square case's record, by document 01.
fn square_record() -> Vec<u8> {
    let sections = [0, 1, 1, 0, P - 1, 1, 3, 3, 9, 7, 1, 9, P - 1, P - 1, 18];
    let trailer = [0, 8, 24, 24, 36, 40, 48, 60, 60, 60, 60, 1, 2, 1, 1, 1, 1, 60];
    jobtext::bytes(&[&sections[..], &trailer].concat())
}

/// A file that holds a job, for a test of its own name.
fn job_file(test: &str, job: &[u8]) -> String {
    let path = format!("{}/{test}.job", env!("CARGO_TARGET_TMPDIR"));
    std::fs::write(&path, job).expect("a job is written");
    path
}

/// The record alone is on standard output; whose it is, is said on standard error.
#[test]
fn writes_the_square_record() {
    let file = job_file("square", &square());
    let output = tool(&["record", &file], SQUARE_LINES.as_bytes());
    assert!(output.status.success(), "{output:?}");
    assert_eq!(output.stdout.len(), 132);
    assert_eq!(output.stdout, square_record());
    let said = String::from_utf8(output.stderr).expect("what is said is text");
    assert!(said.starts_with("this record holds the whole witness: ") && said.lines().count() == 1, "{said}");
}

#[test]
fn record_takes_sizes_from_the_entry_counts() {
    let job = jobtext::bytes(&[1, 1, 1, 0, 3, 5]);
    let lines = "w 1\nm 0 0\nh0\ns 0 0 0\ng1\nh1 0\no 0 0 0\nga\ngb 1 2 3\ngc 1 2 3 4 5 6 7\nh2 7 6 5 4 3 2 1\nverdict accept\n";
    let record = jobtext::record(&job, lines).expect("a record is written");
    assert_eq!(second::read_record(&record), Ok([1, 1, 1, 1, 4, 8]));
}

#[test]
fn record_names_mistakes_of_the_job() {
    let said = |job: &[u8]| jobtext::record(job, SQUARE_LINES).expect_err("no record is written");
    assert_eq!(said(&square()[..23]), "the job has 23 bytes: it ends before its sizes and entry counts");
    assert_eq!(said(&jobtext::bytes(&[1, 2, 1, 1, 1025, 1])), "the job has 1025 entries of B: over 1,024");
    let no_size = "which is no power of two from 1 to 1,024";
    assert_eq!(said(&jobtext::bytes(&[3, 2, 1, 1, 1, 1])), format!("refused 4 0: |R| is 3, {no_size}"));
    assert_eq!(said(&jobtext::bytes(&[1, 2, 4, 1, 1, 1])), format!("refused 4 2: |X| is 4, {no_size}, or above |C|"));
    let other = said(&jobtext::bytes(&[2, 2, 1, 1, 1, 1]));
    assert_eq!(other, "refused 5 2: section h0 has 0 words, which the job's sizes do not give");
    assert!(problem(&["record", "no-such.job"], b"").starts_with("no-such.job: "));
}

#[test]
fn record_names_mistakes_of_the_lines() {
    let file = job_file("lines", &square());
    let said = |lines: &str| problem(&["record", &file], lines.as_bytes());
    for answer in ["refused 9 1", "job too short", ""] {
        assert_eq!(said(answer), format!("there is no proof: prove printed '{answer}'\n"));
    }
    let changed = |from: &str, to: &str| said(&SQUARE_LINES.replace(from, to));
    assert_eq!(changed("h0\n", ""), "line 3, column 1: 's 3 3 9' where section h0 should stand\n");
    assert_eq!(changed("s 3 3", "s 3 x"), "line 4, column 5: 'x' is not a number\n");
    assert_eq!(changed("h1 1 9", "h1 1 4294967296"), "line 6, column 6: 4294967296 is 2^32 or more\n");
    let last = "line 12: 'verdict accept' should stand here, and nothing after it\n";
    assert_eq!(changed("verdict accept\n", ""), last);
    assert_eq!(changed("accept", "fails row"), last);
    assert_eq!(changed("accept\n", "accept\nw\n"), last);
    assert_eq!(changed("w 0 1", "w 0"), "refused 5 0: section w has 1 words, which the job's sizes do not give\n");
    assert_eq!(changed("g1 7", "g1 2013265921"), "refused 6 9: word 9 of the sections is 2013265921: p or more\n");
    assert_eq!(problem(&["record", &file], &[0xff]), "the text is not UTF-8\n");
}

#[test]
fn shows_records() {
    let expected = [
        "0 1 # w",
        "1 0 2013265920 1 # m",
        "# h0",
        "3 3 9 # s",
        "7 # g1",
        "1 9 # h1",
        "2013265920 2013265920 18 # o",
        "# ga",
        "# gb",
        "# gc",
        "# h2",
        "0 8 24 24 36 40 48 60 60 60 60 # starts of the sections, in bytes",
        "1 2 1 1 1 1 # |R| |C| |X| |K_A| |K_B| |K_C|",
        "60 # start of the trailer, in bytes",
    ];
    assert_eq!(lines(&["show-record"], &square_record()), expected);
    assert_eq!(jobtext::pack(&jobtext::show_record(&square_record())), Ok(square_record()));
}

/// Document 01's refusals 2, 3 and 6 of a record.
#[test]
fn show_record_names_the_refusal() {
    let said = |record: &[u8]| problem(&["show-record"], record);
    let with = |place: usize, word: u32| {
        let mut record = square_record();
        record[4 * place..4 * place + 4].copy_from_slice(&word.to_le_bytes());
        said(&record)
    };
    let record = square_record();
    assert_eq!(said(&record[..71]), "refused 2 0: 71 bytes are under the 72 of a trailer\n");
    assert_eq!(said(&record[1..]), "refused 2 0: 131 bytes are not whole words\n");
    assert_eq!(said(&record[4..]), "refused 2 0: the last word is 60, and the length less 72 is 56\n");
    let no_size = "which is no power of two from 1 to 1,024";
    assert_eq!(with(26, 3), format!("refused 3 11: |R| is 3, {no_size}\n"));
    assert_eq!(with(28, 4), format!("refused 3 13: |X| is 4, {no_size}, or above |C|\n"));
    assert_eq!(with(16, 9), "refused 3 1: the start of section m is 9, which the sizes do not give\n");
    let mut longer = [&[0; 4], &record[..]].concat();
    longer[132..].copy_from_slice(&64u32.to_le_bytes());
    assert_eq!(said(&longer), "refused 3 17: the sections have 64 bytes, which the sizes do not give\n");
    assert_eq!(with(1, P), "refused 6 1: word 1 is 2013265921: p or more\n");
    assert!(jobtext::show_record(&record[4..])
        .ends_with("# refused 2 0: the last word is 60, and the length less 72 is 56\n"));
}

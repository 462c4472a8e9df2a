//! The jobs in examples/: each text NAME.txt, packed, must print NAME.out, through the program and through the second
//! implementation; what is accepted makes a proof record that the library reads. The blinded job is made from the one that it names,
//! and its circuit is the one that a proof takes as its example.

use crate::hiding::{lagrange, minus, plus, sums, times};
use crate::program;
use compare::blinding::Blinding;
use compare::case::Case;
use compare::library;
use std::fs;
use std::path::{Path, PathBuf};

fn folder() -> PathBuf {
    Path::new(env!("CARGO_MANIFEST_DIR")).join("../examples")
}

/// A file of the folder.
fn read(file: &str) -> String {
    fs::read_to_string(folder().join(file)).unwrap_or_else(|error| panic!("{file}: {error}"))
}

/// The words of a job.
fn words(job: &[u8]) -> Vec<u32> {
    job.chunks(4).map(|word| u32::from_le_bytes(word.try_into().expect("words"))).collect()
}

/// The names, texts and expected outputs of all examples.
fn examples() -> Vec<(String, String, String)> {
    let files = fs::read_dir(folder()).expect("there are examples").map(|file| file.expect("a file").path());
    let texts = files.filter(|file| file.extension().is_some_and(|extension| extension == "txt"));
    let read = |file: PathBuf| fs::read_to_string(&file).unwrap_or_else(|error| panic!("{}: {error}", file.display()));
    let named = |file: PathBuf| (file.display().to_string(), read(file.clone()), read(file.with_extension("out")));
    texts.map(named).collect()
}

#[test]
fn examples_print_what_stands_beside_them() {
    let examples = examples();
    assert!(examples.len() >= 8, "{} examples", examples.len());
    for (name, text, expected) in examples {
        let packed = jobtext::pack(&text).unwrap_or_else(|error| panic!("{name}: {error}"));
        assert_eq!(second::prove(&packed), expected, "{name}, the second implementation");
        assert_eq!(program::prove(&packed), expected, "{name}, the program");
    }
}

#[test]
fn shown_examples_are_the_same_jobs() {
    for (name, text, _) in examples() {
        let packed = jobtext::pack(&text).unwrap_or_else(|error| panic!("{name}: {error}"));
        assert_eq!(jobtext::pack(&jobtext::show(&packed)), Ok(packed), "{name}");
    }
}

/// The bytes of the words of a printed line, after its name.
fn line_bytes(line: &str) -> Vec<u8> {
    let words = line.split(' ').skip(1).map(|word| word.parse().expect("a word"));
    jobtext::bytes(&words.collect::<Vec<u32>>())
}

/// The tool's record of each accepted example: the library reads the job's sizes in it, and the printed words in its sections.
#[test]
fn records_of_accepted_examples_are_read() {
    let accepted = examples().into_iter().filter(|(_, _, printed)| printed.ends_with("verdict accept\n"));
    let mut count = 0;
    for (name, text, _) in accepted {
        let packed = jobtext::pack(&text).unwrap_or_else(|error| panic!("{name}: {error}"));
        let printed = program::prove(&packed);
        let record = jobtext::record(&packed, &printed).unwrap_or_else(|error| panic!("{name}: {error}"));
        let words = words(&packed);
        let sizes = library::read_record(&record).unwrap_or_else(|refusal| panic!("{name}: {refusal:?}"));
        assert_eq!(sizes[..3], words[..3], "{name}");
        for (size, entries) in sizes[3..].iter().zip(&words[3..6]) {
            assert!(size >= entries && (*size == 1 || size / 2 < *entries), "{name}: {sizes:?}");
        }
        for (number, line) in printed.lines().take(11).enumerate() {
            let (start, length) = library::section(&record, number).expect("a record that reads has its sections");
            assert_eq!(record[start..start + length], line_bytes(line), "{name}, section {number}");
        }
        count += 1;
    }
    assert!(count >= 4, "{count} accepted examples");
}

/// Whoever has a record, or what `prove` printed, has the whole witness: ŵ v_X + x̂ has z as its values on C, whatever the masks were. On C
/// the power |C| is 1, so that the |C| + 1 coefficients come down to |C|.
#[test]
fn printed_lines_hold_the_whole_witness() {
    let accepted = examples().into_iter().filter(|(_, _, printed)| printed.ends_with("verdict accept\n"));
    for (name, text, printed) in accepted {
        let case = case(&jobtext::pack(&text).unwrap_or_else(|error| panic!("{name}: {error}")));
        let [_, columns, public] = case.sizes.map(|size| size as usize);
        let mut z = vec![0; columns];
        library::interpolate(case.sizes[2], &case.public_words(), &mut z[..public]).expect("a size and its lengths");
        for (place, word) in words(&line_bytes(printed.lines().next().expect("ŵ is printed"))).into_iter().enumerate()
        {
            z[(place + public) % columns] = plus(z[(place + public) % columns], word);
            z[place] = minus(z[place], word);
        }
        let mut values = vec![0; columns];
        library::evaluate_on_domain(case.sizes[1], &z, &mut values).expect("a size and its lengths");
        assert_eq!(values, case.assignment, "{name}");
    }
}

/// Document 01's square case: 132 bytes, every one.
#[test]
fn record_of_the_square_example() {
    let packed = jobtext::pack(&read("square.txt")).expect("the square case is a job");
    let sections = [0, 1, 1, 0, second::MODULUS - 1, 1, 3, 3, 9, 7, 1, 9, second::MODULUS - 1, second::MODULUS - 1, 18];
    let trailer = [0, 8, 24, 24, 36, 40, 48, 60, 60, 60, 60, 1, 2, 1, 1, 1, 1, 60];
    let expected = jobtext::bytes(&[&sections[..], &trailer].concat());
    assert_eq!(expected.len(), 132);
    assert_eq!(jobtext::record(&packed, &program::prove(&packed)), Ok(expected));
}

/// The job that README.md builds step by step is that of examples/cubic.txt.
#[test]
fn circuit_of_the_readme() {
    let readme = read("../README.md");
    let text = readme.split_once("cat > my.txt <<'END'\n").and_then(|(_, rest)| rest.split_once("    END\n"));
    let (text, _) = text.expect("README.md has a job");
    assert_eq!(jobtext::pack(text), jobtext::pack(&read("cubic.txt")));
}

/// The case of a job.
fn case(job: &[u8]) -> Case {
    let mut words = words(job).into_iter();
    let mut take = |count: u32| words.by_ref().take(count as usize).collect::<Vec<u32>>();
    let sizes: [u32; 3] = take(3).try_into().expect("three sizes");
    let counts: [u32; 3] = take(3).try_into().expect("three counts");
    let mut case = Case::new(sizes, counts.map(|count| take(3 * count)), take(sizes[1]));
    case.mask_word = take(1)[0];
    case.mask = take(2 * sizes[1]);
    case.challenges = take(9).try_into().expect("nine challenges");
    assert_eq!(case.job(), job);
    case
}

/// The case of an example.
pub fn example(file: &str) -> Case {
    case(&jobtext::pack(&read(file)).unwrap_or_else(|error| panic!("{file}: {error}")))
}

/// The numbers to which the first line of examples/blinded.txt gives a name.
pub fn named<const N: usize>(name: &str) -> [u32; N] {
    let text = read("blinded.txt");
    let (_, rest) = text.split_once(&format!(" {name} = ")).expect("the first line names them");
    let numbers: Vec<u32> = rest.split([' ', ',']).map_while(|number| number.parse().ok()).collect();
    numbers.try_into().expect("there are as many")
}

/// The circuit of examples/cubic.txt with the two hiding rows, u · one = u in row 3 and w · 0 = 0 in row 4, in twice the rows and columns:
/// the total is in column 8, which is public there. Masks and challenges are those of examples/blinded.txt.
fn with_hiding_rows([u]: [u32; 1], [w]: [u32; 1]) -> Case {
    let Case { sizes: [rows, columns, public], mut entries, assignment: z, .. } = example("cubic.txt");
    for entry in entries.iter_mut().flat_map(|list| list.chunks_mut(3)).filter(|entry| entry[1] == 4) {
        entry[1] = 8;
    }
    entries[0].extend([3, 4, 1, 4, 5, 1]);
    entries[1].extend([3, 0, 1]);
    entries[2].extend([3, 4, 1]);
    let assignment = vec![z[0], z[1], z[2], z[3], u, w, 0, 0, z[4], 0, 0, 0, 0, 0, 0, 0];
    let Case { mask_word, mask, challenges, .. } = example("blinded.txt");
    let case = Case::new([2 * rows, 2 * columns, public], entries, assignment);
    Case { mask_word, mask, challenges, ..case }
}

/// The job of examples/blinded.txt is that of the circuit with the hiding rows after blinding, on both sides.
#[test]
fn blinded_example() {
    let hiding = with_hiding_rows(named("u"), named("w"));
    let blinded = Blinding::new(hiding, named("rho")).blinded().expect("three columns are free");
    let job = jobtext::pack(&read("blinded.txt"));
    assert_eq!(job, Ok(blinded.job()), "examples/blinded.txt, then what blinding gives:\n{blinded}");
}

/// The circuit before blinding is the one that crates/protocol/proofs/HidingExample.antt proves to have the hiding rows.
#[test]
fn circuit_of_the_proof() {
    let proof = read("../crates/protocol/proofs/HidingExample.antt");
    let numbers = |name: &str| {
        let line = proof.lines().find_map(|line| line.trim().strip_prefix(name)).expect("a line gives it");
        let numbers = line.split(|sign: char| !sign.is_ascii_digit()).filter_map(|number| number.parse().ok());
        numbers.collect::<Vec<u32>>()
    };
    let case = with_hiding_rows(named("u"), named("w"));
    assert_eq!(["|R| = ", "|C| = ", "|X| = "].map(numbers).concat(), case.sizes);
    assert_eq!(["a = ", "b = ", "c = "].map(numbers), case.entries);
}

/// The three sums that an example prints.
fn printed_sums(file: &str) -> [u32; 3] {
    let text = read(file);
    let line = text.lines().find_map(|line| line.strip_prefix("s ")).expect("the sums are printed");
    let sums: Vec<u32> = line.split(' ').map(|word| word.parse().expect("a word")).collect();
    sums.try_into().expect("there are three")
}

/// The words that hide move the sums as examples/blinded.txt says.
#[test]
fn sums_of_the_blinded_example() {
    let before = with_hiding_rows([0], [0]);
    let [last, of_u, of_w] = [7, 3, 4].map(|row| lagrange(&before, row));
    let ([a, b, c], [u], [w]) = (named("rho"), named("u"), named("w"));
    let by_u = times(of_u, u);
    let moved = [plus(plus(times(last, a), by_u), times(of_w, w)), times(last, b), plus(times(last, c), by_u)];
    let [before, after] = [sums(&before), printed_sums("blinded.out")];
    assert_eq!(after, [0, 1, 2].map(|matrix| plus(before[matrix], moved[matrix])));
}

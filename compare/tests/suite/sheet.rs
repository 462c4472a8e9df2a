//! Texts through the program `sheet` and through the second implementation: what is printed must be the same.

use crate::program::sheet;
use compare::random::{count, Random, NO_SIZES, SIZES};

/// The most bytes of a text, and the most circuits.
const TEXT_LIMIT: usize = 2048;
const CIRCUIT_LIMIT: usize = 16;

const NOT_SIX: &str = "six numbers are |R| |C| |X| and the entry counts of A, B, C";
const USAGE: &str = "sheet reads one circuit a line: |R| |C| |X| and the entry counts of A, B, C\n";
const TOO_LONG: &str = "sheet reads at most 2048 bytes\n";
const TOO_MANY: &str = "sheet takes at most 16 circuits\n";

/// A circuit with six different numbers.
const DIFFERENT: &str = "128 512 64 1000 300 7\n";

/// Runs a text on both sides; what is printed is that of both.
fn compare_text(text: impl AsRef<[u8]>) -> String {
    let text = text.as_ref();
    let ours = sheet(text);
    let shown = String::from_utf8_lossy(text);
    assert_eq!(ours, second::sheet(text), "the program's sheet, then the second implementation's, for {shown:?}");
    ours
}

/// The columns of a table, after its shape was looked at: 47 rows, with a name and a theorem beside so many numbers.
fn columns(table: &str, circuits: usize) -> Vec<Vec<String>> {
    let rows: Vec<Vec<&str>> = table.lines().map(|row| row.split('\t').collect()).collect();
    assert_eq!(rows.len(), 47, "{table}");
    assert!(rows.iter().all(|row| row.len() == circuits + 2), "{table}");
    (0..circuits + 2).map(|column| rows.iter().map(|row| row[column].to_string()).collect()).collect()
}

/// A text of so many copies of a circuit.
fn copies(times: usize) -> String {
    DIFFERENT.repeat(times)
}

/// A circuit with six different numbers, whole: the name, the number and the theorem of each figure.
#[test]
fn whole_table() {
    let table = "\
        |R|\t128\tgiven\n|C|\t512\tgiven\n|X|\t64\tgiven\n\
        entries of A\t1000\tgiven\nentries of B\t300\tgiven\nentries of C\t7\tgiven\n\
        size of K_A\t1024\tsizeFor\nsize of K_B\t512\tsizeFor\nsize of K_C\t8\tsizeFor\nsize of K\t1024\tlargest\n\
        words of w\t449\trules-kept\nwords of m\t1024\trules-kept\nwords of h0\t127\trules-kept\n\
        words of s\t3\trules-kept\nwords of g1\t511\trules-kept\nwords of h1\t512\trules-kept\n\
        words of o\t3\trules-kept\nwords of ga\t1023\trules-kept\nwords of gb\t511\trules-kept\n\
        words of gc\t7\trules-kept\nwords of h2\t1023\trules-kept\nbytes of the record\t20844\tread-written\n\
        degree of Row\t254\trow-means\nallowed points of Row\t2013265793\tallowed-points\n\
        degree of Line\t1023\tline-means\nallowed points of Line\t2013265409\tallowed-points\n\
        degree of Matrix for A\t2046\tmatrix-means\ndegree of Matrix for B\t1022\tmatrix-means\n\
        degree of Matrix for C\t14\tmatrix-means\ndegree of Matrix joined\t2046\tvalues-caught\n\
        allowed points of Matrix\t2013264897\tallowed-points\n\
        triples of eta\t8160249294558465929206824961\tall-triples\n\
        triples of eta that save a false sum\t4053239668659978241\tsums-caught\n\
        triples of delta\t8160249294558465929206824961\tall-triples\n\
        triples of delta that save a false matrix value, at most\t4053239668659978241\tvalues-caught\n\
        allowed challenge tuples\t543387846684679834382058527943070163501761887041278962245807979237107411354529757569\tallowed-tuples\n\
        tuples that alpha saves, at most\t68555534762373364346454609482127043485433877487275648760022033874702247267582\tsaved-by-alpha\n\
        tuples that eta saves, at most\t269903663006810432362182982554479033225418554651667876836727113723943778689\tsaved-by-eta\n\
        tuples that beta saves, at most\t276111517474757085330146788453444678074386172719082553102893729179231570364543\tsaved-by-beta\n\
        tuples that delta saves, at most\t269903663006810432362182982554479033225418554651667876836727113723943778689\tsaved-by-delta\n\
        tuples that gamma saves, at most\t552223175387165626990858793169293287749905481457593186633166199549110681996542\tsaved-by-gamma\n\
        tuples accepted without a witness, at most\t897430034950309697532184557069973967376176368773254724249755416830492387186045\tfew-accepted\n\
        tuples accepted without a witness, at most one in\t605493\tone-in\n\
        masks, as a power of p\t1024\tall-masks\nmasks for one list of openings, as a power of p\t1021\tany-three\n\
        conversations for at most one false proof in 2^64\t4\tone-list-in\n\
        conversations for at most one false proof in 2^128\t7\tone-list-in\n";
    assert_eq!(compare_text(DIFFERENT), table);
}

/// Each circuit has its own column, in the order of the lines.
#[test]
fn columns_are_circuits() {
    let lines = ["128 512 64 1000 300 7", "1 2 1 0 5 33", "1024 16 8 129 4 1024"];
    let table = columns(&compare_text(lines.join("\n")), 3);
    for (place, line) in lines.iter().enumerate() {
        let alone = columns(&compare_text(line), 1);
        assert_eq!(table[place + 1], alone[1], "the column of {line}");
        assert_eq!((&table[0], &table[4]), (&alone[0], &alone[2]), "names and theorems");
    }
}

/// With one column there is one mask for each list of openings, p to the 0.
#[test]
fn one_column() {
    let table = columns(&compare_text("1 1 1 0 0 0"), 1);
    assert_eq!(table[1][43..], ["2", "0", "3", "5"]);
}

/// The conversations for 2^64 and for 2^128 are the smallest powers of "one in" that 64 and 128 bits do not hold.
#[test]
fn fewest_conversations() {
    let mut random = Random::new(71);
    for _ in 0..count(100) {
        let numbers: Vec<String> = (0..6)
            .map(|place| match place {
                2 => "1".to_string(),
                0 | 1 => random.one_of(&SIZES).to_string(),
                _ => random.below(1025).to_string(),
            })
            .collect();
        let column = columns(&compare_text(numbers.join(" ")), 1).remove(1);
        let one_in: u64 = column[42].parse().unwrap();
        let [half, whole] = [45, 46].map(|row: usize| column[row].parse::<u32>().unwrap());
        assert!(one_in.checked_pow(half).is_none() && one_in.checked_pow(half - 1).is_some(), "{numbers:?}");
        let one_in = u128::from(one_in);
        assert!(one_in.checked_pow(whole).is_none() && one_in.checked_pow(whole - 1).is_some(), "{numbers:?}");
    }
}

/// Every size in each place, and entry counts at and beside every size.
#[test]
fn boundary_sizes() {
    let mut tables = 0;
    for size in SIZES {
        let text = format!("{size} 1024 1 {size} {} {}\n1 {size} {size} 0 1024 1\n", size - 1, (size + 1).min(1024));
        columns(&compare_text(text), 2);
        tables += 1;
    }
    assert_eq!(tables, SIZES.len());
}

/// From one to sixteen circuits there is a table, and a seventeenth is too many, wherever blank lines stand.
#[test]
fn counts_of_circuits() {
    for circuits in 1..=CIRCUIT_LIMIT {
        columns(&compare_text(copies(circuits)), circuits);
    }
    for circuits in CIRCUIT_LIMIT + 1..=CIRCUIT_LIMIT + 3 {
        assert_eq!(compare_text(copies(circuits)), TOO_MANY);
    }
    assert_eq!(compare_text(copies(1000 / DIFFERENT.len())), TOO_MANY);
    columns(&compare_text(format!("\n\n{}\n \n", copies(CIRCUIT_LIMIT))), CIRCUIT_LIMIT);
}

/// Spaces, tabs, carriage returns and blank lines change no number; a last line needs no newline.
#[test]
fn blanks_and_line_ends() {
    let plain = compare_text("4 8 2 3 5 6\n16 2 1 9 0 1\n");
    for same in [
        "4 8 2 3 5 6\n16 2 1 9 0 1",
        "4 8 2 3 5 6\r\n16 2 1 9 0 1\r\n",
        "\t4\t8  2 3 5\t 6 \n\n \t\r\n  16 2 1 9 0 1\n\n",
        "\n\n4 8 2 3 5 6\n16 2 1 9 0 1\r",
        "0004 08 2 3 5 000000000006\n16 2 00000001 9 0 1\n",
    ] {
        assert_eq!(compare_text(same), plain, "{same:?}");
    }
}

/// A text with no circuit.
#[test]
fn usage() {
    for text in ["", "\n", " ", "\t\r\n\n  \n", &"\n".repeat(TEXT_LIMIT)] {
        assert_eq!(compare_text(text), USAGE, "{text:?}");
    }
}

/// A text of exactly 2,048 bytes is read, whatever it holds, and one byte more is not.
#[test]
fn longest_text() {
    let padded = |length: usize| format!("{DIFFERENT}{}", " ".repeat(length - DIFFERENT.len()));
    assert_eq!(compare_text(padded(TEXT_LIMIT)), compare_text(DIFFERENT));
    assert_eq!(compare_text(padded(TEXT_LIMIT + 1)), TOO_LONG);
    assert_eq!(compare_text("\n".repeat(TEXT_LIMIT + 1)), TOO_LONG);
    assert_eq!(compare_text("x".repeat(TEXT_LIMIT)), format!("line 1: {NOT_SIX}\n"));
    assert_eq!(compare_text("x".repeat(TEXT_LIMIT + 1)), TOO_LONG);
    assert_eq!(compare_text("1".repeat(10 * TEXT_LIMIT)), TOO_LONG);
}

/// A line that is not six numbers is named by its number, blank lines counted; the first one is named.
#[test]
fn not_six_numbers() {
    for line in [
        "1",
        "4 8 2 3 5",
        "4 8 2 3 5 6 7",
        "4 8 2 3 5 x",
        "-4 8 2 3 5 6",
        "+4 8 2 3 5 6",
        "4,8,2,3,5,6",
        "4 8 2 3 5 6.0",
        "4 8 2 3 5 6#",
        "0x4 8 2 3 5 6",
        "4 8 2 3 5 \u{fc}",
        "|R| |C| |X| 1 1 1",
        "4 8\u{b}2 3 5 6",
        "\0",
        "4 8 2 3 5 6 \0",
    ] {
        for before in [0, 1, 2, 11] {
            let text = format!("{}\n{}{line}\n{DIFFERENT}x\n", DIFFERENT.trim_end(), "\n".repeat(before));
            assert_eq!(compare_text(text), format!("line {}: {NOT_SIX}\n", before + 2), "{line:?}");
        }
    }
    let invalid = [b"1 1 1 1 1 1\n".as_slice(), &[0xff, 0xfe, b'\n']].concat();
    assert_eq!(compare_text(invalid), format!("line 2: {NOT_SIX}\n"));
}

/// Each refusal, with each number above what is allowed, above 32 bits and above 128 bits; a wrong line is named before too many
/// circuits are.
#[test]
fn refusals() {
    let six = ["128", "512", "64", "1000", "300", "7"];
    let no_sizes = NO_SIZES.map(|word| word.to_string());
    let large =
        ["65535", "65536", "4294967295", "4294967296", "99999999999999999999", &"9".repeat(60)].map(str::to_string);
    let mut refused = 0;
    for place in 0..6 {
        let counts = ["1025".to_string()];
        let wrong = if place < 3 { no_sizes.iter() } else { counts.iter() };
        for number in wrong.chain(&large) {
            let mut words = six;
            words[place] = number;
            let message = format!("line 2: refused {} {}\n", 4 + place / 3, place % 3);
            assert_eq!(compare_text(format!("{DIFFERENT}{}\n", words.join(" "))), message);
            assert_eq!(compare_text(format!("{DIFFERENT}{}\n{}", words.join("\t"), copies(20))), message);
            refused += 1;
        }
    }
    assert!(refused >= 60, "{refused} refusals were compared");
    assert_eq!(compare_text("128 64 128 1 1 1"), "line 1: refused 4 2\n"); // |X| above |C|
    assert_eq!(compare_text("3 3 3 2000 2000 2000"), "line 1: refused 4 0\n");
    assert_eq!(compare_text("2 2 2 1 2000 2000"), "line 1: refused 5 1\n");
}

/// A number for a random line: allowed in its place, mostly.
fn random_number(random: &mut Random, place: usize) -> String {
    if random.one_in(60) {
        return random.damaged().to_string();
    }
    match place {
        0..=2 => random.one_of(&SIZES).to_string(),
        _ => random.below(1026).to_string(),
    }
}

/// A random line: mostly six numbers, else none, more, fewer or something else.
fn random_line(random: &mut Random) -> String {
    if random.one_in(8) {
        return random.one_of(&["", " ", "\t\r", "\r"]).to_string();
    }
    let mut words: Vec<String> = (0..6).map(|place| random_number(random, place)).collect();
    if random.one_in(2) {
        words[2] = "1".to_string();
    }
    if random.one_in(60) {
        words.truncate(random.place(6));
    }
    if random.one_in(60) {
        words.push(random.one_of(&["7", "x", "-1", "\0", "1e3"]).to_string());
    }
    words.join(random.one_of(&[" ", "\t", "  ", " \t"]))
}

/// Random texts: most are tables, some are refused, and each kind is met.
#[test]
fn random_texts() {
    let mut random = Random::new(70);
    let (mut tables, mut wrong, mut others) = (0, 0, 0);
    for _ in 0..count(400) {
        let lines: Vec<String> = (0..random.below(20)).map(|_| random_line(&mut random)).collect();
        let printed = compare_text(lines.join(random.one_of(&["\n", "\r\n"])));
        match printed.split(' ').next() {
            Some("line") => wrong += 1,
            Some("sheet") => others += 1,
            _ => tables += 1,
        }
    }
    println!("{tables} tables, {wrong} wrong lines, {others} other messages");
    assert!(tables > 0 && wrong > 0 && others > 0, "{tables} tables, {wrong} wrong lines, {others} other messages");
}

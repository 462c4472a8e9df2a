//! Jobs as text: what is shown packs again.

use compare::random::{count, Compared, Random};

/// What is shown packs to the same words, for any bytes.
#[test]
fn shown_text_packs_again() {
    let mut random = Random::new(60);
    let mut compared = Compared::default();
    for _ in 0..count(500) {
        let case = random.case(3);
        let mut words = case.job_words();
        for _ in 0..random.below(3) {
            let place = random.place(words.len());
            words[place] = random.damaged();
        }
        let mut bytes = jobtext::bytes(&words);
        if random.one_in(3) {
            bytes.truncate(random.place(bytes.len()));
        }
        let whole = &bytes[..bytes.len() / 4 * 4];
        assert_eq!(jobtext::pack(&jobtext::show(&bytes)).as_deref(), Ok(whole), "{case}");
        compared.one();
    }
}

/// The text printed with the input of a comparison is the job itself.
#[test]
fn printed_cases_are_jobs() {
    let mut random = Random::new(61);
    let mut compared = Compared::default();
    for _ in 0..count(50) {
        let case = random.case(4);
        assert_eq!(jobtext::pack(&case.to_string()), Ok(case.job()));
        compared.one();
    }
}

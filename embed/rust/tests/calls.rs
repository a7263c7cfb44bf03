//! What a Rust caller may count on: refusals as errors, the version, and calls on threads of their own.
use diftanew::{numbers, Line, Question, Refused, Step};

const LISTING: &[u8] = include_bytes!("../../../examples/listing.eff");

fn report() -> Result<Vec<u8>, Box<dyn std::error::Error>> {
    let mut scratch = [0; diftanew::SCRATCH];
    let mut buffer = [0; diftanew::REPORT];
    let length = diftanew::report(LISTING, &diftanew::ONES, &mut scratch, &mut buffer)?;
    Ok(buffer[..length].to_vec())
}

#[test]
fn a_refusal_is_an_error_in_words() {
    let mut scratch = [0; diftanew::SCRATCH];
    let refused = diftanew::report(b"script=1\nvars=99\n", &diftanew::ONES, &mut scratch, &mut []).unwrap_err();
    assert_eq!(refused, Refused { question: Question::Number, place: 2, script: 0 });
    let error: Box<dyn std::error::Error> = refused.into();
    assert_eq!(error.to_string(), "refused=4 2: a number is outside its limits (line 2)");
}

/// The script files in a folder.
fn scripts(folder: &str) -> Vec<Vec<u8>> {
    let folder = std::path::Path::new(env!("CARGO_MANIFEST_DIR")).join("../..").join(folder);
    let names = std::fs::read_dir(folder).unwrap().map(|entry| entry.unwrap().path());
    names.filter(|name| name.extension().is_some_and(|word| word == "eff" || word == "script")).map(|name| std::fs::read(name).unwrap()).collect()
}

#[test]
fn figures_are_what_the_report_says() {
    let (mut scratch, mut buffer) = ([0; diftanew::SCRATCH], [0; diftanew::REPORT]);
    let (mut accepted, mut refused) = (0, 0);
    for file in scripts("examples").into_iter().chain(scripts("crates/report_files/data")) {
        let prices = [1, 2, 3, 4];
        match (diftanew::report(&file, &prices, &mut scratch, &mut buffer), diftanew::figures(&file, &prices, &mut scratch)) {
            (Ok(length), Ok(figures)) => {
                let report = std::str::from_utf8(&buffer[..length]).unwrap();
                let rows = report.lines().nth(1).unwrap();
                assert_eq!(report, format!("report=1\n{rows}\n{figures}"));
                accepted += 1;
            }
            (report, figures) => {
                assert_eq!(report.unwrap_err(), figures.unwrap_err());
                refused += 1;
            }
        }
    }
    assert!(accepted > 100 && refused > 100, "{accepted} {refused}");
}

#[test]
fn figures_of_the_listing() {
    let figures = diftanew::figures(LISTING, &diftanew::ONES, &mut [0; diftanew::SCRATCH]).unwrap();
    assert_eq!((figures.ticks, figures.variables), (32, 2));
    let line = Line { row: 1, step: Step::Add(1, 1), turns: 9, total: 7, exact: false };
    assert_eq!(figures.lines()[1..], [line]);
    assert_eq!(line.to_string(), "loop=1 add 1 1 9 7 most");
    let refused = diftanew::figures(LISTING, &[1; 3], &mut [0; diftanew::SCRATCH]).unwrap_err();
    assert_eq!(refused, Refused { question: Question::Price, place: 3, script: 0 });
}

#[test]
fn frames_say_which_script_is_refused() {
    let call = |second: &mut [i32], q| {
        let (mut first, mut third) = ([0, 1], [0, 9]);
        let mut scripts = [
            diftanew::Script { file: LISTING, store: &mut first, picks: &[] },
            diftanew::Script { file: LISTING, store: second, picks: &[] },
            diftanew::Script { file: LISTING, store: &mut third, picks: &[] },
        ];
        diftanew::frames(&mut scripts, &diftanew::ONES, q, &mut [0; diftanew::SCRATCH]).unwrap_err()
    };
    assert_eq!(call(&mut [0, 1], 20), Refused { question: Question::Store, place: 1, script: 3 });
    assert_eq!(call(&mut [0], 20), Refused { question: Question::Store, place: 1, script: 2 });
    assert_eq!(call(&mut [0], 0), Refused { question: Question::Frames, place: 0, script: 0 });
    assert_eq!(call(&mut [0], 20).to_string(), "script 2: refused=15 1: the store does not fit the ranges (index 1)");
}

#[test]
fn every_question_has_its_number_and_words() {
    for number in 0..=24 {
        if let Some(question) = Question::of(number) {
            assert_eq!(question.number(), number);
            assert!(!question.to_string().is_empty());
        }
    }
    assert_eq!((0..=24).filter(|&n| Question::of(n).is_none()).collect::<Vec<_>>(), [0, 18, 23, 24]);
}

#[test]
fn the_version_is_cargos() {
    assert_eq!(diftanew::VERSION.map(|n| n.to_string()).join("."), env!("CARGO_PKG_VERSION"));
}

#[test]
fn two_threads_share_file_and_prices() {
    let expected = report().expect("the listing is accepted");
    let each = || {
        for _ in 0..2_000 {
            assert_eq!(report().unwrap(), expected);
            let (mut scratch, mut store, mut answer) = ([7; diftanew::SCRATCH], [0, 1], [0; numbers::ANSWER]);
            assert_eq!(numbers::run(LISTING, &diftanew::ONES, &mut scratch, &mut store, &[], 32, &mut answer), 0);
            assert_eq!((store, answer[2]), ([11, 6], 32));
        }
    };
    std::thread::scope(|scope| {
        scope.spawn(each);
        scope.spawn(each);
    });
}

//! What the generator and the script files promise.

use generator::{frames_case, reach_case, Spread, SEED};
use std::ffi::OsStr;
use std::os::unix::ffi::OsStrExt;
use std::path::Path;

fn answer(file: &[u8]) -> Vec<u8> {
    match reference::plan(file, &reference::ONES, reference::SCRATCH) {
        Ok(plan) => reference::report_text(&plan),
        Err((number, place)) => format!("refused={number} {place}\n").into_bytes(),
    }
}

#[test]
fn every_refusal_occurs_and_enough_is_accepted() {
    let answers = Spread::of(20_000, SEED).answers;
    assert!(answers[0] >= 8_000, "{answers:?}");
    assert!(answers[2..=13].iter().chain([&answers[17], &answers[19]]).all(|&count| count > 0), "{answers:?}");
}

/// At least a tenth of the files use a change, and each of these uses occurs in at least so many files.
fn uses(word: &str, least: &[(&str, u64)]) {
    let spread = Spread::of(20_000, SEED);
    assert!(spread.used(&format!("{word}:")) * 10 >= spread.files, "{word}: {:?}", spread.uses);
    for (label, files) in least {
        assert!(spread.used(&format!("{word}: {label}")) >= *files, "{word}: {label}: {:?}", spread.uses);
    }
}

#[test]
fn a_tenth_copies_a_counter() {
    uses(
        "copied",
        &[
            ("while, rows first", 300),
            ("while, copy first", 300),
            ("do, rows first", 200),
            ("do, copy first", 200),
            ("Lt", 200),
            ("Le", 200),
            ("Gt", 200),
            ("Ge", 200),
            ("exact", 300),
            ("most", 300),
            ("while of 0 turns", 100),
            ("while of 1 turns", 50),
            ("do of 1 turns", 50),
            ("8 for Form", 20),
            ("8 for Copy", 20),
            ("8 for Only", 20),
            ("8 for Direct", 20),
            ("8 for Comparison", 20),
            ("8 for Step", 100),
            ("8 for Sides", 20),
            ("refused by 10", 20),
            ("refused by 11", 20),
        ],
    );
}

#[test]
fn files_have_their_answers() {
    let tests = Path::new(env!("CARGO_MANIFEST_DIR")).join("..");
    let scripts = tests.join("../crates/report_files/data");
    let mut count = 0;
    for entry in std::fs::read_dir(tests.join("data/files")).unwrap() {
        let expected = entry.unwrap().path();
        let script = scripts.join(expected.with_extension("script").file_name().unwrap());
        assert!(answer(&std::fs::read(&script).unwrap()) == std::fs::read(&expected).unwrap(), "{}", script.display());
        count += 1;
    }
    assert!(count >= 70);
}

#[test]
fn a_tenth_closes_on_its_limit() {
    uses(
        "closing",
        &[
            ("while, both move", 200),
            ("while, the tested stands", 50),
            ("while, the limit stands", 50),
            ("do, both move", 100),
            ("do, the tested stands", 30),
            ("do, the limit stands", 20),
            ("for, both move", 100),
            ("for, the tested stands", 30),
            ("for, the limit stands", 20),
            ("Lt", 200),
            ("Le", 200),
            ("Gt", 200),
            ("Ge", 200),
            ("exact", 300),
            ("most", 300),
            ("while of 0 turns", 50),
            ("while of 1 turns", 50),
            ("do of 1 turns", 50),
            ("for of 0 turns", 30),
            ("10 for Comparison", 30),
            ("10 for Tested", 50),
            ("10 for LimitStep", 50),
            ("9 for LimitStep", 10),
            ("8 for Tested", 20),
            ("refused by 9", 50),
            ("refused by 11", 30),
        ],
    );
}

#[test]
fn a_tenth_rounds_a_level_down() {
    uses("level", &[("rounded down", 2_000)]);
}

#[test]
fn a_quarter_has_expressions() {
    uses(
        "expression",
        &[
            ("set", 1_000),
            ("start of a for", 500),
            ("limit of a while", 500),
            ("limit of a do", 300),
            ("limit of a for", 500),
            ("8 parentheses", 500),
            ("15 operators", 500),
            ("parentheses alone", 500),
            ("more than 15 operators in two", 50),
            ("17 for 9 parentheses", 40),
            ("17 for 16 operators", 40),
            ("refused by 3", 200),
            ("refused by 4", 100),
            ("refused by 5", 50),
            ("refused by 8", 20),
            ("refused by 10", 50),
            ("refused by 17", 100),
        ],
    );
    let spread = Spread::of(20_000, SEED);
    assert!(spread.used("written:") * 4 >= spread.files, "{:?}", spread.uses);
}

#[test]
fn a_tenth_counts_triangles() {
    uses(
        "triangle",
        &[
            ("in a while", 300),
            ("in a do", 300),
            ("in a for", 600),
            ("Lt", 200),
            ("Le", 400),
            ("Gt", 100),
            ("Ge", 200),
            ("inner Lt", 500),
            ("inner Le", 500),
            ("0 passes", 50),
            ("1 passes", 100),
            ("4096 passes", 10),
            ("several in a body", 200),
            ("in a loop", 100),
            ("with a loop further inside", 100),
            ("a longest pass that is not known", 10),
        ],
    );
    let spread = Spread::of(20_000, SEED);
    for (label, files) in [
        ("the outer's Kind", 30),
        ("the outer's Exact", 50),
        ("the outer's Step", 20),
        ("the outer's Comparison", 20),
        ("the outer's Turns", 20),
        ("the inner's Form", 30),
        ("the inner's Direct", 50),
        ("the inner's Limit", 50),
        ("the inner's Start", 50),
        ("the inner's Comparison", 30),
        ("the inner's Step", 20),
        ("the inner's Assigned", 30),
    ] {
        assert!(spread.used(&format!("no triangle: for {label}")) >= files, "{label}: {:?}", spread.uses);
    }
    assert!(spread.used("no triangle: 4097 passes") >= 10, "{:?}", spread.uses);
}

#[test]
fn a_tenth_is_held_by_a_flag() {
    uses(
        "held",
        &[
            ("hold, rows first", 1_000),
            ("hold, off first", 1_000),
            ("Lt", 400),
            ("Le", 400),
            ("Gt", 200),
            ("Ge", 200),
            ("exact", 800),
            ("most", 800),
            ("hold of 0 turns", 100),
            ("hold of 1 turns", 200),
            ("19 for None", 20),
            ("19 for Second", 20),
            ("19 for Direct", 20),
            ("19 for Only", 20),
            ("19 for Another", 20),
            ("19 for Step", 80),
            ("19 for Toward", 100),
            ("19 for Sides", 30),
            ("round a triangle", 30),
            ("in a triangle's inner", 20),
            ("in a triangle's outer", 20),
            ("refused by 3", 50),
            ("refused by 4", 5),
            ("refused by 5", 20),
            ("refused by 7", 30),
        ],
    );
    uses(
        "off",
        &[
            ("outside all blocks", 1_000),
            ("in a pick", 800),
            ("in a loop", 100),
            ("in another's hold", 150),
            ("watches its flag", 500),
            ("refused by 8", 20),
            ("refused by 10", 8),
        ],
    );
}

#[test]
fn a_tenth_has_other_prices() {
    let refused = ["refused at 0", "refused at 1", "refused at 2", "refused at 3", "refused at 4", "0", "1001", "4294967295"];
    let lengths = ["0 prices", "1 prices", "2 prices", "3 prices", "4 prices", "5 prices", "6 prices"];
    let mut least = vec![("good", 2_000), ("1", 1_000), ("1000", 1_000)];
    least.extend(refused.iter().chain(&lengths).map(|label| (*label, 50)));
    uses("prices", &least);
}

#[test]
fn blocks_are_over_the_limit_alone_and_together() {
    let spread = Spread::of(20_000, SEED);
    for (label, files) in [("over: the file", 40), ("over: one block", 100), ("over: several blocks", 60)] {
        assert!(spread.used(label) >= files, "{label}: {:?}", spread.uses);
    }
}

/// The lines of the program run_files and what it prints; only that there is an error is compared, not its words.
#[test]
fn runs_have_their_answers() {
    let program = Path::new(env!("CARGO_MANIFEST_DIR")).join("../../crates/run_files");
    let text = |name: &str| std::fs::read_to_string(program.join(name)).unwrap();
    let mut printed = String::new();
    for line in text("stdin").lines() {
        let words: Vec<&str> = line.split(' ').collect();
        let answer = reference::desk::rehearse(&words, |name| std::fs::read(program.join("data").join(name)).ok());
        printed += &format!("{line}\n{}", answer.map_or("error=\n".into(), |answer| String::from_utf8(answer).unwrap()));
    }
    let stored = text("stdout");
    let stored: Vec<&str> = stored.lines().map(|line| if line.starts_with("error=") { "error=" } else { line }).collect();
    assert_eq!(printed.lines().collect::<Vec<_>>(), stored);
}

/// The season's stored cases and the lists of the vectors.
#[test]
fn seasons_have_their_answers() {
    let tests = Path::new(env!("CARGO_MANIFEST_DIR")).join("..");
    let program = tests.join("../crates/season");
    let check = |read: &Path, printed: &Path, folder: &Path| {
        let sheet = reference::sheet::season(&std::fs::read(read).unwrap(), |name| std::fs::read(folder.join(OsStr::from_bytes(name))).ok());
        assert_eq!(String::from_utf8(sheet).unwrap(), std::fs::read_to_string(printed).unwrap(), "{}", read.display());
    };
    check(&program.join("stdin"), &program.join("stdout"), &program.join("data"));
    let vectors = |change: &str| (tests.join("data/vectors").join(change), tests.join("data/vectors").join(change), 14);
    for (cases, folder, least) in [(tests.join("data/seasons"), program.join("data"), 54), vectors("10"), vectors("13")] {
        let mut inputs: Vec<_> = std::fs::read_dir(&cases).unwrap().map(|entry| entry.unwrap().path()).collect();
        inputs.retain(|file| file.extension().is_some_and(|word| word == "in"));
        assert!(inputs.len() >= least);
        inputs.iter().for_each(|file| check(file, &file.with_extension("out"), &folder));
    }
}

/// The calls of several scripts.
#[test]
fn frames_calls_of_every_kind() {
    let (mut accepted, mut refused, mut scripts, mut by_20, mut waits, mut over) = (0, [0; 21], [0; 9], [0; 5], 0, 0);
    let mut frames = [0; 3];
    for index in 0..1_500 {
        let case = frames_case(SEED, index);
        let answer = reference::frames::frames(case.lent(), &case.prices, case.q, case.scratch);
        match answer {
            Ok(answer) => {
                accepted += 1;
                scripts[answer.scripts.len()] += 1;
                waits += case.prices.iter().any(|price| *price as u64 > case.q) as u64;
                over += (answer.most > case.q * answer.scripts.len() as u64) as u64;
                let last = answer.scripts.iter().map(|script| script.frame).max().unwrap();
                frames[if last == 1 { 0 } else if last < 1_000 { 1 } else { 2 }] += 1;
            }
            Err((20, _)) => {
                refused[20] += 1;
                let count = case.file_lengths.len();
                let wraps = |lengths: &[usize]| lengths.iter().try_fold(0usize, |sum, length| sum.checked_add(*length)).is_none();
                let kinds = [
                    count == 0,
                    count > 8,
                    !(1..=1_000_000).contains(&case.q),
                    case.store_lengths.len() != count || case.pick_lengths.len() != count,
                    [&case.file_lengths, &case.store_lengths, &case.pick_lengths].iter().any(|lengths| wraps(lengths)),
                ];
                kinds.iter().zip(&mut by_20).for_each(|(kind, count)| *count += *kind as u64);
            }
            Err((number, _)) => refused[number as usize] += 1,
        }
    }
    assert!(accepted >= 1_050, "{accepted}");
    assert!(scripts[1..].iter().all(|count| *count >= 50), "{scripts:?}");
    assert!(refused[20] >= 75 && refused[15] >= 20 && refused[3] >= 10 && refused[1] >= 5 && refused[16] >= 5, "{refused:?}");
    assert!(refused[2..=13].iter().sum::<u64>() >= 40, "{refused:?}");
    assert!(by_20.iter().all(|count| *count >= 5), "{by_20:?}");
    assert!(waits >= 300 && over >= 150, "{waits} {over}");
    assert!(frames.iter().all(|count| *count >= 100), "{frames:?}");
}

/// The files for change 11.
#[test]
fn most_loops_can_be_reached() {
    let (mut meet, mut steps) = (0, [0; 3]);
    for index in 0..2_000 {
        let case = reach_case(SEED, index);
        let Ok(plan) = reference::plan(&case.file, &case.prices, reference::SCRATCH) else { continue };
        let lines: Vec<_> = plan.lines.iter().filter(|line| reference::reach::meets_the_terms(&plan, line)).collect();
        meet += !lines.is_empty() as u64;
        for line in lines {
            steps[match line.step {
                reference::Step::Add(..) => 0,
                reference::Step::Grow(..) => 1,
                _ => 2,
            }] += 1;
        }
    }
    assert!(meet >= 1_600, "{meet}");
    assert!(steps.iter().all(|count| *count >= 300), "{steps:?}");
}

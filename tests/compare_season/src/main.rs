//! sheets PROGRAM [COUNT [SEED]]: compares the sheets that a program prints with the stored ones, with those of tests/data/vectors and, for COUNT
//! generated repertoires, with the reference's. The first difference is printed, its folder stays, and the exit code is 1.

mod program;
mod repertoire;

use reference::sheet::season;
use program::{run, Way};
use repertoire::Repertoire;
use std::collections::BTreeMap;
use std::path::{Path, PathBuf};
use std::process::{exit, id};

fn differ(folder: &Path, input: &[u8], expected: &[u8], got: &[u8]) -> ! {
    println!("difference in {}", folder.display());
    println!("names ({} bytes): \"{}\"", input.len(), input[..input.len().min(4_000)].escape_ascii());
    println!("expected: \"{}\"", expected.escape_ascii());
    println!("got:      \"{}\"", got.escape_ascii());
    exit(1)
}

/// The reference's sheet of names in a folder. A name that is not UTF-8 opens no file: the names of Rattle's files are text.
fn reference(folder: &Path, input: &[u8]) -> Vec<u8> {
    season(input, |name| std::fs::read(folder.join(std::str::from_utf8(name).ok()?)).ok())
}

/// NAME.in and NAME.out in `cases`, over the files of `folder`.
fn stored(program: &Path, cases: &Path, folder: &Path) -> usize {
    let mut inputs: Vec<PathBuf> = std::fs::read_dir(cases).map(|all| all.filter_map(|file| Some(file.ok()?.path())).collect()).unwrap_or_default();
    inputs.retain(|file| file.extension().is_some_and(|word| word == "in"));
    inputs.sort();
    for file in &inputs {
        let (input, answer) = (std::fs::read(file).unwrap(), std::fs::read(file.with_extension("out")).unwrap());
        if reference(folder, &input) != answer {
            println!("{}: the reference's sheet is another", file.display());
            exit(1);
        }
        for way in [Way::File, Way::Pieces(1), Way::Pieces(4_096)] {
            let got = run(program, folder, &input, way);
            if got != answer {
                differ(file, &input, &answer, &got);
            }
        }
    }
    inputs.len()
}

/// COUNT repertoires of a seed, in a folder for this process.
fn generated(program: &Path, count: u64, seed: u64) {
    let mut uses = BTreeMap::<&str, u64>::new();
    for index in 0..count {
        let folder = std::env::temp_dir().join(format!("sheets-{}-{index}", id()));
        let Repertoire { input, way, labels } = repertoire::made(seed, index, &folder);
        let expected = reference(&folder, &input);
        let got = run(program, &folder, &input, way);
        if got != expected {
            println!("repertoire {index} of seed {seed}");
            differ(&folder, &input, &expected, &got);
        }
        std::fs::remove_dir_all(&folder).expect("the folder of this repertoire");
        for label in labels {
            *uses.entry(label).or_default() += 1;
        }
    }
    let uses: Vec<String> = uses.iter().map(|(label, count)| format!("{label} {count}")).collect();
    println!("no difference: {count} repertoires of seed {seed}; {}", uses.join(", "));
}

fn main() {
    let arguments: Vec<String> = std::env::args().skip(1).collect();
    let number = |at: usize, default: u64| arguments.get(at).map_or(Some(default), |word| word.parse().ok());
    let (Some(program), Some(count), Some(seed)) = (arguments.first(), number(1, 300), number(2, generator::SEED)) else {
        println!("use: sheets PROGRAM [COUNT [SEED]]");
        exit(2)
    };
    let program = Path::new(program).canonicalize().unwrap_or_else(|_| {
        println!("no program {program}");
        exit(2)
    });
    let tests = Path::new(env!("CARGO_MANIFEST_DIR")).join("..");
    let vectors = |change: &str| tests.join("data/vectors").join(change);
    let cases = stored(&program, &tests.join("data/seasons"), &tests.join("../crates/season/data"));
    let lists: usize = ["10", "13"].map(|change| stored(&program, &vectors(change), &vectors(change))).into_iter().sum();
    println!("sheets: {cases} stored cases and {lists} lists of vectors, each read three ways, no difference");
    generated(&program, count, seed);
}

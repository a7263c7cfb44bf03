//! margins PROGRAM [COUNT [SEED]]: compares what the program explain prints with the reference's, for the files of its stored answer, under four
//! ones, and for COUNT generated files under their prices. The first difference is printed, and the exit code is 1.

use reference::explain::explain;
use std::collections::BTreeMap;
use std::io::{Read, Write};
use std::path::Path;
use std::process::{exit, Command, Stdio};

/// What the program prints of a file on its standard input.
fn printed(program: &Path, prices: &[u32], file: &[u8]) -> String {
    let words: Vec<String> = prices.iter().map(u32::to_string).collect();
    let mut command = Command::new(program);
    command.arg(format!("prices={}", words.join(","))).stdin(Stdio::piped()).stdout(Stdio::piped());
    let mut child = command.spawn().expect("the program starts");
    // It may stop reading after the longest file's bytes.
    let _ = child.stdin.take().expect("a pipe").write_all(file);
    let mut text = Vec::new();
    child.stdout.take().expect("a pipe").read_to_end(&mut text).expect("what is printed");
    assert!(child.wait().expect("the program ends").success(), "the program failed");
    String::from_utf8(text).expect("plain text")
}

/// The remedy of a refusal, after what is left of its cause; both in lines that begin with two spaces.
fn remedy(number: u32, text: &str) -> Option<&str> {
    let (cause, remedy) = text.split_once("\nremedy\n")?;
    let fine = |text: &str| text.lines().all(|line| line.starts_with("  "));
    let cause = if number == 3 { cause } else { cause.split_once("cause\n")?.1 };
    let told = fine(cause) && (number == 3 || !cause.is_empty());
    (told && fine(remedy) && remedy.ends_with('\n')).then_some(remedy)
}

/// What has been seen: the texts of each number, and how many files were accepted.
#[derive(Default)]
struct Seen {
    texts: BTreeMap<u32, String>,
    accepted: u64,
    refused: u64,
}

impl Seen {
    /// What is wrong with what was printed, if anything is.
    fn wrong(&mut self, file: &[u8], prices: &[u32], got: &str) -> Option<String> {
        if let Some(long) = got.lines().find(|line| line.len() > 100) {
            return Some(format!("a line of {} columns", long.len()));
        }
        match explain(file, prices) {
            Ok(expected) => {
                self.accepted += 1;
                (got != expected).then(|| format!("expected:\n{expected}"))
            }
            Err((number, front)) => {
                self.refused += 1;
                let Some(rest) = got.strip_prefix(&front) else {
                    return Some(format!("expected to begin:\n{front}"));
                };
                let Some(rest) = remedy(number, rest) else {
                    return Some("no cause and remedy".into());
                };
                // One remedy for each number, and no two numbers with the same.
                if self.texts.iter().any(|(n, text)| (*n == number) != (text == rest)) {
                    return Some(format!("the remedy of {number} is not always the same, or another number's"));
                }
                self.texts.insert(number, rest.into());
                None
            }
        }
    }
}

/// A file with one byte changed, put in or taken out.
fn damaged(file: &[u8], seed: u64) -> Vec<u8> {
    const BYTES: &[u8] = b" \t\r\n+-0v#=/(9x\xef";
    let mut file = file.to_vec();
    let random = seed.wrapping_mul(6_364_136_223_846_793_005).wrapping_add(1_442_695_040_888_963_407) >> 16;
    let at = (random / 64) as usize % (file.len() + 1);
    let byte = BYTES[(random / 4) as usize % 16 % BYTES.len()];
    match random % 4 {
        0 if at < file.len() => file[at] = byte,
        1 if at < file.len() => drop(file.remove(at)),
        _ => file.insert(at, byte),
    }
    file
}

fn compare(program: &Path, seen: &mut Seen, name: &str, file: &[u8], prices: &[u32]) {
    let got = printed(program, prices, file);
    if let Some(wrong) = seen.wrong(file, prices, &got) {
        println!("{name}, prices {prices:?}\n{}\n{wrong}\ngot:\n{got}", String::from_utf8_lossy(file));
        exit(1);
    }
}

fn main() {
    let arguments: Vec<String> = std::env::args().skip(1).collect();
    let number = |at: usize, default: u64| arguments.get(at).map_or(Some(default), |word| word.parse().ok());
    let (Some(program), Some(count), Some(seed)) = (arguments.first(), number(1, 2_000), number(2, generator::SEED)) else {
        println!("use: margins PROGRAM [COUNT [SEED]]");
        exit(2)
    };
    let program = Path::new(program).canonicalize().unwrap_or_else(|_| {
        println!("no program {program}");
        exit(2)
    });
    let mut seen = Seen::default();
    let data = Path::new(env!("CARGO_MANIFEST_DIR")).join("../../crates/explain/data");
    let mut names: Vec<_> = std::fs::read_dir(data).expect("the stored files").map(|file| file.expect("a file").path()).collect();
    names.sort();
    for name in &names {
        compare(&program, &mut seen, &name.display().to_string(), &std::fs::read(name).expect("a file"), &reference::ONES);
    }
    for index in 0..count {
        let case = generator::case(seed, index);
        // The program takes prices of 31 bits, and one at least.
        let lent = !case.prices.is_empty() && case.prices.iter().all(|price| *price < 1 << 31);
        let prices = if lent { case.prices } else { reference::ONES.to_vec() };
        compare(&program, &mut seen, &format!("file {index} of seed {seed}"), &case.file, &prices);
        compare(&program, &mut seen, &format!("file {index} of seed {seed}, damaged"), &damaged(&case.file, index ^ seed), &reference::ONES);
    }
    let numbers: Vec<String> = seen.texts.keys().map(u32::to_string).collect();
    println!(
        "explain: {} stored and {count} generated files of seed {seed} and each with a byte damaged, no difference; {} accepted, {} refused by {}",
        names.len(),
        seen.accepted,
        seen.refused,
        numbers.join(" ")
    );
}

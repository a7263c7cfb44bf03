//! generate [COUNT [SEED]]: how the generated files are answered.
//! generate file INDEX [SEED]: prints one of them.

use generator::{case, Spread, SEED};
use std::io::Write;

fn main() {
    let arguments: Vec<String> = std::env::args().skip(1).collect();
    let number = |at: usize, default: u64| arguments.get(at).map_or(default, |word| word.parse().expect("a number"));
    if arguments.first().is_some_and(|word| word == "file") {
        let case = case(number(2, SEED), number(1, 0));
        std::io::stdout().write_all(&case.file).expect("standard output");
        return;
    }
    let (count, seed) = (number(0, 20_000), number(1, SEED));
    let spread = Spread::of(count, seed);
    let (mut loops, mut most_loops, mut full, mut deep, mut short) = (0, 0, 0, 0, 0u64);
    for index in 0..count {
        let case = case(seed, index);
        let Ok(plan) = reference::plan(&case.file, &reference::ONES, reference::SCRATCH) else { continue };
        loops += plan.lines.len();
        most_loops += (plan.lines.len() == 16) as u64;
        full += (plan.script.rows.len() == 256) as u64;
        let mut depth = 0;
        let mut deepest = 0;
        for row in &plan.script.rows {
            match row {
                reference::Row::Pick { .. } | reference::Row::Loop(_) => depth += 1,
                reference::Row::End { .. } => depth -= 1,
                _ => {}
            }
            deepest = deepest.max(depth);
        }
        deep += (deepest == 8) as u64;
        short += (plan.ticks <= 50_000) as u64;
    }
    let accepted = spread.answers[0];
    println!("files={count} seed={seed} accepted={accepted} ({:.1} %)", 100.0 * accepted as f64 / count as f64);
    for (number, answer) in spread.answers.iter().enumerate().filter(|(number, _)| matches!(number, 2..=13 | 17 | 19)) {
        println!("refused by {number}: {answer}");
    }
    println!(
        "accepted files: {:.2} loops on average, {most_loops} with 16 loops, {deep} of depth 8, {full} of 256 rows, \
         {short} of at most 50000 ticks",
        loops as f64 / accepted.max(1) as f64
    );
    for (label, files) in &spread.uses {
        println!("{label} {files} files");
    }
}

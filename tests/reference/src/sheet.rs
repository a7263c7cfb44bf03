//! Change 10: the sheet of a season, from names on standard input.

use crate::{desk, plan, report_text, Plan, Refusal, Row, ONES, SCRATCH};
use std::collections::{BTreeMap, BTreeSet};

/// Question 18's limit.
pub const NAMES: usize = 64;
/// A longer name is not opened.
pub const NAME: usize = 255;

/// The names, one a line; the last may lack its LF. Question 18.
pub fn names(input: &[u8]) -> Result<Vec<&[u8]>, Refusal> {
    let mut names: Vec<&[u8]> = input.split(|&byte| byte == b'\n').collect();
    // What is behind the last LF is a name only if it has a byte.
    if names.last().is_some_and(|name| name.is_empty()) {
        names.pop();
    }
    if (1..=NAMES).contains(&names.len()) { Ok(names) } else { Err((18, 0)) }
}

/// Whether a name is opened at all.
pub fn opened(name: &[u8]) -> bool {
    (1..=NAME).contains(&name.len()) && !name.contains(&0)
}

/// Change 13: two accepted files are of one group if their reports are equal and their cue numbers in row order.
fn group(plan: &Plan) -> (Vec<u8>, Vec<i32>) {
    let cue = |row: &Row| match row {
        Row::Cue { n } => Some(*n),
        _ => None,
    };
    (report_text(plan), plan.script.rows.iter().filter_map(cue).collect())
}

/// The sheet of a list of files, by their bytes.
pub fn sheet(files: &[Vec<u8>]) -> Vec<u8> {
    let (mut accepted, mut ticks, mut greatest) = (0, 0, 0);
    let mut refused = BTreeMap::<u32, u64>::new();
    let mut groups = BTreeSet::new();
    for file in files {
        match plan(file, &ONES, SCRATCH) {
            Ok(plan) => {
                accepted += 1;
                ticks += plan.ticks;
                greatest = greatest.max(plan.ticks);
                groups.insert(group(&plan));
            }
            Err((number, _)) => *refused.entry(number).or_default() += 1,
        }
    }
    let mut text = format!("accepted={accepted}\nrefused={}\n", refused.values().sum::<u64>());
    for (number, count) in refused {
        text += &format!("refused-{number}={count}\n");
    }
    text += &format!("ticks={ticks}\ngreatest={greatest}\ngroups={}\n", groups.len());
    text.into_bytes()
}

/// What the program prints; `read` gives the bytes of a file, or None if it cannot be opened or read.
pub fn season(input: &[u8], read: impl Fn(&[u8]) -> Option<Vec<u8>>) -> Vec<u8> {
    let names = match names(input) {
        Ok(names) => names,
        Err(refusal) => return desk::refused(refusal),
    };
    let files: Vec<Vec<u8>> = names.into_iter().map(|name| Some(name).filter(|name| opened(name)).and_then(&read).unwrap_or_default()).collect();
    sheet(&files)
}

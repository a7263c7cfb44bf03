//! The reference in the place of the program season. With MUTANT=N in the environment it makes the N-th of the mistakes below, so that
//! the harness can be seen to find them.

use reference::sheet::{names, opened, season};
use reference::{plan, report_text, Plan, Row, ONES, SCRATCH};
use std::collections::BTreeSet;
use std::io::{Read, Write};

/// A figure of the sheet.
fn figure(sheet: &str, key: &str) -> u64 {
    sheet.lines().find_map(|line| line.strip_prefix(key)?.strip_prefix('=')?.parse().ok()).unwrap_or(0)
}

/// The sheet with another figure.
fn with(sheet: &str, key: &str, value: u64) -> String {
    sheet.replace(&format!("{key}={}\n", figure(sheet, key)), &format!("{key}={value}\n"))
}

fn read(name: &[u8]) -> Option<Vec<u8>> {
    std::fs::read(std::str::from_utf8(name).ok()?).ok()
}

/// The cue numbers of these rows.
fn cues<'r>(rows: impl Iterator<Item = &'r Row>) -> Vec<i32> {
    rows.filter_map(|row| match row {
        Row::Cue { n } => Some(*n),
        _ => None,
    })
    .collect()
}

/// Those that a run takes if every pick is answered with then.
fn of_the_then_branches(plan: &Plan) -> Vec<i32> {
    let mut left_out = 0..0;
    cues(plan.script.rows.iter().enumerate().filter_map(|(r, row)| {
        match row {
            Row::Else { end } if !left_out.contains(&r) => left_out = r..*end as usize,
            _ => {}
        }
        (!left_out.contains(&r)).then_some(row)
    }))
}

/// A mistaken key of the groups.
fn key(wrong: u32, plan: &Plan) -> (Vec<u8>, Vec<i32>) {
    let (report, mut cues) = (report_text(plan), cues(plan.script.rows.iter()));
    match wrong {
        // 9: groups by length of the report.  10: by ticks.  11: by the number of rows; with the cues, all of them.
        9 => (vec![report.len() as u8], cues),
        10 => (plan.ticks.to_le_bytes().to_vec(), cues),
        11 => (plan.script.rows.len().to_le_bytes().to_vec(), cues),
        // 20: by the report alone.  21: by the cues alone.
        20 => (report, Vec::new()),
        21 => (Vec::new(), cues),
        // 22: cues sorted.  23: as a set.  24: their number.  25: the first.  26: those of the then branches.
        22 => {
            cues.sort();
            (report, cues)
        }
        23 => (report, cues.into_iter().collect::<BTreeSet<_>>().into_iter().collect()),
        24 => (report, vec![cues.len() as i32]),
        25 => (report, cues.into_iter().take(1).collect()),
        _ => (report, of_the_then_branches(plan)),
    }
}

/// The same path without `./` before it.
fn shortened(mut name: &[u8]) -> &[u8] {
    while let Some(rest) = name.strip_prefix(b"./") {
        name = rest.strip_prefix(b"/").unwrap_or(rest);
    }
    name
}

fn main() {
    let wrong: u32 = std::env::var("MUTANT").ok().and_then(|word| word.parse().ok()).unwrap_or(0);
    let mut input = Vec::new();
    std::io::stdin().read_to_end(&mut input).expect("the names");
    let given = input.clone();
    let listed = names(&given).unwrap_or_default();
    let plans: Vec<Plan> = listed.iter().filter(|name| opened(name)).filter_map(|name| plan(&read(name)?, &ONES, SCRATCH).ok()).collect();
    match wrong {
        // 1: a name listed twice counts once.
        1 => {
            let mut seen = BTreeSet::new();
            input = listed.iter().filter(|name| seen.insert(**name)).flat_map(|name| [name, &b"\n"[..]].concat()).collect();
        }
        // 2: the 65th name is read.
        2 if names(&input).is_err() => {
            let ends: Vec<usize> = (0..input.len()).filter(|&at| input[at] == b'\n').collect();
            if let Some(&end) = ends.get(63) {
                input.truncate(end);
            }
        }
        // 3: a last name without LF is left out.
        3 if !input.ends_with(b"\n") => input.truncate(input.iter().rposition(|&byte| byte == b'\n').map_or(0, |at| at + 1)),
        // 4: CR before LF is dropped.
        4 => input = input.split(|&byte| byte == b'\n').map(|name| name.strip_suffix(b"\r").unwrap_or(name)).collect::<Vec<_>>().join(&b'\n'),
        // 5: a name ends at a 0 byte.
        5 => input = input.split(|&byte| byte == b'\n').map(|name| name.split(|&byte| byte == 0).next().unwrap_or(name)).collect::<Vec<_>>().join(&b'\n'),
        // 6: an empty name is no name.
        6 => input = listed.iter().filter(|name| !name.is_empty()).flat_map(|name| [name, &b"\n"[..]].concat()).collect(),
        // 7: a name of 256 bytes is opened.  8: one of 255 is not.
        7 | 8 => {
            let taken = |name: &[u8]| match (wrong, name.len()) {
                (7, 256) => shortened(name).to_vec(),
                (8, 255) => Vec::new(),
                _ => name.to_vec(),
            };
            input = listed.iter().flat_map(|name| [taken(name), b"\n".to_vec()].concat()).collect();
        }
        _ => {}
    }
    let mut sheet = String::from_utf8(season(&input, read)).expect("a sheet");
    if sheet.starts_with("accepted") {
        match wrong {
            9..=11 | 20..=26 => {
                let groups: BTreeSet<_> = plans.iter().map(|plan| key(wrong, plan)).collect();
                sheet = with(&sheet, "groups", groups.len() as u64);
            }
            // 12: every accepted file is a group.
            12 => sheet = with(&sheet, "groups", figure(&sheet, "accepted")),
            // 13: the greatest is the last.  14: the least.
            13 => sheet = with(&sheet, "greatest", plans.last().map_or(0, |plan| plan.ticks)),
            14 => sheet = with(&sheet, "greatest", plans.iter().map(|plan| plan.ticks).min().unwrap_or(0)),
            // 15: the sum is cut to 32 bits.
            15 => sheet = with(&sheet, "ticks", figure(&sheet, "ticks") as u32 as u64),
            // 16: refusal numbers as words.
            16 => {
                let mut lines: Vec<&str> = sheet.lines().collect();
                let end = lines.len() - 3;
                lines[2..end].sort();
                sheet = lines.join("\n") + "\n";
            }
            // 17: refused files count one tick each.
            17 => sheet = with(&sheet, "ticks", figure(&sheet, "ticks") + figure(&sheet, "refused")),
            // 18: a refusal number that is not met has its line too.
            18 if !sheet.contains("refused-2=") => {
                let refused = format!("refused={}\n", figure(&sheet, "refused"));
                sheet = sheet.replace(&refused, &format!("{refused}refused-2=0\n"));
            }
            _ => {}
        }
    } else if wrong == 19 {
        // 19: no name is an empty sheet.
        sheet = "accepted=0\nrefused=0\nticks=0\ngreatest=0\ngroups=0\n".into();
    }
    std::io::stdout().write_all(sheet.as_bytes()).expect("standard output");
}

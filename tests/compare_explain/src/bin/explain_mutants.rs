//! The reference in the place of the program explain; MUTANT=N makes mistake N in it.

use reference::explain::explain;
use std::io::Read;

/// A row's line of an accepted file, by its number.
fn change_row(text: &str, change: impl Fn(&str) -> Option<String>) -> String {
    let mut changed = false;
    let mut lines = Vec::new();
    for line in text.lines() {
        let new = if changed { None } else { change(line) };
        changed |= new.is_some();
        lines.push(new.unwrap_or_else(|| line.into()));
    }
    lines.join("\n") + "\n"
}

fn accepted(text: String, mistake: u32) -> String {
    match mistake {
        1 => text.replace(" exact ", " most  "),
        2 => change_row(&text, |line| line.contains("[#").then(|| line.replacen("[#", "[ ", 1))),
        3 => change_row(&text, |line| line.contains("100%").then(|| line.replacen("100%", "101%", 1))),
        4 => change_row(&text, |line| line.ends_with(" else").then(|| line.replace(" else", "   else"))),
        5 => text.replacen("ticks=", "ticks=1", 1),
        6 => text.lines().take(text.lines().count() - 1).map(|line| format!("{line}\n")).collect(),
        7 => change_row(&text, |line| line.contains("]   ").then(|| line.replacen("]   ", "]  1", 1))),
        _ => text,
    }
}

fn refused(number: u32, front: String, mistake: u32) -> String {
    let front = match mistake {
        8 => front.replacen("\nline ", "\nline 1", 1),
        9 => front.replacen(", line ", ", line 1", 1),
        10 => front.replace("the file ends before this line", ""),
        11 => front.replace("\nthe whole file\n", ""),
        12 => front.replacen("refused=", "refused=1", 1),
        15 => front.replacen(" ^\n", "^\n", 1),
        16 => front.replace("a space after the last word", "a tab; one space stands between words"),
        _ => front,
    };
    let number = if mistake == 13 && number == 9 { 8 } else { number };
    let remedy = if mistake == 14 { String::new() } else { format!("  the remedy of {number}\n") };
    if number == 3 {
        return format!("{front}\nremedy\n{remedy}");
    }
    format!("{front}\ncause\n  the cause of {number}\n\nremedy\n{remedy}")
}

fn main() {
    let mistake = std::env::var("MUTANT").ok().and_then(|word| word.parse().ok()).unwrap_or(0);
    let word = std::env::args().nth(1).unwrap_or_default();
    let prices: Vec<u32> = word.trim_start_matches("prices=").split(',').filter_map(|price| price.parse().ok()).collect();
    let mut file = Vec::new();
    std::io::stdin().read_to_end(&mut file).expect("standard input");
    match explain(&file, &prices) {
        Ok(text) => print!("{}", accepted(text, mistake)),
        Err((number, front)) => print!("{}", refused(number, front, mistake)),
    }
}

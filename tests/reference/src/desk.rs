//! Runs at the desk: their words and what is printed.

use crate::frames::{self, Lent};
use crate::{plan, run_planned, Ending, Refusal, Run, ONES, SCRATCH};

pub fn refused((number, place): Refusal) -> Vec<u8> {
    format!("refused={number} {place}\n").into_bytes()
}

/// A decimal number without plus or leading zeros, `-` only before a non-zero one.
fn number<N: std::str::FromStr + ToString>(word: &str) -> Option<N> {
    word.parse::<N>().ok().filter(|n| n.to_string() == word)
}

/// Prices, of which question 16 is asked later: it refuses one below 0, lent as 0, and a list of other than four.
fn priced(list: &str) -> Result<Vec<u32>, String> {
    let prices = list.split(',').map(|word| number::<i32>(word).map(|price| price.max(0) as u32));
    prices.collect::<Option<Vec<_>>>().ok_or("a price is no 32-bit number".into())
}

/// The prices, if the first word has them, and the other words.
fn with_prices<'w>(words: &'w [&'w str]) -> Result<(Vec<u32>, &'w [&'w str]), String> {
    match words {
        [first, rest @ ..] if first.starts_with("prices=") => Ok((priced(&first["prices=".len()..])?, rest)),
        _ => Ok((ONES.to_vec(), words)),
    }
}

/// A word of 0 and 1, or `-` for none.
fn picks_of(word: &str) -> Result<Vec<u8>, String> {
    let wrong = || "the picks are no word of 0 and 1".to_string();
    match word {
        "-" => Ok(Vec::new()),
        "" => Err(wrong()),
        word => word.bytes().map(|b| matches!(b, b'0' | b'1').then(|| b - b'0')).collect::<Option<_>>().ok_or_else(wrong),
    }
}

fn store_of<'w>(values: impl Iterator<Item = &'w str>) -> Result<Vec<i32>, String> {
    values.map(number::<i32>).collect::<Option<_>>().ok_or("a value is no 32-bit number".into())
}

/// A run's lines.
fn lines(run: &Run) -> String {
    let ending = match run.ending {
        Ending::Ended => "ended",
        Ending::Spent => "spent",
        Ending::Range => "range",
        Ending::NoPick => "no-pick",
    };
    let store: Vec<String> = run.store.iter().map(i32::to_string).collect();
    let mut text =
        format!("ending={ending} {}\nticks={}\nused={}\nstore={}\n", run.row, run.ticks, run.used, store.join(" "));
    for (row, all, most) in &run.loops {
        text += &format!("loop={row} {all} {most}\n");
    }
    text
}

/// The words [prices=A,C,P,T] FILE ALLOWANCE PICKS [VALUE ..]; `read` gives the bytes of a file.
pub fn rehearse(words: &[&str], read: impl Fn(&str) -> Option<Vec<u8>>) -> Result<Vec<u8>, String> {
    let (prices, words) = with_prices(words)?;
    let [file, allowance, picks, values @ ..] = words else {
        return Err("FILE, ALLOWANCE and PICKS are wanted".into());
    };
    let allowance = match *allowance {
        "plan" => None,
        word => Some(number::<u64>(word).ok_or("the allowance is no number up to 18446744073709551615")?),
    };
    let picks = picks_of(picks)?;
    let store = store_of(values.iter().copied())?;
    let file = read(file).ok_or("the file cannot be read")?;
    let run = plan(&file, &prices, SCRATCH).and_then(|plan| run_planned(&plan, &store, &picks, allowance.unwrap_or(plan.ticks)));
    Ok(run.map_or_else(refused, |run| lines(&run).into_bytes()))
}

/// The words [prices=A,C,P,T] Q FILE PICKS VALUES .., three for each script; VALUES are numbers with commas between, or `-` for none.
pub fn frames(words: &[&str], read: impl Fn(&str) -> Option<Vec<u8>>) -> Result<Vec<u8>, String> {
    let (prices, words) = with_prices(words)?;
    let [q, scripts @ ..] = words else {
        return Err("Q is wanted, and FILE, PICKS and VALUES of each script".into());
    };
    let q = number::<u64>(q).ok_or("Q is no number up to 18446744073709551615")?;
    if scripts.len() % 3 != 0 {
        return Err("FILE, PICKS and VALUES are wanted of each script".into());
    }
    let (mut files, mut stores, mut picks) = (Vec::new(), Vec::new(), Vec::new());
    for script in scripts.chunks(3) {
        picks.push(picks_of(script[1])?);
        stores.push(store_of(script[2].split(',').filter(|_| script[2] != "-"))?);
        files.push(read(script[0]).ok_or("a file cannot be read")?);
    }
    fn lengths<T>(parts: &[Vec<T>]) -> Vec<usize> {
        parts.iter().map(Vec::len).collect()
    }
    let lent = Lent {
        files: &files.concat(),
        file_lengths: &lengths(&files),
        stores: &stores.concat(),
        store_lengths: &lengths(&stores),
        picks: &picks.concat(),
        pick_lengths: &lengths(&picks),
    };
    let frames = match frames::frames(lent, &prices, q, SCRATCH) {
        Ok(frames) => frames,
        Err(refusal) => return Ok(refused(refusal)),
    };
    let script = |(i, script): (usize, &frames::Framed)| format!("script={i}\nframe={}\n{}", script.frame, lines(&script.run));
    let mut text: String = frames.scripts.iter().enumerate().map(script).collect();
    text += &format!("most={}\n", frames.most);
    Ok(text.into_bytes())
}

//! Stored calls and their answers: NAME.eff is a script file, NAME.out has its calls. A call is a line `> report PRICES`
//! or `> run PRICES STORE PICKS ALLOWANCE`, and below it stands what it answers. In calls.out a call is a line
//! `> frames Q PRICES N FILE STORE PICKS ..`, and below it each script's run with `frame=N`, and `most=N`. In series.out a series begins with
//! `> start FILE PRICES STORE`; each `> step Q PICKS ROOM` goes on from what the one before it left, and so does `> damaged PLACE NUMBER Q PICKS ROOM`,
//! with that number in this place of the state (a 65th in place 64), behind which the series goes on as if it had not been. Below a step stand its
//! answer, the cues that it fires, and store and state as it leaves them; the zeros at the end of a state are left out.

use diftanew::numbers::{STATE, STEP_ANSWER};
use reference::frames::{Framed, Frames};
use reference::{Ending, Entry, Refusal, Run};
use std::path::{Path, PathBuf};

pub struct Call {
    pub prices: Vec<u32>,
    pub kind: Kind,
}

pub enum Kind {
    Report(Result<Vec<u8>, Refusal>),
    Run {
        store: Vec<i32>,
        picks: Vec<u8>,
        /// None is the report's ticks.
        allowance: Option<u64>,
        answer: Result<Run, Refusal>,
    },
}

/// The numbers between commas; `-` is none.
fn list<N: std::str::FromStr>(word: &str) -> Option<Vec<N>> {
    match word {
        "-" => Some(Vec::new()),
        _ => word.split(',').map(|number| number.parse().ok()).collect(),
    }
}

/// Bytes in hexadecimal; `-` is none.
fn bytes(word: &str) -> Option<Vec<u8>> {
    match word {
        "-" => Some(Vec::new()),
        _ => (0..word.len()).step_by(2).map(|at| u8::from_str_radix(word.get(at..at + 2)?, 16).ok()).collect(),
    }
}

fn numbers<const N: usize>(text: &str) -> Option<[u64; N]> {
    let all: Vec<u64> = text.split(' ').map(|word| word.parse().ok()).collect::<Option<_>>()?;
    all.try_into().ok()
}

fn refusal(answer: &[&str]) -> Option<Refusal> {
    let [line] = answer else { return None };
    let [number, place] = numbers(line.strip_prefix("refused=")?)?;
    Some((number as u32, place))
}

fn run(answer: &[&str]) -> Option<Run> {
    let [ending, ticks, used, store, counts @ ..] = answer else { return None };
    let (word, row) = ending.strip_prefix("ending=")?.split_once(' ')?;
    let ending = match word {
        "ended" => Ending::Ended,
        "spent" => Ending::Spent,
        "range" => Ending::Range,
        "nopick" => Ending::NoPick,
        _ => return None,
    };
    let mut run = Run {
        ending,
        row: row.parse().ok()?,
        ticks: ticks.strip_prefix("ticks=")?.parse().ok()?,
        used: used.strip_prefix("used=")?.parse().ok()?,
        store: list(store.strip_prefix("store=")?)?,
        entries: Vec::new(),
        loops: Vec::new(),
    };
    for line in counts {
        if let Some(text) = line.strip_prefix("loop=") {
            let [row, all, most] = numbers(text)?;
            run.loops.push((row as usize, all, most));
        } else {
            let [row, turns, tested] = numbers(line.strip_prefix("entry=")?)?;
            run.entries.push(Entry { row: row as usize, turns, tested: tested == 1 });
        }
    }
    Some(run)
}

fn call(head: &str, answer: &[&str]) -> Option<Call> {
    let refused = refusal(answer);
    let words: Vec<&str> = head.split(' ').collect();
    let (prices, kind) = match words[..] {
        ["report", prices] => {
            let text = answer.iter().flat_map(|line| [line, "\n"]).collect::<String>();
            (prices, Kind::Report(refused.map_or(Ok(text.into_bytes()), Err)))
        }
        ["run", prices, store, picks, allowance] => {
            let answer = match refused {
                Some(refusal) => Err(refusal),
                None => Ok(run(answer)?),
            };
            let allowance = if allowance == "T" { None } else { Some(allowance.parse().ok()?) };
            (prices, Kind::Run { store: list(store)?, picks: bytes(picks)?, allowance, answer })
        }
        _ => return None,
    };
    Some(Call { prices: list(prices)?, kind })
}

/// A call of several scripts.
pub struct FramesCall {
    pub q: u64,
    pub prices: Vec<u32>,
    /// The file's name, store and picks of each.
    pub scripts: Vec<(String, Vec<i32>, Vec<u8>)>,
    pub answer: Result<Frames, Refusal>,
}

fn frames(mut answer: &[&str]) -> Option<Frames> {
    let mut scripts = Vec::new();
    while let Some(end) = answer.iter().position(|line| line.starts_with("frame=")) {
        let frame = answer[end].strip_prefix("frame=")?.parse().ok()?;
        scripts.push(Framed { frame, run: run(&answer[..end])? });
        answer = &answer[end + 1..];
    }
    let [most] = answer else { return None };
    Some(Frames { scripts, most: most.strip_prefix("most=")?.parse().ok()? })
}

fn frames_call(head: &str, answer: &[&str]) -> Option<FramesCall> {
    let words: Vec<&str> = head.split(' ').collect();
    let ["frames", q, prices, count, scripts @ ..] = &words[..] else { return None };
    if scripts.len() != 3 * count.parse::<usize>().ok()? {
        return None;
    }
    let script = |words: &[&str]| Some((words[0].to_string(), list(words[1])?, bytes(words[2])?));
    let answer = match refusal(answer) {
        Some(refusal) => Err(refusal),
        None => Ok(frames(answer)?),
    };
    Some(FramesCall { q: q.parse().ok()?, prices: list(prices)?, scripts: scripts.chunks(3).map(script).collect::<Option<_>>()?, answer })
}

/// A call of a live run.
pub enum LiveCall {
    Start { file: String, prices: Vec<u32>, store: Vec<i32>, answer: Result<(u64, u64), Refusal> },
    Step { damage: Option<(usize, u64)>, q: u64, picks: Vec<u8>, room: usize, answer: Result<Left, Refusal> },
}

/// What a step answers and leaves.
pub struct Left {
    pub answer: [u64; STEP_ANSWER],
    pub cues: Vec<u32>,
    pub store: Vec<i32>,
    pub state: Vec<u64>,
}

fn left(answer: &[&str]) -> Option<Left> {
    let [status, ticks, used, cues, loops @ .., store, state] = answer else { return None };
    let (word, row) = status.strip_prefix("status=")?.split_once(' ')?;
    let status = ["going", "waits", "full", "ended", "range"].iter().position(|name| *name == word)?;
    let [ticks, all_ticks] = numbers(ticks.strip_prefix("ticks=")?)?;
    let [used, all_used] = numbers(used.strip_prefix("used=")?)?;
    let cues: Vec<u32> = list(cues.strip_prefix("cues=")?)?;
    let mut answer = [0; STEP_ANSWER];
    answer[..8].copy_from_slice(&[status as u64, row.parse().ok()?, ticks, all_ticks, used, all_used, cues.len() as u64, loops.len() as u64]);
    for (line, three) in loops.iter().zip(answer[8..].chunks_mut(3)) {
        three.copy_from_slice(&numbers::<3>(line.strip_prefix("loop=")?)?);
    }
    let mut state: Vec<u64> = list(state.strip_prefix("state=")?)?;
    state.resize(STATE, 0);
    Some(Left { answer, cues, store: list(store.strip_prefix("store=")?)?, state })
}

fn live_call(head: &str, answer: &[&str]) -> Option<LiveCall> {
    let refused = refusal(answer);
    let words: Vec<&str> = head.split(' ').collect();
    let (damage, words) = match words[..] {
        ["start", file, prices, store] => {
            let answer = match (refused, answer) {
                (Some(refusal), _) => Err(refusal),
                (None, [ticks, loops]) => Ok((ticks.strip_prefix("ticks=")?.parse().ok()?, loops.strip_prefix("loops=")?.parse().ok()?)),
                _ => return None,
            };
            return Some(LiveCall::Start { file: file.into(), prices: list(prices)?, store: list(store)?, answer });
        }
        ["step", q, picks, room] => (None, [q, picks, room]),
        ["damaged", place, number, q, picks, room] => (Some((place.parse().ok()?, number.parse().ok()?)), [q, picks, room]),
        _ => return None,
    };
    let answer = match refused {
        Some(refusal) => Err(refusal),
        None => Ok(left(answer)?),
    };
    Some(LiveCall::Step { damage, q: words[0].parse().ok()?, picks: bytes(words[1])?, room: words[2].parse().ok()?, answer })
}

/// The calls of a series.out, or the line of a call that cannot be read.
pub fn live_calls(text: &str) -> Result<Vec<LiveCall>, String> {
    read(text, live_call)
}

/// The calls of a calls.out, or the line of a call that cannot be read.
pub fn frames_calls(text: &str) -> Result<Vec<FramesCall>, String> {
    read(text, frames_call)
}

/// The calls of a .out file, or the line of a call that cannot be read.
pub fn calls(text: &str) -> Result<Vec<Call>, String> {
    read(text, call)
}

fn read<C>(text: &str, call: impl Fn(&str, &[&str]) -> Option<C>) -> Result<Vec<C>, String> {
    let lines: Vec<&str> = text.lines().collect();
    let heads: Vec<usize> = (0..lines.len()).filter(|&at| lines[at].starts_with("> ")).collect();
    if heads.first() != Some(&0) {
        return Err("no call in the first line".into());
    }
    let ends = heads[1..].iter().copied().chain([lines.len()]);
    heads.iter().zip(ends).map(|(&at, end)| call(&lines[at][2..], &lines[at + 1..end]).ok_or(lines[at].into())).collect()
}

/// The script files in the folders of a folder, by name, that have calls of their own; those of lists and of frames have none.
pub fn files(folder: &Path) -> std::io::Result<Vec<PathBuf>> {
    let mut files = Vec::new();
    for inner in std::fs::read_dir(folder)? {
        for file in std::fs::read_dir(inner?.path())? {
            files.push(file?.path());
        }
    }
    files.retain(|file| file.extension().is_some_and(|word| word == "eff") && file.with_extension("out").exists());
    files.sort();
    Ok(files)
}

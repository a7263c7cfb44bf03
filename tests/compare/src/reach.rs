//! Change 11: for loops that meet the terms, a list of picks that brings the loop to exactly the turns of the library's report, in the
//! library's own run with the report's ticks. It is the list that takes the slow branch each time; if that fails, others are tried, since the
//! claim is void where some list makes the run end "range".

use crate::Checker;
use diftanew::numbers::{self, ANSWER};
use generator::{case, reach_case, store, Case};
use reference::reach::{chosen, meets_the_terms};
use reference::{plan, Ending, Line, Plan, SCRATCH};
use std::process::exit;
use std::time::Instant;

/// A file of more ticks is not run.
const LONGEST: u64 = 2_000_000;
/// The lists that are tried after the slow one.
const OTHERS: usize = 2_000;

#[derive(Default)]
struct Tally {
    files: u64,
    accepted: u64,
    /// Files with a loop that meets the terms, those that are too long to be run, and the loops of the others.
    meet: u64,
    long: u64,
    loops: u64,
    found: u64,
    range: u64,
    /// Those that the fast branches leave short of their turns.
    short: u64,
    /// Found by another list than the slow one.
    others: u64,
    kinds: [u64; 3],
    dos: u64,
}

/// What the library reports: the turns of the loop at a row, and the ticks.
fn reported(file: &[u8], prices: &[u32], row: usize) -> Option<(u64, u64)> {
    let mut buffer = vec![0; 4_096];
    let mut length = 0;
    if numbers::report(file, prices, &mut [0; SCRATCH], &mut buffer, &mut length) != 0 {
        return None;
    }
    let text = String::from_utf8_lossy(&buffer[..length as usize]).into_owned();
    let turns = text.lines().find_map(|line| line.strip_prefix(&format!("loop={row} "))?.split(' ').nth(3)?.parse().ok());
    let ticks = text.lines().find_map(|line| line.strip_prefix("ticks=")?.parse().ok());
    Some((turns?, ticks?))
}

/// The ending of the library's run and the turns of a loop in it.
fn run(file: &[u8], prices: &[u32], store: &[i32], picks: &[u8], ticks: u64, index: usize) -> (u64, u64) {
    let mut answer = [0; ANSWER];
    let number = numbers::run(file, prices, &mut [0; SCRATCH], &mut store.to_vec(), picks, ticks, &mut answer);
    assert_eq!(number, 0, "an accepted file with a store inside its ranges");
    (answer[0], answer[6 + 3 * index])
}

const RANGE: u64 = 2;

impl Tally {
    fn reached(&mut self, checker: &mut Checker, plan: &Plan, index: usize, line: &Line) {
        let store = loop {
            let store = store(&mut checker.rng, &plan.script);
            if reference::run::check_store(&plan.script, &store).is_ok() {
                break store;
            }
        };
        let Some((turns, ticks)) = reported(&checker.file, &checker.prices, line.row) else {
            checker.differ("a report", &"accepted", &"refused")
        };
        self.loops += 1;
        let (_, list) = chosen(plan, line, &store, true, ticks);
        let (ending, all) = run(&checker.file, &checker.prices, &store, &list, ticks, index);
        if all == turns {
            self.found += 1;
            let (fast, _) = chosen(plan, line, &store, false, ticks);
            self.short += (fast.ending != Ending::Range && fast.all[index] < turns) as u64;
            self.kinds[match line.step {
                reference::Step::Add(..) => 0,
                reference::Step::Grow(..) => 1,
                _ => 2,
            }] += 1;
            self.dos += matches!(plan.script.rows[line.row], reference::Row::Loop(l) if l.kind == reference::read::Kind::Do) as u64;
            return;
        }
        if ending == RANGE {
            self.range += 1;
            return;
        }
        for _ in 0..OTHERS {
            let list: Vec<u8> = (0..list.len().max(64)).map(|_| checker.rng.below(2) as u8).collect();
            let (ending, all) = run(&checker.file, &checker.prices, &store, &list, ticks, index);
            if all == turns {
                self.others += 1;
                return;
            }
            if ending == RANGE {
                self.range += 1;
                return;
            }
        }
        println!("no list of picks for loop {} in {}: its turns are {turns}, the slow branches take {all}", line.row, checker.name);
        println!("store {store:?}, prices {:?}, picks {list:?}", checker.prices);
        println!("file: \"{}\"", checker.file.escape_ascii());
        exit(1)
    }

    fn file(&mut self, checker: &mut Checker) {
        self.files += 1;
        let Ok(plan) = plan(&checker.file, &checker.prices, SCRATCH) else { return };
        self.accepted += 1;
        let loops: Vec<(usize, Line)> = plan.lines.iter().copied().enumerate().filter(|(_, line)| meets_the_terms(&plan, line)).collect();
        self.meet += !loops.is_empty() as u64;
        if plan.ticks > LONGEST {
            self.long += !loops.is_empty() as u64;
            return;
        }
        for (index, line) in loops {
            self.reached(checker, &plan, index, &line);
        }
    }
}

/// COUNT files of a seed: nine of ten are made for the terms, the others are the generator's.
pub fn generated(checker: &mut Checker, count: u64, seed: u64) {
    let begin = Instant::now();
    let mut t = Tally::default();
    for index in 0..count {
        let Case { file, prices, rng } = if index % 10 == 9 { case(seed, index) } else { reach_case(seed, index) };
        checker.name = format!("file {index} of seed {seed}");
        checker.file = file;
        checker.prices = prices;
        checker.rng = rng;
        t.file(checker);
    }
    println!(
        "reached: {count} files of seed {seed}, {} accepted, {} with a loop that meets the terms ({:.0} %), {} of them too long to be run; {} loops, {} brought to their turns by \
         the slow branches (add {}, grow {}, shrink {}; {} of a do; {} are left short by the fast ones), {} by others, {} runs end \"range\", none is left; {:.1} s",
        t.accepted,
        t.meet,
        100.0 * t.meet as f64 / count.max(1) as f64,
        t.long,
        t.loops,
        t.found,
        t.kinds[0],
        t.kinds[1],
        t.kinds[2],
        t.dos,
        t.short,
        t.others,
        t.range,
        begin.elapsed().as_secs_f64()
    );
}

//! Change 14: several scripts in one frame.

use crate::read::Loop;
use crate::run::{check_store, List, Listener};
use crate::{plan, Plan, Refusal, Run};

pub const SCRIPTS: usize = 8;
pub const MOST_TICKS: u64 = 1_000_000;

/// Files, stores and picks, each end to end with a list of their lengths.
#[derive(Clone, Copy)]
pub struct Lent<'a> {
    pub files: &'a [u8],
    pub file_lengths: &'a [usize],
    pub stores: &'a [i32],
    pub store_lengths: &'a [usize],
    pub picks: &'a [u8],
    pub pick_lengths: &'a [usize],
}

/// A script's answer.
#[derive(Clone, Debug, PartialEq, Eq)]
pub struct Framed {
    /// The one in which it finished, from 1.
    pub frame: u64,
    pub run: Run,
}

#[derive(Clone, Debug, PartialEq, Eq)]
pub struct Frames {
    pub scripts: Vec<Framed>,
    /// The most ticks that all together took in one frame.
    pub most: u64,
}

/// Script by script: file, store and picks.
pub type Scripts<'a> = Vec<(&'a [u8], &'a [i32], &'a [u8])>;

/// What is lent, in parts of these lengths; None if they do not add up to it.
fn parts<'a, T>(mut all: &'a [T], lengths: &[usize]) -> Option<Vec<&'a [T]>> {
    let mut parts = Vec::new();
    for &length in lengths {
        let (part, rest) = all.split_at_checked(length)?;
        parts.push(part);
        all = rest;
    }
    all.is_empty().then_some(parts)
}

/// Question 20.
pub fn scripts(lent: Lent, q: u64) -> Result<Scripts, Refusal> {
    let refused = (20, 0);
    let count = lent.file_lengths.len();
    let good = (1..=SCRIPTS).contains(&count)
        && lent.store_lengths.len() == count
        && lent.pick_lengths.len() == count
        && (1..=MOST_TICKS).contains(&q);
    if !good {
        return Err(refused);
    }
    let files = parts(lent.files, lent.file_lengths).ok_or(refused)?;
    let stores = parts(lent.stores, lent.store_lengths).ok_or(refused)?;
    let picks = parts(lent.picks, lent.pick_lengths).ok_or(refused)?;
    Ok((0..count).map(|i| (files[i], stores[i], picks[i])).collect())
}

/// A run's entries, and what it has taken after each price.
#[derive(Default)]
struct Clock {
    list: List,
    taken: Vec<u64>,
}

impl Listener for Clock {
    fn enter(&mut self, l: &Loop, row: usize) {
        self.list.enter(l, row);
    }
    fn turn(&mut self, l: &Loop) {
        self.list.turn(l);
    }
    fn leave(&mut self, l: &Loop) {
        self.list.leave(l);
    }
    fn tick(&mut self, ticks: u64) {
        self.taken.push(ticks);
    }
}

/// A run to its end, and what it has taken after each price.
pub fn whole(plan: &Plan, store: &[i32], picks: &[u8]) -> (Run, Vec<u64>) {
    let mut clock = Clock::default();
    let run = crate::run_told(plan, store, picks, u64::MAX, &mut clock);
    (Run { entries: clock.list.entries, ..run }, clock.taken)
}

/// The frames of runs that have taken this after each of their prices: the frame in which each is finished, and the most ticks of one frame.
/// By frame k a run has had k·q ticks, of which it has taken as many as its prices fit.
pub fn shared(taken: &[Vec<u64>], q: u64) -> (Vec<u64>, u64) {
    // The prices that each has paid, and its ticks.
    let mut paid = vec![(0, 0); taken.len()];
    let mut finished = vec![0; taken.len()];
    let (mut frame, mut most) = (0, 0);
    while finished.contains(&0) {
        frame += 1;
        let mut together = 0;
        for (i, taken) in taken.iter().enumerate() {
            if finished[i] != 0 {
                continue;
            }
            let (count, ticks) = &mut paid[i];
            let before = *ticks;
            while *count < taken.len() && taken[*count] <= frame * q {
                *ticks = taken[*count];
                *count += 1;
            }
            together += *ticks - before;
            if *count == taken.len() {
                finished[i] = frame;
            }
        }
        most = most.max(together);
    }
    (finished, most)
}

/// The call. 20 comes before all other questions, and 1 and 16 before those of script 0, which are all asked before those of script 1.
pub fn frames(lent: Lent, prices: &[u32], q: u64, scratch_len: usize) -> Result<Frames, Refusal> {
    let scripts = scripts(lent, q)?;
    let mut plans = Vec::new();
    for (file, store, _) in &scripts {
        let plan = plan(file, prices, scratch_len)?;
        check_store(&plan.script, store)?;
        plans.push(plan);
    }
    let runs = plans.iter().zip(&scripts).map(|(plan, (_, store, picks))| whole(plan, store, picks));
    let (runs, taken): (Vec<Run>, Vec<Vec<u64>>) = runs.unzip();
    let (finished, most) = shared(&taken, q);
    Ok(Frames { scripts: runs.into_iter().zip(finished).map(|(run, frame)| Framed { frame, run }).collect(), most })
}

/// Which script a refused call is refused for, from 1: the first that is refused by itself; 0 where 20, 1 or 16 refuse, and for a call that is accepted.
pub fn refused_script(lent: Lent, prices: &[u32], q: u64, scratch_len: usize) -> u64 {
    if scratch_len < crate::SCRATCH || crate::prices::prices(prices).is_err() {
        return 0;
    }
    let Ok(scripts) = scripts(lent, q) else { return 0 };
    let refused = |(file, store, _): &(&[u8], &[i32], &[u8])| plan(file, prices, scratch_len).and_then(|plan| check_store(&plan.script, store)).is_err();
    scripts.iter().position(refused).map_or(0, |index| index as u64 + 1)
}

/// Whether a script of these frames keeps its promises: it is finished by frame ceil(T/q), or the first, and it is as running alone with
/// allowance T. None if all is well, else what is not.
pub fn breach(plan: &Plan, store: &[i32], picks: &[u8], q: u64, framed: &Framed) -> Option<String> {
    let by = plan.ticks.div_ceil(q).max(1);
    if framed.frame == 0 || framed.frame > by {
        return Some(format!("finished in frame {}, planned {by}", framed.frame));
    }
    let alone = crate::run_planned(plan, store, picks, plan.ticks).ok()?;
    (alone != framed.run).then(|| format!("alone {alone:?}"))
}

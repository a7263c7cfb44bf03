//! Request 15 (document 03): runs that go frame by frame. A live run is held by its history, the bytes that it has used and the prices that it
//! has paid; each step runs the script anew from its first store and goes on behind what was paid. So nothing here is a machine that pauses.

use crate::read::{Kind, Loop, Row, L};
use crate::run::{check_store, Listener};
use crate::{plan, run_planned, Plan, Refusal, Run};

/// The numbers of a state, and the first one of the loops'.
pub const STATE: usize = 64;
pub(crate) const LOOPS: usize = 16;

/// Question 22: a step's ticks at most.
pub const MOST_TICKS: u64 = 1_000_000;

/// How a step leaves the script.
#[derive(Clone, Copy, Debug, PartialEq, Eq)]
pub enum Status {
    Going,
    Waits,
    Full,
    Ended,
    Range,
}

/// What a step answers beside store and state.
#[derive(Clone, Debug, PartialEq, Eq)]
pub struct Step {
    pub status: Status,
    pub row: usize,
    pub ticks: u64,
    pub all_ticks: u64,
    pub used: usize,
    pub all_used: usize,
    pub cues: Vec<u32>,
    /// Head row, all turns, most in one entry so far; in row order.
    pub loops: Vec<(usize, u64, u64)>,
}

/// The prices of a run in order, what all of them come to so far, with the cue that one fires.
#[derive(Default)]
struct Priced {
    prices: Vec<(u64, Option<u32>)>,
}

impl Listener for Priced {
    fn enter(&mut self, _: &Loop, _: usize) {}
    fn turn(&mut self, _: &Loop) {}
    fn leave(&mut self, _: &Loop) {}
    fn tick(&mut self, ticks: u64) {
        self.prices.push((ticks, None));
    }
    fn cue(&mut self, number: u32) {
        self.prices.last_mut().expect("a cue has a price").1 = Some(number);
    }
}

/// Where the last price was met.
#[derive(Default)]
struct Met {
    row: usize,
    test: bool,
    /// The turns of each loop's latest entry.
    turns: [u64; 16],
    /// The for whose start is still to be paid and made: its entry begins with the test behind that.
    begins: Option<usize>,
}

impl Listener for Met {
    fn enter(&mut self, l: &Loop, _: usize) {
        match l.kind {
            Kind::For { .. } => self.begins = Some(l.index as usize),
            _ => self.turns[l.index as usize] = 0,
        }
    }
    fn turn(&mut self, l: &Loop) {
        self.turns[l.index as usize] += 1;
    }
    fn leave(&mut self, _: &Loop) {}
    fn price(&mut self, row: usize, test: bool) {
        (self.row, self.test) = (row, test);
        if let (true, Some(k)) = (test, self.begins) {
            self.turns[k] = 0;
            self.begins = None;
        }
    }
}

/// A live run so far.
#[derive(Clone)]
pub struct Live {
    pub plan: Plan,
    first: Vec<i32>,
    used: Vec<u8>,
    paid: usize,
    ticks: u64,
    left: u64,
    status: Status,
    stepped: bool,
}

impl Live {
    /// `start`: the run's questions, 15 among them.
    pub fn start(file: &[u8], prices: &[u32], scratch_len: usize, store: &[i32]) -> Result<Live, Refusal> {
        let plan = plan(file, prices, scratch_len)?;
        check_store(&plan.script, store)?;
        Ok(Live { plan, first: store.to_vec(), used: Vec::new(), paid: 0, ticks: 0, left: 0, status: Status::Going, stepped: false })
    }

    /// The run that this is, cut off where it stands: the ticks so far as allowance, the used bytes as picks.
    pub fn cut(&self) -> Run {
        run_planned(&self.plan, &self.first, &self.used, self.ticks).expect("the first store is inside the ranges")
    }

    /// The bytes used, end to end.
    pub fn bytes(&self) -> &[u8] {
        &self.used
    }

    /// The state that the last call wrote: 0 the status, 1 the row, 2 whether a loop's test is due there, 3 what is left, 4 the ticks and 5 the bytes
    /// of all steps, from 16 on for each loop the turns of its current entry, all its turns and the most in one entry.
    pub fn state(&self) -> [u64; STATE] {
        let mut met = Met::default();
        let cut = crate::run_told(&self.plan, &self.first, &self.used, self.ticks, &mut met);
        let mut numbers = [0; STATE];
        if self.paid == 0 && self.status == Status::Going && self.left == 0 && !self.stepped {
            return numbers;
        }
        let (row, left) = match self.status {
            Status::Going => (met.row, self.left),
            Status::Waits | Status::Full => (cut.row, self.left),
            Status::Ended | Status::Range => (cut.row, 0),
        };
        let test = self.status == Status::Going && met.test;
        numbers[..6].copy_from_slice(&[self.status as u64, row as u64, test as u64, left, self.ticks, self.used.len() as u64]);
        for (k, &(_, all, most)) in cut.loops.iter().enumerate() {
            numbers[LOOPS + 3 * k..LOOPS + 3 * k + 3].copy_from_slice(&[met.turns[k], all, most]);
        }
        numbers
    }

    /// `step`, with q ticks, these picks, and a list with room for so many cues.
    pub fn step(&mut self, q: u64, picks: &[u8], room: usize) -> Result<Step, Refusal> {
        if q > MOST_TICKS {
            return Err((22, 0));
        }
        let all: Vec<u8> = self.used.iter().chain(picks).copied().collect();
        let mut priced = Priced::default();
        let carried = self.left;
        let budget = self.ticks + carried + q;
        let whole = crate::run_told(&self.plan, &self.first, &all, budget, &mut priced);
        let before = self.ticks;
        let mut cues = Vec::new();
        let mut status = None;
        while let Some(&(ticks, cue)) = priced.prices.get(self.paid) {
            if let Some(number) = cue {
                if cues.len() == room {
                    status = Some(Status::Full);
                    break;
                }
                cues.push(number);
            }
            self.paid += 1;
            self.ticks = ticks;
        }
        let status = status.unwrap_or(match whole.ending {
            crate::Ending::Ended => Status::Ended,
            crate::Ending::Range => Status::Range,
            crate::Ending::NoPick => Status::Waits,
            crate::Ending::Spent => Status::Going,
        });
        let left = budget - self.ticks;
        self.status = status;
        self.stepped = true;
        self.left = match status {
            Status::Waits | Status::Full => left.min(carried),
            _ => left,
        };
        // The bytes whose picks are paid: a pick that waits has none.
        let used = run_planned(&self.plan, &self.first, &all, self.ticks).expect("as before").used - self.used.len();
        self.used.extend(&picks[..used]);
        let cut = self.cut();
        Ok(Step {
            status,
            row: if matches!(status, Status::Ended | Status::Range) { whole.row } else { cut.row },
            ticks: self.ticks - before,
            all_ticks: self.ticks,
            used,
            all_used: self.used.len(),
            cues,
            loops: cut.loops,
        })
    }
}

/// Question 15 as a step asks it: V numbers, each from -L to L.
pub fn check_wide(plan: &Plan, store: &[i32]) -> Result<(), Refusal> {
    let vars = plan.script.vars;
    match (0..vars.max(store.len())).find(|&i| i >= vars || i >= store.len() || !(-L..=L).contains(&store[i])) {
        Some(i) => Err((15, i as u64)),
        None => Ok(()),
    }
}

/// Question 21: the first number that no run of this file can have there, by the words of `docs/changes/15-live.md`.
pub fn check_state(plan: &Plan, numbers: &[u64]) -> Result<(), Refusal> {
    if numbers.len() != STATE {
        return Err((21, STATE as u64));
    }
    match (0..STATE).find(|&place| !can_have(plan, numbers, place)) {
        Some(place) => Err((21, place as u64)),
        None => Ok(()),
    }
}

fn can_have(plan: &Plan, numbers: &[u64], place: usize) -> bool {
    let rows = &plan.script.rows;
    let at = |row: u64| usize::try_from(row).ok().and_then(|row| rows.get(row));
    let number = numbers[place];
    match place {
        0 => number <= 4,
        1 => match numbers[0] {
            0 => number <= rows.len() as u64,
            1 => matches!(at(number), Some(Row::Pick { .. })),
            2 => matches!(at(number), Some(Row::Cue { .. })),
            3 => number == rows.len() as u64,
            _ => number < rows.len() as u64,
        },
        2 => {
            let ends_loop = || match at(numbers[1]) {
                Some(Row::End { head }) => matches!(rows[*head as usize], Row::Loop(_)),
                _ => false,
            };
            number == 0 || number == 1 && numbers[0] == 0 && ends_loop()
        }
        3 if numbers[0] <= 2 => number < plan.prices.dearest(),
        4 => number <= plan.ticks,
        5 => number <= numbers[4],
        _ if place >= LOOPS && (place - LOOPS) / 3 < plan.lines.len() => {
            let k = (place - LOOPS) / 3;
            let line = &plan.lines[k];
            let [turns, all, most] = [0, 1, 2].map(|j| numbers[LOOPS + 3 * k + j]);
            match (place - LOOPS) % 3 {
                0 => turns <= line.turns,
                1 => turns <= all && all as u128 <= line.total,
                _ => turns <= most && most <= all && most <= line.turns,
            }
        }
        _ => number == 0,
    }
}

#[cfg(test)]
mod tests {
    use super::*;
    use crate::ONES;

    /// Three turns: a cue, a pick between two cues, a cue behind it.
    const SCRIPT: &[u8] = b"script=1\nvars=1\nrange=0 0\nrows=8\nrow=for v0 0 < 3 add 1\nrow=cue 1\nrow=pick\nrow=cue 2\nrow=else\nrow=cue 3\nrow=end\nrow=end\n";

    fn start() -> Live {
        Live::start(SCRIPT, &ONES, 1_024, &[0]).unwrap()
    }

    /// Steps until it is finished, each lent q ticks, `count` of the bytes that are not used and room for so many cues; at most `most` steps.
    fn play(bytes: &[u8], q: u64, count: usize, room: usize, most: usize) -> (Live, Vec<Step>, Vec<u32>) {
        let mut live = start();
        let (mut steps, mut cues) = (Vec::new(), Vec::new());
        for _ in 0..most {
            let rest = &bytes[live.bytes().len()..];
            let step = live.step(q, &rest[..count.min(rest.len())], room).unwrap();
            cues.extend(&step.cues);
            let done = matches!(step.status, Status::Ended | Status::Range);
            steps.push(step);
            if done {
                break;
            }
        }
        (live, steps, cues)
    }

    #[test]
    fn however_it_is_cut_it_is_the_run() {
        let bytes = [1, 0, 1];
        let run = crate::run(SCRIPT, &ONES, 1_024, &[0], &bytes, 1_000).unwrap();
        for q in [1, 2, 3, 7, 100] {
            for count in [1, 2, 3] {
                for room in [1, 2, 100] {
                    let (live, steps, cues) = play(&bytes, q, count, room, 1_000);
                    let last = steps.last().unwrap();
                    assert_eq!((last.status, last.row, last.all_ticks), (Status::Ended, run.row, run.ticks));
                    assert_eq!((&live.cut().store, &last.loops, last.all_used), (&run.store, &run.loops, run.used));
                    assert_eq!(cues, [1, 2, 1, 3, 1, 2]);
                    let held = steps.iter().filter(|s| matches!(s.status, Status::Waits | Status::Full)).count();
                    assert!(steps.len() as u64 <= live.plan.ticks.div_ceil(q).max(1) + held as u64);
                    assert!(steps.iter().all(|s| s.ticks <= q));
                }
            }
        }
    }

    #[test]
    fn a_late_answer_does_not_make_the_next_frame_longer() {
        let mut live = start();
        // The start, its test, cue 1 and the pick's price; then no byte.
        let first = live.step(10, &[], 100).unwrap();
        assert_eq!((first.status, first.ticks, first.cues, first.row), (Status::Waits, 4, vec![1], 2));
        for _ in 0..3 {
            let again = live.step(10, &[], 100).unwrap();
            assert_eq!((again.status, again.ticks, again.used, again.row), (Status::Waits, 0, 0, 2));
        }
        // The price is taken once: cue 2, the step, its test, cue 1, and the next pick without a byte.
        let later = live.step(4, &[1], 100).unwrap();
        assert_eq!((later.status, later.ticks, later.used, later.cues), (Status::Going, 4, 1, vec![2, 1]));
    }

    #[test]
    fn a_full_list_leaves_the_price() {
        let mut live = start();
        let full = live.step(3, &[1], 0).unwrap();
        assert_eq!((full.status, full.ticks, full.row), (Status::Full, 2, 1));
        let next = live.step(1, &[1], 1).unwrap();
        assert_eq!((next.status, next.ticks, next.cues), (Status::Going, 1, vec![1]));
        assert_eq!(live.step(MOST_TICKS + 1, &[], 0).unwrap_err(), (22, 0));
    }
}

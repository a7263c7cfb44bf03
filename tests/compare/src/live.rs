//! Request 15: series of steps, compared with the reference's, which knows no state. Every number of answer and state, the store, the list of cues and
//! what lies round everything lent is compared. States damaged in one number are taken or refused as the reference says, and what a step writes passes
//! the next one's questions, whatever the state was: such a step is compared with the reference's second machine, which goes by the state alone and which
//! on every series agrees with the first.

use crate::stack::Stack;
use crate::vectors::{self, Left, LiveCall};
use crate::{Checker, Room};
use diftanew::numbers::{self, START_ANSWER, STATE, STEP_ANSWER};
use generator::{any_store, case, damaged, live_case, wrong_prices, LiveCase, Rng};
use reference::live::{check_state, check_wide, Live, Status, Step, MOST_TICKS};
use reference::paused::{self, step_planned};
use reference::read::L;
use reference::{plan, Plan, Refusal, SCRATCH};
use std::path::Path;
use std::time::Instant;

/// The bytes of stack that a call gets.
const STACK: usize = diftanew::STEP_STACK;

#[derive(Default)]
struct Tally {
    series: u64,
    steps: u64,
    status: [u64; 5],
    cues: u64,
    damaged: u64,
    taken: u64,
    refused: [u64; 23],
}

pub struct LiveChecker {
    stack: Stack,
    tally: Tally,
}

/// What a step is lent and what a caller holds.
#[derive(Clone)]
struct Lent {
    file: Vec<u8>,
    prices: Vec<u32>,
    scratch: usize,
    store: Vec<i32>,
    state: Vec<u64>,
    q: u64,
    picks: Vec<u8>,
    room: usize,
}

/// What a call of `step` must answer and leave.
#[derive(Debug, PartialEq)]
struct Expected {
    answer: [u64; STEP_ANSWER],
    store: Vec<i32>,
    state: Vec<u64>,
    cues: Vec<u32>,
}

fn answer_of(step: &Step) -> [u64; STEP_ANSWER] {
    let mut numbers = [0; STEP_ANSWER];
    numbers[..8].copy_from_slice(&[
        step.status as u64,
        step.row as u64,
        step.ticks,
        step.all_ticks,
        step.used as u64,
        step.all_used as u64,
        step.cues.len() as u64,
        step.loops.len() as u64,
    ]);
    for (k, &(row, all, most)) in step.loops.iter().enumerate() {
        numbers[8 + 3 * k..11 + 3 * k].copy_from_slice(&[row as u64, all, most]);
    }
    numbers
}

/// The questions of a step in their order.
fn asked(lent: &Lent) -> Result<Plan, Refusal> {
    let plan = plan(&lent.file, &lent.prices, lent.scratch)?;
    check_wide(&plan, &lent.store)?;
    check_state(&plan, &lent.state)?;
    if lent.q > MOST_TICKS {
        return Err((22, 0));
    }
    Ok(plan)
}

/// What the second machine, which goes by the state alone, answers and leaves.
fn by_state(plan: &Plan, lent: &Lent) -> Expected {
    let (mut store, mut state) = (lent.store.clone(), lent.state.clone());
    let mut cues: Vec<u32> = (0..lent.room as u32).map(|i| !i).collect();
    let answer = step_planned(plan, &mut store, &mut state, paused::Lent { q: lent.q, picks: &lent.picks, cues: &mut cues });
    Expected { answer, store, state, cues }
}

/// A q that question 22 refuses.
fn too_many(rng: &mut Rng) -> u64 {
    rng.one_of(&[MOST_TICKS + 1, u64::MAX, 1 << 32])
}

impl LiveChecker {
    pub fn new() -> LiveChecker {
        LiveChecker { stack: Stack::new(STACK), tally: Tally::default() }
    }

    /// `start`, and the state that it writes; it must answer so.
    fn start(&mut self, checker: &mut Checker, lent: &Lent, expected: Result<(u64, u64), Refusal>) -> Vec<u64> {
        let call = &format!("start with prices {:?}, store {:?}, {} numbers of state", lent.prices, lent.store, lent.state.len());
        let mut scratch = checker.scratch(lent.scratch);
        let before = scratch.all.clone();
        let mut state = Room::new(lent.state.iter().copied(), 0x5a5a);
        let mut answer = Room::new((0..START_ANSWER as u64).map(|i| !i), 0x5a5a);
        let mut number = 0;
        self.stack.call(|| {
            number = numbers::start(&lent.file, &lent.prices, scratch.lent(), &lent.store, state.lent(), answer.lent().try_into().expect("its numbers"));
        });
        if !state.guarded() || !answer.guarded() {
            checker.differ(call, &"numbers round state and answer kept", &"changed");
        }
        checker.scratch_kept(call, number, &before, &scratch);
        match expected {
            Ok((ticks, loops)) => {
                checker.same(call, "answer", (0, [ticks, loops].to_vec()), (number, answer.lent().to_vec()));
                checker.same(call, "state", &[0u64; STATE][..], state.lent());
            }
            Err((refusal, place)) => {
                self.tally.refused[refusal as usize] += 1;
                checker.same(call, "answer", (refusal, [place, 0].to_vec()), (number, answer.lent().to_vec()));
                checker.same(call, "state", &lent.state[..], state.lent());
            }
        }
        state.lent().to_vec()
    }

    /// A call of `step`: what it answers, leaves in the store, in the state and in the list.
    fn step(&mut self, checker: &mut Checker, lent: &Lent) -> (u32, Expected) {
        let call = &format!(
            "step with prices {:?}, store {:?}, state {:?}, q {}, picks {:?}, room {}",
            lent.prices, lent.store, lent.state, lent.q, lent.picks, lent.room
        );
        let mut scratch = checker.scratch(lent.scratch);
        let before = scratch.all.clone();
        let mut store = Room::new(lent.store.iter().copied(), 0x5a5a_5a5a);
        let mut state = Room::new(lent.state.iter().copied(), 0x5a5a);
        let mut cues = Room::new((0..lent.room as u32).map(|i| !i), 0x5a5a_5a5a);
        let mut answer = Room::new((0..STEP_ANSWER as u64).map(|i| !i), 0x5a5a);
        let (file, prices, picks) = (lent.file.clone(), lent.prices.clone(), lent.picks.clone());
        let mut number = 0;
        self.stack.call(|| {
            let step = numbers::Frame { q: lent.q, picks: &picks, cues: cues.lent() };
            number = numbers::step(&file, &prices, scratch.lent(), store.lent(), state.lent(), step, answer.lent().try_into().expect("its numbers"));
        });
        checker.same(call, "file, prices and picks after the call", (&lent.file, &lent.prices, &lent.picks), (&file, &prices, &picks));
        if !store.guarded() || !state.guarded() || !cues.guarded() || !answer.guarded() {
            checker.differ(call, &"numbers round store, state, cues and answer kept", &"changed");
        }
        checker.scratch_kept(call, number, &before, &scratch);
        let answer = (&*answer.lent()).try_into().expect("its numbers");
        (number, Expected { answer, store: store.lent().to_vec(), state: state.lent().to_vec(), cues: cues.lent().to_vec() })
    }

    /// A call that must answer and leave just this.
    fn compare(&mut self, checker: &mut Checker, lent: &Lent, number: u32, expected: &Expected) {
        let (got_number, got) = self.step(checker, lent);
        let call = &format!(
            "step with prices {:?}, store {:?}, state {:?}, q {}, picks {:?}, room {}",
            lent.prices, lent.store, lent.state, lent.q, lent.picks, lent.room
        );
        checker.same(call, "number", number, got_number);
        checker.same(call, "answer", &expected.answer[..], &got.answer[..]);
        checker.same(call, "store", &expected.store, &got.store);
        checker.same(call, "state", &expected.state, &got.state);
        checker.same(call, "cues", &expected.cues, &got.cues);
    }

    /// A refused step leaves everything as it was.
    fn refused(&mut self, checker: &mut Checker, lent: &Lent, (number, place): Refusal) {
        self.tally.refused[number as usize] += 1;
        let mut answer = [0; STEP_ANSWER];
        answer[0] = place;
        let cues = (0..lent.room as u32).map(|i| !i).collect();
        let left = Expected { answer, store: lent.store.clone(), state: lent.state.clone(), cues };
        self.compare(checker, lent, number, &left);
    }

    /// A state damaged in one number, now and then with another store or too many ticks: taken or refused. A step from one that is taken answers and
    /// leaves what the second machine says, which passes the next step's questions, and is not long.
    fn damage(&mut self, checker: &mut Checker, lent: &Lent) {
        self.tally.damaged += 1;
        let mut lent = Lent { state: damaged(&mut checker.rng, &lent.state), ..lent.clone() };
        match checker.rng.below(20) {
            0 => lent.q = too_many(&mut checker.rng),
            1 => lent.store = any_store(&mut checker.rng),
            2 => lent.store.iter_mut().for_each(|value| *value = checker.rng.one_of(&[-L, -1, 0, 1, 7, L])),
            _ => {}
        }
        match asked(&lent) {
            Err(refusal) => self.refused(checker, &lent, refusal),
            Ok(plan) => {
                self.tally.taken += 1;
                let left = by_state(&plan, &lent);
                self.compare(checker, &lent, 0, &left);
                let call = &format!("step from the damaged state {:?}, q {}, picks {:?}, room {}", lent.state, lent.q, lent.picks, lent.room);
                checker.same(call, "store that it left", Ok(()), check_wide(&plan, &left.store));
                checker.same(call, "state that it wrote", Ok(()), check_state(&plan, &left.state));
                let most = lent.q + plan.prices.dearest() - 1;
                if left.answer[2] > most {
                    checker.differ(call, &format!("at most {most} ticks"), &left.answer);
                }
            }
        }
    }

    /// What is lent, with something that a question refuses, or with any file.
    fn other(&self, checker: &mut Checker, lent: &Lent) -> Lent {
        let mut lent = lent.clone();
        match checker.rng.below(5) {
            0 => lent.scratch = checker.rng.below(SCRATCH),
            1 => lent.prices = wrong_prices(&mut checker.rng),
            2 => lent.store = any_store(&mut checker.rng),
            3 => lent.file = case(checker.rng.next(), checker.rng.next()).file,
            _ => lent.q = too_many(&mut checker.rng),
        }
        lent
    }

    /// A step that a question refuses, or one of another file.
    fn wrong(&mut self, checker: &mut Checker, lent: &Lent) {
        let lent = self.other(checker, lent);
        match asked(&lent) {
            Err(refusal) => self.refused(checker, &lent, refusal),
            Ok(plan) => self.compare(checker, &lent, 0, &by_state(&plan, &lent)),
        }
    }

    /// A `start` that a question refuses, or one of another file; the state has not always 64 numbers.
    fn wrong_start(&mut self, checker: &mut Checker, lent: &Lent) {
        let numbers = checker.rng.one_of(&[STATE, STATE, 0, 1, 63, 65]);
        let lent = Lent { state: vec![7; numbers], ..self.other(checker, lent) };
        let expected = paused::start(&lent.file, &lent.prices, lent.scratch, &lent.store, &mut lent.state.clone());
        self.start(checker, &lent, expected);
    }

    fn case(&mut self, checker: &mut Checker, case: LiveCase) {
        checker.file = case.file.clone();
        checker.rng = case.rng;
        let scratch = checker.enough();
        let held = (0..STATE).map(|_| checker.rng.next()).collect();
        let mut lent = Lent { file: case.file, prices: case.prices, scratch, store: case.store, state: held, q: 0, picks: Vec::new(), room: 0 };
        let short = Lent { state: vec![7; checker.rng.one_of(&[0, 1, 63, 65])], ..lent.clone() };
        self.start(checker, &short, Err((21, STATE as u64)));
        self.wrong_start(checker, &lent);
        let mut live = Live::start(&lent.file, &lent.prices, lent.scratch, &lent.store).expect("its store is inside the ranges");
        lent.state = self.start(checker, &lent, Ok((live.plan.ticks, live.plan.lines.len() as u64)));
        self.tally.series += 1;
        for step in case.steps {
            let rest = &case.bytes[live.bytes().len()..];
            (lent.q, lent.picks, lent.room) = (step.q, rest[..step.count.min(rest.len())].to_vec(), step.room);
            for _ in 0..2 {
                self.damage(checker, &lent);
            }
            if checker.rng.chance(10) {
                self.wrong(checker, &lent);
            }
            let answer = live.step(lent.q, &lent.picks, lent.room).expect("its questions have yes");
            let mut cues: Vec<u32> = (0..lent.room as u32).map(|i| !i).collect();
            cues[..answer.cues.len()].copy_from_slice(&answer.cues);
            let left = Expected { answer: answer_of(&answer), store: live.cut().store, state: live.state().to_vec(), cues };
            checker.same("the two oracles", "step", &left, &by_state(&live.plan, &lent));
            self.compare(checker, &lent, 0, &left);
            self.tally.steps += 1;
            self.tally.cues += answer.cues.len() as u64;
            self.tally.status[answer.status as usize] += 1;
            (lent.store, lent.state) = (left.store, left.state);
            if matches!(answer.status, Status::Ended | Status::Range) && checker.rng.chance(70) {
                break;
            }
        }
    }

    /// A stored step: the two oracles and the library must answer so. What the next one is lent, if this one was not damaged.
    fn stored_step(
        &mut self,
        checker: &mut Checker,
        live: &mut Live,
        lent: &Lent,
        answer: &Result<Left, Refusal>,
        damaged: bool,
    ) -> Option<(Vec<i32>, Vec<u64>)> {
        let left = match answer {
            Err(refusal) => {
                checker.same("the reference's step", "stored answer", Err(*refusal), asked(lent).map(|_| ()));
                self.refused(checker, lent, *refusal);
                return None;
            }
            Ok(left) => left,
        };
        let mut cues: Vec<u32> = (0..lent.room as u32).map(|i| !i).collect();
        cues[..left.cues.len()].copy_from_slice(&left.cues);
        let expected = Expected { answer: left.answer, store: left.store.clone(), state: left.state.clone(), cues };
        checker.same("the reference's step", "questions", Ok(()), asked(lent).map(|_| ()));
        checker.same("the reference's step by the state", "stored answer", &expected, &by_state(&live.plan, lent));
        self.compare(checker, lent, 0, &expected);
        if damaged {
            return None;
        }
        let answer = live.step(lent.q, &lent.picks, lent.room).expect("its questions have yes");
        checker.same("the reference's step", "stored answer", &left.answer, &answer_of(&answer));
        checker.same("the reference's step", "stored cues", &left.cues, &answer.cues);
        checker.same("the reference's step", "stored store and state", (&left.store, &left.state), (&live.cut().store, &live.state().to_vec()));
        Some((expected.store, expected.state))
    }

    /// The stored series of a folder.
    pub fn stored(&mut self, checker: &mut Checker, folder: &Path) -> Result<(), String> {
        let read = |file: &Path| std::fs::read(file).map_err(|_| format!("{} cannot be read", file.display()));
        let text = String::from_utf8_lossy(&read(&folder.join("series.out"))?).into_owned();
        let calls = vectors::live_calls(&text).map_err(|line| format!("{}: {line}", folder.display()))?;
        let mut series: Option<(Live, Lent)> = None;
        for (index, call) in calls.iter().enumerate() {
            checker.name = format!("call {index} of {}", folder.display());
            match call {
                LiveCall::Start { file, prices, store, answer } => {
                    let file = read(&folder.join(file))?;
                    checker.file = file.clone();
                    let live = Live::start(&file, prices, SCRATCH, store);
                    let started = live.as_ref().map(|live| (live.plan.ticks, live.plan.lines.len() as u64)).map_err(|refusal| *refusal);
                    checker.same("the reference's start", "stored answer", answer, &started);
                    let (prices, store) = (prices.clone(), store.clone());
                    let lent = Lent { file, prices, scratch: SCRATCH, store, state: vec![7; STATE], q: 0, picks: Vec::new(), room: 0 };
                    let state = self.start(checker, &lent, *answer);
                    series = live.ok().map(|live| (live, Lent { state, ..lent }));
                }
                LiveCall::Step { damage, q, picks, room, answer } => {
                    let (live, lent) = series.as_mut().ok_or(format!("{}: a step behind no start", folder.display()))?;
                    (lent.q, lent.picks, lent.room) = (*q, picks.clone(), *room);
                    let mut now = lent.clone();
                    if let Some((place, number)) = damage {
                        now.state.resize(now.state.len().max(place + 1), 0);
                        now.state[*place] = *number;
                    }
                    if let Some((store, state)) = self.stored_step(checker, live, &now, answer, damage.is_some()) {
                        (lent.store, lent.state) = (store, state);
                    }
                }
            }
        }
        println!("vectors: {} calls of live runs, no difference", calls.len());
        Ok(())
    }

    /// The series that `generator` makes of a seed.
    pub fn generated(&mut self, checker: &mut Checker, count: u64, seed: u64) {
        let begin = Instant::now();
        for index in 0..count {
            checker.name = format!("series {index} of seed {seed}");
            self.case(checker, live_case(seed, index));
        }
        let t = &self.tally;
        let refused: Vec<String> = (1..23).filter(|number| t.refused[*number] > 0).map(|number| format!("{number}:{}", t.refused[number])).collect();
        println!(
            "no difference: {} series of seed {seed}, {} steps (going {}, waits {}, full {}, ended {}, range {}), {} cues; {} damaged states, {} taken; \
             refused {}; stack: {} bytes of {STACK}; {:.1} s",
            t.series,
            t.steps,
            t.status[0],
            t.status[1],
            t.status[2],
            t.status[3],
            t.status[4],
            t.cues,
            t.damaged,
            t.taken,
            refused.join(" "),
            self.stack.used(),
            begin.elapsed().as_secs_f64()
        );
    }
}

//! Change 14: the call of several scripts, compared with the reference's and with runs alone. Every number of the answer, every store and
//! what lies round everything lent is compared; of the scratch the numbers past the first 1,024, and all of them under question 1.

use crate::stack::Stack;
use crate::vectors::{self, FramesCall};
use crate::{answer_of, Checker, Room, GUARD};
use diftanew::numbers::{self, Lent, ANSWER, FRAMES_ANSWER};
use generator::{frames_case, FramesCase};
use reference::frames::{breach, frames, refused_script, scripts, Frames};
use reference::{plan, Refusal, SCRATCH};
use std::path::Path;
use std::time::Instant;

/// The bytes of stack that a call gets.
const STACK: usize = diftanew::FRAMES_STACK;
/// The numbers of one script's answer, and of all.
const SCRIPT: usize = 1 + ANSWER;
const NUMBERS: usize = FRAMES_ANSWER;

#[derive(Default)]
struct Tally {
    calls: u64,
    scripts: u64,
    refused: [u64; 21],
    frames: u64,
    /// Scripts that stood for a frame before a price above q.
    waited: u64,
    /// Calls whose greatest frame is over q for each script.
    over: u64,
    eight: u64,
}

pub struct FramesChecker {
    stack: Stack,
    tally: Tally,
}

impl FramesChecker {
    pub fn new() -> FramesChecker {
        FramesChecker { stack: Stack::new(STACK), tally: Tally::default() }
    }

    /// One call, and what it must answer.
    fn call(&mut self, checker: &mut Checker, case: &FramesCase, expected: &Result<Frames, Refusal>) {
        let call = &format!(
            "frames with prices {:?}, q {}, {} scratch numbers, lengths {:?} {:?} {:?}, stores {:?}, picks {:?}",
            case.prices, case.q, case.scratch, case.file_lengths, case.store_lengths, case.pick_lengths, case.stores, case.picks
        );
        let mut scratch = checker.scratch(case.scratch);
        let before = scratch.all.clone();
        let mut stores = Room::new(case.stores.iter().copied(), 0x5a5a_5a5a);
        let mut answer = Room::new((0..NUMBERS as u64).map(|i| !i), 0x5a5a);
        let (files, picks, prices) = (case.files.clone(), case.picks.clone(), case.prices.clone());
        let lengths = [case.file_lengths.clone(), case.store_lengths.clone(), case.pick_lengths.clone()];
        let mut number = 0;
        self.stack.call(|| {
            let (lent_scratch, lent_stores, lent_answer) = (scratch.lent(), stores.lent(), answer.lent());
            let lent = Lent {
                files: &files,
                file_lengths: &lengths[0],
                stores: lent_stores,
                store_lengths: &lengths[1],
                picks: &picks,
                pick_lengths: &lengths[2],
            };
            let lent_answer = lent_answer.try_into().expect("the answer's numbers");
            number = numbers::frames(lent, &prices, case.q, lent_scratch, lent_answer);
        });
        checker.same(call, "files after the call", &case.files, &files);
        checker.same(call, "picks after the call", &case.picks, &picks);
        checker.same(call, "prices after the call", &case.prices, &prices);
        checker.same(call, "lengths after the call", &[&case.file_lengths, &case.store_lengths, &case.pick_lengths], &[&lengths[0], &lengths[1], &lengths[2]]);
        if !stores.guarded() || !answer.guarded() || !scratch.guarded() {
            checker.differ(call, &"numbers round stores, answer and scratch kept", &"changed");
        }
        let mut numbers = [0u64; NUMBERS];
        let (refusal, left) = match expected {
            Err((refusal, place)) => {
                numbers[0] = *place;
                numbers[1] = refused_script(case.lent(), &case.prices, case.q, case.scratch);
                (*refusal, case.stores.clone())
            }
            Ok(frames) => {
                numbers[0] = frames.most;
                for (i, script) in frames.scripts.iter().enumerate() {
                    let at = 1 + SCRIPT * i;
                    numbers[at] = script.frame;
                    numbers[at + 1..at + SCRIPT].copy_from_slice(&answer_of(&script.run));
                }
                (0, frames.scripts.iter().flat_map(|script| script.run.store.clone()).collect())
            }
        };
        checker.same(call, "number", refusal, number);
        checker.same(call, "stores", &left[..], stores.lent());
        checker.same(call, "answer", &numbers[..], answer.lent());
        let kept = if refusal == 1 { GUARD } else { GUARD + SCRATCH };
        if let Some(at) = (kept..before.len()).find(|&at| before[at] != scratch.all[at]) {
            checker.differ(&format!("{call}: scratch number {}", at - GUARD), &before[at], &scratch.all[at]);
        }
    }

    /// Each script must be as it is alone with its report's ticks: the reference's, and then the library's own run.
    fn alone(&mut self, checker: &mut Checker, case: &FramesCase, frames: &Frames) {
        let parts = scripts(case.lent(), case.q).expect("it was accepted");
        let chosen = checker.rng.below(parts.len());
        for (i, ((file, store, picks), script)) in parts.into_iter().zip(&frames.scripts).enumerate() {
            let plan = plan(file, &case.prices, SCRATCH).expect("it was accepted");
            if let Some(what) = breach(&plan, store, picks, case.q, script) {
                checker.differ(&format!("script {i} alone: {what}"), &script, &"not asked");
            }
            if i == chosen {
                let (mut values, mut answer) = (store.to_vec(), [0; ANSWER]);
                numbers::run(file, &case.prices, &mut [0; SCRATCH], &mut values, picks, plan.ticks, &mut answer);
                checker.same("the library's run alone", "answer", answer_of(&script.run), answer);
                checker.same("the library's run alone", "store", &script.run.store, &values);
            }
            self.tally.frames += script.frame;
            self.tally.waited += (script.run.ticks > 0 && case.prices.iter().any(|price| *price as u64 > case.q)) as u64;
        }
    }

    fn case(&mut self, checker: &mut Checker, case: &FramesCase) {
        checker.file = case.files.clone();
        let expected = frames(case.lent(), &case.prices, case.q, case.scratch);
        self.tally.calls += 1;
        match &expected {
            Ok(frames) => {
                self.tally.scripts += frames.scripts.len() as u64;
                self.tally.eight += (frames.scripts.len() == 8) as u64;
                self.tally.over += (frames.most > case.q * frames.scripts.len() as u64) as u64;
                self.alone(checker, case, frames);
            }
            Err((number, _)) => self.tally.refused[*number as usize] += 1,
        }
        self.call(checker, case, &expected);
    }

    /// The calls that `generator` makes of a seed.
    pub fn generated(&mut self, checker: &mut Checker, count: u64, seed: u64) {
        let begin = Instant::now();
        for index in 0..count {
            let mut case = frames_case(seed, index);
            std::mem::swap(&mut case.rng, &mut checker.rng);
            checker.name = format!("call {index} of seed {seed}");
            self.case(checker, &case);
        }
        let t = &self.tally;
        let refused: Vec<String> = (1..21).filter(|number| t.refused[*number] > 0).map(|number| format!("{number}:{}", t.refused[number])).collect();
        println!(
            "no difference: {} frames calls of seed {seed}, refused {}; {} scripts in {} frames, {} calls with 8, {} scripts with a price above q, {} calls \
             with a frame over q for each script; stack: {} bytes of {STACK}; {:.1} s",
            t.calls,
            refused.join(" "),
            t.scripts,
            t.frames,
            t.eight,
            t.waited,
            t.over,
            self.stack.used(),
            begin.elapsed().as_secs_f64()
        );
    }

    /// The stored calls of a folder: the reference's answer must be the same, with all entries, and then the library's.
    pub fn stored(&mut self, checker: &mut Checker, folder: &Path) -> Result<(), String> {
        let read = |file: &Path| std::fs::read(file).map_err(|_| format!("{} cannot be read", file.display()));
        let text = String::from_utf8_lossy(&read(&folder.join("calls.out"))?).into_owned();
        let calls = vectors::frames_calls(&text).map_err(|line| format!("{}: {line}", folder.display()))?;
        for (index, FramesCall { q, prices, scripts, answer }) in calls.iter().enumerate() {
            let files = scripts.iter().map(|script| read(&folder.join(&script.0))).collect::<Result<Vec<_>, _>>()?;
            let case = FramesCase {
                files: files.concat(),
                file_lengths: files.iter().map(Vec::len).collect(),
                stores: scripts.iter().flat_map(|script| script.1.clone()).collect(),
                store_lengths: scripts.iter().map(|script| script.1.len()).collect(),
                picks: scripts.iter().flat_map(|script| script.2.clone()).collect(),
                pick_lengths: scripts.iter().map(|script| script.2.len()).collect(),
                prices: prices.clone(),
                q: *q,
                scratch: SCRATCH,
                rng: generator::Rng::new(0, 0),
            };
            checker.name = format!("call {index} of {}", folder.display());
            checker.file = case.files.clone();
            checker.same("the reference's frames", "stored answer", answer, &frames(case.lent(), prices, *q, SCRATCH));
            self.case(checker, &case);
        }
        println!("vectors: {} frames calls, no difference", calls.len());
        Ok(())
    }
}

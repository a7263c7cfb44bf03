//! compare [COUNT [SEED [FIRST]]]: compares the library with the reference on COUNT generated files, from
//! file number FIRST on.
//! compare frames [COUNT [SEED]]: the same for the call of several scripts.
//! compare live [COUNT [SEED]]: the same for series of steps.
//! compare reach [COUNT [SEED]]: searches the picks that bring loops to the turns of their report.
//! compare vectors FOLDER: compares reference and library with the stored answers in the folders of a folder.
//! The first difference is printed with its file, and the exit code is 1.
mod frames;
mod live;
mod reach;
mod stack;
mod vectors;

use diftanew::numbers::{self, ANSWER, FIGURES_ANSWER, LINE};
use generator::{allowance, any_store, case, picks, store, wrong_prices, Case, Rng, SEED};
use reference::{Ending, Plan, Refusal, Run, Step, ONES, SCRATCH};
use stack::Stack;
use std::path::Path;
use std::process::exit;
use std::time::Instant;
use vectors::{Call, Kind};

/// The longest run, in rows, that is waited for where the plan is longer.
const LONGEST: u64 = 30_000;
/// Bytes and numbers before and after everything lent, which must keep their values.
const GUARD: usize = 64;

/// Room between two guards.
struct Room<T> {
    all: Vec<T>,
    length: usize,
    guard: T,
}

impl<T: Copy + PartialEq> Room<T> {
    fn new(contents: impl Iterator<Item = T>, guard: T) -> Room<T> {
        let mut all = vec![guard; GUARD];
        all.extend(contents);
        let length = all.len() - GUARD;
        all.resize(length + 2 * GUARD, guard);
        Room { all, length, guard }
    }

    fn lent(&mut self) -> &mut [T] {
        &mut self.all[GUARD..GUARD + self.length]
    }

    fn guarded(&self) -> bool {
        let kept = |part: &[T]| part.iter().all(|n| *n == self.guard);
        kept(&self.all[..GUARD]) && kept(&self.all[GUARD + self.length..])
    }
}

#[derive(Default)]
struct Tally {
    accepted: u64,
    refused: [u64; 20],
    reports: u64,
    figures: u64,
    runs: u64,
    endings: [u64; 4],
    run_refusals: u64,
    demands: u64,
    entries: u64,
    ticks: u64,
}

struct Checker {
    file: Vec<u8>,
    /// The file's name in what is printed.
    name: String,
    prices: Vec<u32>,
    rng: Rng,
    tally: Tally,
    /// For report, run and figures calls; each has as much stack as its call may use.
    stacks: [Stack; 3],
}

fn word(ending: Ending) -> u64 {
    match ending {
        Ending::Ended => 0,
        Ending::Spent => 1,
        Ending::Range => 2,
        Ending::NoPick => 3,
    }
}

/// The reference's answer as the library's numbers.
fn answer_of(run: &Run) -> [u64; ANSWER] {
    let mut numbers = [0; ANSWER];
    numbers[..5].copy_from_slice(&[word(run.ending), run.row as u64, run.ticks, run.used as u64, run.loops.len() as u64]);
    for (k, &(row, all, most)) in run.loops.iter().enumerate() {
        numbers[5 + 3 * k..8 + 3 * k].copy_from_slice(&[row as u64, all, most]);
    }
    numbers
}

/// What the reference's report says as the library's numbers.
fn figures_of(plan: &Plan) -> [u64; FIGURES_ANSWER] {
    let mut numbers = [0; FIGURES_ANSWER];
    numbers[..3].copy_from_slice(&[plan.ticks, plan.script.vars as u64, plan.lines.len() as u64]);
    for (line, numbers) in plan.lines.iter().zip(numbers[3..].chunks_mut(LINE)) {
        let (step, first, second) = match line.step {
            Step::Add(a, b) => (0, a, b),
            Step::Grow(a, b) => (1, a, b),
            Step::Shrink(a, b) => (2, a, b),
            Step::Unknown => unreachable!("question 8"),
        };
        numbers.copy_from_slice(&[line.row as u64, step, first as u64, second as u64, line.turns, line.total as u64, line.exact as u64]);
    }
    numbers
}

/// The reference's answer in the crate's types.
fn typed(run: &Run) -> diftanew::Run {
    let ending = match run.ending {
        Ending::Ended => diftanew::Ending::Ended,
        Ending::Spent => diftanew::Ending::Spent,
        Ending::Range => diftanew::Ending::Range,
        Ending::NoPick => diftanew::Ending::NoPick,
    };
    let loops = run.loops.iter().map(|&(row, all, most)| diftanew::LoopCount { row: row as u64, all, most }).collect();
    diftanew::Run { ending, row: run.row as u64, ticks: run.ticks, used: run.used as u64, loops }
}

impl Checker {
    fn differ(&self, call: &str, expected: &dyn std::fmt::Debug, got: &dyn std::fmt::Debug) -> ! {
        println!("difference in {}: {call}", self.name);
        println!("expected: {expected:?}");
        println!("got:      {got:?}");
        println!("file ({} bytes): \"{}\"", self.file.len(), self.file.escape_ascii());
        exit(1)
    }

    fn same<T: PartialEq + std::fmt::Debug>(&self, call: &str, what: &str, expected: T, got: T) {
        if expected != got {
            self.differ(&format!("{what} of {call}"), &expected, &got);
        }
    }

    /// A length that question 1 takes. Past the first 1,024 numbers lies a patch list.
    fn enough(&mut self) -> usize {
        match self.rng.below(8) {
            0..=2 => SCRATCH,
            3 => SCRATCH + 1,
            4 | 5 => SCRATCH + self.rng.below(200),
            6 => 2 * SCRATCH + self.rng.below(3) - 1,
            // The scratch of old, and round it.
            _ => 8_192 + self.rng.below(3) - 1,
        }
    }

    /// A scratch of random numbers.
    fn scratch(&mut self, length: usize) -> Room<u32> {
        Room::new((0..length).map(|_| self.rng.next() as u32), 0xa5a5_a5a5)
    }

    /// Every number of the scratch past the first 1,024 must be as before the call, and all of them where 1 refuses, and what lies round it.
    fn scratch_kept(&self, call: &str, number: u32, before: &[u32], after: &Room<u32>) {
        let table = if number == 1 { 0..0 } else { GUARD..GUARD + SCRATCH };
        if let Some(at) = (0..before.len()).find(|at| !table.contains(at) && before[*at] != after.all[*at]) {
            self.differ(&format!("{call}: scratch number {}", at as isize - GUARD as isize), &before[at], &after.all[at]);
        }
    }

    fn report(&mut self, scratch_len: usize, buffer_len: usize, expected: &Result<Vec<u8>, Refusal>) {
        self.tally.reports += 1;
        let call = &format!("report with prices {:?}, {scratch_len} scratch numbers and a buffer of {buffer_len}", self.prices);
        let mut scratch = self.scratch(scratch_len);
        let before = scratch.all.clone();
        let salt = self.rng.next() as u8;
        let pattern = |i: usize| (i as u8).wrapping_mul(31) ^ salt;
        let mut buffer = Room::new((0..buffer_len).map(pattern), 0x5a);
        let mut place = [0x1122_3344_5566_7788u64; 3];
        let (file, prices) = (self.file.clone(), self.prices.clone());
        let mut number = 0;
        self.stacks[0].call(|| {
            number = numbers::report(&file, &prices, scratch.lent(), buffer.lent(), &mut place[1])
        });
        self.same(call, "file after the call", &self.file, &file);
        self.same(call, "prices after the call", &self.prices, &prices);
        let place_kept = place[0] == 0x1122_3344_5566_7788 && place[2] == place[0];
        if !buffer.guarded() || !place_kept {
            self.differ(call, &"bytes round the buffer and the place kept", &"changed");
        }
        let mut full: Vec<u8> = (0..buffer_len).map(pattern).collect();
        match expected {
            Ok(text) => {
                full[..text.len()].copy_from_slice(text);
                self.same(call, "answer", (0, text.len() as u64), (number, place[1]));
            }
            Err(refusal) => {
                self.same(call, "answer", *refusal, (number, place[1]));
                self.same(call, "question", Some(number), diftanew::Question::of(number).map(|question| question.number()));
            }
        }
        if full != buffer.lent() {
            let (full, got) = (full.escape_ascii().to_string(), buffer.lent().escape_ascii().to_string());
            self.differ(&format!("buffer of {call}"), &full, &got);
        }
        self.scratch_kept(call, number, &before, &scratch);
    }

    /// What the report says, and that it is what the report's own text says.
    fn figures(&mut self, scratch_len: usize, expected: Result<&Plan, Refusal>) {
        self.tally.figures += 1;
        let call = &format!("figures with prices {:?} and {scratch_len} scratch numbers", self.prices);
        let mut scratch = self.scratch(scratch_len);
        let before = scratch.all.clone();
        let mut answer = Room::new((0..FIGURES_ANSWER as u64).map(|i| !i), 0x5a5a);
        let (file, prices) = (self.file.clone(), self.prices.clone());
        let mut number = 0;
        self.stacks[2].call(|| number = numbers::figures(&file, &prices, scratch.lent(), answer.lent().try_into().unwrap()));
        self.same(call, "file after the call", &self.file, &file);
        self.same(call, "prices after the call", &self.prices, &prices);
        if !answer.guarded() {
            self.differ(call, &"numbers round the answer kept", &"changed");
        }
        let mut numbers = [0; FIGURES_ANSWER];
        match expected {
            Err((refusal, place)) => {
                numbers[0] = place;
                self.same(call, "number", refusal, number);
            }
            Ok(plan) => {
                numbers = figures_of(plan);
                self.same(call, "number", 0, number);
                let text = String::from_utf8(reference::report_text(plan)).unwrap();
                let figures = diftanew::Figures::of((&*answer.lent()).try_into().unwrap());
                self.same(call, "text", text, format!("report=1\nrows={}\n{figures}", plan.script.rows.len()));
            }
        }
        self.same(call, "answer", &numbers[..], answer.lent());
        self.scratch_kept(call, number, &before, &scratch);
    }

    fn run(&mut self, scratch_len: usize, store: &[i32], picks: &[u8], allowance: u64, expected: &Result<Run, Refusal>) {
        self.tally.runs += 1;
        let call = &format!(
            "run with prices {:?}, {scratch_len} scratch numbers, store {store:?}, allowance {allowance}, {} picks {:?}..",
            self.prices,
            picks.len(),
            &picks[..picks.len().min(40)]
        );
        let mut scratch = self.scratch(scratch_len);
        let before = scratch.all.clone();
        let mut lent_store = Room::new(store.iter().copied(), 0x5a5a_5a5a);
        let mut answer = Room::new((0..ANSWER as u64).map(|i| !i), 0x5a5a);
        let (file, prices) = (self.file.clone(), self.prices.clone());
        let lent_picks = picks.to_vec();
        let numbers: &mut [u64; ANSWER] = answer.lent().try_into().unwrap();
        let mut number = 0;
        self.stacks[1].call(|| {
            number = numbers::run(&file, &prices, scratch.lent(), lent_store.lent(), &lent_picks, allowance, numbers)
        });
        self.same(call, "file after the call", &self.file, &file);
        self.same(call, "prices after the call", &self.prices, &prices);
        self.same(call, "picks after the call", picks, &lent_picks);
        if !lent_store.guarded() || !answer.guarded() {
            self.differ(call, &"numbers round store and answer kept", &"changed");
        }
        let mut numbers = [0u64; ANSWER];
        match expected {
            Err((refusal, place)) => {
                self.tally.run_refusals += 1;
                numbers[0] = *place;
                self.same(call, "number", *refusal, number);
                self.same(call, "store", store, lent_store.lent());
            }
            Ok(run) => {
                self.tally.endings[word(run.ending) as usize] += 1;
                self.tally.ticks += run.ticks;
                numbers = answer_of(run);
                self.same(call, "number", 0, number);
                self.same(call, "store", &run.store[..], lent_store.lent());
                self.same(call, "typed answer", typed(run), diftanew::Run::of((&*answer.lent()).try_into().unwrap()));
            }
        }
        self.same(call, "answer", &numbers[..], answer.lent());
        self.scratch_kept(call, number, &before, &scratch);
    }

    fn accepted(&mut self, plan: &Plan) {
        self.tally.accepted += 1;
        let text = reference::report_text(plan);
        let length = text.len();
        for buffer_len in [length - 1, length, length + 1, 0, 4_096, self.rng.below(length)] {
            let expected = if buffer_len < length { Err((14, length as u64)) } else { Ok(text.clone()) };
            self.report(SCRATCH, buffer_len, &expected);
        }
        for scratch_len in [SCRATCH + 1, self.enough()] {
            self.report(scratch_len, length, &Ok(text.clone()));
        }
        let scratch_len = self.enough();
        self.figures(scratch_len, Ok(plan));

        let longest = LONGEST * *self.prices.iter().min().unwrap() as u64;
        for _ in 0..5 {
            let store = store(&mut self.rng, &plan.script);
            let picks = picks(&mut self.rng);
            // Demand 3, on the reference's own list, where the run is short enough to be made.
            let first = reference::run_planned(plan, &store, &picks, plan.ticks.min(longest));
            let short = match &first {
                Ok(run) => plan.ticks <= longest || run.ending != Ending::Spent,
                Err(_) => true,
            };
            if let (Ok(run), true) = (&first, short) {
                self.tally.demands += 1;
                self.tally.entries += run.entries.len() as u64;
                if let Some(what) = reference::breach(plan, run) {
                    let call = format!("demand 3 with store {store:?}, picks {picks:?}: {what}");
                    self.differ(&call, &run, &"not asked");
                }
            }
            let allowance = allowance(&mut self.rng, plan, short, longest);
            let expected = reference::run_planned(plan, &store, &picks, allowance);
            let scratch_len = self.enough();
            self.run(scratch_len, &store, &picks, allowance, &expected);
            if short && self.rng.chance(40) {
                self.run(SCRATCH, &store, &picks, plan.ticks, &first);
            }
        }
    }

    fn refused(&mut self, refusal: Refusal) {
        self.tally.refused[refusal.0 as usize] += 1;
        for buffer_len in [0, 300] {
            let scratch_len = self.enough();
            self.report(scratch_len, buffer_len, &Err(refusal));
        }
        let scratch_len = self.enough();
        self.figures(scratch_len, Err(refusal));
        let (store, picks) = (any_store(&mut self.rng), picks(&mut self.rng));
        let allowance = self.rng.next();
        let scratch_len = self.enough();
        self.run(scratch_len, &store, &picks, allowance, &Err(refusal));
    }

    fn case(&mut self) {
        if let Err(refusal) = reference::prices::prices(&self.prices) {
            self.refused(refusal);
            self.prices = ONES.to_vec();
        }
        match reference::plan(&self.file, &self.prices, SCRATCH) {
            Ok(plan) => self.accepted(&plan),
            Err(refusal) => self.refused(refusal),
        }
        // Question 16 comes before 2, and 1 before 16.
        if self.file.len() > 16_384 || self.rng.chance(30) {
            self.prices = wrong_prices(&mut self.rng);
            if let Err(refusal) = reference::plan(&self.file, &self.prices, SCRATCH) {
                self.refused(refusal);
            }
        }
        for little in [0, SCRATCH - 1, self.rng.below(SCRATCH)] {
            self.report(little, 500, &Err((1, SCRATCH as u64)));
            self.figures(little, Err((1, SCRATCH as u64)));
            let (store, picks) = (any_store(&mut self.rng), picks(&mut self.rng));
            self.run(little, &store, &picks, 100, &Err((1, SCRATCH as u64)));
        }
    }

    /// A stored call. The reference's answer must be the same, with all entries, and then the library's.
    fn stored(&mut self, call: &Call) {
        self.prices = call.prices.clone();
        let plan = reference::plan(&self.file, &self.prices, SCRATCH);
        match &call.kind {
            Kind::Report(answer) => {
                let reference = plan.as_ref().map(reference::report_text).map_err(|refusal| *refusal);
                let what = format!("the reference's report with prices {:?}", self.prices);
                self.same(&what, "stored answer", answer, &reference);
                self.report(SCRATCH, 4_096, answer);
                self.figures(SCRATCH, plan.as_ref().map_err(|refusal| *refusal));
            }
            Kind::Run { store, picks, allowance, answer } => {
                let allowance = allowance.unwrap_or(plan.as_ref().map_or(0, |plan| plan.ticks));
                let reference = plan.and_then(|plan| reference::run_planned(&plan, store, picks, allowance));
                let what = format!("the reference's run with prices {:?}, store {store:?}, allowance {allowance}", self.prices);
                self.same(&what, "stored answer", answer, &reference);
                self.run(SCRATCH, store, picks, allowance, answer);
            }
        }
    }
}

/// The files that need most stack: 256 rows, 16 loops, 8 deep, without expressions, with them and with holds; and words that are as
/// long as a file can be, of which no part may be left to the stack.
const WORST: [(&str, &[u8]); 6] = [
    ("accepted-worst", include_bytes!("../../../crates/report_files/data/accepted-worst.script")),
    ("accepted-expression-worst", include_bytes!("../../../crates/report_files/data/accepted-expression-worst.script")),
    ("accepted-hold-worst", include_bytes!("../../../crates/report_files/data/accepted-hold-worst.script")),
    ("refused-17-expression-of-8000-pairs", include_bytes!("../../../crates/report_files/data/refused-17-expression-of-8000-pairs.script")),
    ("refused-17-expression-of-8000-operators", include_bytes!("../../../crates/report_files/data/refused-17-expression-of-8000-operators.script")),
    ("refused-3-expression-of-16000-parentheses", include_bytes!("../../../crates/report_files/data/refused-3-expression-of-16000-parentheses.script")),
];

/// The files that `generator` makes of a seed.
fn generated(checker: &mut Checker, count: u64, seed: u64, first: u64) {
    let begin = Instant::now();
    for (name, file) in WORST {
        checker.file = file.to_vec();
        checker.name = name.into();
        checker.prices = ONES.to_vec();
        checker.case();
    }
    for index in first..first + count {
        let Case { file, prices, rng } = case(seed, index);
        checker.file = file;
        checker.name = format!("file {index} of seed {seed}");
        checker.prices = prices;
        checker.rng = rng;
        checker.case();
    }
    let t = &checker.tally;
    let refused: Vec<String> = (2..=13).chain([16, 17, 19]).map(|number| format!("{number}:{}", t.refused[number])).collect();
    println!(
        "no difference: {count} files of seed {seed}, {} accepted, refused {}; {} report calls; {} figures calls; {} run calls ({} refused, \
         ended {}, spent {}, range {}, no pick {}, {} ticks); demand 3 held in {} runs with {} entries; \
         stack: report {} bytes of {}, figures {} of {}, run {} of {}; {:.1} s",
        t.accepted,
        refused.join(" "),
        t.reports,
        t.figures,
        t.runs,
        t.run_refusals,
        t.endings[0],
        t.endings[1],
        t.endings[2],
        t.endings[3],
        t.ticks,
        t.demands,
        t.entries,
        checker.stacks[0].used(),
        diftanew::REPORT_STACK,
        checker.stacks[2].used(),
        diftanew::FIGURES_STACK,
        checker.stacks[1].used(),
        diftanew::RUN_STACK,
        begin.elapsed().as_secs_f64()
    );
}

/// The stored answers: the reference's must be the same, and then the library's.
fn stored(checker: &mut Checker, folder: &Path) -> Result<(), String> {
    let files = vectors::files(folder).map_err(|_| format!("{} has no folders of vectors", folder.display()))?;
    for file in &files {
        let read = |file: &Path| std::fs::read(file).map_err(|_| format!("{} cannot be read", file.display()));
        checker.file = read(file)?;
        checker.name = file.display().to_string();
        let text = String::from_utf8_lossy(&read(&file.with_extension("out"))?).into_owned();
        for call in vectors::calls(&text).map_err(|line| format!("{}: {line}", file.display()))? {
            checker.stored(&call);
        }
    }
    let t = &checker.tally;
    if t.reports == 0 || t.runs == 0 {
        return Err(format!("{} has no vectors", folder.display()));
    }
    println!("vectors: {} files, {} report calls, {} run calls, no difference", files.len(), t.reports, t.runs);
    frames::FramesChecker::new().stored(checker, &folder.join("14"))?;
    live::LiveChecker::new().stored(checker, &folder.join("15"))?;
    Ok(())
}

fn main() {
    let arguments: Vec<String> = std::env::args().skip(1).collect();
    let mut checker = Checker {
        file: Vec::new(),
        name: String::new(),
        prices: ONES.to_vec(),
        rng: Rng::new(SEED, 0),
        tally: Tally::default(),
        stacks: [Stack::new(diftanew::REPORT_STACK), Stack::new(diftanew::RUN_STACK), Stack::new(diftanew::FIGURES_STACK)],
    };
    if let [word, folder] = &arguments[..] {
        if word == "vectors" {
            if let Err(what) = stored(&mut checker, Path::new(folder)) {
                println!("{what}");
                exit(1);
            }
            return;
        }
    }
    let number = |at: usize, default: u64| {
        arguments.get(at).map_or(default, |word| {
            word.parse().unwrap_or_else(|_| {
                println!("use: compare [COUNT [SEED [FIRST]]], compare frames|live|reach [COUNT [SEED]], or compare vectors FOLDER");
                exit(2)
            })
        })
    };
    if arguments.first().is_some_and(|word| word == "frames") {
        return frames::FramesChecker::new().generated(&mut checker, number(1, 2_000), number(2, SEED));
    }
    if arguments.first().is_some_and(|word| word == "live") {
        return live::LiveChecker::new().generated(&mut checker, number(1, 2_000), number(2, SEED));
    }
    if arguments.first().is_some_and(|word| word == "reach") {
        return reach::generated(&mut checker, number(1, 5_000), number(2, SEED));
    }
    generated(&mut checker, number(0, 20_000), number(1, SEED), number(2, 0));
}

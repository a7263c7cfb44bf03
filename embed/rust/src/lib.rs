//! Safe Rust calls over the proved loader of effect scripts.
//!
//! A call of the library needs a scratch of 1,024 numbers and a stack of 16 KB (60 KB for frames), no heap, and nothing else. All calls but
//! frames write over the first 1,024 numbers of the scratch, whatever these were; every number past them, where a patch list may lie, keeps its value, and so
//! do all of them if the scratch is refused as too short.
//!
//! The crate is `no_std`. [`report`], [`figures`] and the calls in [`live`] and [`numbers`] take no heap; [`run`] and [`frames`] take some for lists of loops and of what is lent, and
//! stand under the feature `alloc`, which is on by default. Calls on several threads at once are safe where scratch, store, state, buffer, cues and answer are each
//! thread's own, as Rust's borrows see to; file, prices and picks may be shared.
#![no_std]

#[cfg(feature = "alloc")]
extern crate alloc;

pub mod live;
pub mod numbers;

#[cfg(feature = "alloc")]
use alloc::vec::Vec;

use numbers::{FIGURES_ANSWER, LINE};
#[cfg(feature = "alloc")]
use numbers::{ANSWER, FRAMES_ANSWER};

/// The library's version, as in `diftanew.h`: a change of its first number may break a caller, one of the second adds calls.
pub const VERSION: [u32; 3] = [1, 2, 0];

/// The 32-bit numbers of scratch that a call wants.
pub const SCRATCH: usize = 1_024;

/// The longest file that is taken.
pub const FILE: usize = 16_384;

/// Four ones: every priced row takes one tick. A list of prices has the ticks of arithmetic (set, off, for starts and for steps with it), cue,
/// pick and test, each 1 to 1,000.
pub const ONES: [u32; 4] = [1; 4];

/// No report is longer: a buffer of so many bytes holds every one.
pub const REPORT: usize = 2_089;

/// The bytes of stack that a report needs at most.
pub const REPORT_STACK: usize = 16 * 1_024;

/// The bytes of stack that a call of figures needs at most.
pub const FIGURES_STACK: usize = 16 * 1_024;

/// The bytes of stack that a run needs at most.
pub const RUN_STACK: usize = 16 * 1_024;

/// The bytes of stack that `live::start` and `live::step` need at most.
pub const STEP_STACK: usize = 16 * 1_024;

/// The bytes of stack that a call of frames needs at most.
pub const FRAMES_STACK: usize = 60 * 1_024;

/// The loops that a script has at most.
pub const LOOPS: usize = 16;

/// The scripts that a call of frames takes at most.
pub const SCRIPTS: usize = 8;

/// The questions that can refuse a call, by their numbers.
#[derive(Clone, Copy, Debug, PartialEq, Eq)]
#[repr(u32)]
pub enum Question {
    /// The scratch is too short.
    Scratch = 1,
    /// The file is too long.
    File = 2,
    /// A line has the wrong shape, or is missing.
    Shape = 3,
    /// A number is outside its limits.
    Number = 4,
    /// A variable is not declared.
    Variable = 5,
    /// An else or end closes no fitting block, or a block is left open.
    Block = 6,
    /// Blocks too deep, or too many loops.
    Depth = 7,
    /// The tested variable's step is not known.
    StepUnknown = 8,
    /// The tested variable may stand still.
    StepStands = 9,
    /// The body assigns the limit.
    LimitChanges = 10,
    /// The comparison does not fit the step.
    Comparison = 11,
    /// The loop has no figure.
    NoFigure = 12,
    /// Too many ticks. The place is the first `end` row, in row order, whose block is over the limit; the number of rows only if no block is.
    Ticks = 13,
    /// The report's buffer is too short.
    Buffer = 14,
    /// The store does not fit the ranges.
    Store = 15,
    /// A price is wrong, missing or extra; asked after the scratch and before the file.
    Price = 16,
    /// More than 8 parentheses open together or more than 15 operators in one expression; asked after the shape of its line.
    Expression = 17,
    /// A hold's body breaks its terms; asked in the place of 8 to 12.
    Hold = 19,
    /// No script or more than 8, lists of lengths that do not fit what is lent, or ticks of a frame that are not 1 to 1,000,000; asked by
    /// frames alone, before all others.
    Frames = 20,
    /// The state of a live run has not 64 numbers, or one that no run of this file can have there; asked after the store.
    State = 21,
    /// More than 1,000,000 ticks for one step of a live run; asked last.
    StepTicks = 22,
}

impl Question {
    const ALL: [Question; 21] = [
        Question::Scratch,
        Question::File,
        Question::Shape,
        Question::Number,
        Question::Variable,
        Question::Block,
        Question::Depth,
        Question::StepUnknown,
        Question::StepStands,
        Question::LimitChanges,
        Question::Comparison,
        Question::NoFigure,
        Question::Ticks,
        Question::Buffer,
        Question::Store,
        Question::Price,
        Question::Expression,
        Question::Hold,
        Question::Frames,
        Question::State,
        Question::StepTicks,
    ];

    /// The question's number.
    pub fn number(self) -> u32 {
        self as u32
    }

    /// The question of a number.
    pub fn of(number: u32) -> Option<Question> {
        Question::ALL.into_iter().find(|question| question.number() == number)
    }

    /// What is wrong, in words, and what its place counts.
    fn words(self) -> (&'static str, &'static str) {
        match self {
            Question::Scratch => ("the scratch is too short", "numbers wanted"),
            Question::File => ("the file is too long", "bytes allowed"),
            Question::Shape => ("a line has the wrong shape, or is missing", "line"),
            Question::Number => ("a number is outside its limits", "line"),
            Question::Variable => ("a variable is not declared", "line"),
            Question::Block => ("an else or end closes no fitting block, or a block is left open", "line"),
            Question::Depth => ("blocks too deep, or too many loops", "line"),
            Question::StepUnknown => ("the tested variable's step is not known", "row"),
            Question::StepStands => ("the tested variable may stand still", "row"),
            Question::LimitChanges => ("the loop's body assigns its limit", "row"),
            Question::Comparison => ("the comparison does not fit the step", "row"),
            Question::NoFigure => ("the loop has no figure", "row"),
            Question::Ticks => ("too many ticks", "row"),
            Question::Buffer => ("the report's buffer is too short", "bytes wanted"),
            Question::Store => ("the store does not fit the ranges", "index"),
            Question::Price => ("a price is wrong, missing or extra", "index"),
            Question::Expression => ("more than 8 parentheses open together or more than 15 operators in one expression", "line"),
            Question::Hold => ("the hold's body breaks its terms", "row"),
            Question::Frames => ("no script or more than 8, lengths that do not fit what is lent, or ticks of a frame that are not 1 to 1,000,000", "place"),
            Question::State => ("no run of this file can have this state", "number"),
            Question::StepTicks => ("more than 1,000,000 ticks for one step", "place"),
        }
    }
}

impl core::fmt::Display for Question {
    fn fmt(&self, out: &mut core::fmt::Formatter) -> core::fmt::Result {
        out.write_str(self.words().0)
    }
}

/// A refusal: the first question that has no for an answer, and its place; of [`frames`] also which script it is of, from 1. `script` is 0 where no
/// script is meant: in all other calls, and where frames are refused for the call itself.
#[derive(Clone, Copy, Debug, PartialEq, Eq)]
pub struct Refused {
    pub question: Question,
    pub place: u64,
    pub script: u64,
}

impl Refused {
    /// The library's contract gives no other number.
    fn of(number: u32, place: u64) -> Refused {
        Refused { question: Question::of(number).expect("a question's number"), place, script: 0 }
    }
}

/// As in `refused=4 12: a number is outside its limits (line 12)`, or `script 2: refused=..`.
impl core::fmt::Display for Refused {
    fn fmt(&self, out: &mut core::fmt::Formatter) -> core::fmt::Result {
        let (wrong, place) = self.question.words();
        if self.script != 0 {
            write!(out, "script {}: ", self.script)?;
        }
        write!(out, "refused={} {}: {wrong} ({place} {})", self.question.number(), self.place, self.place)
    }
}

impl core::error::Error for Refused {}

/// What a turn of a loop does to what it counts by, with the slowest and the fastest step as the report has them: adds, multiplies or divides.
#[derive(Clone, Copy, Debug, PartialEq, Eq)]
pub enum Step {
    Add(i64, i64),
    Grow(u64, u64),
    Shrink(u64, u64),
}

/// As in `add -2 3`.
impl core::fmt::Display for Step {
    fn fmt(&self, out: &mut core::fmt::Formatter) -> core::fmt::Result {
        match self {
            Step::Add(a, b) => write!(out, "add {a} {b}"),
            Step::Grow(f, g) => write!(out, "grow {f} {g}"),
            Step::Shrink(f, g) => write!(out, "shrink {f} {g}"),
        }
    }
}

/// A loop's line of the report: its head row, its step, its turns in one entry and in all, and whether these are exact or the most.
#[derive(Clone, Copy, Debug, PartialEq, Eq)]
pub struct Line {
    pub row: u64,
    pub step: Step,
    pub turns: u64,
    pub total: u64,
    pub exact: bool,
}

impl Line {
    /// The library's contract gives no other steps.
    fn of(numbers: &[u64]) -> Line {
        let (a, b) = (numbers[2], numbers[3]);
        let step = match numbers[1] {
            0 => Step::Add(a as i64, b as i64),
            1 => Step::Grow(a, b),
            _ => Step::Shrink(a, b),
        };
        Line { row: numbers[0], step, turns: numbers[4], total: numbers[5], exact: numbers[6] == 1 }
    }
}

/// As in `loop=1 add 1 1 10 10 exact`, the report's line.
impl core::fmt::Display for Line {
    fn fmt(&self, out: &mut core::fmt::Formatter) -> core::fmt::Result {
        write!(out, "loop={} {} {} {} {}", self.row, self.step, self.turns, self.total, if self.exact { "exact" } else { "most" })
    }
}

/// What a report says: its ticks, how many variables the script has, and its loops' lines, of which there are at most 16.
#[derive(Clone, Copy, Debug, PartialEq, Eq)]
pub struct Figures {
    pub ticks: u64,
    pub variables: usize,
    count: usize,
    lines: [Line; LOOPS],
}

impl Figures {
    /// Figures from their numbers.
    pub fn of(answer: &[u64; FIGURES_ANSWER]) -> Figures {
        let count = answer[2] as usize;
        let lines = core::array::from_fn(|k| Line::of(&answer[3 + LINE * k..3 + LINE * (k + 1)]));
        Figures { ticks: answer[0], variables: answer[1] as usize, count, lines }
    }

    /// The loops' lines, in row order.
    pub fn lines(&self) -> &[Line] {
        &self.lines[..self.count]
    }
}

/// The report's lines from `loops=` on.
impl core::fmt::Display for Figures {
    fn fmt(&self, out: &mut core::fmt::Formatter) -> core::fmt::Result {
        writeln!(out, "loops={}", self.count)?;
        for line in self.lines() {
            writeln!(out, "{line}")?;
        }
        writeln!(out, "ticks={}", self.ticks)
    }
}

/// How a run ends.
#[derive(Clone, Copy, Debug, PartialEq, Eq)]
pub enum Ending {
    Ended,
    Spent,
    Range,
    NoPick,
}

/// The counts of a loop: its head row, all its turns, the most in one entry.
#[derive(Clone, Copy, Debug, PartialEq, Eq)]
pub struct LoopCount {
    pub row: u64,
    pub all: u64,
    pub most: u64,
}

/// The answer of a run.
#[cfg(feature = "alloc")]
#[derive(Clone, Debug, PartialEq, Eq)]
pub struct Run {
    pub ending: Ending,
    pub row: u64,
    pub ticks: u64,
    pub used: u64,
    pub loops: Vec<LoopCount>,
}

#[cfg(feature = "alloc")]
impl Run {
    /// A run's answer from its numbers.
    pub fn of(answer: &[u64; ANSWER]) -> Run {
        let ending = [Ending::Ended, Ending::Spent, Ending::Range, Ending::NoPick][answer[0] as usize];
        let loops = answer[5..].chunks(3).take(answer[4] as usize).map(|c| LoopCount { row: c[0], all: c[1], most: c[2] }).collect();
        Run { ending, row: answer[1], ticks: answer[2], used: answer[3], loops }
    }
}

/// Writes the report of `file` with these prices to the front of `buffer` and answers its length. Refused, the buffer is untouched.
pub fn report(file: &[u8], prices: &[u32], scratch: &mut [u32], buffer: &mut [u8]) -> Result<usize, Refused> {
    let mut place = 0;
    match numbers::report(file, prices, scratch, buffer, &mut place) {
        0 => Ok(place as usize),
        number => Err(Refused::of(number, place)),
    }
}

/// What the report of `file` with these prices says. Its ticks as the allowance of a run keep that run within the report.
pub fn figures(file: &[u8], prices: &[u32], scratch: &mut [u32]) -> Result<Figures, Refused> {
    let mut answer = [0; FIGURES_ANSWER];
    match numbers::figures(file, prices, scratch, &mut answer) {
        0 => Ok(Figures::of(&answer)),
        number => Err(Refused::of(number, answer[0])),
    }
}

/// Runs `file` with these prices on `store`. Refused, the store is untouched.
#[cfg(feature = "alloc")]
pub fn run(file: &[u8], prices: &[u32], scratch: &mut [u32], store: &mut [i32], picks: &[u8], allowance: u64) -> Result<Run, Refused> {
    let mut answer = [0; ANSWER];
    match numbers::run(file, prices, scratch, store, picks, allowance, &mut answer) {
        0 => Ok(Run::of(&answer)),
        number => Err(Refused::of(number, answer[0])),
    }
}

/// One of several scripts: its file, its store, its picks.
#[cfg(feature = "alloc")]
pub struct Script<'a> {
    pub file: &'a [u8],
    pub store: &'a mut [i32],
    pub picks: &'a [u8],
}

/// The answer of several scripts in one frame: the most ticks that all together took in one, and of each script the frame that it finished in,
/// from 1, and its run.
#[cfg(feature = "alloc")]
#[derive(Clone, Debug, PartialEq, Eq)]
pub struct Frames {
    pub most: u64,
    pub scripts: Vec<(u64, Run)>,
}

/// Runs the scripts together with these prices, `q` ticks a frame for each that is not finished. Refused, every store is untouched.
#[cfg(feature = "alloc")]
pub fn frames(scripts: &mut [Script], prices: &[u32], q: u64, scratch: &mut [u32]) -> Result<Frames, Refused> {
    let files: Vec<u8> = scripts.iter().flat_map(|s| s.file).copied().collect();
    let mut stores: Vec<i32> = scripts.iter().flat_map(|s| s.store.iter()).copied().collect();
    let picks: Vec<u8> = scripts.iter().flat_map(|s| s.picks).copied().collect();
    let lent = numbers::Lent {
        files: &files,
        file_lengths: &scripts.iter().map(|s| s.file.len()).collect::<Vec<_>>(),
        stores: &mut stores,
        store_lengths: &scripts.iter().map(|s| s.store.len()).collect::<Vec<_>>(),
        picks: &picks,
        pick_lengths: &scripts.iter().map(|s| s.picks.len()).collect::<Vec<_>>(),
    };
    let mut answer = [0; FRAMES_ANSWER];
    match numbers::frames(lent, prices, q, scratch, &mut answer) {
        0 => {
            let mut rest = &stores[..];
            for script in scripts.iter_mut() {
                let (own, later) = rest.split_at(script.store.len());
                script.store.copy_from_slice(own);
                rest = later;
            }
            let of = |a: &[u64]| (a[0], Run::of(a[1..].try_into().expect("a run's numbers")));
            Ok(Frames { most: answer[0], scripts: answer[1..].chunks(1 + ANSWER).take(scripts.len()).map(of).collect() })
        }
        number => Err(Refused { script: answer[1], ..Refused::of(number, answer[0]) }),
    }
}

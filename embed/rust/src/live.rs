//! Runs that go frame by frame, with the picks as they come and the cues as they fire. Nothing is kept between calls but what the caller holds: file,
//! prices, store and state. Each call reads and judges the file again; no call takes any heap.

use crate::numbers::{self, START_ANSWER, STEP_ANSWER};
use crate::{LoopCount, Refused};

pub use crate::numbers::{Frame, STATE};

/// How a step leaves the script.
#[derive(Clone, Copy, Debug, PartialEq, Eq)]
pub enum Status {
    /// Its next price does not fit; what is left it carries into the next step.
    Going,
    /// A pick has no byte. Its price is taken; the byte is the first one that a later step is lent.
    Waits,
    /// The list has no room for the next cue, whose price is not taken.
    Full,
    /// It has ended: a later step takes nothing and answers the same.
    Ended,
    /// A value went out of range, which ends it too.
    Range,
}

impl Status {
    /// Of its number.
    fn of(number: u64) -> Status {
        [Status::Going, Status::Waits, Status::Full, Status::Ended, Status::Range][number as usize]
    }

    /// Ended or out of range.
    pub fn finished(self) -> bool {
        matches!(self, Status::Ended | Status::Range)
    }
}

/// What `start` answers: the report's ticks and the number of loops.
#[derive(Clone, Copy, Debug, PartialEq, Eq)]
pub struct Started {
    pub ticks: u64,
    pub loops: u64,
}

/// What a step answers: ticks and bytes of this step and of all, how many cues it put into the list, and the loops' counts so far.
#[derive(Clone, Copy, Debug, PartialEq, Eq)]
pub struct Step {
    pub status: Status,
    pub row: u64,
    pub ticks: u64,
    pub all_ticks: u64,
    pub used: usize,
    pub all_used: u64,
    pub cues: usize,
    loops: usize,
    counts: [LoopCount; 16],
}

impl Step {
    /// A step's answer from its numbers.
    pub fn of(answer: &[u64; STEP_ANSWER]) -> Step {
        let mut counts = [LoopCount { row: 0, all: 0, most: 0 }; 16];
        for (count, c) in counts.iter_mut().zip(answer[8..].chunks(3)) {
            *count = LoopCount { row: c[0], all: c[1], most: c[2] };
        }
        Step {
            status: Status::of(answer[0]),
            row: answer[1],
            ticks: answer[2],
            all_ticks: answer[3],
            used: answer[4] as usize,
            all_used: answer[5],
            cues: answer[6] as usize,
            loops: answer[7] as usize,
            counts,
        }
    }

    /// The counts of the loops, in row order.
    pub fn loops(&self) -> &[LoopCount] {
        &self.counts[..self.loops]
    }
}

/// The beginning of a live run of `file` from `store`, written into `state`. Refused, the state is untouched.
pub fn start(file: &[u8], prices: &[u32], scratch: &mut [u32], store: &[i32], state: &mut [u64]) -> Result<Started, Refused> {
    let mut answer = [0; START_ANSWER];
    match numbers::start(file, prices, scratch, store, state, &mut answer) {
        0 => Ok(Started { ticks: answer[0], loops: answer[1] }),
        number => Err(Refused::of(number, answer[0])),
    }
}

/// One frame of a live run. Refused, store, state and cues are untouched.
pub fn step(file: &[u8], prices: &[u32], scratch: &mut [u32], store: &mut [i32], state: &mut [u64], frame: Frame) -> Result<Step, Refused> {
    let mut answer = [0; STEP_ANSWER];
    match numbers::step(file, prices, scratch, store, state, frame, &mut answer) {
        0 => Ok(Step::of(&answer)),
        number => Err(Refused::of(number, answer[0])),
    }
}

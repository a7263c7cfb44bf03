//! The calls of live runs, and request 15's mistakes: each is made in what the machine is given or in what it has answered.

use crate::wrong;
use reference::live::{check_state, check_wide, MOST_TICKS, STATE};
use reference::paused::{self, Lent, STEP_ANSWER};
use reference::{plan, Plan, Refusal, Row};
use std::slice;

/// Whether a number of the state is taken whatever it is, by a mistake.
fn unasked(place: usize, loops: usize) -> bool {
    match place {
        // 91: any status, row or test.  92: any ticks left.  93: any ticks and bytes.
        0..=2 => wrong(91),
        3 => wrong(92),
        4 | 5 => wrong(93),
        // 94: any counts.  95: any number that says nothing.
        _ if (16..16 + 3 * loops).contains(&place) => wrong(94),
        _ => wrong(95),
    }
}

/// The state as it is taken.
fn taken(plan: &Plan, state: &[u64]) -> Result<Vec<u64>, Refusal> {
    let mut state = state.to_vec();
    loop {
        match check_state(plan, &state) {
            Err((21, place)) if state.len() == STATE && unasked(place as usize, plan.lines.len()) => {
                // 0 in its place; of a standing or a loop's counts all three.
                if place <= 2 {
                    state[..3].fill(0);
                } else {
                    state[place as usize] = 0;
                    if place >= 16 {
                        let first = 16 + 3 * ((place as usize - 16) / 3);
                        state[first..first + 3].fill(0);
                    }
                }
            }
            // 96: the place of 21 is one too far.
            Err((21, place)) => return Err((21, place + wrong(96) as u64)),
            Err(refusal) => return Err(refusal),
            Ok(()) => return Ok(state),
        }
    }
}

/// The questions of a step, and the state as it is taken.
fn asked(file: &[u8], prices: &[u32], scratch: usize, store: &[i32], state: &[u64], q: u64) -> Result<(Plan, Vec<u64>), Refusal> {
    let plan = plan(file, prices, scratch)?;
    let ticks = if q > MOST_TICKS { Err((22, 0)) } else { Ok(()) };
    // 97: 22 before 21.  98: 21 before 15.  99: 15 as a run asks it.
    if wrong(97) {
        check_wide(&plan, store)?;
        ticks?;
    }
    if wrong(98) {
        taken(&plan, state)?;
    }
    if wrong(99) {
        reference::run::check_store(&plan.script, store)?;
    }
    check_wide(&plan, store)?;
    let state = taken(&plan, state)?;
    ticks?;
    Ok((plan, state))
}

/// What a step is given, with a mistake in it.
fn given(plan: &Plan, state: &mut [u64], picks: &[u8]) {
    // 100: a pick that has waited is paid again.
    if wrong(100) && state[0] == 1 && !picks.is_empty() {
        state[0] = 0;
    }
    // 101: counts begin anew with each step.  102: the entry's turns do.
    for numbers in state[16..16 + 3 * plan.lines.len()].chunks_mut(3) {
        if wrong(101) {
            numbers.fill(0);
        }
        if wrong(102) {
            numbers[0] = 0;
        }
    }
    // 103: a test that is due is made behind the for's step again.
    if wrong(103) {
        state[2] = 0;
    }
}

/// What a step has answered and written, with a mistake in it; `had` is the state before it.
fn answered(plan: &Plan, had: &[u64], q: u64, state: &mut [u64], cues: &mut [u32], answer: &mut [u64]) {
    let fired = answer[6] as usize;
    // 104: the last cue is put twice.
    if wrong(104) && fired > 0 && fired < cues.len() {
        cues[fired] = cues[fired - 1];
        answer[6] += 1;
    }
    // 105: a cue that finds the list full is lost.
    if wrong(105) && state[0] == 2 {
        state[0] = 0;
        state[1] += 1;
    }
    // 106: what is left of a frame that waits is carried on.  107: of a full one.
    if state[0] == 1 && wrong(106) || state[0] == 2 && wrong(107) {
        state[3] = (had[3] + q - answer[2]).min(plan.prices.dearest() - 1);
    }
    // 108: the bytes of all steps are not added.  109: nor the ticks.
    if wrong(108) {
        (answer[5], state[5]) = (had[5], had[5]);
    }
    if wrong(109) {
        (answer[3], state[4]) = (answer[2], answer[2].min(plan.ticks));
    }
    // 110: the list is cleared past the cues.
    if wrong(110) {
        cues[fired..].fill(0);
    }
    // 111: what is left is not carried.
    if wrong(111) {
        state[3] = 0;
    }
    // 112: a finished step answers its last ticks again.
    if wrong(112) && had[0] >= 3 {
        answer[2] = had[4].min(q);
    }
    // 113: the row where the script stands is answered, not that of the loop's head.
    if wrong(113) {
        answer[1] = state[1];
    }
    // 122: a for's entry begins before its start is paid.
    if let (Some(Row::Loop(l)), true, 0) = (plan.script.rows.get(state[1] as usize), wrong(122), state[0]) {
        state[16 + 3 * l.index as usize] = 0;
    }
}

/// What is written past the report's lines, with mistake 114.
fn uncut(plan: &Plan, state: &mut [u64], answer: &[u64]) {
    if wrong(114) {
        state[4] = answer[3];
        for k in 0..plan.lines.len() {
            state[17 + 3 * k] = answer[9 + 3 * k];
        }
    }
}

/// `start`, with a mistake in its questions or without.
fn started(file: &[u8], prices: &[u32], scratch: usize, store: &[i32], state: &mut [u64]) -> Result<(u64, u64), Refusal> {
    let answer = paused::start(file, prices, scratch, store, state);
    match answer {
        // 123: 21 before 15.
        Err((15, _)) if wrong(123) && state.len() != STATE => Err((21, STATE as u64)),
        // 124: 15 as a step asks it.
        Err((15, _)) if wrong(124) => plan(file, prices, scratch).and_then(|plan| check_wide(&plan, store).map(|()| (plan.ticks, plan.lines.len() as u64))),
        _ => answer,
    }
}

/// # Safety
/// As the C interface says: every pointer is good for its length, the answer's for 2 numbers.
#[no_mangle]
pub unsafe extern "C" fn diftanew_start(
    file: *const u8,
    file_len: usize,
    prices: *const u32,
    prices_len: usize,
    _scratch: *mut u32,
    scratch_len: usize,
    store: *const i32,
    store_len: usize,
    state: *mut u64,
    state_len: usize,
    answer: *mut u64,
) -> u32 {
    let file = slice::from_raw_parts(file, file_len);
    let prices = slice::from_raw_parts(prices, prices_len);
    let store = slice::from_raw_parts(store, store_len);
    let state = slice::from_raw_parts_mut(state, state_len);
    let answer = slice::from_raw_parts_mut(answer, 2);
    answer.fill(0);
    // 115: `start` leaves the last number as it is.  116: a refused one has written.
    let last = state.last().copied().unwrap_or(0);
    match started(file, prices, scratch_len, store, state) {
        Ok((ticks, loops)) => {
            answer.copy_from_slice(&[ticks, loops]);
            if wrong(115) {
                state[STATE - 1] = last;
            }
            0
        }
        Err((number, place)) => {
            answer[0] = place;
            if wrong(116) {
                state.fill(0);
            }
            number
        }
    }
}

/// # Safety
/// As the C interface says: every pointer is good for its length, the answer's for 56 numbers.
#[no_mangle]
pub unsafe extern "C" fn diftanew_step(
    file: *const u8,
    file_len: usize,
    prices: *const u32,
    prices_len: usize,
    _scratch: *mut u32,
    scratch_len: usize,
    store: *mut i32,
    store_len: usize,
    state: *mut u64,
    state_len: usize,
    q: u64,
    picks: *const u8,
    picks_len: usize,
    cues: *mut u32,
    cues_len: usize,
    answer: *mut u64,
) -> u32 {
    let file = slice::from_raw_parts(file, file_len);
    let prices = slice::from_raw_parts(prices, prices_len);
    let store = slice::from_raw_parts_mut(store, store_len);
    let state = slice::from_raw_parts_mut(state, state_len);
    let picks = slice::from_raw_parts(picks, picks_len);
    let cues = slice::from_raw_parts_mut(cues, cues_len);
    let answer = slice::from_raw_parts_mut(answer, STEP_ANSWER);
    answer.fill(0);
    let (plan, mut now) = match asked(file, prices, scratch_len, store, state, q) {
        Ok(asked) => asked,
        Err((number, place)) => {
            answer[0] = place;
            // 117: a refused step has touched the store.  118: the state.  119: the cues.
            if wrong(117) && number >= 21 && store_len > 0 {
                store[0] ^= 1;
            }
            if wrong(118) && number == 21 {
                state.fill(0);
            }
            if wrong(119) && number >= 21 {
                cues.fill(0);
            }
            return number;
        }
    };
    let had = now.clone();
    given(&plan, &mut now, picks);
    let mut values = store.to_vec();
    answer.copy_from_slice(&paused::step_planned(&plan, &mut values, &mut now, Lent { q, picks, cues }));
    answered(&plan, &had, q, &mut now, cues, answer);
    uncut(&plan, &mut now, answer);
    // 120: the state is not written.  121: the store is not.
    if !wrong(120) {
        state.copy_from_slice(&now);
    }
    if !wrong(121) {
        store.copy_from_slice(&values);
    }
    0
}

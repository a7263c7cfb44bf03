//! Request 15 (document 03) a second time: `start` and `step` as a machine that pauses, held by the 64 numbers of a state alone. It takes every state
//! that question 21 passes; what it writes is cut to the report's lines, as `docs/changes/15-live.md` says.

use crate::live::{check_state, check_wide, Status, LOOPS, MOST_TICKS, STATE};
use crate::read::{Kind, Row};
use crate::run::{check_store, value, within};
use crate::{plan, Plan, Refusal};

/// The numbers of a step's answer, and the first one of the loops'.
pub const STEP_ANSWER: usize = 56;
const ANSWERED: usize = 8;

/// What a step is lent: its ticks, the bytes that came, a list for the cues.
pub struct Lent<'a> {
    pub q: u64,
    pub picks: &'a [u8],
    pub cues: &'a mut [u32],
}

/// `start`: the report's ticks and the number of loops; the state is 64 zeros then.
pub fn start(file: &[u8], prices: &[u32], scratch_len: usize, store: &[i32], state: &mut [u64]) -> Result<(u64, u64), Refusal> {
    let plan = plan(file, prices, scratch_len)?;
    check_store(&plan.script, store)?;
    if state.len() != STATE {
        return Err((21, STATE as u64));
    }
    state.fill(0);
    Ok((plan.ticks, plan.lines.len() as u64))
}

/// `step`: its questions in their order, and its answer.
pub fn step(file: &[u8], prices: &[u32], scratch_len: usize, store: &mut [i32], state: &mut [u64], lent: Lent) -> Result<[u64; STEP_ANSWER], Refusal> {
    let plan = plan(file, prices, scratch_len)?;
    check_wide(&plan, store)?;
    check_state(&plan, state)?;
    if lent.q > MOST_TICKS {
        return Err((22, 0));
    }
    Ok(step_planned(&plan, store, state, lent))
}

/// A step whose questions have yes.
pub fn step_planned(plan: &Plan, store: &mut [i32], state: &mut [u64], lent: Lent) -> [u64; STEP_ANSWER] {
    let mut values = [0; 16];
    values[..store.len()].copy_from_slice(store);
    let mut counts = [[0; 3]; 16];
    for (count, numbers) in counts.iter_mut().zip(state[LOOPS..].chunks_exact(3)) {
        count.copy_from_slice(numbers);
    }
    let (row, carried) = (state[1] as usize, state[3]);
    let had = carried + lent.q;
    let stop = match state[0] {
        status @ 0..=2 => go_on(plan, Place { row, test: state[2] == 1, paid: status == 1, left: had }, &mut values, &mut counts, lent.picks, lent.cues),
        // Finished: it takes nothing.
        status => Stop { status: if status == 3 { Status::Ended } else { Status::Range }, row, shown: row, test: false, left: had, used: 0, fired: 0 },
    };
    store.copy_from_slice(&values[..store.len()]);
    let ticks = had - stop.left;
    let left = match stop.status {
        Status::Going => stop.left,
        Status::Waits | Status::Full => stop.left.min(carried),
        Status::Ended | Status::Range => 0,
    };
    let (status, all_ticks, all_used) = (stop.status as u64, state[4] + ticks, state[5] + stop.used as u64);
    let mut answer = [0; STEP_ANSWER];
    answer[..ANSWERED].copy_from_slice(&[
        status,
        stop.shown as u64,
        ticks,
        all_ticks,
        stop.used as u64,
        all_used,
        stop.fired as u64,
        plan.lines.len() as u64,
    ]);
    let spent = all_ticks.min(plan.ticks);
    state[..6].copy_from_slice(&[status, stop.row as u64, stop.test as u64, left, spent, all_used.min(spent)]);
    for (k, line) in plan.lines.iter().enumerate() {
        let [turns, all, most] = counts[k];
        answer[ANSWERED + 3 * k..ANSWERED + 3 * k + 3].copy_from_slice(&[line.row as u64, all, most]);
        let all = (all as u128).min(line.total) as u64;
        let most = most.min(line.turns).min(all);
        state[LOOPS + 3 * k..LOOPS + 3 * k + 3].copy_from_slice(&[turns.min(most), all, most]);
    }
    answer
}

/// Where a script stands: its row, whether a loop's test is due there, whether a pick there has been paid, and what it has.
struct Place {
    row: usize,
    test: bool,
    paid: bool,
    left: u64,
}

/// Where it stops; `shown` is the row that is answered, of a price at a loop's `end` its head.
struct Stop {
    status: Status,
    row: usize,
    shown: usize,
    test: bool,
    left: u64,
    used: usize,
    fired: usize,
}

/// From a place until it stops. Of each loop there are the turns of its entry, all its turns, the most in one entry.
fn go_on(plan: &Plan, from: Place, store: &mut [i32; 16], counts: &mut [[u64; 3]; 16], picks: &[u8], cues: &mut [u32]) -> Stop {
    let (rows, items, prices) = (&plan.script.rows[..], &plan.script.items[..], &plan.prices);
    let Place { mut row, mut test, mut paid, mut left } = from;
    let (mut used, mut fired) = (0, 0);
    macro_rules! stop {
        ($status:ident, $shown:expr) => {
            break (Status::$status, $shown)
        };
    }
    macro_rules! pay {
        ($price:ident, $shown:expr) => {
            if left < prices.$price {
                stop!(Going, $shown);
            }
            left -= prices.$price;
        };
    }
    macro_rules! inside {
        ($value:expr, $row:expr) => {
            match $value {
                Some(value) => value,
                None => stop!(Range, $row),
            }
        };
    }
    macro_rules! turn {
        ($l:expr) => {
            let count = &mut counts[$l.index as usize];
            count[0] += 1;
            count[1] += 1;
            count[2] = count[2].max(count[0]);
        };
    }
    let (status, shown) = loop {
        let Some(here) = rows.get(row) else { stop!(Ended, row) };
        match here {
            Row::Set { v, x } => {
                pay!(arithmetic, row);
                store[*v as usize] = inside!(value(items, store, *x), row);
                row += 1;
            }
            Row::Change { v, by } => {
                pay!(arithmetic, row);
                store[*v as usize] = inside!(within(by.apply(store[*v as usize])), row);
                row += 1;
            }
            Row::Off { v, w, compare, c } => {
                pay!(arithmetic, row);
                if compare.holds(store[*w as usize], *c) {
                    store[*v as usize] = 0;
                }
                row += 1;
            }
            Row::Cue { n } => {
                if left >= prices.cue && fired == cues.len() {
                    stop!(Full, row);
                }
                pay!(cue, row);
                cues[fired] = *n as u32;
                fired += 1;
                row += 1;
            }
            Row::Pick { middle, .. } => {
                if !paid {
                    pay!(pick, row);
                }
                paid = false;
                let Some(byte) = picks.get(used) else { stop!(Waits, row) };
                used += 1;
                row = if *byte != 0 { row + 1 } else { *middle as usize + 1 };
            }
            Row::Else { end } => row = *end as usize + 1,
            Row::Loop(l) => {
                if let Kind::For { start, .. } = l.kind {
                    pay!(arithmetic, row);
                    store[l.v as usize] = inside!(value(items, store, start), row);
                }
                counts[l.index as usize][0] = 0;
                if l.kind == Kind::Do {
                    turn!(l);
                    row += 1;
                } else {
                    (row, test) = (l.end as usize, true);
                }
            }
            Row::End { head } => {
                let head = *head as usize;
                let Row::Loop(l) = &rows[head] else {
                    row += 1;
                    continue;
                };
                if let (Kind::For { step, .. }, false) = (l.kind, test) {
                    pay!(arithmetic, head);
                    store[l.v as usize] = inside!(within(step.apply(store[l.v as usize])), head);
                }
                test = true;
                pay!(test, head);
                let limit = inside!(value(items, store, l.limit), head);
                test = false;
                if l.compare.holds(store[l.v as usize], limit) {
                    turn!(l);
                    row = head + 1;
                } else {
                    row += 1;
                }
            }
        }
    };
    // The place of a finished script is the row that is answered.
    let going = status == Status::Going;
    Stop { status, row: if going { row } else { shown }, shown, test: going && test, left, used, fired }
}

#[cfg(test)]
mod tests {
    use super::*;
    use crate::live::Live;
    use crate::ONES;

    /// A do round a for with a cue, a pick and a while.
    const SCRIPT: &[u8] = b"script=1\nvars=3\nrange=0 0\nrange=0 0\nrange=0 0\nrows=13\nrow=do v0 < 2\nrow=add v0 1\nrow=for v1 0 < 3 add 1\nrow=cue 1\n\
        row=pick\nrow=set v2 2\nrow=while v2 > 0\nrow=cue 2\nrow=sub v2 1\nrow=end\nrow=end\nrow=end\nrow=end\n";

    #[test]
    fn it_steps_as_the_history_does() {
        let bytes = [1, 0, 1, 1, 0, 1];
        for prices in [ONES, [3, 2, 7, 5]] {
            for (q, count, room) in [(1, 1, 1), (2, 9, 9), (7, 1, 2), (13, 0, 9), (13, 2, 0), (50, 2, 1), (1_000, 9, 9)] {
                let mut live = Live::start(SCRIPT, &prices, 1_024, &[0; 3]).unwrap();
                let (mut store, mut state) = ([0; 3], [7; STATE]);
                assert_eq!(start(SCRIPT, &prices, 1_024, &store, &mut state), Ok((live.plan.ticks, 3)));
                for _ in 0..200 {
                    let rest = &bytes[live.bytes().len()..];
                    let picks = rest[..count.min(rest.len())].to_vec();
                    let step = live.step(q, &picks, room).unwrap();
                    let mut cues = vec![9; room];
                    let lent = Lent { q, picks: &picks, cues: &mut cues };
                    let answer = super::step(SCRIPT, &prices, 1_024, &mut store, &mut state, lent).unwrap();
                    assert_eq!((answer[0], answer[1], answer[2]), (step.status as u64, step.row as u64, step.ticks));
                    assert_eq!((answer[4] as usize, &cues[..answer[6] as usize]), (step.used, &step.cues[..]));
                    assert_eq!((&store[..], state), (&live.cut().store[..], live.state()));
                }
            }
        }
    }

    #[test]
    fn what_is_written_passes_again() {
        let plan = plan(SCRIPT, &ONES, 1_024).unwrap();
        for place in 0..STATE {
            for number in 0..40 {
                let (mut store, mut state) = ([0; 3], [0; STATE]);
                state[place] = number;
                if check_state(&plan, &state).is_err() {
                    continue;
                }
                for q in [0, 1, 5, 300] {
                    step_planned(&plan, &mut store, &mut state, Lent { q, picks: &[1, 0], cues: &mut [0; 4] });
                    assert_eq!((check_wide(&plan, &store), check_state(&plan, &state)), (Ok(()), Ok(())));
                }
            }
        }
    }
}

//! The reference behind the library's C interface. With MUTANT=N in the environment it makes the
//! N-th of the mistakes below, so that the harness can be seen to find them.

mod expressions;
mod frames;
mod held;
mod live;
mod triangles;

use expressions::*;
use triangles::{figures, Rules, RIGHT};
use reference::analyse::{analyse, analyse_by, copied, own_step, Term};
use reference::{read, report_into, report_text, run_counts, Counted, Ending, Plan, Refusal, Row, Run, Step, ONES};
use std::borrow::Cow;
use std::slice;
use std::sync::OnceLock;

fn wrong(mistake: u32) -> bool {
    static WRONG: OnceLock<u32> = OnceLock::new();
    *WRONG.get_or_init(|| std::env::var("MUTANT").ok().and_then(|word| word.parse().ok()).unwrap_or(0)) == mistake
}

/// The length that question 1 reads.
fn measured(scratch_len: usize) -> usize {
    match scratch_len {
        // 21: 1,023 numbers are enough.
        1_023 if wrong(21) => 1_024,
        // 22: 1,024 are not.
        1_024 if wrong(22) => 1_023,
        _ => scratch_len,
    }
}

/// What a call does to numbers of the scratch that it should leave.
fn scribble(scratch: &mut [u32], run: bool) {
    // 24: the first number past the 1,024 is changed.  25: a run works in a scratch that is too short.
    if wrong(24) && scratch.len() > 1_024 {
        scratch[1_024] ^= 1;
    }
    if wrong(25) && run && (1..1_024).contains(&scratch.len()) {
        scratch[0] ^= 1;
    }
}

/// The file as a mistake of reading takes it.
fn taken(file: &[u8]) -> Cow<'_, [u8]> {
    let mistakes: [(u32, fn(&str) -> Option<String>); 6] = [
        // 26: plus before times.
        (26, plus_before_times),
        // 27: equals from the right.
        (27, equals_from_the_right),
        // 31: 9 parentheses pass.
        (31, nine),
        // 32: 16 operators pass.
        (32, sixteen),
        // 35: `-v0` passes.
        (35, minus_before_all),
        // 39: `(v1)` is a variable.
        (39, bare),
    ];
    match mistakes.iter().find(|(mistake, _)| wrong(*mistake)) {
        Some((_, word)) => rewritten(file, word).into(),
        None => file.into(),
    }
}

/// Change 12's rules, with a mistake or without.
fn held_rules() -> held::Rules {
    let mistakes = [
        // 52: a hold is charged one turn less.
        (52, held::Rules { last: false, ..held::RIGHT }),
        // 53: the opposite of > is <, and so on.
        (53, held::Rules { opposite: false, ..held::RIGHT }),
        // 54: rows before the off do not move the start on.
        (54, held::Rules { moved: false, ..held::RIGHT }),
        // 55: a flag of range [0,0] is charged its turns.
        (55, held::Rules { zero: false, ..held::RIGHT }),
        // 56: "exact" does not ask for the flag.
        (56, held::Rules { flag: false, ..held::RIGHT }),
    ];
    mistakes.into_iter().find(|(mistake, _)| wrong(*mistake)).map_or(held::RIGHT, |(_, rules)| rules)
}

/// The rules of totals and ticks, with a mistake or without.
fn rules() -> Rules {
    let mistakes = [
        // 40: the longest pass is charged each time.
        (40, Rules { totals: false, ticks: false, ..RIGHT }),
        // 41: the sum is over the values after the passes.
        (41, Rules { from_pass: 1, ..RIGHT }),
        // 42: a limit that is assigned before the inner loop.
        (42, Rules { assigned_before: true, ..RIGHT }),
        // 43: an inner loop inside a pick.
        (43, Rules { in_a_pick: true, ..RIGHT }),
        // 44: an outer loop that is not exact.
        (44, Rules { not_exact: true, ..RIGHT }),
        // 45: an outer loop of 4,097 turns.
        (45, Rules { most_passes: 4_097, ..RIGHT }),
        // 46: the inner's inner is not multiplied on from the sum.
        (46, Rules { multiply_on: false, ..RIGHT }),
        // 47: ticks are summed, and totals are not.
        (47, Rules { totals: false, ..RIGHT }),
        // 48: totals are summed, and ticks are not.
        (48, Rules { ticks: false, ..RIGHT }),
        // 49: a limit in parentheses.
        (49, Rules { in_parentheses: true, ..RIGHT }),
        // 50: the loop round the outer is forgotten.
        (50, Rules { times_round: false, ..RIGHT }),
        // 51: an outer loop of 4,096 turns is left out.
        (51, Rules { most_passes: 4_095, ..RIGHT }),
        // 57: an off is free of charge.
        (57, Rules { off_costs: false, ..RIGHT }),
    ];
    mistakes.into_iter().find(|(mistake, _)| wrong(*mistake)).map_or(RIGHT, |(_, rules)| rules)
}

/// What a report answers by a mistake of the analysis; None if there is none.
fn misread(file: &[u8], plan: &Result<Plan, Refusal>) -> Option<Result<Vec<u8>, Refusal>> {
    match plan {
        // 28: an operator's range by two of the four results.
        Ok(plan) if wrong(28) => Some(analyse_by(two_of_four, plan.script.clone(), plan.prices).map(|plan| report_text(&plan))),
        // 29: no result is drawn back inside an expression.
        Ok(plan) if wrong(29) => Some(analyse_by(not_drawn_back, plan.script.clone(), plan.prices).map(|plan| report_text(&plan))),
        // 33: 17 before 3.
        Err((3, line)) if wrong(33) && too_long(file, *line) => Some(Err((17, *line))),
        // 34: 17 after 4.
        Err((17, line)) if wrong(34) && past_the_limits(file, *line) => Some(Err((4, *line))),
        // 36: a limit passes though the body assigns one of its variables.
        Err((10, head)) if wrong(36) => {
            let mut script = read::script(file).ok()?;
            let Row::Loop(l) = &mut script.rows[*head as usize] else { return None };
            if !matches!(l.limit, read::Operand::Expression(_)) {
                return None;
            }
            l.limit = read::Operand::Constant(0);
            let prices = reference::prices::prices(&ONES).ok()?;
            Some(analyse(script, prices).map(|plan| report_text(&plan)))
        }
        // 38: the two expressions of a for are measured together.
        Ok(plan) if wrong(38) => together(&plan.script).map(|line| Err((17, line))),
        // 13: a copied counter's figure without the first turn.
        Ok(plan) if wrong(13) => {
            let mut plan = plan.clone();
            for line in plan.lines.iter_mut().filter(|line| line.counted == Counted::Copied) {
                line.turns = line.turns.saturating_sub(1);
            }
            Some(Ok(report_text(&plan)))
        }
        // 18: a closing chase's line shows the tested variable's own step.
        Ok(plan) if wrong(18) => {
            let mut plan = plan.clone();
            for line in plan.lines.iter_mut().filter(|line| line.counted == Counted::Closing) {
                let Row::Loop(l) = plan.script.rows[line.row] else { return None };
                line.step = own_step(&plan.script.rows, line.row, &l);
            }
            Some(Ok(report_text(&plan)))
        }
        // 19: question 10 passes no limit that moves.
        Ok(plan) if wrong(19) => {
            let line = plan.lines.iter().find(|line| line.counted == Counted::Closing)?;
            Some(Err((10, line.row as u64)))
        }
        // 14: a master's rows on both sides of its copy are not seen.
        Err((8, head)) if wrong(14) => {
            let rows = read::script(file).ok()?.rows;
            let Row::Loop(l) = rows[*head as usize] else { return None };
            (copied(&rows, *head as usize, &l) == Err(Term::Sides)).then_some(Err((9, *head)))
        }
        _ => misheld(file, plan),
    }
}

/// The plan with a turn too many for the loops of one kind.
fn too_many(plan: &Plan) -> Plan {
    let mut plan = plan.clone();
    for line in plan.lines.iter_mut().filter(|line| line.turns > 0) {
        let is_do = matches!(plan.script.rows[line.row], Row::Loop(l) if l.kind == read::Kind::Do);
        let mistaken = match line.step {
            // 80: for Add.  81: for Grow.  82: for Shrink.
            Step::Add(..) => wrong(80),
            Step::Grow(..) => wrong(81),
            _ => wrong(82),
        };
        // 83: for a do.
        line.turns += (mistaken || is_do && wrong(83)) as u64;
    }
    plan
}

/// The same, of holds and offs.
fn misheld(file: &[u8], plan: &Result<Plan, Refusal>) -> Option<Result<Vec<u8>, Refusal>> {
    let mistaken = match plan {
        // 58: two offs pass.
        Err((19, head)) if wrong(58) => held::second_off(file, *head),
        // 59: an off in a pick is taken for the hold's own.  60: an off in an inner loop.
        Err((19, head)) if wrong(59) || wrong(60) => held::off_inside(file, *head, wrong(59)),
        // 61: 19 is asked behind the other loops' questions.
        Err((19, head)) if wrong(61) => held::behind_the_others(file, *head),
        // 62: an off outside all loops does not widen its flag's range.
        Ok(plan) if wrong(62) => held::not_widened(plan),
        // 63: a hold is asked question 8.
        Ok(plan) if wrong(63) => plan.lines.iter().find(|line| line.counted == Counted::Held).map(|line| Err((8, line.row as u64))),
        // Without a mistake these figures are the reference's.
        Ok(plan) => Some(Ok(figures(&too_many(&held::turns(plan, held_rules())), rules()))),
        Err(_) => None,
    };
    mistaken.map(|answer| answer.map(|plan| report_text(&plan)))
}

/// The `end` row of the outermost block round a row.
fn outermost(file: &[u8], row: u64) -> u64 {
    let rows = read::script(file).map(|script| script.rows).unwrap_or_default();
    let mut ends = rows.iter().filter_map(|r| match r {
        Row::Pick { end, .. } => Some(*end as u64),
        Row::Loop(l) => Some(l.end as u64),
        _ => None,
    });
    // The heads come in row order, so the first block that ends at the row or behind it is the outermost.
    ends.find(|end| *end >= row).unwrap_or(row)
}

fn word(ending: Ending) -> u64 {
    match ending {
        Ending::Ended => 0,
        Ending::Spent => 1,
        Ending::Range => 2,
        Ending::NoPick => 3,
    }
}

/// The numbers of a run's answer.
fn answer_of(run: &Run) -> [u64; 53] {
    let mut answer = [0; 53];
    answer[..5].copy_from_slice(&[word(run.ending), run.row as u64, run.ticks, run.used as u64, run.loops.len() as u64]);
    for ((row, all, most), numbers) in run.loops.iter().zip(answer[5..].chunks_mut(3)) {
        numbers.copy_from_slice(&[*row as u64, *all, *most]);
    }
    answer
}

/// # Safety
/// As the C interface says: every pointer is good for its length.
#[no_mangle]
pub unsafe extern "C" fn diftanew_report(
    file: *const u8,
    file_len: usize,
    prices: *const u32,
    prices_len: usize,
    scratch: *mut u32,
    scratch_len: usize,
    buffer: *mut u8,
    buffer_len: usize,
    place: *mut u64,
) -> u32 {
    let file = &*taken(slice::from_raw_parts(file, file_len));
    let prices = slice::from_raw_parts(prices, prices_len);
    let scratch = slice::from_raw_parts_mut(scratch, scratch_len);
    let buffer = slice::from_raw_parts_mut(buffer, buffer_len);
    let length = measured(scratch_len);
    scribble(scratch, false);
    let mut answer = report_into(file, prices, length, buffer);
    match misread(file, &reference::plan(file, prices, length)) {
        Some(Ok(text)) if text.len() <= buffer_len => {
            buffer[..text.len()].copy_from_slice(&text);
            answer = Ok(text.len() as u64);
        }
        Some(Err(refusal)) => answer = Err(refusal),
        _ => {}
    }
    match answer {
        // 1: a byte past the report is written.
        Ok(length) if wrong(1) && (length as usize) < buffer_len => buffer[length as usize] = 0,
        // 2: a refused report has begun to write.
        Err((14, _)) if wrong(2) && buffer_len > 0 => buffer[0] = b'r',
        // 3: the scratch is used before it is measured.
        Err((1, _)) if wrong(3) && scratch_len > 0 => scratch[scratch_len - 1] = 0,
        // 15: 2 before 16.
        Err((16, _)) if wrong(15) && file_len > 16_384 => answer = Err((2, 16_384)),
        // 4: one number past the scratch.
        _ if wrong(4) => *scratch.as_mut_ptr().add(scratch_len) = 0,
        // 5: a wrong digit, if the report has 16 loops.
        Ok(length) if wrong(5) && buffer.windows(10).any(|w| w == b"\nloops=16\n") => buffer[length as usize - 2] ^= 1,
        _ => {}
    }
    let (number, at) = match answer {
        Ok(length) => (0, length),
        Err(refusal) => refusal,
    };
    // 6: the place of 13 is another block.  7: 5 before 4.  17: 13 names the outermost block.
    *place = at + (wrong(6) && number == 13) as u64;
    if wrong(17) && number == 13 {
        *place = outermost(file, at);
    }
    // 23: the place of 1 is the scratch of old.
    if wrong(23) && number == 1 {
        *place = 8_192;
    }
    if wrong(7) && number == 4 && file.windows(3).any(|w| w == b"v99") { 5 } else { number }
}

/// # Safety
/// As the C interface says: every pointer is good for its length, the answer's for 115 numbers.
#[no_mangle]
pub unsafe extern "C" fn diftanew_figures(
    file: *const u8,
    file_len: usize,
    prices: *const u32,
    prices_len: usize,
    scratch: *mut u32,
    scratch_len: usize,
    answer: *mut u64,
) -> u32 {
    let answer = slice::from_raw_parts_mut(answer, 115);
    // 84: an unused number of the answer keeps its value.
    let last = answer[114];
    answer.fill(0);
    answer[114] = if wrong(84) { last } else { 0 };
    // 85: figures write past the table.
    if wrong(85) && scratch_len > 1_024 {
        *scratch.add(1_024) ^= 1;
    }
    let file = slice::from_raw_parts(file, file_len);
    let plan = match reference::plan(file, slice::from_raw_parts(prices, prices_len), scratch_len) {
        Ok(plan) => plan,
        Err((number, place)) => {
            // 86: a refusal's place is the second number.
            answer[wrong(86) as usize] = place;
            return number;
        }
    };
    answer[..3].copy_from_slice(&[plan.ticks, plan.script.vars as u64, plan.lines.len() as u64]);
    for (line, numbers) in plan.lines.iter().zip(answer[3..].chunks_mut(7)) {
        let (step, mut first, second) = match line.step {
            Step::Add(a, b) => (0, a, b),
            Step::Grow(a, b) => (1, a, b),
            Step::Shrink(a, b) => (2, a, b),
            Step::Unknown => unreachable!("question 8"),
        };
        // 87: an end below 0 in 32 bits.
        if wrong(87) && first < 0 {
            first = first as u32 as i64;
        }
        numbers.copy_from_slice(&[line.row as u64, step, first as u64, second as u64, line.turns, line.total as u64, line.exact as u64]);
        // 88: turns and total the other way round.
        if wrong(88) {
            numbers.swap(4, 5);
        }
    }
    0
}

/// # Safety
/// As the C interface says: every pointer is good for its length, the answer's for 53 numbers.
#[no_mangle]
pub unsafe extern "C" fn diftanew_run(
    file: *const u8,
    file_len: usize,
    prices: *const u32,
    prices_len: usize,
    scratch: *mut u32,
    scratch_len: usize,
    store: *mut i32,
    store_len: usize,
    picks: *const u8,
    picks_len: usize,
    allowance: u64,
    answer: *mut u64,
) -> u32 {
    let file = &*taken(slice::from_raw_parts(file, file_len));
    let scratch = slice::from_raw_parts_mut(scratch, scratch_len);
    let length = measured(scratch_len);
    scribble(scratch, true);
    let mut prices = slice::from_raw_parts(prices, prices_len);
    // 16: every row takes one tick, whatever is lent.
    if wrong(16) && reference::prices::prices(prices).is_ok() {
        prices = &ONES;
    }
    let store = slice::from_raw_parts_mut(store, store_len);
    let picks = slice::from_raw_parts(picks, picks_len);
    let answer = slice::from_raw_parts_mut(answer, 53);
    let before = store.to_vec();
    // 8: an unused number of the answer keeps its value.
    let last = answer[52];
    answer.fill(0);
    if wrong(8) {
        answer[52] = last;
    }
    match run_counts(file, prices, length, store, picks, allowance) {
        Err((number, place)) => {
            answer[0] = place;
            // 9: a refused run has touched the store.
            if wrong(9) && number == 15 && store_len > 0 {
                store[0] = 0;
            }
            number
        }
        Ok((mut counts, loops)) => {
            // 64: a run's offs leave their flags alone.
            if let (Ok(plan), true) = (reference::plan(file, prices, length), wrong(64)) {
                if plan.script.rows.iter().any(|row| matches!(row, Row::Off { .. })) {
                    store.copy_from_slice(&before);
                    counts = held::run_without_offs(&plan, store, picks, allowance);
                }
            }
            answer[0] = word(counts.ending);
            answer[1] = counts.row as u64;
            answer[2] = counts.ticks;
            answer[3] = counts.used as u64;
            answer[4] = loops as u64;
            let heads = reference::plan(file, prices, length).map(|plan| plan.lines).unwrap_or_default();
            for (k, line) in heads.iter().enumerate() {
                answer[5 + 3 * k] = line.row as u64;
                answer[6 + 3 * k] = counts.all[k];
                answer[7 + 3 * k] = counts.most[k];
                // 10: the most are all of them.
                if wrong(10) {
                    answer[7 + 3 * k] = counts.all[k];
                }
            }
            // 20: the last row's quotient is cut toward zero.
            if wrong(20) && counts.ending == Ending::Ended {
                let rows = read::script(file).map(|script| script.rows).unwrap_or_default();
                if let Some(Row::Change { v, by }) = rows.last() {
                    store[*v as usize] += (by.op == read::Op::Div && by.c > 1 && store[*v as usize] < 0) as i32;
                }
            }
            if wrong(30) || wrong(37) {
                let script = reference::plan(file, prices, length).expect("it has run").script;
                // 30: only the whole expression is asked for past L.
                if wrong(30) && counts.ending == Ending::Range && goes_past(&script, counts.row, store, false) && !goes_past(&script, counts.row, store, true) {
                    answer[0] = 0;
                }
                // 37: an expression is worked out before its price is taken.
                if wrong(37) && counts.ending == Ending::Spent && goes_past(&script, counts.row, store, false) {
                    answer[0] = 2;
                }
            }
            // 11: the store is left alone.
            if wrong(11) {
                store.copy_from_slice(&before);
            }
            // 12: a tick short with no allowance left.
            if wrong(12) && counts.ending == Ending::Range && counts.ticks == allowance {
                answer[2] -= 1;
            }
            0
        }
    }
}

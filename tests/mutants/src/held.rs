//! Change 12's mistakes.

use reference::analyse::{analyse, held, Held, HoldTerm};
use reference::read::{self, Change, Compare, Kind, Loop, Op, Row};
use reference::{run, Counted, Counts, Line, Plan, Refusal, Step, ONES};

/// How a hold's turns are worked out, right ones first.
#[derive(Clone, Copy)]
pub struct Rules {
    /// The turn in which the off sets the flag.
    pub last: bool,
    /// The opposite of > is <=, and so on.
    pub opposite: bool,
    /// Rows before the off move the start on by one turn.
    pub moved: bool,
    /// A flag of range [0,0] gives no turn.
    pub zero: bool,
    /// "exact" asks for the flag.
    pub flag: bool,
}

pub const RIGHT: Rules = Rules { last: true, opposite: true, moved: true, zero: true, flag: true };

/// The while figure of the opposite comparison.
fn figure(line: &Line, held: &Held, rules: Rules) -> u64 {
    let Step::Add(a, b) = line.step else { return 0 };
    let c = held.c as i64;
    // Up to <= or down to >= the number itself.
    let last = match (held.compare, rules.opposite) {
        (Compare::Le, true) | (Compare::Lt, false) | (Compare::Ge, true) | (Compare::Gt, false) => c,
        (Compare::Le | Compare::Lt, _) => c - 1,
        _ => c + 1,
    };
    let moved = held.rows_first && rules.moved;
    let far = match held.compare {
        Compare::Le | Compare::Lt => (last - line.start[0] - if moved { a } else { 0 }, a),
        _ => (line.start[1] + if moved { b } else { 0 } - last, -b),
    };
    if far.0 < 0 { 0 } else { (far.0 / far.1 + 1) as u64 }
}

/// The plan with the turns of its holds by these rules; totals and ticks are as they were.
pub fn turns(plan: &Plan, rules: Rules) -> Plan {
    let mut plan = plan.clone();
    for line in plan.lines.iter_mut().filter(|line| line.counted == Counted::Held) {
        let Row::Loop(l) = plan.script.rows[line.row] else { continue };
        let Ok(held) = held(&plan.script.rows, line.row, &l) else { continue };
        if line.turns > 0 || !rules.zero {
            line.turns = figure(line, &held, rules) + rules.last as u64;
        }
        let Step::Add(a, b) = line.step else { continue };
        line.exact |= !rules.flag && a == b && line.start[0] == line.start[1];
    }
    plan
}

/// The rows of a file whose hold at `head` is refused by 19 for this term.
fn broken(file: &[u8], head: u64, wanted: HoldTerm) -> Option<(read::Script, Loop)> {
    let script = read::script(file).ok()?;
    let Row::Loop(l) = script.rows[head as usize] else { return None };
    (held(&script.rows, head as usize, &l) == Err(wanted)).then_some((script, l))
}

fn analysed(script: read::Script) -> Option<Result<Plan, Refusal>> {
    Some(analyse(script, reference::prices::prices(&ONES).ok()?))
}

/// The first off ends the hold, and the others are not seen.
pub fn second_off(file: &[u8], head: u64) -> Option<Result<Plan, Refusal>> {
    let (mut script, l) = broken(file, head, HoldTerm::Second)?;
    let offs = script.rows[head as usize..l.end as usize].iter_mut().filter(|row| matches!(row, Row::Off { v, .. } if *v == l.v));
    offs.skip(1).for_each(|row| *row = Row::Cue { n: 0 });
    analysed(script)
}

/// An off that is the first row of a pick or of an inner loop is taken for the hold's own, as if it stood before that block.
pub fn off_inside(file: &[u8], head: u64, in_a_pick: bool) -> Option<Result<Plan, Refusal>> {
    let (mut script, l) = broken(file, head, HoldTerm::Direct)?;
    let rows = &mut script.rows;
    let at = (head as usize..l.end as usize).find(|&r| matches!(rows[r], Row::Off { v, .. } if v == l.v))?;
    let end = match rows[at - 1] {
        Row::Pick { end, .. } if in_a_pick => end,
        Row::Loop(inner) if !in_a_pick => inner.end,
        _ => return None,
    };
    rows.swap(at - 1, at);
    rows[end as usize] = Row::End { head: at as u16 };
    analysed(script)
}

/// Offs outside all loops leave what is known of their flags.
pub fn not_widened(plan: &Plan) -> Option<Result<Plan, Refusal>> {
    let mut script = plan.script.clone();
    let mut end = 0;
    for r in 0..script.rows.len() {
        match script.rows[r] {
            Row::Loop(l) => end = end.max(l.end as usize),
            Row::Off { v, .. } if r >= end => script.rows[r] = Row::Change { v, by: Change { op: Op::Add, c: 0 } },
            _ => {}
        }
    }
    Some(analyse(script, plan.prices))
}

/// What the other loops are refused for, if 19 is asked behind them.
pub fn behind_the_others(file: &[u8], head: u64) -> Option<Result<Plan, Refusal>> {
    let mut script = read::script(file).ok()?;
    let Row::Loop(Loop { kind: Kind::Hold, end, .. }) = script.rows[head as usize] else { return None };
    script.rows[head as usize] = Row::Pick { middle: end, end };
    analysed(script).filter(|answer| matches!(answer, Err((8..=12, _))))
}

/// A run whose offs leave their flags alone; it is not waited for long.
pub fn run_without_offs(plan: &Plan, store: &mut [i32], picks: &[u8], allowance: u64) -> Counts {
    let mut script = plan.script.clone();
    for row in &mut script.rows {
        if let Row::Off { v, .. } = *row {
            *row = Row::Change { v, by: Change { op: Op::Add, c: 0 } };
        }
    }
    let mut values = [0; 16];
    values[..store.len()].copy_from_slice(store);
    let counts = run::run(&script, &plan.prices, &mut values, picks, allowance.min(100_000), &mut run::Deaf);
    store.copy_from_slice(&values[..store.len()]);
    counts
}

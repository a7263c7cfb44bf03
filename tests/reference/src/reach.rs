//! Change 11: the loops whose figure some list of picks reaches, and such a list.

use crate::analyse::{own_step, step, Counted, Step};
use crate::read::{Compare, Loop, Row};
use crate::run::{self, Counts, Picks};
use crate::{Line, Plan};

/// Whether a loop meets the terms: outside all blocks, no loop in its body, < <= > or >=, of a base kind, start and limit single.
pub fn meets_the_terms(plan: &Plan, line: &Line) -> bool {
    let rows = &plan.script.rows;
    let Row::Loop(l) = rows[line.row] else { unreachable!("a head row") };
    let inside = rows[..line.row].iter().any(|row| match row {
        Row::Pick { end, .. } => *end as usize > line.row,
        Row::Loop(round) => round.end > l.end,
        _ => false,
    });
    let has_a_loop = rows[line.row + 1..l.end as usize].iter().any(|row| matches!(row, Row::Loop(_)));
    let ordered = !matches!(l.compare, Compare::Eq | Compare::Ne);
    !inside && !has_a_loop && ordered && line.counted == Counted::Tested && line.single
}

/// How far a step brings the tested variable to its limit at the least, and whether that is by adding or by a factor.
fn slowness(step: Step, rising: bool) -> i64 {
    match step {
        Step::Add(a, _) if rising => a,
        Step::Add(_, b) => -b,
        Step::Grow(f, _) | Step::Shrink(f, _) => f,
        Step::Unknown => i64::MAX,
    }
}

/// The slower end of the two branches of a pick: whether it is then's. Standing beside a factor is the factor 1.
fn then_is_slower(rows: &[Row], at: usize, v: u8, rising: bool) -> bool {
    let Row::Pick { middle, end } = rows[at] else { unreachable!("a pick") };
    let (middle, end) = (middle as usize, end as usize);
    let branches = [step(rows, at + 1, middle, v), step(rows, middle + 1, end, v)];
    let factor = branches.iter().any(|step| matches!(step, Step::Grow(..) | Step::Shrink(..)));
    let [then, other] = branches.map(|step| if factor && step == Step::STILL { 1 } else { slowness(step, rising) });
    then <= other
}

/// For each row the byte of a pick there: the slow branch each time, or the other one.
fn bytes(plan: &Plan, l: &Loop, line: &Line, slow: bool) -> Vec<u8> {
    let rows = &plan.script.rows;
    let rising = match own_step(rows, line.row, l) {
        Step::Add(a, _) => a >= 1,
        Step::Grow(..) => true,
        Step::Shrink(..) | Step::Unknown => false,
    };
    let byte = |r: usize| match rows[r] {
        Row::Pick { .. } => (then_is_slower(rows, r, l.v, rising) == slow) as u8,
        _ => 0,
    };
    (0..rows.len()).map(byte).collect()
}

/// Takes the byte of each pick's row, and keeps the list.
struct Chooser<'b> {
    bytes: &'b [u8],
    list: Vec<u8>,
}

impl Picks for &mut Chooser<'_> {
    fn next(&mut self, row: usize, _: usize) -> Option<u8> {
        self.list.push(self.bytes[row]);
        Some(self.bytes[row])
    }
}

/// The run that takes the slow branch at each pick, or the fast one, and the list of its picks.
pub fn chosen(plan: &Plan, line: &Line, store: &[i32], slow: bool, allowance: u64) -> (Counts, Vec<u8>) {
    let Row::Loop(l) = plan.script.rows[line.row] else { unreachable!("a head row") };
    let bytes = bytes(plan, &l, line, slow);
    let mut chooser = Chooser { bytes: &bytes, list: Vec::new() };
    let mut values = [0; 16];
    values[..store.len()].copy_from_slice(store);
    let counts = run::run(&plan.script, &plan.prices, &mut values, &mut chooser, allowance, &mut run::Deaf);
    (counts, chooser.list)
}

//! The loop analysis: questions 8 to 13 and 19.

use crate::expression::{fold, Item, Operator};
use crate::read::{quotient, Change, Compare, Kind, Loop, Op, Operand, Row, Script, L};
use crate::{Prices, Refusal};

/// Question 13's limit.
pub const TICK_LIMIT: u128 = 1_000_000_000_000;
const FACTOR_LIMIT: i64 = 2_000_000_001;

/// How a variable moves in one turn.
#[derive(Clone, Copy, Debug, PartialEq, Eq)]
pub enum Step {
    Add(i64, i64),
    Grow(i64, i64),
    Shrink(i64, i64),
    Unknown,
}

impl Step {
    pub const STILL: Step = Step::Add(0, 0);

    fn of(by: Change) -> Step {
        let c = by.c as i64;
        match by.op {
            Op::Add => Step::Add(c, c),
            Op::Sub => Step::Add(-c, -c),
            Op::Mul | Op::Div if c == 1 => Step::STILL,
            Op::Mul => Step::Grow(c, c),
            Op::Div => Step::Shrink(c, c),
        }
    }

    /// In sequence.
    pub fn then(self, next: Step) -> Step {
        use Step::*;
        let times = |f: i64, g: i64| (f * g).min(FACTOR_LIMIT);
        match (self, next) {
            (Unknown, _) | (_, Unknown) => Unknown,
            (Step::STILL, step) | (step, Step::STILL) => step,
            (Add(a, b), Add(c, d)) => Add(a + c, b + d),
            (Grow(a, b), Grow(c, d)) => Grow(times(a, c), times(b, d)),
            (Shrink(a, b), Shrink(c, d)) => Shrink(times(a, c), times(b, d)),
            _ => Unknown,
        }
    }

    /// Over a pick.
    pub fn either(self, other: Step) -> Step {
        use Step::*;
        match (self, other) {
            (Add(a, b), Add(c, d)) => Add(a.min(c), b.max(d)),
            (Grow(a, b), Grow(c, d)) => Grow(a.min(c), b.max(d)),
            (Shrink(a, b), Shrink(c, d)) => Shrink(a.min(c), b.max(d)),
            (Step::STILL, Grow(a, b)) | (Grow(a, b), Step::STILL) => Grow(a.min(1), b.max(1)),
            (Step::STILL, Shrink(a, b)) | (Shrink(a, b), Step::STILL) => Shrink(a.min(1), b.max(1)),
            _ => Unknown,
        }
    }
}

/// The step of `v` over the rows from `from` to before `to`.
pub fn step(rows: &[Row], from: usize, to: usize, v: u8) -> Step {
    let mut whole = Step::STILL;
    let mut r = from;
    while r < to {
        let (part, next) = match rows[r] {
            Row::Set { v: w, .. } | Row::Off { v: w, .. } if w == v => (Step::Unknown, r + 1),
            Row::Change { v: w, by } if w == v => (Step::of(by), r + 1),
            Row::Pick { middle, end } => {
                let (middle, end) = (middle as usize, end as usize);
                let first = step(rows, r + 1, middle, v);
                let second = step(rows, middle + 1, end, v);
                (first.either(second), end + 1)
            }
            Row::Loop(l) => {
                let assigned = loop_assigns(rows, r, &l) & (1 << v) != 0;
                (if assigned { Step::Unknown } else { Step::STILL }, l.end as usize + 1)
            }
            _ => (Step::STILL, r + 1),
        };
        whole = whole.then(part);
        r = next;
    }
    whole
}

/// The variable that a row assigns.
fn assigned_by(row: &Row) -> Option<u8> {
    match *row {
        Row::Set { v, .. } | Row::Change { v, .. } | Row::Off { v, .. } => Some(v),
        Row::Loop(Loop { kind: Kind::For { .. }, v, .. }) => Some(v),
        _ => None,
    }
}

fn assign(rows: &[Row], v: u8) -> bool {
    rows.iter().any(|row| assigned_by(row) == Some(v))
}

/// The variables that a loop's body assigns, as bits; a for's own is one of them.
fn loop_assigns(rows: &[Row], head: usize, l: &Loop) -> u16 {
    rows[head..l.end as usize].iter().filter_map(assigned_by).fold(0, |all, v| all | 1 << v)
}

/// Change 1: the tested variable is copied from `w`, which is counted in its place.
#[derive(Clone, Copy, Debug, PartialEq, Eq)]
pub struct Copied {
    pub w: u8,
    pub step: Step,
    /// Whether w's rows come before the copy.
    pub rows_first: bool,
}

/// Change 1's terms; the first broken one of a loop makes it no copied counter.
#[derive(Clone, Copy, Debug, PartialEq, Eq)]
pub enum Term {
    /// In a while or do.
    Form,
    /// `set v w`, w another variable.
    Copy,
    /// v's only assignment.
    Only,
    /// Directly in the body.
    Direct,
    /// < <= > or >=.
    Comparison,
    /// w's step is a moving Add.
    Step,
    /// All of w's rows on one side.
    Sides,
}

/// The row after the block or plain row that begins at `r`.
fn after(rows: &[Row], r: usize) -> usize {
    match rows[r] {
        Row::Pick { end, .. } => end as usize + 1,
        Row::Loop(l) => l.end as usize + 1,
        _ => r + 1,
    }
}

/// Whether row `at` stands in the body itself and not in a block inside it.
fn directly_in(rows: &[Row], head: usize, at: usize) -> bool {
    let mut r = head + 1;
    while r < at {
        r = after(rows, r);
    }
    r == at
}

/// Change 1: what the tested variable is copied from, or the first term that is broken.
pub fn copied(rows: &[Row], head: usize, l: &Loop) -> Result<Copied, Term> {
    if !matches!(l.kind, Kind::While | Kind::Do) {
        return Err(Term::Form);
    }
    let end = l.end as usize;
    let of_another = |row: &Row| match *row {
        Row::Set { v, x: Operand::Variable(w) } if v == l.v && w != v => Some(w),
        _ => None,
    };
    let at = (head + 1..end).find(|&r| of_another(&rows[r]).is_some()).ok_or(Term::Copy)?;
    let w = of_another(&rows[at]).ok_or(Term::Copy)?;
    if assign(&rows[head + 1..at], l.v) || assign(&rows[at + 1..end], l.v) {
        return Err(Term::Only);
    }
    if !directly_in(rows, head, at) {
        return Err(Term::Direct);
    }
    if matches!(l.compare, Compare::Eq | Compare::Ne) {
        return Err(Term::Comparison);
    }
    let step = step(rows, head + 1, end, w);
    if !matches!(step, Step::Add(a, b) if a >= 1 || b <= -1) {
        return Err(Term::Step);
    }
    let rows_first = assign(&rows[head + 1..at], w);
    if rows_first && assign(&rows[at + 1..end], w) {
        return Err(Term::Sides);
    }
    Ok(Copied { w, step, rows_first })
}

/// The tested variable's own step over the body; a for's step row is its end.
pub fn own_step(rows: &[Row], head: usize, l: &Loop) -> Step {
    let body = step(rows, head + 1, l.end as usize, l.v);
    match l.kind {
        Kind::For { step: by, .. } => body.then(Step::of(by)),
        Kind::While | Kind::Do | Kind::Hold => body,
    }
}

/// Change 5's terms; the first broken one of a loop leaves it to question 10.
#[derive(Clone, Copy, Debug, PartialEq, Eq)]
pub enum ClosingTerm {
    /// The limit is a variable, other than the tested one, that the body assigns.
    Limit,
    /// < <= > or >=.
    Comparison,
    /// The tested variable's own step is Add.
    Tested,
    /// The limit's step is Add.
    LimitStep,
}

/// Change 5: the step of the difference of tested variable and limit, or the first term that is broken.
pub fn closing(rows: &[Row], head: usize, l: &Loop) -> Result<Step, ClosingTerm> {
    let body = head + 1..l.end as usize;
    let w = match l.limit {
        Operand::Variable(w) if w != l.v && assign(&rows[body.clone()], w) => w,
        _ => return Err(ClosingTerm::Limit),
    };
    if matches!(l.compare, Compare::Eq | Compare::Ne) {
        return Err(ClosingTerm::Comparison);
    }
    let Step::Add(a, b) = own_step(rows, head, l) else {
        return Err(ClosingTerm::Tested);
    };
    let Step::Add(least, most) = step(rows, body.start, body.end, w) else {
        return Err(ClosingTerm::LimitStep);
    };
    Ok(Step::Add(a - most, b - least))
}

/// Change 12: what ends a hold.
#[derive(Clone, Copy, Debug, PartialEq, Eq)]
pub struct Held {
    /// The watched variable and its step.
    pub w: u8,
    pub step: Step,
    /// Whether its rows come before the off.
    pub rows_first: bool,
    /// The opposite of the off's comparison, and its number: the hold goes on while this is true at the off.
    pub compare: Compare,
    pub c: i32,
}

/// Change 12's terms; question 19 refuses a hold that breaks one.
#[derive(Clone, Copy, Debug, PartialEq, Eq)]
pub enum HoldTerm {
    /// An off for the flag in the body, and no second one.
    None,
    Second,
    /// Directly in the body.
    Direct,
    /// The flag is otherwise unassigned there.
    Only,
    /// The watched variable is another one.
    Another,
    /// It moves by Add.
    Step,
    /// Toward the comparison.
    Toward,
    /// All its rows on one side of the off.
    Sides,
}

/// Change 12: what ends the hold, or the first term that is broken.
pub fn held(rows: &[Row], head: usize, l: &Loop) -> Result<Held, HoldTerm> {
    let end = l.end as usize;
    let mut offs = (head + 1..end).filter(|&r| matches!(rows[r], Row::Off { v, .. } if v == l.v));
    let at = offs.next().ok_or(HoldTerm::None)?;
    if offs.next().is_some() {
        return Err(HoldTerm::Second);
    }
    if !directly_in(rows, head, at) {
        return Err(HoldTerm::Direct);
    }
    let (before, behind) = (&rows[head + 1..at], &rows[at + 1..end]);
    if assign(before, l.v) || assign(behind, l.v) {
        return Err(HoldTerm::Only);
    }
    let Row::Off { w, compare, c, .. } = rows[at] else { unreachable!("found above") };
    if w == l.v {
        return Err(HoldTerm::Another);
    }
    let step = step(rows, head + 1, end, w);
    let Step::Add(a, b) = step else {
        return Err(HoldTerm::Step);
    };
    let (toward, opposite) = match compare {
        Compare::Gt => (a >= 1, Compare::Le),
        Compare::Ge => (a >= 1, Compare::Lt),
        Compare::Lt => (b <= -1, Compare::Ge),
        Compare::Le => (b <= -1, Compare::Gt),
        Compare::Eq | Compare::Ne => unreachable!("no off has it"),
    };
    if !toward {
        return Err(HoldTerm::Toward);
    }
    let rows_first = assign(before, w);
    if rows_first && assign(behind, w) {
        return Err(HoldTerm::Sides);
    }
    Ok(Held { w, step, rows_first, compare: opposite, c })
}

/// Change 9: a loop of more turns is not counted pass by pass.
pub const PASS_LIMIT: u64 = 4_096;

/// Change 9's terms of an outer loop; the first broken one leaves the totals in its body products.
#[derive(Clone, Copy, Debug, PartialEq, Eq)]
pub enum OuterTerm {
    /// Of a base kind.
    Kind,
    /// Exact.
    Exact,
    /// An Add step.
    Step,
    /// < <= > or >=.
    Comparison,
    /// At most 4,096 turns.
    Turns,
}

/// Change 9: whether a loop's passes are counted one by one, or the first term that is broken.
pub fn counts_passes(l: &Loop, line: &Line) -> Result<(), OuterTerm> {
    if line.counted != Counted::Tested {
        return Err(OuterTerm::Kind);
    }
    if !line.exact {
        return Err(OuterTerm::Exact);
    }
    if !matches!(line.step, Step::Add(..)) {
        return Err(OuterTerm::Step);
    }
    if matches!(l.compare, Compare::Eq | Compare::Ne) {
        return Err(OuterTerm::Comparison);
    }
    if line.turns > PASS_LIMIT {
        return Err(OuterTerm::Turns);
    }
    Ok(())
}

/// Change 9's terms of an inner loop.
#[derive(Clone, Copy, Debug, PartialEq, Eq)]
pub enum InnerTerm {
    /// A for.
    Form,
    /// The limit is the outer variable alone.
    Limit,
    /// A constant start.
    Start,
    /// < or <=.
    Comparison,
    /// An Add step; by question 11 it rises.
    Step,
    /// Directly in the outer's body.
    Direct,
    /// The outer variable is not assigned before it in the body.
    Assigned,
}

/// Change 9: whether the loop at row `at` grows with the loop round it, or the first term that is broken.
pub fn grows_with(rows: &[Row], head: usize, outer: &Loop, at: usize, l: &Loop) -> Result<(), InnerTerm> {
    let Kind::For { start, .. } = l.kind else {
        return Err(InnerTerm::Form);
    };
    if l.limit != Operand::Variable(outer.v) {
        return Err(InnerTerm::Limit);
    }
    if !matches!(start, Operand::Constant(_)) {
        return Err(InnerTerm::Start);
    }
    if !matches!(l.compare, Compare::Lt | Compare::Le) {
        return Err(InnerTerm::Comparison);
    }
    if !matches!(own_step(rows, at, l), Step::Add(..)) {
        return Err(InnerTerm::Step);
    }
    if !directly_in(rows, head, at) {
        return Err(InnerTerm::Direct);
    }
    if assign(&rows[head + 1..at], outer.v) {
        return Err(InnerTerm::Assigned);
    }
    Ok(())
}

/// Change 9: the passes of a loop that are counted one by one.
struct Passes {
    head: usize,
    l: Loop,
    /// The tested variable at the start of the first pass, and its step.
    first: i64,
    step: i64,
    count: u64,
    /// The total of the loop next round it.
    round: u128,
    /// The ticks, over all passes, of the loops that grow with it.
    ticks: u128,
}

impl Passes {
    /// The tested variable at the start of each pass.
    fn values(&self) -> impl Iterator<Item = i64> + '_ {
        (0..self.count as i64).map(|k| self.first + k * self.step)
    }
}

/// A known range, low end and high end.
type Range = [i32; 2];
type Ranges = [Range; 16];
const ALL: Range = [-L, L];

/// Change 8: the range of an operator's results on two ranges.
pub type Join = fn(Operator, Wide, Wide) -> Wide;

/// The least and largest of the four results on its operands' ends, each drawn back.
pub fn join(operator: Operator, left: Wide, right: Wide) -> Wide {
    let result = |l: i64, r: i64| draw_back(operator.apply(l, r)) as i64;
    let [a, b, c, d] = [
        result(left[0], right[0]),
        result(left[0], right[1]),
        result(left[1], right[0]),
        result(left[1], right[1]),
    ];
    [a.min(b).min(c).min(d), a.max(b).max(c).max(d)]
}

fn draw_back(value: i64) -> i32 {
    value.clamp(-L as i64, L as i64) as i32
}

/// What a loop's turns are counted on.
#[derive(Clone, Copy, Debug, PartialEq, Eq)]
pub enum Counted {
    /// The tested variable.
    Tested,
    /// The one that it is copied from.
    Copied,
    /// The difference between it and its limit.
    Closing,
    /// The one that an off for it watches.
    Held,
}

/// A loop's line of the report.
#[derive(Clone, Copy, Debug, PartialEq, Eq)]
pub struct Line {
    pub row: usize,
    pub counted: Counted,
    pub step: Step,
    pub turns: u64,
    /// Exact up to u128::MAX, and not less than that where it stands.
    pub total: u128,
    pub exact: bool,
    /// Whether starts and limit are single numbers.
    pub single: bool,
    /// Its start range, or that of the difference or of the variable that is copied or watched.
    pub start: Wide,
    /// Whether its total is a sum by change 9.
    pub summed: bool,
}

/// What an accepted file is known to do.
#[derive(Clone, Debug)]
pub struct Plan {
    pub script: Script,
    pub prices: Prices,
    pub lines: Vec<Line>,
    pub ticks: u64,
    /// Whether an end of a range was rounded down below 0.
    pub rounded: bool,
}

/// A range of a figure, which can be past ±L.
pub type Wide = [i64; 2];

fn wide(range: Range) -> Wide {
    range.map(i64::from)
}

fn single(range: Range) -> bool {
    range[0] == range[1]
}

/// E: the last value of the limit's worst end for which the test can hold.
fn edge(compare: Compare, n: Wide) -> i64 {
    match compare {
        Compare::Le => n[1],
        Compare::Lt => n[1] - 1,
        Compare::Ge => n[0],
        Compare::Gt => n[0] + 1,
        Compare::Eq | Compare::Ne => 0,
    }
}

/// 1 + the largest k with low·f^k <= high, or 0 if there is none; low >= 1 and f >= 2 if low <= high.
fn powers(low: i64, f: i64, high: i64) -> i64 {
    let (mut low, mut count) = (low as i128, 0);
    while low <= high as i128 {
        low *= f as i128;
        count += 1;
    }
    count
}

/// The while figure of an == loop from the start s.
fn equal_turns(s: Wide, n: Wide) -> i64 {
    (s[0] <= n[1] && n[0] <= s[1]) as i64
}

/// The while figure of a != loop from the start s, with step a..b; None refuses.
fn unequal_turns(a: i64, b: i64, s: Wide, n: Wide) -> Option<i64> {
    if a != b {
        return None;
    }
    if a == 1 {
        return (s[1] <= n[0]).then_some(n[1] - s[0]);
    }
    if a == -1 {
        return (s[0] >= n[1]).then_some(s[1] - n[0]);
    }
    if s[0] != s[1] || n[0] != n[1] {
        return None;
    }
    let distance = n[0] - s[0];
    (distance % a == 0 && distance / a >= 0).then_some(distance / a)
}

/// What a loop's turns are worked out from.
#[derive(Clone, Copy)]
struct Counter {
    counted: Counted,
    step: Step,
    /// The loop's, or the opposite of an off's.
    compare: Compare,
    /// Start and limit.
    s: Wide,
    n: Wide,
    /// Whether the first test that is counted sees the start moved by one turn.
    moved: bool,
    /// The turns before that test.
    before: u64,
    /// Whether no turn is taken: a copy's while whose first test fails from the best start, or a hold whose flag is 0.
    never: bool,
    /// Whether starts and limit are single numbers.
    single: bool,
}

impl Counter {
    /// The start range of the first test that is counted, for an Add step.
    fn added(&self, a: i64, b: i64) -> Wide {
        if self.moved { [self.s[0] + a, self.s[1] + b] } else { self.s }
    }

    /// The while figure from the start, and question 12.
    fn figure(&self) -> Result<u64, u32> {
        let compare = self.compare;
        let e = edge(compare, self.n);
        let figure = match self.step {
            Step::Add(a, b) if compare == Compare::Eq => equal_turns(self.added(a, b), self.n),
            Step::Add(a, b) if compare == Compare::Ne => {
                unequal_turns(a, b, self.added(a, b), self.n).ok_or(12u32)?
            }
            Step::Add(a, b) if a >= 1 => {
                let t = self.added(a, b)[0];
                if t > e { 0 } else { (e - t) / a + 1 }
            }
            Step::Add(a, b) => {
                let t = self.added(a, b)[1];
                if t < e { 0 } else { (t - e) / -b + 1 }
            }
            Step::Grow(f, _) => {
                let lo = self.s[0];
                if lo < 1 {
                    return Err(12);
                }
                powers(if self.moved { lo * f } else { lo }, f, e)
            }
            Step::Shrink(f, _) => {
                let hi = self.s[1];
                if e < 1 {
                    return Err(12);
                }
                powers(e, f, if self.moved { quotient(hi, f) } else { hi })
            }
            Step::Unknown => unreachable!("question 8"),
        };
        Ok(figure as u64)
    }
}

/// Questions 8 to 11 of one loop; the error is the question's number. `changes` is whether the body assigns a variable of the
/// limit.
fn ask(counter: &Counter, changes: bool) -> Result<(), u32> {
    let step = counter.step;
    // 8 and 9
    let moves = match step {
        Step::Unknown => return Err(8),
        Step::Add(a, b) => a >= 1 || b <= -1,
        Step::Grow(f, _) | Step::Shrink(f, _) => f >= 2,
    };
    if !moves {
        return Err(9);
    }
    if changes && counter.counted != Counted::Closing {
        return Err(10);
    }
    let fits = match (counter.compare, step) {
        (Compare::Lt | Compare::Le, Step::Add(a, _)) => a >= 1,
        (Compare::Lt | Compare::Le, Step::Grow(..)) => true,
        (Compare::Gt | Compare::Ge, Step::Add(_, b)) => b <= -1,
        (Compare::Gt | Compare::Ge, Step::Shrink(..)) => true,
        (Compare::Eq | Compare::Ne, Step::Add(..)) => true,
        _ => false,
    };
    if fits { Ok(()) } else { Err(11) }
}

/// The turns of one loop, and its questions 8 to 12, of which a hold is asked none.
fn turns(counter: &Counter, changes: bool) -> Result<u64, u32> {
    if counter.counted != Counted::Held {
        ask(counter, changes)?;
    }
    let figure = counter.figure()?;
    Ok(if counter.never { 0 } else { counter.before + figure })
}

/// The tested variable's ranges at the body's start and after the loop.
fn tested_ranges(l: &Loop, step: Step, s: Range, n: Range) -> (Range, Range) {
    if matches!(l.compare, Compare::Eq | Compare::Ne) {
        return (ALL, ALL);
    }
    let is_do = l.kind == Kind::Do;
    let e = edge(l.compare, wide(n));
    let rising = matches!(l.compare, Compare::Lt | Compare::Le);
    let body = if rising {
        [s[0], (if is_do { s[1] } else { s[0] } as i64).max(e) as i32]
    } else {
        [(if is_do { s[0] } else { s[1] } as i64).min(e) as i32, s[1]]
    };
    let after = match step {
        Step::Shrink(..) => [s[0].min(0), s[1].max(0)],
        _ if rising => [s[0], L],
        _ => [-L, s[1]],
    };
    (body, after)
}

struct Walk<'a> {
    rows: &'a [Row],
    items: &'a [Item],
    prices: Prices,
    join: Join,
    lines: Vec<Line>,
    /// The `end` rows of the blocks over the tick limit, in row order.
    over: Vec<usize>,
    /// Every block's `end` row and ticks, if they are wanted.
    blocks: Option<Vec<(usize, u128)>>,
    /// Every loop's head row and the variables that it is counted from and that are not known before it, as bits.
    unknown: Vec<(usize, u16)>,
    rounded: bool,
}

impl Walk<'_> {
    fn range_of(&self, x: Operand, ranges: &Ranges) -> Range {
        match x {
            Operand::Constant(c) => [c, c],
            Operand::Variable(v) => ranges[v as usize],
            Operand::Expression(e) => {
                let range = fold(
                    e.items(self.items),
                    |c| wide([c, c]),
                    |v| wide(ranges[v as usize]),
                    |operator, left, right| Some((self.join)(operator, left, right)),
                );
                range.expect("every operator has a range").map(draw_back)
            }
        }
    }

    /// The ticks of the rows from `from` to before `to`, entered with `ranges`, which become those after
    /// them; `round` is the total of the loop next round them, 1 if there is none. If the rows are the body of a
    /// loop whose passes are counted one by one, the loops that grow with it go to `passes` and not into the ticks.
    ///
    /// Ticks and totals are exact up to u128::MAX and stay there, unless a loop of 0 turns makes them 0.
    fn block(
        &mut self,
        from: usize,
        to: usize,
        ranges: &mut Ranges,
        round: u128,
        mut passes: Option<&mut Passes>,
    ) -> Result<u128, Refusal> {
        let prices = self.prices;
        let mut ticks = 0u128;
        let mut r = from;
        while r < to {
            let (part, end) = match self.rows[r] {
                Row::Set { v, x } => {
                    ranges[v as usize] = self.range_of(x, ranges);
                    (prices.arithmetic as u128, r)
                }
                Row::Change { v, by } => {
                    let ends = ranges[v as usize];
                    self.rounded |= by.op == Op::Div && ends.iter().any(|end| *end < 0 && end % by.c != 0);
                    ranges[v as usize] = ends.map(|end| draw_back(by.apply(end)));
                    (prices.arithmetic as u128, r)
                }
                Row::Cue { .. } => (prices.cue as u128, r),
                Row::Off { v, .. } => {
                    let [lo, hi] = ranges[v as usize];
                    ranges[v as usize] = [lo.min(0), hi.max(0)];
                    (prices.arithmetic as u128, r)
                }
                Row::Pick { middle, end } => {
                    let (middle, end) = (middle as usize, end as usize);
                    let mut other = *ranges;
                    let first = self.block(r + 1, middle, ranges, round, None)?;
                    let second = self.block(middle + 1, end, &mut other, round, None)?;
                    for (range, other) in ranges.iter_mut().zip(other) {
                        *range = [range[0].min(other[0]), range[1].max(other[1])];
                    }
                    let ticks = first.max(second).saturating_add(prices.pick as u128);
                    (self.limited(ticks, end), end)
                }
                Row::Loop(l) => {
                    let end = l.end as usize;
                    let grown = passes.as_deref_mut().filter(|outer| grows_with(self.rows, outer.head, &outer.l, r, &l).is_ok());
                    let summed = grown.is_some();
                    let ticks = self.looped(r, &l, ranges, round, grown)?;
                    let ticks = self.limited(ticks, end);
                    (if summed { 0 } else { ticks }, end)
                }
                Row::Else { .. } | Row::End { .. } => unreachable!("not inside a block's own rows"),
            };
            ticks = ticks.saturating_add(part);
            r = end + 1;
        }
        Ok(ticks)
    }

    /// Blocks come here in the order of their `end` rows.
    fn limited(&mut self, ticks: u128, end: usize) -> u128 {
        if ticks > TICK_LIMIT {
            self.over.push(end);
        }
        if let Some(blocks) = &mut self.blocks {
            blocks.push((end, ticks));
        }
        ticks
    }

    /// Question 19, and the counter of a hold that is entered with `ranges`.
    fn held_counter(&self, head: usize, l: &Loop, ranges: &Ranges) -> Result<Counter, u32> {
        let held = held(self.rows, head, l).map_err(|_| 19u32)?;
        let (flag, watched) = (ranges[l.v as usize], ranges[held.w as usize]);
        Ok(Counter {
            counted: Counted::Held,
            step: held.step,
            compare: held.compare,
            s: wide(watched),
            n: wide([held.c, held.c]),
            moved: held.rows_first,
            before: 1,
            never: flag == [0, 0],
            single: single(flag) && single(watched),
        })
    }

    /// The counter of a loop that is entered with `ranges`, a for's start assigned, and its limit with the range n.
    fn counter(&self, head: usize, l: &Loop, ranges: &Ranges, n: Range) -> Result<Counter, u32> {
        if l.kind == Kind::Hold {
            return self.held_counter(head, l, ranges);
        }
        let is_do = l.kind == Kind::Do;
        let s = ranges[l.v as usize];
        if let Ok(copy) = copied(self.rows, head, l) {
            let from = ranges[copy.w as usize];
            let e = edge(l.compare, wide(n));
            let best_fails = match l.compare {
                Compare::Lt | Compare::Le => s[0] as i64 > e,
                _ => (s[1] as i64) < e,
            };
            return Ok(Counter {
                counted: Counted::Copied,
                step: copy.step,
                compare: l.compare,
                s: wide(from),
                n: wide(n),
                moved: copy.rows_first,
                before: 1,
                never: !is_do && best_fails,
                single: single(s) && single(from) && single(n),
            });
        }
        let counter = Counter {
            counted: Counted::Tested,
            step: own_step(self.rows, head, l),
            compare: l.compare,
            s: wide(s),
            n: wide(n),
            moved: is_do,
            before: is_do as u64,
            never: false,
            single: single(s) && single(n),
        };
        Ok(match closing(self.rows, head, l) {
            Ok(step) => {
                let (s, n) = (wide(s), wide(n));
                Counter { counted: Counted::Closing, step, s: [s[0] - n[1], s[1] - n[0]], n: [0, 0], ..counter }
            }
            Err(_) => counter,
        })
    }

    /// The ticks of a loop of so many turns, each of `body` ticks.
    fn loop_ticks(&self, l: &Loop, turns: u64, body: u128) -> u128 {
        let (test, arithmetic) = (self.prices.test as u128, self.prices.arithmetic as u128);
        let times = |extra: u128| body.saturating_add(extra).saturating_mul(turns as u128);
        match l.kind {
            Kind::While | Kind::Hold => times(test).saturating_add(test),
            // The step and the test of each turn; the start and the last test.
            Kind::For { .. } => times(arithmetic + test).saturating_add(arithmetic + test),
            Kind::Do => times(test),
        }
    }

    /// The variables that a loop's turns are counted from, as bits: those of its limit, and those of a for's start, the watched one of a
    /// hold, the copied one, or else the tested one. None where it compares with == or !=.
    fn counted_from(&self, head: usize, l: &Loop) -> u16 {
        let limit = l.limit.variables(self.items);
        match l.kind {
            Kind::Hold => held(self.rows, head, l).map_or(0, |held| 1 << held.w),
            _ if matches!(l.compare, Compare::Eq | Compare::Ne) => 0,
            Kind::For { start, .. } => limit | start.variables(self.items),
            Kind::While | Kind::Do => limit | copied(self.rows, head, l).map_or(1 << l.v, |copy| 1 << copy.w),
        }
    }

    /// The ticks of a loop that is entered with `ranges`; it grows with the loop of `outer`, if that is given.
    fn looped(
        &mut self,
        head: usize,
        l: &Loop,
        ranges: &mut Ranges,
        round: u128,
        outer: Option<&mut Passes>,
    ) -> Result<u128, Refusal> {
        let (v, end) = (l.v as usize, l.end as usize);
        self.unknown.push((head, self.counted_from(head, l) & all_of(ranges)));
        if let Kind::For { start, .. } = l.kind {
            ranges[v] = self.range_of(start, ranges);
        }
        let n = self.range_of(l.limit, ranges);
        let refused = |number: u32| (number, head as u64);
        let counter = self.counter(head, l, ranges, n).map_err(refused)?;
        let assigned = loop_assigns(self.rows, head, l);
        let changes = l.limit.variables(self.items) & assigned != 0;
        let turns = turns(&counter, changes).map_err(refused)?;
        // The turns of all passes of the outer loop, each with its value for a limit.
        let sum = outer.as_ref().map_or(0, |outer| {
            let figure = |x| Counter { n: [x, x], ..counter }.figure().expect("no question 12 of an Add step");
            outer.values().map(figure).sum::<u64>() as u128
        });
        let total = match &outer {
            Some(outer) => outer.round.saturating_mul(sum),
            None => round.saturating_mul(turns as u128),
        };
        let step = counter.step;
        let (Step::Add(a, b) | Step::Grow(a, b) | Step::Shrink(a, b)) = step else {
            unreachable!("question 8")
        };
        let exact = a == b && counter.single;
        let summed = outer.is_some();
        let line = Line { row: head, counted: counter.counted, step, turns, total, exact, single: counter.single, start: counter.s, summed };
        self.lines.push(line);
        let mut passes = counts_passes(l, &line).ok().map(|()| Passes { head, l: *l, first: counter.s[0], step: a, count: turns, round, ticks: 0 });

        let (at_body, after) = match counter.counted {
            Counted::Tested => tested_ranges(l, step, ranges[v], n),
            // A hold's flag; its watched variable is one that the body assigns.
            Counted::Copied | Counted::Closing | Counted::Held => (ALL, ALL),
        };
        for (w, range) in ranges.iter_mut().enumerate() {
            if assigned & (1 << w) != 0 {
                *range = ALL;
            }
        }
        let mut body_ranges = *ranges;
        body_ranges[v] = at_body;
        ranges[v] = after;
        let body = self.block(head + 1, end, &mut body_ranges, total, passes.as_mut())?;
        let grown = passes.map_or(0, |passes| passes.ticks);
        if let Some(outer) = outer {
            // The start and the last test in each pass, and step and test in each turn. If loops grow with this one too, its limit
            // is single, and so has the outer variable one value at the most.
            let each = (self.prices.arithmetic + self.prices.test) as u128;
            let passes = grown.saturating_add(each).saturating_mul(outer.count as u128);
            let ticks = body.saturating_add(each).saturating_mul(sum).saturating_add(passes);
            outer.ticks = outer.ticks.saturating_add(ticks);
        }
        Ok(self.loop_ticks(l, turns, body).saturating_add(grown))
    }
}

/// The variables whose range is -L to L, as bits.
fn all_of(ranges: &Ranges) -> u16 {
    ranges.iter().enumerate().fold(0, |bits, (v, range)| if *range == ALL { bits | 1 << v } else { bits })
}

fn walk(script: &Script, prices: Prices, join: Join) -> Walk<'_> {
    let lines = Vec::with_capacity(script.loops);
    Walk { rows: &script.rows, items: &script.items, prices, join, lines, over: Vec::new(), blocks: None, unknown: Vec::new(), rounded: false }
}

/// The `end` rows of the blocks over the tick limit, in row order; questions 8 to 12 and 19 come first.
pub fn blocks_over(script: &Script, prices: Prices) -> Result<Vec<usize>, Refusal> {
    let mut walk = walk(script, prices, join);
    walk.block(0, script.rows.len(), &mut script.ranges.clone(), 1, None)?;
    Ok(walk.over)
}

/// The ticks of each block of an accepted script, by its `end` row: what question 13 asks.
pub fn block_ticks(script: &Script, prices: Prices) -> Vec<(usize, u128)> {
    let mut walk = walk(script, prices, join);
    walk.blocks = Some(Vec::new());
    walk.block(0, script.rows.len(), &mut script.ranges.clone(), 1, None).expect("an accepted script");
    walk.blocks.unwrap_or_default()
}

/// The loops of an accepted script by their head rows, each with the variables that it is counted from and that are not known before it.
pub fn unknown(script: &Script, prices: Prices) -> Vec<(usize, u16)> {
    let mut walk = walk(script, prices, join);
    walk.block(0, script.rows.len(), &mut script.ranges.clone(), 1, None).expect("an accepted script");
    walk.unknown
}

/// Questions 8 to 13 and 19.
pub fn analyse(script: Script, prices: Prices) -> Result<Plan, Refusal> {
    analyse_by(join, script, prices)
}

/// The same by another rule for the ranges of operators.
pub fn analyse_by(join: Join, script: Script, prices: Prices) -> Result<Plan, Refusal> {
    let mut walk = walk(&script, prices, join);
    let mut ranges = script.ranges;
    let count = script.rows.len();
    let ticks = walk.block(0, count, &mut ranges, 1, None)?;
    if let Some(end) = walk.over.first() {
        return Err((13, *end as u64));
    }
    if ticks > TICK_LIMIT {
        return Err((13, count as u64));
    }
    let (lines, rounded) = (walk.lines, walk.rounded);
    Ok(Plan { script, prices, lines, ticks: ticks as u64, rounded })
}

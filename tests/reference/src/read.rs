//! The script reader: questions 2 to 7 and 17.

use crate::expression::{self, Expression, Item};
use crate::Refusal;

/// L of document 01.
pub const L: i32 = 1_000_000_000;
pub const FILE_LIMIT: usize = 16_384;
const DEPTH_LIMIT: usize = 8;
const LOOP_LIMIT: usize = 16;

/// A number of any length is read up to this one, which is outside every limit.
const FAR: i64 = 2_000_000_000;
/// The same for a variable's number.
const FAR_VARIABLE: i64 = 255;

#[derive(Clone, Copy, Debug, PartialEq, Eq)]
pub enum Operand {
    Constant(i32),
    Variable(u8),
    /// Change 8: with an operator or a parenthesis.
    Expression(Expression),
}

#[derive(Clone, Copy, Debug, PartialEq, Eq)]
pub enum Op {
    Add,
    Sub,
    Mul,
    Div,
}

/// An arithmetic row without its variable.
#[derive(Clone, Copy, Debug, PartialEq, Eq)]
pub struct Change {
    pub op: Op,
    pub c: i32,
}

#[derive(Clone, Copy, Debug, PartialEq, Eq)]
pub enum Compare {
    Lt,
    Le,
    Gt,
    Ge,
    Eq,
    Ne,
}

#[derive(Clone, Copy, Debug, PartialEq, Eq)]
pub enum Kind {
    While,
    Do,
    For { start: Operand, step: Change },
    /// Change 12: its variable is a flag, tested for != 0 before each turn.
    Hold,
}

#[derive(Clone, Copy, Debug, PartialEq, Eq)]
pub struct Loop {
    pub kind: Kind,
    pub v: u8,
    pub compare: Compare,
    pub limit: Operand,
    /// The row of its `end`.
    pub end: u16,
    /// Its place among the loops, in row order.
    pub index: u8,
}

#[derive(Clone, Copy, Debug, PartialEq, Eq)]
pub enum Row {
    Set { v: u8, x: Operand },
    Change { v: u8, by: Change },
    Cue { n: i32 },
    /// Change 12: v becomes 0 if the comparison of w with c is true.
    Off { v: u8, w: u8, compare: Compare, c: i32 },
    /// `middle` is the row of its `else`, or of its `end` if it has none: the branches are the rows
    /// between head and middle, and between middle and end.
    Pick { middle: u16, end: u16 },
    Else { end: u16 },
    End { head: u16 },
    Loop(Loop),
}

/// Stands for the row of an `else` or `end` that is not read yet.
const OPEN: u16 = u16::MAX;

#[derive(Clone, Debug)]
pub struct Script {
    pub vars: usize,
    pub ranges: [[i32; 2]; 16],
    pub rows: Vec<Row>,
    /// Those of all expressions.
    pub items: Vec<Item>,
    pub loops: usize,
}

/// Change 6: the next lower whole number; c is at least 1.
#[inline]
pub fn quotient(value: i64, c: i64) -> i64 {
    value.div_euclid(c)
}

impl Change {
    /// The value after the row, before anything is drawn back.
    #[inline]
    pub fn apply(self, value: i32) -> i64 {
        let (value, c) = (value as i64, self.c as i64);
        match self.op {
            Op::Add => value + c,
            Op::Sub => value - c,
            Op::Mul => value * c,
            Op::Div => quotient(value, c),
        }
    }

    fn within_limits(self) -> bool {
        let least = match self.op {
            Op::Add | Op::Sub => 0,
            Op::Mul | Op::Div => 1,
        };
        (least..=L).contains(&self.c)
    }
}

impl Compare {
    #[inline]
    pub fn holds(self, left: i32, right: i32) -> bool {
        match self {
            Compare::Lt => left < right,
            Compare::Le => left <= right,
            Compare::Gt => left > right,
            Compare::Ge => left >= right,
            Compare::Eq => left == right,
            Compare::Ne => left != right,
        }
    }
}

/// The constants of expressions have the limits of a constant alone.
fn limited(c: i32) -> bool {
    (-L..=L).contains(&c)
}

impl Operand {
    fn within_limits(self, items: &[Item]) -> bool {
        match self {
            Operand::Constant(c) => limited(c),
            Operand::Variable(_) => true,
            Operand::Expression(e) => e.items(items).iter().all(|item| match *item {
                Item::Constant(c) => limited(c),
                Item::Variable(_) | Item::Operator(_) => true,
            }),
        }
    }

    fn is_below(self, vars: usize, items: &[Item]) -> bool {
        let known = |v: u8| (v as usize) < vars;
        match self {
            Operand::Constant(_) => true,
            Operand::Variable(v) => known(v),
            Operand::Expression(e) => e.items(items).iter().all(|item| match *item {
                Item::Variable(v) => known(v),
                Item::Constant(_) | Item::Operator(_) => true,
            }),
        }
    }

    /// Its variables, as bits, where all are below 16.
    pub fn variables(self, items: &[Item]) -> u16 {
        match self {
            Operand::Constant(_) => 0,
            Operand::Variable(v) => 1 << v,
            Operand::Expression(e) => e.items(items).iter().fold(0, |all, item| match *item {
                Item::Variable(v) => all | 1 << v,
                Item::Constant(_) | Item::Operator(_) => all,
            }),
        }
    }
}

impl Row {
    /// What may be an expression: the right side of `set`, start and limit of a loop.
    pub fn operands(&self) -> impl Iterator<Item = Operand> {
        let (first, second) = match *self {
            Row::Set { x, .. } => (Some(x), None),
            Row::Loop(Loop { kind: Kind::For { start, .. }, limit, .. }) => (Some(start), Some(limit)),
            Row::Loop(l) => (Some(l.limit), None),
            _ => (None, None),
        };
        first.into_iter().chain(second)
    }

    /// Question 17 of a row line; each expression is measured alone.
    fn measured(&self) -> bool {
        self.operands().all(|x| match x {
            Operand::Expression(e) => e.measured(),
            Operand::Constant(_) | Operand::Variable(_) => true,
        })
    }

    /// Question 4 of a row line.
    fn within_limits(&self, items: &[Item]) -> bool {
        let others = match *self {
            Row::Change { by, .. } => by.within_limits(),
            Row::Cue { n } => (0..=9_999).contains(&n),
            Row::Off { c, .. } => limited(c),
            Row::Loop(Loop { kind: Kind::For { step, .. }, .. }) => step.within_limits(),
            Row::Loop(_) | Row::Set { .. } | Row::Pick { .. } | Row::Else { .. } | Row::End { .. } => true,
        };
        others && self.operands().all(|x| x.within_limits(items))
    }

    /// Question 5 of a row line.
    fn variables_below(&self, vars: usize, items: &[Item]) -> bool {
        let known = match *self {
            Row::Set { v, .. } | Row::Change { v, .. } | Row::Loop(Loop { v, .. }) => (v as usize) < vars,
            Row::Off { v, w, .. } => (v.max(w) as usize) < vars,
            Row::Cue { .. } | Row::Pick { .. } | Row::Else { .. } | Row::End { .. } => true,
        };
        known && self.operands().all(|x| x.is_below(vars, items))
    }
}

/// A decimal number without plus or leading zeros, `-` only before a non-zero one; cut to ±FAR.
pub(crate) fn number(word: &[u8]) -> Option<i32> {
    let (negative, digits) = match word {
        [b'-', digits @ ..] => (true, digits),
        _ => (false, word),
    };
    match digits {
        [] => return None,
        [b'0'] if !negative => return Some(0),
        [b'0', ..] => return None,
        _ => {}
    }
    let mut n = 0i64;
    for &digit in digits {
        if !digit.is_ascii_digit() {
            return None;
        }
        n = (n * 10 + (digit - b'0') as i64).min(FAR);
    }
    Some(if negative { -n } else { n } as i32)
}

/// `v` and a number not below 0; cut to FAR_VARIABLE.
pub(crate) fn variable(word: &[u8]) -> Option<u8> {
    match word {
        [b'v', digits @ ..] if digits.first() != Some(&b'-') => {
            number(digits).map(|n| (n as i64).min(FAR_VARIABLE) as u8)
        }
        _ => None,
    }
}

fn change(op: &[u8], c: &[u8]) -> Option<Change> {
    let op = match op {
        b"add" => Op::Add,
        b"sub" => Op::Sub,
        b"mul" => Op::Mul,
        b"div" => Op::Div,
        _ => return None,
    };
    Some(Change { op, c: number(c)? })
}

fn compare(word: &[u8]) -> Option<Compare> {
    Some(match word {
        b"<" => Compare::Lt,
        b"<=" => Compare::Le,
        b">" => Compare::Gt,
        b">=" => Compare::Ge,
        b"==" => Compare::Eq,
        b"!=" => Compare::Ne,
        _ => return None,
    })
}

/// An off has one of the four comparisons that order.
fn ordering(word: &[u8]) -> Option<Compare> {
    compare(word).filter(|compare| !matches!(compare, Compare::Eq | Compare::Ne))
}

/// Question 3 of a row line: what follows `row=`. The items of its expressions are put behind those that are there.
fn row(text: &[u8], items: &mut Vec<Item>) -> Option<Row> {
    let mut words: [&[u8]; 7] = [b""; 7];
    let mut count = 0;
    for word in text.split(|&b| b == b' ') {
        if count == words.len() {
            return None;
        }
        words[count] = word;
        count += 1;
    }
    let mut operand = |word| expression::operand(word, items);
    let looped = |kind, v, cmp: &[u8], limit| {
        Some(Row::Loop(Loop { kind, v: variable(v)?, compare: compare(cmp)?, limit, end: OPEN, index: 0 }))
    };
    match words[..count] {
        [b"set", v, x] => Some(Row::Set { v: variable(v)?, x: operand(x)? }),
        [b"cue", n] => Some(Row::Cue { n: number(n)? }),
        [b"pick"] => Some(Row::Pick { middle: OPEN, end: OPEN }),
        [b"else"] => Some(Row::Else { end: OPEN }),
        [b"end"] => Some(Row::End { head: OPEN }),
        [b"while", v, cmp, x] => looped(Kind::While, v, cmp, operand(x)?),
        [b"do", v, cmp, x] => looped(Kind::Do, v, cmp, operand(x)?),
        [b"for", v, x, cmp, y, op, c] => {
            looped(Kind::For { start: operand(x)?, step: change(op, c)? }, v, cmp, operand(y)?)
        }
        [b"hold", v] => looped(Kind::Hold, v, b"!=", Operand::Constant(0)),
        [b"off", v, w, cmp, c] => {
            Some(Row::Off { v: variable(v)?, w: variable(w)?, compare: ordering(cmp)?, c: number(c)? })
        }
        [op, v, c] => Some(Row::Change { v: variable(v)?, by: change(op, c)? }),
        _ => None,
    }
}

/// The unread rest of the file and the number of the line it begins with.
struct Lines<'a> {
    rest: &'a [u8],
    line: u64,
}

impl<'a> Lines<'a> {
    /// What follows `key` on the next line; a line that is missing, has no LF or another key is refused.
    fn next(&mut self, key: &[u8]) -> Result<&'a [u8], Refusal> {
        self.line += 1;
        let wrong = (3, self.line);
        let length = self.rest.iter().position(|&b| b == b'\n').ok_or(wrong)?;
        let line = &self.rest[..length];
        self.rest = &self.rest[length + 1..];
        line.strip_prefix(key).ok_or(wrong)
    }

    /// A line of one number from 0 to `most`.
    fn count(&mut self, key: &[u8], most: i32) -> Result<usize, Refusal> {
        let n = number(self.next(key)?).ok_or((3, self.line))?;
        if (0..=most).contains(&n) {
            Ok(n as usize)
        } else {
            Err((4, self.line))
        }
    }

    fn range(&mut self) -> Result<[i32; 2], Refusal> {
        let mut words = self.next(b"range=")?.split(|&b| b == b' ');
        let wrong = (3, self.line);
        let (Some(lo), Some(hi), None) = (words.next(), words.next(), words.next()) else {
            return Err(wrong);
        };
        let (lo, hi) = (number(lo).ok_or(wrong)?, number(hi).ok_or(wrong)?);
        if -L <= lo && lo <= hi && hi <= L {
            Ok([lo, hi])
        } else {
            Err((4, self.line))
        }
    }
}

/// Questions 2 to 7 and 17.
pub fn script(file: &[u8]) -> Result<Script, Refusal> {
    if file.len() > FILE_LIMIT {
        return Err((2, FILE_LIMIT as u64));
    }
    let mut lines = Lines { rest: file, line: 0 };
    if lines.next(b"script=")? != b"1" {
        return Err((3, 1));
    }
    let vars = lines.count(b"vars=", 16)?;
    let mut ranges = [[0; 2]; 16];
    for range in &mut ranges[..vars] {
        *range = lines.range()?;
    }
    let count = lines.count(b"rows=", 256)?;
    let mut rows: Vec<Row> = Vec::with_capacity(count);
    let mut items = Vec::new();
    let mut loops = 0;
    // The head rows of the blocks that are open.
    let mut open = [0u16; DEPTH_LIMIT];
    let mut depth = 0;
    for r in 0..count as u16 {
        let mut row = row(lines.next(b"row=")?, &mut items).ok_or((3, lines.line))?;
        let line = lines.line;
        if !row.measured() {
            return Err((17, line));
        }
        if !row.within_limits(&items) {
            return Err((4, line));
        }
        if !row.variables_below(vars, &items) {
            return Err((5, line));
        }
        match &mut row {
            Row::Else { .. } => {
                if depth == 0 {
                    return Err((6, line));
                }
                match &mut rows[open[depth - 1] as usize] {
                    Row::Pick { middle, .. } if *middle == OPEN => *middle = r,
                    _ => return Err((6, line)),
                }
            }
            Row::End { head } => {
                if depth == 0 {
                    return Err((6, line));
                }
                depth -= 1;
                *head = open[depth];
                match &mut rows[*head as usize] {
                    Row::Pick { middle, end } => {
                        *end = r;
                        if *middle == OPEN {
                            *middle = r;
                        } else {
                            let middle = *middle as usize;
                            rows[middle] = Row::Else { end: r };
                        }
                    }
                    Row::Loop(l) => l.end = r,
                    _ => unreachable!("only picks and loops open a block"),
                }
            }
            Row::Pick { .. } | Row::Loop(_) => {
                if depth == DEPTH_LIMIT {
                    return Err((7, line));
                }
                open[depth] = r;
                depth += 1;
                if let Row::Loop(l) = &mut row {
                    if loops == LOOP_LIMIT {
                        return Err((7, line));
                    }
                    l.index = loops as u8;
                    loops += 1;
                }
            }
            Row::Set { .. } | Row::Change { .. } | Row::Cue { .. } | Row::Off { .. } => {}
        }
        rows.push(row);
    }
    let after = lines.line + 1;
    if !lines.rest.is_empty() {
        return Err((3, after));
    }
    if depth > 0 {
        return Err((6, after));
    }
    Ok(Script { vars, ranges, rows, items, loops })
}

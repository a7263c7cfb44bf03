//! Change 8: operands with arithmetic. An expression is kept as items in postfix order, each operator behind its two operands.

use crate::read::{number, variable, Operand};

/// Question 17's limits.
const DEPTH_LIMIT: u16 = 8;
const OPERATOR_LIMIT: u16 = 15;
/// So many operands have 15 operators at the most.
const OPERANDS: usize = OPERATOR_LIMIT as usize + 1;

#[derive(Clone, Copy, Debug, PartialEq, Eq)]
pub enum Operator {
    Plus,
    Minus,
    Times,
}

impl Operator {
    /// The result, before anything is drawn back.
    #[inline]
    pub fn apply(self, left: i64, right: i64) -> i64 {
        match self {
            Operator::Plus => left + right,
            Operator::Minus => left - right,
            Operator::Times => left * right,
        }
    }

    fn of(byte: u8) -> Option<Operator> {
        match byte {
            b'+' => Some(Operator::Plus),
            b'-' => Some(Operator::Minus),
            b'*' => Some(Operator::Times),
            _ => None,
        }
    }

    /// Times before plus and minus.
    fn rank(self) -> u8 {
        match self {
            Operator::Plus | Operator::Minus => 0,
            Operator::Times => 1,
        }
    }
}

#[derive(Clone, Copy, Debug, PartialEq, Eq)]
pub enum Item {
    Constant(i32),
    Variable(u8),
    Operator(Operator),
}

/// A part of the script's items, with what question 17 asks for.
#[derive(Clone, Copy, Debug, PartialEq, Eq)]
pub struct Expression {
    from: u16,
    to: u16,
    /// The most parentheses that are open together.
    pub depth: u16,
    pub operators: u16,
}

impl Expression {
    /// Question 17.
    pub fn measured(self) -> bool {
        self.depth <= DEPTH_LIMIT && self.operators <= OPERATOR_LIMIT
    }

    #[inline]
    pub fn items(self, items: &[Item]) -> &[Item] {
        &items[self.from as usize..self.to as usize]
    }
}

/// What waits for the end of its right operand, or for its closing parenthesis.
enum Waiting {
    Operator(Operator),
    Parenthesis,
}

/// Where the digits from `at` on end.
fn digits_end(word: &[u8], at: usize) -> usize {
    at + word[at..].iter().take_while(|byte| byte.is_ascii_digit()).count()
}

/// Question 3 of an operand, which is a constant, a variable or an expression; its items are put behind those that are there.
pub fn operand(word: &[u8], items: &mut Vec<Item>) -> Option<Operand> {
    let from = items.len();
    let mut waiting = Vec::new();
    let (mut open, mut depth, mut operators) = (0, 0, 0);
    let mut at = 0;
    loop {
        // A factor is due; a `-` here begins a constant.
        match word.get(at)? {
            b'(' => {
                waiting.push(Waiting::Parenthesis);
                open += 1;
                depth = depth.max(open);
                at += 1;
                continue;
            }
            first => {
                let end = digits_end(word, at + 1);
                let factor = &word[at..end];
                items.push(if *first == b'v' { Item::Variable(variable(factor)?) } else { Item::Constant(number(factor)?) });
                at = end;
            }
        }
        while word.get(at) == Some(&b')') {
            while let Waiting::Operator(operator) = waiting.pop()? {
                items.push(Item::Operator(operator));
            }
            open -= 1;
            at += 1;
        }
        let Some(&byte) = word.get(at) else { break };
        let operator = Operator::of(byte)?;
        operators += 1;
        at += 1;
        // Equals from the left: what waits and does not come after this one has its right operand now.
        while let Some(Waiting::Operator(before)) = waiting.last() {
            if before.rank() < operator.rank() {
                break;
            }
            items.push(Item::Operator(*before));
            waiting.pop();
        }
        waiting.push(Waiting::Operator(operator));
    }
    while let Some(last) = waiting.pop() {
        match last {
            Waiting::Operator(operator) => items.push(Item::Operator(operator)),
            Waiting::Parenthesis => return None,
        }
    }
    if operators == 0 && depth == 0 {
        return match items.pop()? {
            Item::Constant(c) => Some(Operand::Constant(c)),
            Item::Variable(v) => Some(Operand::Variable(v)),
            Item::Operator(_) => None,
        };
    }
    Some(Operand::Expression(Expression { from: from as u16, to: items.len() as u16, depth, operators }))
}

/// What the items come to, or None if an operator's result is None; `items` are those of a measured expression.
#[inline]
pub fn fold<T: Copy + Default>(
    items: &[Item],
    constant: impl Fn(i32) -> T,
    variable: impl Fn(u8) -> T,
    join: impl Fn(Operator, T, T) -> Option<T>,
) -> Option<T> {
    let mut operands = [T::default(); OPERANDS];
    let mut count = 0;
    for item in items {
        match *item {
            Item::Operator(operator) => {
                count -= 1;
                operands[count - 1] = join(operator, operands[count - 1], operands[count])?;
                continue;
            }
            Item::Constant(c) => operands[count] = constant(c),
            Item::Variable(v) => operands[count] = variable(v),
        }
        count += 1;
    }
    Some(operands[0])
}

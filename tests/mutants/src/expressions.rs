//! Change 8's mistakes. Those of reading are made in the text: it is rewritten to what the mistake takes it for.

use reference::analyse::Wide;
use reference::expression::{operand, Expression, Operator};
use reference::read::{Kind, Loop, Operand, Row, Script};

/// The text with other words in the place of some operands.
pub fn rewritten(file: &[u8], word: impl Fn(&str) -> Option<String>) -> Vec<u8> {
    let Ok(text) = std::str::from_utf8(file) else { return file.to_vec() };
    let mut lines = Vec::new();
    for line in text.split('\n') {
        let mut words: Vec<String> = line.split(' ').map(String::from).collect();
        let places: &[usize] = match (words[0].as_str(), words.len()) {
            ("row=set", 3) => &[2],
            ("row=while" | "row=do", 4) => &[3],
            ("row=for", 7) => &[2, 4],
            _ => &[],
        };
        for &at in places {
            if let Some(other) = word(&words[at]) {
                words[at] = other;
            }
        }
        lines.push(words.join(" "));
    }
    let other = lines.join("\n").into_bytes();
    if other.len() > 16_384 { file.to_vec() } else { other }
}

fn expression(word: &str) -> Option<Expression> {
    match operand(word.as_bytes(), &mut Vec::new())? {
        Operand::Expression(e) => Some(e),
        Operand::Constant(_) | Operand::Variable(_) => None,
    }
}

/// Whether the byte at a place is an operator, and not a sign.
fn is_operator(text: &[u8], at: usize) -> bool {
    b"+-*".contains(&text[at]) && at > 0 && (text[at - 1].is_ascii_digit() || text[at - 1] == b')')
}

/// Parentheses round the sums between times: `a+b*c` becomes `(a+b)*(c)`.
pub fn plus_before_times(word: &str) -> Option<String> {
    expression(word).filter(|e| e.measured())?;
    let inside: String = word.chars().map(|c| match c {
        '(' => "((".into(),
        ')' => "))".into(),
        '*' => ")*(".into(),
        c => c.to_string(),
    }).collect();
    let other = format!("({inside})");
    expression(&other).filter(|e| e.measured()).map(|_| other)
}

/// Parentheses from every plus and minus to the end: `a-b+c` becomes `a-(b+(c))`.
pub fn equals_from_the_right(word: &str) -> Option<String> {
    expression(word).filter(|e| e.measured())?;
    let bytes = word.as_bytes();
    let mut other = String::new();
    // How many to close at the end of each part that is open.
    let mut closing = vec![0];
    for at in 0..bytes.len() {
        if bytes[at] == b')' {
            other += &")".repeat(closing.pop()?);
        }
        other.push(bytes[at] as char);
        if bytes[at] == b'(' {
            closing.push(0);
        } else if is_operator(bytes, at) && bytes[at] != b'*' {
            other.push('(');
            *closing.last_mut()? += 1;
        }
    }
    other += &")".repeat(closing.pop()?);
    expression(&other).filter(|e| e.measured()).map(|_| other)
}

/// A minus before a variable or a parenthesis, as if it were taken from 0.
pub fn minus_before_all(word: &str) -> Option<String> {
    if operand(word.as_bytes(), &mut Vec::new()).is_some() {
        return None;
    }
    let bytes = word.as_bytes();
    let mut other = String::new();
    for at in 0..bytes.len() {
        if bytes[at] == b'-' && !is_operator(bytes, at) && matches!(bytes.get(at + 1), Some(b'v' | b'(')) {
            other.push('0');
        }
        other.push(bytes[at] as char);
    }
    expression(&other).map(|_| other)
}

/// `(v1)` as `v1`.
pub fn bare(word: &str) -> Option<String> {
    let inner = word.strip_prefix("(v")?.strip_suffix(')')?;
    inner.parse::<u8>().ok().map(|v| format!("v{v}"))
}

/// 9 parentheses, which are passed here.
pub fn nine(word: &str) -> Option<String> {
    expression(word).filter(|e| e.depth == 9 && e.operators <= 15).map(|_| "0".into())
}

/// 16 operators.
pub fn sixteen(word: &str) -> Option<String> {
    expression(word).filter(|e| e.depth <= 8 && e.operators == 16).map(|_| "0".into())
}

fn line_of(file: &[u8], line: u64) -> &[u8] {
    file.split(|&byte| byte == b'\n').nth(line as usize - 1).unwrap_or_default()
}

/// Whether a word of the line is too long for question 17, whatever its shape.
pub fn too_long(file: &[u8], line: u64) -> bool {
    line_of(file, line).split(|&byte| byte == b' ').any(|word| {
        let (mut open, mut most) = (0, 0);
        for &byte in word {
            open += (byte == b'(') as i32 - (byte == b')') as i32;
            most = most.max(open);
        }
        most > 8 || (0..word.len()).filter(|&at| is_operator(word, at)).count() > 15
    })
}

/// Whether the line has a number past ±L that is not a variable's.
pub fn past_the_limits(file: &[u8], line: u64) -> bool {
    let text = line_of(file, line);
    let digits = text.split(|byte| !byte.is_ascii_digit() && *byte != b'v');
    digits.filter(|digits| digits.first() != Some(&b'v')).any(|digits| digits.len() > 10 || digits.len() == 10 && digits > &b"1000000000"[..])
}

/// The line of a row whose expressions have more than 15 operators together.
pub fn together(script: &Script) -> Option<u64> {
    let operators = |row: &Row| -> u32 {
        row.operands().map(|x| if let Operand::Expression(e) = x { e.operators as u32 } else { 0 }).sum()
    };
    let row = script.rows.iter().position(|row| operators(row) > 15)?;
    Some((4 + script.vars + row) as u64)
}

/// The range by two of the four results: low with low, high with high.
pub fn two_of_four(operator: Operator, left: Wide, right: Wide) -> Wide {
    let ends = [0, 1].map(|end| operator.apply(left[end], right[end]).clamp(-1_000_000_000, 1_000_000_000));
    [ends[0].min(ends[1]), ends[0].max(ends[1])]
}

/// All four, but none of them drawn back before the end.
pub fn not_drawn_back(operator: Operator, left: Wide, right: Wide) -> Wide {
    let result = |l: i64, r: i64| match operator {
        Operator::Plus => l.saturating_add(r),
        Operator::Minus => l.saturating_sub(r),
        Operator::Times => l.saturating_mul(r),
    };
    let all = [result(left[0], right[0]), result(left[0], right[1]), result(left[1], right[0]), result(left[1], right[1])];
    [all.into_iter().min().unwrap(), all.into_iter().max().unwrap()]
}

/// Whether the expression of a `set`, a while or a do goes past ±L with this store: as a whole, or anywhere in it.
pub fn goes_past(script: &Script, row: usize, store: &[i32], whole: bool) -> bool {
    let past = |value: i128| value.abs() > 1_000_000_000;
    let x = match script.rows.get(row) {
        Some(Row::Set { x, .. }) => x,
        Some(Row::Loop(Loop { kind: Kind::While | Kind::Do, limit, .. })) => limit,
        _ => return false,
    };
    let Operand::Expression(e) = x else { return false };
    let inside = std::cell::Cell::new(false);
    let value = reference::expression::fold(
        e.items(&script.items),
        |c| c as i128,
        |v| store[v as usize] as i128,
        |operator, l, r| {
            let value = match operator {
                Operator::Plus => l.saturating_add(r),
                Operator::Minus => l.saturating_sub(r),
                Operator::Times => l.saturating_mul(r),
            };
            inside.set(inside.get() || past(value));
            Some(value)
        },
    );
    if whole { value.is_some_and(past) } else { inside.get() }
}

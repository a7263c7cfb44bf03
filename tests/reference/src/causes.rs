//! What docs/PROGRAMS.md says of the one cause of a refusal by 3: read from the left, the first word that is not what its place wants.

/// The lines of a script file.
#[derive(Clone, Copy, PartialEq)]
pub enum Kind {
    Script,
    Vars,
    Range,
    Rows,
    Row,
}

fn number(word: &[u8]) -> bool {
    let digits = word.strip_prefix(b"-").unwrap_or(word);
    let plain = !digits.is_empty() && digits.iter().all(u8::is_ascii_digit);
    plain && (digits[0] != b'0' || word == b"0")
}

fn variable(word: &[u8]) -> bool {
    word.first() == Some(&b'v') && word.get(1) != Some(&b'-') && number(&word[1..])
}

fn mark(b: &u8) -> bool {
    b"()*+-".contains(b)
}

/// The byte where a word is no longer the beginning of an expression; none if it is one.
fn broken(word: &[u8]) -> Option<usize> {
    let (mut at, mut open, mut due) = (0, 0, true);
    while at < word.len() {
        let b = word[at];
        if !due {
            match b {
                b'+' | b'-' | b'*' => due = true,
                b')' if open > 0 => open -= 1,
                _ => return Some(at),
            }
            at += 1;
        } else if b == b'(' {
            open += 1;
            at += 1;
        } else {
            let end = at + 1 + word[at + 1..].iter().position(mark).unwrap_or(word.len() - at - 1);
            if !number(&word[at..end]) && !variable(&word[at..end]) {
                return Some(at);
            }
            (at, due) = (end, false);
        }
    }
    (due || open > 0).then_some(word.len())
}

/// What a word may be asked to be.
#[derive(Clone, Copy, PartialEq)]
enum Want {
    Name,
    Number,
    One,
    Variable,
    Comparison,
    Ordered,
    Expression,
    Step,
    Nothing,
}

const NAMES: [&str; 14] = ["set", "add", "sub", "mul", "div", "cue", "off", "pick", "else", "end", "while", "do", "for", "hold"];

impl Want {
    fn fits(self, word: &[u8]) -> bool {
        let one_of = |words: &[&str]| words.iter().any(|w| w.as_bytes() == word);
        match self {
            Want::Name => one_of(&NAMES),
            Want::Number => number(word),
            Want::One => word == b"1",
            Want::Variable => variable(word),
            Want::Comparison => one_of(&["<", "<=", ">", ">=", "==", "!="]),
            Want::Ordered => one_of(&["<", "<=", ">", ">="]),
            Want::Expression => broken(word).is_none(),
            Want::Step => one_of(&["add", "sub", "mul", "div"]),
            Want::Nothing => false,
        }
    }
}

fn shape(name: &[u8]) -> Vec<Want> {
    use Want::*;
    let rest: &[Want] = match name {
        b"set" => &[Variable, Expression],
        b"add" | b"sub" | b"mul" | b"div" => &[Variable, Number],
        b"cue" => &[Number],
        b"off" => &[Variable, Variable, Ordered, Number],
        b"while" | b"do" => &[Variable, Comparison, Expression],
        b"for" => &[Variable, Expression, Comparison, Expression, Step, Number],
        b"hold" => &[Variable],
        _ => &[],
    };
    [&[Name], rest].concat()
}

fn comment(text: &[u8]) -> bool {
    text.starts_with(b"#") || text.starts_with(b"//")
}

fn zero(word: &[u8]) -> bool {
    word.len() > 1 && word[0] == b'0' && word[1].is_ascii_digit()
}

const SPACE: &str = "a space too many: one stands between words, none before the key";
const MISSING: &str = "a word is missing here; wanted is";
const TAB: &str = "a tab; one space stands between words";

/// A word that is not what is wanted: its byte and the words of its fault.
fn fault(want: Want, word: &[u8], at: usize, last: bool) -> (usize, String) {
    if word.is_empty() {
        return if last { (at - 1, "a space after the last word".into()) } else { (at, SPACE.into()) };
    }
    if let Some(odd) = word.iter().position(|b| !(b'!'..=b'~').contains(b)) {
        let text = match word[odd] {
            b'\t' => TAB,
            b'\r' => "a carriage return; a line ends in LF alone, not in CR LF",
            _ => "a byte that is not plain ASCII",
        };
        return (at + odd, text.into());
    }
    if comment(word) {
        return (at, "a comment; a script has none".into());
    }
    if want == Want::Nothing {
        return (at, "a word too many".into());
    }
    if matches!(want, Want::Number | Want::One | Want::Variable | Want::Expression) {
        if word[0] == b'+' {
            return (at, "a number has no +".into());
        }
        let signed = word[0] == b'-' || word[0] == b'v';
        if zero(word) || word == b"-0" || signed && zero(&word[1..]) {
            return (at + signed as usize, "a number has no leading zero, and 0 no minus".into());
        }
    }
    match want {
        Want::Expression => (at + broken(word).expect("no expression"), "the expression breaks here".into()),
        Want::Name => (at, "an unknown word; wanted is".into()),
        _ => (at, "another word stands here; wanted is".into()),
    }
}

/// The cause of a line of a kind, and the byte, from 0; `lf`: whether an LF ends it. None if the line has its shape.
pub fn cause(kind: Kind, line: &[u8], lf: bool) -> Option<(usize, String)> {
    let (key, mut wants) = match kind {
        Kind::Script => ("script=", vec![Want::One]),
        Kind::Vars => ("vars=", vec![Want::Number]),
        Kind::Range => ("range=", vec![Want::Number, Want::Number]),
        Kind::Rows => ("rows=", vec![Want::Number]),
        Kind::Row => ("row=", vec![]),
    };
    let Some(rest) = line.strip_prefix(key.as_bytes()) else {
        let text = match line {
            [] => "an empty line; a script has none".into(),
            [0xEF, 0xBB, 0xBF, ..] => "a byte order mark stands before the first key".into(),
            _ if comment(line) => "a comment; a script has none".into(),
            [b' ', ..] => SPACE.into(),
            [b'\t', ..] => TAB.into(),
            _ => {
                let same = key.bytes().zip(line).take_while(|(k, b)| k == *b).count();
                return Some((same, format!("the line is to begin with {key}")));
            }
        };
        return Some((0, text));
    };
    let words: Vec<&[u8]> = rest.split(|b| *b == b' ').collect();
    if kind == Kind::Row {
        wants = shape(words[0]);
    }
    if rest.is_empty() {
        return Some((line.len(), MISSING.into()));
    }
    let mut at = key.len();
    for (k, word) in words.iter().enumerate() {
        let want = wants.get(k).copied().unwrap_or(Want::Nothing);
        if !want.fits(word) {
            return Some(fault(want, word, at, k + 1 == words.len()));
        }
        at += word.len() + 1;
    }
    if words.len() < wants.len() {
        return Some((line.len(), MISSING.into()));
    }
    (!lf).then(|| (line.len(), "no LF ends the line; the last line has one too".into()))
}

//! Change 8: expressions in the place of operands, mostly of the same value; one of a file is broken now and then.

use crate::rng::Rng;
use crate::script::{distance, value, within, Builder, Text, Way};

const L: i64 = 1_000_000_000;
/// Question 17's limits.
const OPERATORS: usize = 15;
const DEPTH: usize = 8;

#[derive(Clone, Copy, PartialEq)]
enum Broken {
    Nothing,
    Parentheses,
    Operators,
    Constant,
    Variable,
    Shape,
}

/// Wrong shapes; `v` is a variable.
const SHAPES: [&str; 30] = [
    "-v", "-v+1", "-(1)", "2*-v", "1--0", "1---1", "--1", "+1", "1+", "1-", "2*", "*2", "1++1", "1**2", "1/2", "()", "(1", "1)", "((1)", "(1))", "1(2)",
    "(1)2", "(1)(2)", "2v", "vv", "01+1", "1+01", "1 + 1", "(1 )", "-(v)+1",
];

/// A tree whose parentheses are those that its meaning needs, and some more.
enum Tree {
    Leaf(String),
    Node(char, Box<Tree>, Box<Tree>),
    Parenthesis(Box<Tree>),
}

impl Tree {
    fn rank(&self) -> usize {
        match self {
            Tree::Node('*', ..) => 1,
            Tree::Node(..) => 0,
            Tree::Leaf(_) | Tree::Parenthesis(_) => 2,
        }
    }

    fn text(&self) -> String {
        let side = |tree: &Tree, least| if tree.rank() < least { format!("({})", tree.text()) } else { tree.text() };
        match self {
            Tree::Leaf(word) => word.clone(),
            // The right one is in parentheses if it is an equal.
            Tree::Node(operator, left, right) => format!("{}{operator}{}", side(left, self.rank()), side(right, self.rank() + 1)),
            Tree::Parenthesis(inner) => format!("({})", inner.text()),
        }
    }
}

fn leaf(n: i64) -> Tree {
    Tree::Leaf(n.to_string())
}

fn wrapped(rng: &mut Rng, tree: Tree, percent: usize) -> Tree {
    if rng.chance(percent) { Tree::Parenthesis(tree.into()) } else { tree }
}

/// A tree of the value n with about so many operators; no part of it is past ±L.
fn worth(rng: &mut Rng, n: i64, operators: usize) -> Tree {
    if operators == 0 {
        return wrapped(rng, leaf(n), 15);
    }
    let left = rng.below(operators);
    let right = operators - 1 - left;
    let k = if rng.chance(80) { rng.between(-9, 9) } else { value(rng) };
    let tree = match rng.below(3) {
        0 if (n - k).abs() <= L => Tree::Node('+', worth(rng, n - k, left).into(), worth(rng, k, right).into()),
        1 if (n + k).abs() <= L => Tree::Node('-', worth(rng, n + k, left).into(), worth(rng, k, right).into()),
        _ if operators == 1 => Tree::Node('*', leaf(n).into(), leaf(1).into()),
        _ => {
            // Twice the rig plus two.
            let factor = rng.one_of(&[1, 2, 2, 3, -1, -2, 7]);
            let (quotient, rest) = (n.div_euclid(factor), n.rem_euclid(factor));
            let product = Tree::Node('*', leaf(factor).into(), worth(rng, quotient, operators - 2).into());
            Tree::Node('+', product.into(), leaf(rest).into())
        }
    };
    wrapped(rng, tree, 12)
}

/// Any tree over constants and variables, often with results past ±L.
fn any(rng: &mut Rng, vars: usize, operators: usize) -> Tree {
    if operators == 0 {
        let word = if vars > 0 && rng.chance(60) { format!("v{}", rng.below(vars)) } else { value(rng).to_string() };
        let tree = Tree::Leaf(word);
        return wrapped(rng, tree, 10);
    }
    let left = rng.below(operators);
    let operator = rng.one_of(&['+', '-', '*']);
    let tree = Tree::Node(operator, any(rng, vars, left).into(), any(rng, vars, operators - 1 - left).into());
    wrapped(rng, tree, 10)
}

/// Past ±L inside for most values of the variable, and not at the end.
fn past_inside(rng: &mut Rng, v: usize) -> String {
    let x = rng.one_of(&["1000000000+v-1000000000", "v-1000000000+1000000000", "v*1000000000*0", "0*(v+v+v+v)", "v*v*v-v*v*v", "(v-1000000000)*(v-v)", "v*7-v*6"]);
    x.replace('v', &format!("v{v}"))
}

/// So many operators that change nothing.
fn lengthened(rng: &mut Rng, word: &str, operators: usize) -> String {
    let mut text = word.to_string();
    for _ in 0..operators {
        text += rng.one_of(&["+0", "-0", "*1"]);
    }
    text
}

fn nested(word: &str, pairs: usize) -> String {
    format!("{}{word}{}", "(".repeat(pairs), ")".repeat(pairs))
}

fn operators(rng: &mut Rng) -> usize {
    match rng.below(10) {
        0..=6 => 1 + rng.below(3),
        7 | 8 => 1 + rng.below(7),
        _ => OPERATORS,
    }
}

/// An expression of the operand's value.
fn same(rng: &mut Rng, word: &str) -> String {
    let text = match (word.parse::<i64>(), rng.below(12)) {
        (_, 0) => nested(word, 1),
        (_, 1) => nested(word, 1 + rng.below(DEPTH)),
        (_, 2) => nested(word, DEPTH),
        (_, 3) => lengthened(rng, word, OPERATORS),
        (Ok(n), _) => {
            let operators = operators(rng);
            worth(rng, n, operators).text()
        }
        (Err(_), 4) => format!("2*{word}-{word}"),
        (Err(_), 5) => {
            let k = rng.between(-9, 9);
            format!("{word}-{k}+{k}")
        }
        (Err(_), 6) => format!("0+{word}"),
        (Err(_), 7) => format!("1*({word})"),
        (Err(_), _) => {
            let operators = 1 + rng.below(3);
            lengthened(rng, word, operators)
        }
    };
    if deepest(&text) > DEPTH { nested(word, 1) } else { text }
}

fn deepest(text: &str) -> usize {
    let (mut open, mut most) = (0, 0);
    for byte in text.bytes() {
        open += (byte == b'(') as usize;
        open -= (byte == b')') as usize;
        most = open.max(most);
    }
    most
}

fn broken(rng: &mut Rng, word: &str, vars: usize, broken: Broken) -> String {
    match broken {
        Broken::Nothing => same(rng, word),
        Broken::Parentheses => match rng.below(6) {
            0..=2 => nested(word, DEPTH + 1),
            3 => format!("{}+{word}", nested("0", DEPTH + 1)),
            4 => format!("{}*1", nested(word, DEPTH + 1 + rng.below(20))),
            _ => format!("1{}", nested(word, DEPTH + 1)),
        },
        Broken::Operators => match rng.below(6) {
            0..=2 => lengthened(rng, word, OPERATORS + 1),
            3 => {
                let operators = OPERATORS + 1 + rng.below(20);
                lengthened(rng, &format!("({word})"), operators)
            }
            // A number past its limits, and a shape that is wrong, on the same line.
            4 => lengthened(rng, "1000000001", OPERATORS + 1),
            _ => format!("{}+", lengthened(rng, word, OPERATORS + 1)),
        },
        Broken::Constant => match rng.below(6) {
            0 => format!("{word}+0*{}", rng.one_of(&[L + 1, -L - 1, 4_294_967_296, 1 << 62])),
            1 => "1000000001-1".into(),
            2 => "-1000000001+1".into(),
            3 => "(1000000001)".into(),
            // 4 before 5.
            4 => "v99*1000000001".into(),
            _ => format!("({word})-18446744073709551617"),
        },
        Broken::Variable => {
            let v = rng.one_of(&[vars, vars, vars + 1, 16, 99, 256, 257]);
            rng.one_of(&["v*0", "1+v", "(v)", "0*v+1", "v-v"]).replace('v', &format!("v{v}"))
        }
        Broken::Shape => {
            let v = if vars > 0 { rng.below(vars) } else { 0 };
            rng.one_of(&SHAPES).replace('v', &format!("v{v}"))
        }
    }
}

/// The places of the operands among a row's words.
fn operands(words: &[String]) -> &'static [usize] {
    match (words[0].as_str(), words.len()) {
        ("set", 3) => &[2],
        ("while" | "do", 4) => &[3],
        ("for", 7) => &[2, 4],
        _ => &[],
    }
}

/// Puts expressions in the place of operands, and a row or two of expressions of any value.
pub fn dress(rng: &mut Rng, text: &mut Text) {
    let share = rng.one_of(&[25, 50, 100]);
    let wrong = if rng.chance(80) {
        Broken::Nothing
    } else {
        rng.one_of(&[Broken::Parentheses, Broken::Operators, Broken::Constant, Broken::Variable, Broken::Shape, Broken::Shape])
    };
    let vars = text.ranges.len();
    let mut breaks = wrong != Broken::Nothing;
    let mut order: Vec<usize> = (0..text.rows.len()).collect();
    if !order.is_empty() {
        let from = rng.below(order.len());
        order.rotate_left(from);
    }
    for row in order {
        let mut words: Vec<String> = text.rows[row].split(' ').map(String::from).collect();
        for &at in operands(&words) {
            // What the other changes need bare is left alone more often: variables, and starts of loops that go by one.
            let needed = words[at].starts_with('v') || at == 2 && words.get(4).is_some_and(|limit| limit.starts_with('v'));
            let chance = if needed { share / 4 } else { share };
            if breaks {
                words[at] = broken(rng, &words[at], vars, wrong);
                breaks = false;
            } else if rng.chance(chance) {
                words[at] = if rng.chance(4) {
                    let operators = operators(rng);
                    let text = any(rng, vars, operators).text();
                    if deepest(&text) > DEPTH { "(0)".into() } else { text }
                } else {
                    same(rng, &words[at])
                };
            }
        }
        text.rows[row] = words.join(" ");
    }
    if vars > 0 && text.rows.len() < 256 && rng.chance(45) {
        let v = rng.below(vars);
        let x = if rng.chance(40) {
            past_inside(rng, v)
        } else {
            let operators = operators(rng);
            any(rng, vars, operators).text()
        };
        if deepest(&x) <= DEPTH {
            // At the end, where nothing is read from it, or first of all.
            let at = if rng.chance(70) { text.rows.len() } else { 0 };
            text.rows.insert(at, format!("set v{} {x}", rng.below(vars)));
        }
    }
}

/// The rows that a loop with arithmetic in its head may need without the items in its body.
pub const ROWS: usize = 12;

impl Builder<'_> {
    /// A loop whose limit, and a for's start, is worked out from w, of which more or less is known.
    pub fn arithmetic_limit(&mut self, depth: usize, locked: u32, v: usize, w: usize) {
        self.loops -= 1;
        let most = self.left + self.rows.len();
        self.left -= ROWS;
        let factor: i64 = self.rng.one_of(&[-2, -1, 0, 1, 2, 2, 3, L]);
        let more = self.rng.between(-9, 9);
        let rig = if factor.abs() > 3 { self.rng.between(-2, 2) } else { value(self.rng) / 4 };
        let kind = self.rng.below(12);
        // Of a product or a difference less is known.
        if self.rng.chance(if matches!(kind, 7 | 8) { 20 } else { 75 }) {
            self.rows.push(format!("set v{w} {rig}"));
        }
        let limit = within(within(factor * rig) + more);
        let x = match kind {
            0..=2 => format!("{factor}*v{w}+{more}"),
            3 => format!("{more}+v{w}*{factor}"),
            4 => format!("{more}-{}*v{w}", -factor),
            5 => format!("({more}+{factor}*v{w})"),
            6 => format!("(v{w}+1)*{factor}+{more}-{factor}"),
            7 => format!("v{w}*v{w}+{more}"),
            8 => format!("{}*v{w}+{more}-v{w}", factor.abs() % 4 + 1),
            9 => past_inside(self.rng, w),
            _ => format!("v{w}"),
        };
        let way = self.rng.one_of(&[Way::Up, Way::Up, Way::Down]);
        let compare = if way == Way::Up { self.rng.one_of(&["<", "<="]) } else { self.rng.one_of(&[">", ">="]) };
        let far = distance(self.rng);
        let start = within(if way == Way::Up { limit - far } else { limit + far });
        let large = factor.abs() > 3 || far > 10_000;
        let c = if large { self.rng.one_of(&[100_000_000, 500_000_000, 1_000_000_000]) } else { self.rng.between(1, 5) };
        let step = format!("{} {c}", if way == Way::Up { "add" } else { "sub" });
        let body_locked = locked | 1 << v | 1 << w;
        let form = self.rng.one_of(&["while", "do", "for", "for"]);
        match form {
            "for" => {
                let start = match self.rng.below(4) {
                    0 => format!("v{w}*{factor}"),
                    1 => format!("v{v}+{}", self.rng.between(0, 9)),
                    2 => format!("({start})"),
                    _ => start.to_string(),
                };
                self.rows.push(format!("for v{v} {start} {compare} {x} {step}"));
            }
            word => {
                self.rows.push(format!("set v{v} {start}"));
                self.rows.push(format!("{word} v{v} {compare} {x}"));
            }
        }
        self.few(depth - 1, body_locked, &[v, w]);
        if self.rng.chance(if self.careless > 0 { 30 } else { 8 }) {
            // The limit changes.
            let row = self.rng.one_of(&["add v 1", "sub v 1", "add v 0", "mul v 2", "set v 3", "set v (v)"]);
            self.rows.push(row.replace('v', &format!("v{w}")));
        }
        if form != "for" {
            let (op, c) = step.split_once(' ').unwrap();
            self.rows.push(format!("{op} v{v} {c}"));
        }
        self.few(depth - 1, body_locked, &[v, w]);
        self.rows.push("end".into());
        self.left = most - self.rows.len();
    }
}

/// A constant or sum of exactly so many bytes, 1 to 144.
fn of_length(bytes: usize) -> String {
    let pieces = (bytes - 1) / 9;
    format!("{}{}", "10000000+".repeat(pieces), "1".repeat(bytes - 9 * pieces))
}

/// About as long as a file may be: rows of long expressions, or one expression that is much too long.
pub fn long(rng: &mut Rng) -> Vec<u8> {
    let mut text = Text { ranges: vec![(-9, 9); 16], rows: vec![] };
    let size = 16_384 + rng.below(3) - 1;
    if rng.chance(40) {
        let room = size - Text { rows: vec!["set v0 ".into()], ..text }.bytes().len();
        let x = match rng.below(7) {
            0 => "(".repeat(room),
            1 => nested("1", room / 2),
            2 => format!("1{}", "+1".repeat(room / 2)),
            3 => format!("{}1", "1*".repeat(room / 2)),
            4 => ")".repeat(room),
            5 => format!("1{}", "-".repeat(room - 1)),
            _ => format!("(1{}-1)", "0".repeat(room - 5)),
        };
        return Text { ranges: vec![(-9, 9); 16], rows: vec![format!("set v0 {x}")] }.bytes();
    }
    let factors = ["v15", "-1000000000", "1000000000", "(v14)", "-999999999", "(-1000000000)", "0"];
    loop {
        let count = if rng.chance(50) { OPERATORS } else { rng.below(OPERATORS + 1) };
        let mut x = rng.one_of(&factors).to_string();
        for _ in 0..count {
            x += rng.one_of(&["+", "-", "*"]);
            x += rng.one_of(&factors);
        }
        text.rows.push(format!("set v{} {}", rng.below(16), if rng.chance(30) { nested(&x, DEPTH - 1) } else { x }));
        let left = size as isize - text.bytes().len() as isize;
        if left < 160 {
            text.rows.pop();
            break;
        }
    }
    // The last rows fill it up.
    loop {
        text.rows.push("set v15 ".into());
        let left = size - text.bytes().len();
        let last = text.rows.last_mut().expect("a row");
        if left <= 144 {
            *last += &of_length(left);
            return text.bytes();
        }
        *last += &of_length(if left < 288 { left / 2 - 10 } else { 144 });
    }
}

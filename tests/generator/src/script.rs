//! Whole script files.

use crate::{closing, copied, expressions, held, levels, triangles};
use crate::rng::Rng;

const L: i64 = 1_000_000_000;

pub struct Text {
    pub ranges: Vec<(i64, i64)>,
    pub rows: Vec<String>,
}

impl Text {
    pub fn bytes(&self) -> Vec<u8> {
        let mut text = format!("script=1\nvars={}\n", self.ranges.len());
        for (lo, hi) in &self.ranges {
            text += &format!("range={lo} {hi}\n");
        }
        text += &format!("rows={}\n", self.rows.len());
        for row in &self.rows {
            text += "row=";
            text += row;
            text += "\n";
        }
        text.into_bytes()
    }
}

pub fn value(rng: &mut Rng) -> i64 {
    match rng.below(20) {
        0..=10 => rng.between(-12, 12),
        11..=13 => rng.between(-1_000, 1_000),
        14 => rng.between(-1_000_000, 1_000_000),
        15 => L - rng.between(0, 20),
        16 => -L + rng.between(0, 20),
        17 => rng.one_of(&[L, -L, L - 1, 1 - L, 0, 1, -1]),
        _ => rng.between(-L, L),
    }
}

/// A distance from start to limit.
pub fn distance(rng: &mut Rng) -> i64 {
    match rng.below(20) {
        0..=12 => rng.between(0, 12),
        13..=16 => rng.between(0, 300),
        17 => rng.between(0, 100_000),
        18 => rng.between(-5, 0),
        _ => rng.between(0, 2 * L),
    }
}

fn small_step(rng: &mut Rng) -> i64 {
    match rng.below(12) {
        0..=4 => 1,
        5..=9 => rng.between(1, 7),
        10 => rng.between(1, 1_000),
        _ => rng.one_of(&[L, L - 1, 500_000_000, 100_000, 999]),
    }
}

pub fn factor(rng: &mut Rng) -> i64 {
    match rng.below(10) {
        0..=4 => 2,
        5..=7 => rng.between(2, 10),
        8 => rng.between(2, 50_000),
        _ => rng.one_of(&[L, L - 1, 31_623, 1_000]),
    }
}

pub fn within(n: i64) -> i64 {
    n.clamp(-L, L)
}

fn range(rng: &mut Rng) -> (i64, i64) {
    let lo = value(rng);
    match rng.below(8) {
        0..=2 => (lo, lo),
        3..=4 => (lo, within(lo + rng.between(0, 9))),
        5 => (-L, L),
        6 => (within(lo - rng.between(0, 1_000_000)), within(lo + rng.between(0, 1_000_000))),
        _ => {
            let hi = value(rng);
            (lo.min(hi), lo.max(hi))
        }
    }
}

pub struct Builder<'r> {
    pub rng: &'r mut Rng,
    vars: usize,
    pub rows: Vec<String>,
    /// Rows and loops that may still be added.
    pub left: usize,
    pub loops: usize,
    /// How often, of a hundred, a choice is made without care.
    pub careless: usize,
}

#[derive(Clone, Copy, PartialEq)]
pub enum Way {
    Up,
    Down,
    Grow,
    Shrink,
}

impl Builder<'_> {
    fn push(&mut self, row: String) {
        if self.left > 0 {
            self.left -= 1;
            self.rows.push(row);
        }
    }

    /// A variable outside `locked`, if there is one.
    pub fn free(&mut self, locked: u32) -> Option<usize> {
        if self.vars == 0 {
            return None;
        }
        if self.rng.chance(self.careless) {
            return Some(self.rng.below(self.vars));
        }
        let free: Vec<usize> = (0..self.vars).filter(|v| locked & (1 << v) == 0).collect();
        if free.is_empty() {
            None
        } else {
            Some(self.rng.one_of(&free))
        }
    }

    /// There is one.
    pub fn any_variable(&mut self) -> usize {
        self.rng.below(self.vars)
    }

    fn operand(&mut self) -> String {
        if self.vars > 0 && self.rng.chance(35) {
            format!("v{}", self.rng.below(self.vars))
        } else {
            value(self.rng).to_string()
        }
    }

    pub fn arithmetic(&mut self) -> String {
        let rng = &mut *self.rng;
        match rng.below(12) {
            0..=3 => format!("add {}", small_step(rng)),
            4..=6 => format!("sub {}", small_step(rng)),
            7 => format!("mul {}", factor(rng)),
            8 => format!("div {}", factor(rng)),
            9 => rng.one_of(&["add 0", "sub 0", "mul 1", "div 1"]).to_string(),
            10 => format!("{} {}", rng.one_of(&["add", "sub"]), rng.between(0, L)),
            _ => format!("{} {}", rng.one_of(&["mul", "div"]), rng.between(1, L)),
        }
    }

    fn plain(&mut self, locked: u32) {
        let roll = self.rng.below(10);
        let off = self.rng.chance(5);
        let row = match self.free(locked) {
            Some(v) if off => self.off(v),
            Some(v) if roll < 3 => format!("set v{v} {}", self.operand()),
            Some(v) if roll < 8 => {
                let row = self.arithmetic();
                let (op, c) = row.split_once(' ').unwrap();
                format!("{op} v{v} {c}")
            }
            _ => format!("cue {}", self.rng.one_of(&[0, 7, 8, 9_999, 123])),
        };
        self.push(row);
    }

    fn pick(&mut self, depth: usize, locked: u32) {
        self.left -= 2;
        self.rows.push("pick".into());
        let items = self.rng.below(3);
        self.block(depth - 1, locked, items);
        if self.rng.chance(60) && self.left > 0 {
            self.push("else".into());
            let items = self.rng.below(3);
            self.block(depth - 1, locked, items);
        }
        self.rows.push("end".into());
    }

    /// One move of v, alone or in a pick.
    pub fn moved(&mut self, v: usize, way: Way, depth: usize) {
        let one = |rng: &mut Rng| match way {
            Way::Up => format!("add v{v} {}", small_step(rng)),
            Way::Down => format!("sub v{v} {}", small_step(rng)),
            Way::Grow => format!("mul v{v} {}", factor(rng)),
            Way::Shrink => format!("div v{v} {}", factor(rng)),
        };
        if depth > 0 && self.left >= 6 && self.rng.chance(25) {
            self.left -= 2;
            self.rows.push("pick".into());
            let still = self.rng.chance(25);
            let row = match (still, self.rng.below(3)) {
                (true, 0) => "cue 5".into(),
                (true, 1) => format!("div v{v} 1"),
                (true, _) => format!("sub v{v} 0"),
                _ => one(self.rng),
            };
            self.push(row);
            if still {
                // It stands in the first branch, or in both.
                self.push("else".into());
                if self.rng.chance(80) {
                    let row = one(self.rng);
                    self.push(row);
                }
                self.rows.push("end".into());
                if self.rng.chance(80) {
                    let row = one(self.rng);
                    self.push(row);
                }
            } else if self.rng.chance(75) {
                self.push("else".into());
                let row = one(self.rng);
                self.push(row);
                if self.rng.chance(20) {
                    let row = one(self.rng);
                    self.push(row);
                }
                self.rows.push("end".into());
            } else {
                self.rows.push("end".into());
                let row = one(self.rng);
                self.push(row);
            }
            return;
        }
        let row = one(self.rng);
        self.push(row);
        if self.rng.chance(12) {
            // Some of it back, or a standing row.
            let row = match (self.rng.below(3), way) {
                (0, Way::Up) => format!("sub v{v} 1"),
                (0, Way::Down) => format!("add v{v} 1"),
                (1, _) => format!("mul v{v} 1"),
                (2, _) => format!("add v{v} 0"),
                _ => one(self.rng),
            };
            self.push(row);
        }
    }

    /// A loop of one of the change requests, if there is room for it.
    fn requested(&mut self, depth: usize, locked: u32) -> bool {
        if depth == 0 || self.loops == 0 || self.left < copied::ROWS.max(closing::ROWS).max(levels::ROWS).max(expressions::ROWS) {
            return false;
        }
        let Some(v) = self.free(locked) else { return false };
        let Some(w) = self.free(locked | 1 << v).filter(|&w| w != v) else { return false };
        match self.rng.below(13) {
            0..=3 => self.copied(depth, locked, v, w),
            4..=8 => self.closing(depth, locked, v, w),
            9 | 10 => self.levels(depth, locked, v, w),
            _ => self.arithmetic_limit(depth, locked, v, w),
        }
        true
    }

    /// A loop held by a flag, if there is room for it.
    pub fn flagged(&mut self, depth: usize, locked: u32) -> bool {
        if depth == 0 || self.loops == 0 || self.left < held::ROWS {
            return false;
        }
        let Some(flag) = self.free(locked) else { return false };
        let Some(watched) = self.free(locked | 1 << flag).filter(|&w| w != flag) else { return false };
        self.held(depth, locked, flag, watched);
        true
    }

    /// A loop that grows with the one round it, if there is room for them.
    pub fn grown(&mut self, depth: usize, locked: u32) -> bool {
        if depth < triangles::DEPTH || self.loops < triangles::LOOPS || self.rows.len() + triangles::ROWS > 256 {
            return false;
        }
        let Some(v) = self.free(locked) else { return false };
        let Some(w) = self.free(locked | 1 << v).filter(|&w| w != v) else { return false };
        self.triangle(depth, locked, v, w);
        true
    }

    fn looped(&mut self, depth: usize, locked: u32) {
        if self.rng.chance(25) && self.requested(depth, locked)
            || self.rng.chance(10) && self.grown(depth, locked)
            || self.rng.chance(12) && self.flagged(depth, locked)
        {
            return;
        }
        let Some(v) = self.free(locked) else {
            return self.plain(locked);
        };
        self.loops -= 1;
        self.left -= 3;
        let mut spare = 1;
        let way = match self.rng.below(20) {
            0..=8 => Way::Up,
            9..=13 => Way::Down,
            14..=16 => Way::Grow,
            _ => Way::Shrink,
        };
        let compare = match way {
            _ if self.rng.chance(self.careless) => self.rng.one_of(&["<", "<=", ">", ">=", "==", "!="]),
            Way::Up | Way::Down if self.rng.chance(20) => self.rng.one_of(&["==", "!=", "!="]),
            Way::Up | Way::Grow => self.rng.one_of(&["<", "<="]),
            Way::Down | Way::Shrink => self.rng.one_of(&[">", ">="]),
        };
        let c = small_step(self.rng);
        let (start, limit) = match way {
            Way::Up | Way::Down => {
                let limit = value(self.rng);
                let far = if compare == "!=" {
                    let turns = self.rng.between(0, 12);
                    if self.rng.chance(90) { c * turns } else { turns }
                } else {
                    distance(self.rng)
                };
                (within(if way == Way::Up { limit - far } else { limit + far }), limit)
            }
            // Sometimes round 0, where question 12 refuses even a loop that would have no turn.
            Way::Grow if self.rng.chance(6) => (self.rng.between(-1, 2), self.rng.between(-4, 4)),
            Way::Shrink if self.rng.chance(6) => (self.rng.between(-4, 4), self.rng.between(-2, 2)),
            Way::Grow => (self.rng.between(1, 20), value(self.rng).abs()),
            Way::Shrink => (value(self.rng).abs(), self.rng.between(1, 5)),
        };
        let mut body_locked = locked | 1 << v;
        let mut other = None;
        if self.rng.chance(30) {
            let w = self.rng.below(self.vars);
            if w != v || self.rng.chance(self.careless) {
                body_locked |= 1 << w;
                other = Some(w);
            }
        }
        if let (Some(w), true) = (other, self.left > 2 && self.rng.chance(50)) {
            // A known limit in a variable, if it may be assigned here.
            if locked & (1 << w) == 0 {
                self.push(format!("set v{w} {limit}"));
            }
        }
        let limit = other.map_or(limit.to_string(), |w| format!("v{w}"));
        let step = match way {
            Way::Up => format!("add {c}"),
            Way::Down => format!("sub {c}"),
            Way::Grow => format!("mul {}", factor(self.rng)),
            Way::Shrink => format!("div {}", factor(self.rng)),
        };
        let mut move_inside = true;
        match self.rng.below(10) {
            0..=3 => {
                let start = if self.rng.chance(85) { start.to_string() } else { self.operand() };
                let careless = self.rng.chance(self.careless);
                let step = if careless { self.arithmetic() } else { step.clone() };
                self.rows.push(format!("for v{v} {start} {compare} {limit} {step}"));
                move_inside = self.rng.chance(15);
            }
            roll => {
                if self.left > 0 && self.rng.chance(80) {
                    self.push(format!("set v{v} {start}"));
                }
                let word = if roll < 7 { "while" } else { "do" };
                self.rows.push(format!("{word} v{v} {compare} {limit}"));
            }
        }
        let items = self.rng.below(3);
        self.block(depth - 1, body_locked, items);
        if move_inside && !self.rng.chance(self.careless) {
            self.left += spare;
            spare = 0;
            if compare == "!=" || self.rng.chance(40) {
                let (op, c) = step.split_once(' ').unwrap();
                self.push(format!("{op} v{v} {c}"));
            } else {
                self.moved(v, way, depth - 1);
            }
        }
        self.left += spare;
        if self.rng.chance(40) {
            let items = self.rng.below(3);
            self.block(depth - 1, body_locked, items);
        }
        self.rows.push("end".into());
    }

    /// No item or one, or a loop that shows what is known of one of these variables.
    pub fn few(&mut self, depth: usize, locked: u32, known: &[usize]) {
        if self.left > 0 && self.rng.chance(25) {
            self.block(depth, locked, 1);
        }
        self.reader(depth, locked, known);
    }

    /// Now and then a loop whose figure is read from what is known of one of these variables.
    pub fn reader(&mut self, depth: usize, locked: u32, known: &[usize]) {
        if depth == 0 || self.loops == 0 || self.left < 2 || !self.rng.chance(5) {
            return;
        }
        if let Some(u) = self.free(locked) {
            self.loops -= 1;
            self.left -= 2;
            let from = self.rng.one_of(known);
            let head = match self.rng.below(3) {
                0 => format!("for v{u} v{from} < 9 add 100000000"),
                1 => format!("for v{u} 9 < v{from} add 100000000"),
                _ => format!("for v{u} v{from} > -9 sub 100000000"),
            };
            self.rows.extend([head, "end".into()]);
        }
    }

    pub fn block(&mut self, depth: usize, locked: u32, items: usize) {
        for _ in 0..items {
            let roll = self.rng.below(100);
            if roll < 32 && depth > 0 && self.loops > 0 && self.left >= 4 {
                self.looped(depth, locked);
            } else if roll < 46 && depth > 0 && self.left >= 3 {
                self.pick(depth, locked);
            } else {
                self.plain(locked);
            }
        }
    }
}

fn build(rng: &mut Rng, careless: usize) -> Text {
    let vars = match rng.below(10) {
        0 => rng.below(2),
        1..=5 => 1 + rng.below(4),
        6..=8 => 3 + rng.below(8),
        _ => 16,
    };
    let ranges = (0..vars).map(|_| range(rng)).collect();
    let (left, items) = match rng.below(12) {
        0 => (rng.below(4), 4),
        1..=5 => (12, 1 + rng.below(6)),
        6..=9 => (40, 1 + rng.below(12)),
        10 => (120, 20 + rng.below(20)),
        _ => (256, 40 + rng.below(220)),
    };
    let loops = if rng.chance(15) { 16 } else { 1 + rng.below(6) };
    let depth = if rng.chance(30) { 8 } else { 1 + rng.below(4) };
    let mut builder = Builder { rng, vars, rows: Vec::new(), left, loops, careless };
    let requested = builder.rng.below(10);
    if requested < 8 {
        builder.requested(depth, 0);
    }
    if builder.rng.chance(40) {
        builder.loops = builder.loops.max(triangles::LOOPS);
        builder.grown(depth.max(triangles::DEPTH), 0);
    }
    if builder.rng.chance(35) && builder.rows.len() + held::ROWS <= 256 {
        builder.loops = builder.loops.max(1);
        builder.left = builder.left.max(held::ROWS);
        builder.flagged(depth, 0);
    }
    builder.block(depth, 0, items);
    if requested == 8 {
        builder.requested(depth, 0);
    }
    if left == 256 {
        while builder.rows.len() < 256 {
            builder.left = 1;
            builder.plain(0);
        }
    }
    let mut text = Text { ranges, rows: builder.rows };
    if rng.chance(40) {
        expressions::dress(rng, &mut text);
    }
    text
}

/// With loops that are likely to meet change 11's terms.
pub fn reaching(rng: &mut Rng) -> Vec<u8> {
    let vars = 2 + rng.below(5);
    let ranges = (0..vars).map(|_| if rng.chance(80) { (0, rng.between(0, 9)) } else { range(rng) }).collect();
    let mut builder = Builder { rng, vars, rows: Vec::new(), left: 60, loops: 6, careless: 0 };
    if builder.rng.chance(25) {
        let items = 1 + builder.rng.below(2);
        builder.block(2, 0, items);
    }
    for _ in 0..1 + builder.rng.below(2) {
        let (v, u) = (builder.any_variable(), builder.any_variable());
        let depth = 2 + builder.rng.below(3);
        builder.loops = builder.loops.max(1);
        builder.reached(depth, v, u);
    }
    if builder.rng.chance(15) {
        builder.block(2, 0, 1);
    }
    Text { ranges, rows: builder.rows }.bytes()
}

/// Likely to be accepted.
pub fn likely(rng: &mut Rng) -> Vec<u8> {
    if rng.chance(4) {
        return nested(rng);
    }
    build(rng, 0).bytes()
}

/// Right in every line, often refused by questions 8 to 12.
pub fn careless(rng: &mut Rng) -> Vec<u8> {
    let careless = rng.one_of(&[3, 10, 30, 70]);
    build(rng, careless).bytes()
}

/// Short loops in each other, up to 8 deep and 16 in all, with picks between, up to 256 rows.
fn nested(rng: &mut Rng) -> Vec<u8> {
    let mut text = Text { ranges: vec![], rows: vec![] };
    text.ranges = (0..8).map(|_| range(rng)).collect();
    let mut loops = 0;
    for _ in 0..1 + rng.below(2) {
        let depth = if rng.chance(70) { 8 } else { 1 + rng.below(8) };
        for v in 0..depth {
            let far = rng.between(0, 3);
            text.rows.push(match rng.below(8) {
                0 => "pick".into(),
                1 => format!("for v{v} {} > {} sub 1", far, 0),
                2 => format!("for v{v} 1 < {} mul 2", far + 1),
                _ => format!("for v{v} {} <= {} add {}", -far, rng.below(2), 1 + rng.below(2)),
            });
            loops += 1;
            if rng.chance(20) {
                text.rows.push(format!("cue {v}"));
            }
        }
        for _ in 0..depth {
            if rng.chance(20) {
                text.rows.push("cue 5".into());
            }
            text.rows.push("end".into());
        }
    }
    while loops < 16 && rng.chance(80) {
        text.rows.push(format!("for v{} 1 <= {} add 1", rng.below(8), rng.below(4)));
        text.rows.push("end".into());
        loops += 1;
    }
    while text.rows.len() < 256 && rng.chance(99) {
        text.rows.push(format!("add v{} 0", rng.below(8)));
    }
    text.bytes()
}

/// Aimed at questions 2, 6, 7 and 13 and at the limits next to them.
pub fn aimed(rng: &mut Rng) -> Vec<u8> {
    match rng.below(10) {
        0 | 1 => deep(rng),
        2 | 3 => many(rng),
        4 if rng.chance(50) => expressions::long(rng),
        4 => long(rng),
        5 => open(rng),
        _ => slow(rng),
    }
}

/// 7 to 10 blocks in each other.
fn deep(rng: &mut Rng) -> Vec<u8> {
    let depth = 7 + rng.below(4);
    let mut rows = Vec::new();
    let held = rng.below(12);
    for v in 0..depth {
        if v == held {
            rows.extend([format!("hold v{v}"), "add v15 1".into(), format!("off v{v} v15 > 2")]);
            continue;
        }
        rows.push(if rng.chance(50) { "pick".into() } else { format!("for v{v} 1 <= 2 add 1") });
        if rng.chance(20) {
            rows.extend(["pick".to_string(), "else".into(), "end".into()]);
        }
    }
    for _ in 0..depth {
        rows.push("end".into());
    }
    Text { ranges: vec![(0, 1); 16], rows }.bytes()
}

/// 14 to 19 loops.
fn many(rng: &mut Rng) -> Vec<u8> {
    let mut rows = Vec::new();
    let mut depth = 0;
    for _ in 0..14 + rng.below(6) {
        match rng.below(4) {
            0 => rows.push(format!("for v{depth} 3 > 1 sub 1")),
            1 => {
                let watched = depth + 8;
                rows.extend([format!("hold v{depth}"), format!("off v{depth} v{watched} > 1"), format!("add v{watched} 1")]);
            }
            _ => rows.push(format!("for v{depth} 1 <= 2 mul 2")),
        }
        depth += 1;
        while depth == 8 || depth > 0 && rng.chance(60) {
            rows.push("end".into());
            depth -= 1;
        }
    }
    for _ in 0..depth {
        rows.push("end".into());
    }
    Text { ranges: vec![(-5, 1); 16], rows }.bytes()
}

/// About as long as a file may be, by its last line or by one long number.
fn long(rng: &mut Rng) -> Vec<u8> {
    let mut bytes = build(rng, 0).bytes();
    let size = 16_384 + rng.below(5) - 2;
    if rng.chance(50) {
        bytes.resize(size.max(bytes.len()), b'0' + rng.below(10) as u8);
    } else {
        let digits = vec![b'1'; size.saturating_sub(bytes.len()).max(1)];
        let at = bytes.iter().rposition(|b| b.is_ascii_digit()).unwrap();
        bytes.splice(at..at, digits);
    }
    if rng.chance(10) {
        bytes.resize(20_000 + rng.below(50_000), b'\n');
    }
    bytes
}

/// An else or end too many or too few.
fn open(rng: &mut Rng) -> Vec<u8> {
    let mut text = build(rng, 0);
    for _ in 0..1 + rng.below(2) {
        let at = rng.below(text.rows.len() + 1);
        match rng.below(4) {
            0 => text.rows.insert(at, "end".into()),
            1 => text.rows.insert(at, "else".into()),
            2 => text.rows.insert(at, "pick".into()),
            _ => {
                if let Some(at) = text.rows.iter().rposition(|row| row == "end") {
                    text.rows.remove(at);
                }
            }
        }
    }
    text.rows.truncate(256);
    text.bytes()
}

/// Many ticks: round the limit of question 13, or far past it.
fn slow(rng: &mut Rng) -> Vec<u8> {
    let mut rows: Vec<String> = Vec::new();
    match rng.below(4) {
        // The figure is 10^12 − 2, and the cues more; or a turn more.
        0 => {
            let outer = rng.one_of(&[999_998, 999_998, 999_998, 999_997, 999_999]);
            let wrap = rng.below(3);
            if wrap == 1 {
                rows.push("pick".into());
            }
            rows.push(format!("for v0 1 <= {outer} add 1"));
            rows.push("for v1 1 <= 499999 add 1".into());
            rows.extend(["end".to_string(), "end".into()]);
            for _ in 0..rng.below(5) {
                rows.push("cue 1".into());
            }
            if wrap == 1 {
                if rng.chance(50) {
                    rows.push("else".into());
                    rows.push("cue 2".into());
                }
                rows.push("end".into());
            }
        }
        // Loops of up to 2·10^9 turns in each other, some without a turn.
        1 => {
            let depth = 2 + rng.below(7);
            for v in 0..depth {
                rows.push(match rng.below(7) {
                    0 => format!("for v{v} 1 <= 0 add 1"),
                    1 => format!("for v{v} {L} >= -{L} sub 1"),
                    2 => format!("for v{v} 1 <= {} add 1", rng.between(1, L)),
                    3 => format!("for v{v} 1 <= {} add 1", rng.between(1, 1_000)),
                    4 => "pick".into(),
                    _ => format!("for v{v} -{L} <= {L} add {}", 1 + rng.below(2)),
                });
            }
            for _ in 0..depth {
                rows.push("end".into());
            }
        }
        // Parts below the limit whose sum is over it, in the file, a pick or a loop.
        2 => {
            let wrap = rng.below(4);
            match wrap {
                0 => rows.push("pick".into()),
                1 => rows.push("for v2 1 <= 0 add 1".into()),
                2 => rows.push("for v2 1 <= 1 add 1".into()),
                _ => {}
            }
            for _ in 0..1 + rng.below(3) {
                rows.push(format!("for v0 1 <= {} add 1", rng.between(300_000, 700_000)));
                rows.push("for v1 1 <= 499999 add 1".into());
                rows.extend(["end".to_string(), "end".into()]);
                if wrap == 0 && rng.chance(30) && !rows.contains(&"else".to_string()) {
                    rows.push("else".into());
                }
            }
            if wrap < 3 {
                rows.push("end".into());
            }
        }
        _ => {
            let turns = rng.between(900, 1_100);
            rows.push(format!("set v3 {}", rng.between(-L, -L + 9)));
            if rng.chance(50) {
                rows.extend(["hold v4".into(), "off v4 v3 >= 0".to_string()]);
            } else {
                rows.push("while v3 < 0".into());
            }
            rows.push("add v3 1".into());
            for _ in 0..rng.below(250) {
                rows.push("cue 3".into());
            }
            rows.push("end".into());
            rows.push(format!("for v0 1 <= {turns} add 1"));
            rows.push("for v1 -500000000 < 0 add 1".into());
            rows.extend(["end".to_string(), "end".into()]);
            while rows.len() > 256 {
                rows.remove(5);
            }
        }
    }
    Text { ranges: (0..9).map(|_| range(rng)).collect(), rows }.bytes()
}

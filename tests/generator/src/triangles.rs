//! Change 9: a for that grows with the loop round it, with one of the terms broken now and then.

use crate::held;
use crate::script::{Builder, Way};

/// The most rows of these loops without the items in their bodies.
pub const ROWS: usize = 32;
/// The loops and the depth that they need at least.
pub const LOOPS: usize = 2;
pub const DEPTH: usize = 2;

#[derive(Clone, Copy, PartialEq)]
enum Broken {
    Nothing,
    Assigned,
    Standing,
    InAPick,
    InALoop,
    NotExact,
    TwoSteps,
    TooManyTurns,
    Factor,
    Comparison,
    Copied,
    Closing,
    Start,
    Limit,
    InnerFalls,
    InnerGrows,
    InnerEqual,
    InnerWhile,
    /// Not broken: a chase before the inner loop takes what is known of the outer variable.
    NotKnown,
}

const BROKEN: [Broken; 20] = [
    // These are wanted more often.
    Broken::Limit,
    Broken::Limit,
    Broken::Assigned,
    Broken::Standing,
    Broken::InAPick,
    Broken::InALoop,
    Broken::NotExact,
    Broken::TwoSteps,
    Broken::TooManyTurns,
    Broken::Factor,
    Broken::Comparison,
    Broken::Copied,
    Broken::Closing,
    Broken::Start,
    Broken::Limit,
    Broken::InnerFalls,
    Broken::InnerGrows,
    Broken::InnerEqual,
    Broken::InnerWhile,
    Broken::NotKnown,
];

#[derive(Clone, Copy)]
struct Triangle {
    /// Tested in the outer loop.
    v: usize,
    /// Tested in the inner ones.
    w: usize,
    /// Free for one more loop, a limit or a master.
    other: Option<usize>,
    /// None of these, nor what is locked round both.
    locked: u32,
    way: Way,
    broken: Broken,
}

/// The row that does this to a variable.
fn row_of(step: &str, v: usize) -> String {
    let (op, c) = step.split_once(' ').expect("a row and its number");
    format!("{op} v{v} {c}")
}

impl Builder<'_> {
    pub fn triangle(&mut self, depth: usize, locked: u32, v: usize, w: usize) {
        self.loops -= LOOPS;
        let most = self.left + self.rows.len();
        self.left = self.left.saturating_sub(ROWS);
        let chance = if self.careless > 0 { 50 } else { 22 };
        let broken = if self.rng.chance(chance) { self.rng.one_of(&BROKEN) } else { Broken::Nothing };
        let way = if self.rng.chance(65) { Way::Up } else { Way::Down };
        let body_locked = locked | 1 << v | 1 << w;
        let other = self.free(body_locked).filter(|&u| u != v && u != w);
        let mut triangle = Triangle { v, w, other, locked: other.map_or(body_locked, |u| body_locked | 1 << u), way, broken };
        let mut inside = depth - 1;
        let round = match other {
            Some(u) if broken == Broken::Nothing && depth > DEPTH && self.loops > 0 && self.rng.chance(25) => {
                // A loop round both.
                self.loops -= 1;
                inside -= 1;
                triangle.other = None;
                self.rows.push(format!("for v{u} 0 < {} add 1", self.rng.between(0, 4)));
                true
            }
            _ => false,
        };
        let step = self.outer_step(triangle);
        let tested_in_a_for = self.outer_head(triangle, &step);
        self.few(inside, body_locked, &[v]);
        self.before_the_inner(triangle);
        if self.rng.chance(60) && self.rows.len() + ROWS + held::ROWS <= 256 {
            // Room for a hold.
            self.left = self.left.max(held::ROWS);
        }
        self.inner_loops(inside, triangle);
        self.few(inside, body_locked, &[v, w]);
        if !tested_in_a_for {
            self.outer_moves(triangle, &step);
        }
        if let (Broken::Closing, Some(u)) = (broken, other) {
            self.rows.push(format!("{} v{u} 1", if way == Way::Up { "sub" } else { "add" }));
        }
        self.rows.push("end".into());
        if round {
            self.rows.push("end".into());
        }
        self.left = most.saturating_sub(self.rows.len());
    }

    fn outer_step(&mut self, Triangle { way, broken, .. }: Triangle) -> String {
        let (there, factor) = if way == Way::Up { ("add", "mul 2") } else { ("sub", "div 2") };
        match broken {
            Broken::Factor => factor.into(),
            Broken::Comparison => format!("{there} 1"),
            _ => format!("{there} {}", self.rng.one_of(&[1, 1, 1, 2, 3, 5])),
        }
    }

    /// The outer loop's head, and the rows before it. Whether it is a for.
    fn outer_head(&mut self, Triangle { v, other, way, broken, .. }: Triangle, step: &str) -> bool {
        // A few passes, one, none, or about 4,096.
        let c: i64 = step[4..].parse().expect("a number");
        let low = self.rng.between(-3, 6);
        let far = match self.rng.below(20) {
            _ if broken == Broken::TooManyTurns => c * self.rng.between(4_095, 4_098),
            0 => -self.rng.between(1, 3),
            1 | 2 => 0,
            3 => self.rng.between(0, 200),
            4 => c * self.rng.between(4_095, 4_096),
            _ => self.rng.between(1, 12),
        };
        let (start, end) = if way == Way::Up { (low, low + far) } else { (low + far, low) };
        let compare = match (broken, way) {
            (Broken::Comparison, _) => self.rng.one_of(&["!=", "!=", "=="]),
            (_, Way::Up) => self.rng.one_of(&["<", "<=", "<="]),
            (_, _) => self.rng.one_of(&[">", ">=", ">="]),
        };
        let mut limit = end.to_string();
        match (broken, other) {
            // A limit of which less is known, or one that moves.
            (Broken::NotExact | Broken::Closing, Some(u)) => {
                if self.rng.chance(50) {
                    self.rows.push(format!("set v{u} {limit}"));
                }
                limit = format!("v{u}");
            }
            (Broken::Copied, Some(u)) => self.rows.push(format!("set v{u} {start}")),
            _ if self.rng.chance(10) => limit = format!("{}+2", end - 2),
            _ => {}
        }
        let form = match broken {
            Broken::TwoSteps | Broken::Copied => self.rng.one_of(&["while", "do"]),
            _ => self.rng.one_of(&["for", "for", "while", "do"]),
        };
        if form == "for" {
            self.rows.push(format!("for v{v} {start} {compare} {limit} {step}"));
            return true;
        }
        if broken != Broken::NotExact || self.rng.chance(50) {
            self.rows.push(format!("set v{v} {start}"));
        }
        self.rows.push(format!("{form} v{v} {compare} {limit}"));
        false
    }

    fn before_the_inner(&mut self, Triangle { v, other, broken, .. }: Triangle) {
        match broken {
            Broken::NotKnown if self.loops > 0 => {
                if let Some(u) = other {
                    self.loops -= 1;
                    self.rows.extend([format!("while v{v} < v{u}"), format!("sub v{u} 1"), "end".into()]);
                }
            }
            Broken::Assigned => {
                let back = self.rng.between(2, 3);
                self.rows.extend([format!("add v{v} 3"), format!("sub v{v} {back}")]);
            }
            Broken::Standing => {
                let row = self.rng.one_of(&["add v 0", "sub v 0", "mul v 1", "div v 1"]).replace('v', &format!("v{v}"));
                if self.rng.chance(50) {
                    self.rows.extend(["pick".into(), row, "end".into()]);
                } else {
                    self.rows.push(row);
                }
            }
            _ => {}
        }
    }

    /// One or two loops that grow with v, each perhaps with a loop inside.
    fn inner_loops(&mut self, depth: usize, triangle: Triangle) {
        let Triangle { v, w, other, broken, .. } = triangle;
        let second = self.loops > 0 && self.rng.chance(30);
        self.loops -= second as usize;
        for _ in 0..1 + second as usize {
            let wrapper = match (broken, other) {
                (Broken::InAPick, _) if depth > 1 => Some("pick".into()),
                (Broken::InALoop, Some(u)) if depth > 1 && self.loops > 0 => {
                    self.loops -= 1;
                    Some(format!("for v{u} 0 < 2 add 1"))
                }
                _ => None,
            };
            let wrapped = wrapper.is_some();
            self.rows.extend(wrapper);
            let c = self.rng.one_of(&[1, 1, 1, 2, 3]);
            let head = self.inner_head(triangle, c);
            self.rows.push(head);
            // The outer variable's limit, step or master must stay as it is.
            let free = other.filter(|_| matches!(broken, Broken::Nothing | Broken::Assigned | Broken::Standing));
            match (free, self.rng.below(10)) {
                (Some(u), 0..=3) if depth > 1 && self.loops > 0 => {
                    self.loops -= 1;
                    let limit = [format!("v{v}"), format!("v{w}"), "3".into()][self.rng.below(3)].clone();
                    self.rows.extend([format!("for v{u} 0 < {limit} add 1"), "end".into()]);
                }
                (_, 4) if depth > 1 && !wrapped => self.rows.extend(["pick".into(), format!("add v{w} 1"), "end".into()]),
                (_, 5 | 6) => self.rows.push("cue 90".into()),
                (_, 7 | 8) if !wrapped => {
                    self.flagged(depth - 1, triangle.locked);
                }
                _ => {}
            }
            if broken == Broken::InnerWhile {
                self.rows.push(format!("add v{w} {c}"));
            }
            self.rows.push("end".into());
            if wrapped {
                self.rows.push("end".into());
            }
        }
    }

    fn inner_head(&mut self, Triangle { v, w, other, broken, .. }: Triangle, c: i64) -> String {
        let low = self.rng.one_of(&[0, 0, 0, 1, 1, -1, -5, 4]);
        let compare = self.rng.one_of(&["<", "<="]);
        let twice = self.rng.chance(50);
        match (broken, other) {
            (Broken::Start, Some(u)) if twice => format!("for v{w} v{u} {compare} v{v} add {c}"),
            (Broken::Start, _) => format!("for v{w} ({low}) {compare} v{v} add {c}"),
            (Broken::Limit, _) if twice => format!("for v{w} {low} {compare} v{v}+0 add {c}"),
            (Broken::Limit, _) => format!("for v{w} {low} {compare} (v{v}) add {c}"),
            (Broken::InnerFalls, _) => format!("for v{w} 9 > v{v} sub {c}"),
            (Broken::InnerGrows, _) => format!("for v{w} 1 {compare} v{v} mul 2"),
            (Broken::InnerEqual, _) => format!("for v{w} {low} == v{v} add {c}"),
            (Broken::InnerWhile, _) => {
                self.rows.push(format!("set v{w} {low}"));
                format!("while v{w} {compare} v{v}")
            }
            _ => format!("for v{w} {low} {compare} v{v} add {c}"),
        }
    }

    fn outer_moves(&mut self, Triangle { v, other, broken, .. }: Triangle, step: &str) {
        match (broken, other) {
            (Broken::Copied, Some(u)) => self.rows.extend([row_of(step, u), format!("set v{v} v{u}")]),
            (Broken::TwoSteps, _) => {
                self.rows.extend(["pick".into(), row_of(step, v), "else".into(), format!("{}0", row_of(step, v)), "end".into()])
            }
            _ => self.rows.push(row_of(step, v)),
        }
    }
}

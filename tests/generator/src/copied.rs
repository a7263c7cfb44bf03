//! Change 1: loops whose counter is copied from another one, its master, with one of the terms broken now and then.

use crate::script::{distance, factor, value, within, Builder, Way};

/// The rows that such a loop may need without the items in its body.
pub const ROWS: usize = 12;

#[derive(Clone, Copy, PartialEq)]
enum Broken {
    Nothing,
    InAPick,
    InALoop,
    InAFor,
    Comparison,
    MasterStands,
    MasterMayStand,
    MasterTurns,
    MasterFactor,
    MasterSet,
    MasterInALoop,
    BothSides,
    StandingOnTheOtherSide,
    SecondRow,
    SecondCopy,
    Itself,
    Constant,
    LimitIsTheMaster,
    LimitIsItself,
    OtherWay,
}

const BROKEN: [Broken; 19] = [
    Broken::InAPick,
    Broken::InALoop,
    Broken::InAFor,
    Broken::Comparison,
    Broken::MasterStands,
    Broken::MasterMayStand,
    Broken::MasterTurns,
    Broken::MasterFactor,
    Broken::MasterSet,
    Broken::MasterInALoop,
    Broken::BothSides,
    Broken::StandingOnTheOtherSide,
    Broken::SecondRow,
    Broken::SecondCopy,
    Broken::Itself,
    Broken::Constant,
    Broken::LimitIsTheMaster,
    Broken::LimitIsItself,
    Broken::OtherWay,
];

#[derive(Clone, Copy)]
enum Part {
    Copy,
    Master,
    Standing,
}

impl Builder<'_> {
    pub fn copied(&mut self, depth: usize, locked: u32, v: usize, w: usize) {
        self.loops -= 1;
        let most = self.left + self.rows.len();
        self.left -= ROWS;
        let chance = if self.careless > 0 { 50 } else { 15 };
        let broken = if self.rng.chance(chance) { self.rng.one_of(&BROKEN) } else { Broken::Nothing };
        let way = self.rng.one_of(&[Way::Up, Way::Up, Way::Down]);
        let rising = (way == Way::Up) != (broken == Broken::OtherWay);
        let compare = match (broken, rising) {
            (Broken::Comparison, _) => self.rng.one_of(&["==", "!="]),
            (_, true) => self.rng.one_of(&["<", "<="]),
            (_, false) => self.rng.one_of(&[">", ">="]),
        };
        let mut body_locked = locked | 1 << v | 1 << w;
        let limit = self.copied_start(way, v, w, broken, &mut body_locked);
        let head = match (broken, self.rng.below(5)) {
            (Broken::InAFor, _) => format!("for v{v} 1 {compare} {limit} {}", self.arithmetic()),
            (_, 0..=2) => format!("while v{v} {compare} {limit}"),
            _ => format!("do v{v} {compare} {limit}"),
        };
        self.rows.push(head);
        let parts: &[Part] = match (broken, self.rng.chance(50)) {
            (Broken::BothSides, _) => &[Part::Master, Part::Copy, Part::Master],
            (Broken::StandingOnTheOtherSide, true) => &[Part::Master, Part::Copy, Part::Standing],
            (Broken::StandingOnTheOtherSide, false) => &[Part::Standing, Part::Copy, Part::Master],
            (_, true) => &[Part::Master, Part::Copy],
            (_, false) => &[Part::Copy, Part::Master],
        };
        for part in parts {
            self.few(depth - 1, body_locked, &[v, w]);
            match part {
                Part::Copy => self.copy(depth - 1, body_locked, v, w, broken),
                Part::Master => self.master(depth - 1, w, way, broken),
                Part::Standing => self.rows.push(format!("add v{w} 0")),
            }
        }
        self.few(depth - 1, body_locked, &[v, w]);
        self.rows.push("end".into());
        self.left = most - self.rows.len();
        self.reader(depth, body_locked, &[v, w]);
    }

    /// The rows before the loop, and its limit. The master starts before the limit; the counter before it, at it or past it.
    fn copied_start(&mut self, way: Way, v: usize, w: usize, broken: Broken, locked: &mut u32) -> String {
        let limit = value(self.rng);
        let sign = if way == Way::Up { 1 } else { -1 };
        let far = distance(self.rng);
        let own = self.rng.one_of(&[-9, -1, 0, 0, 1, 1, 2, 40, 1_000]);
        if self.rng.chance(75) {
            self.rows.push(format!("set v{w} {}", within(limit - sign * far)));
        }
        if self.rng.chance(65) {
            self.rows.push(format!("set v{v} {}", within(limit - sign * own)));
        }
        match broken {
            Broken::LimitIsTheMaster => return format!("v{w}"),
            Broken::LimitIsItself => return format!("v{v}"),
            _ => {}
        }
        if self.rng.chance(20) {
            if let Some(u) = self.free(*locked) {
                if self.rng.chance(70) {
                    self.rows.push(format!("set v{u} {limit}"));
                }
                *locked |= 1 << u;
                return format!("v{u}");
            }
        }
        limit.to_string()
    }

    fn copy(&mut self, depth: usize, locked: u32, v: usize, w: usize, broken: Broken) {
        let copy = match broken {
            Broken::Itself => format!("set v{v} v{v}"),
            Broken::Constant => format!("set v{v} {}", value(self.rng)),
            _ => format!("set v{v} v{w}"),
        };
        match broken {
            Broken::InAPick if depth > 0 => {
                self.rows.push("pick".into());
                if self.rng.chance(50) {
                    self.rows.push("else".into());
                }
                self.rows.extend([copy, "end".into()]);
            }
            Broken::InALoop if depth > 0 && self.loops > 0 => {
                self.loops -= 1;
                let u = self.free(locked).unwrap_or(w);
                self.rows.extend([format!("for v{u} 1 <= 2 add 1"), copy, "end".into()]);
            }
            Broken::SecondRow => {
                let rows = ["add v 0", "sub v 0", "mul v 1", "div v 1", "add v 1", "set v 5", "off v v > 1000000000"];
                let row = self.rng.one_of(&rows);
                let row = row.replace('v', &format!("v{v}"));
                let rows = if self.rng.chance(50) { [row, copy] } else { [copy, row] };
                self.rows.extend(rows);
            }
            Broken::SecondCopy => self.rows.extend([copy.clone(), copy]),
            _ => self.rows.push(copy),
        }
    }

    /// The master's rows, or what stands in for them.
    fn master(&mut self, depth: usize, w: usize, way: Way, broken: Broken) {
        let (there, back) = if way == Way::Up { ("add", "sub") } else { ("sub", "add") };
        match broken {
            Broken::MasterStands if self.rng.chance(30) => {}
            Broken::MasterStands => {
                let row = self.rng.one_of(&["add v 0", "sub v 0", "mul v 1", "div v 1"]);
                self.rows.push(row.replace('v', &format!("v{w}")));
            }
            Broken::MasterMayStand if depth > 0 => {
                self.rows.extend(["pick".into(), format!("{there} v{w} 3"), "end".into()]);
            }
            // Forward and back: neither end moves, or both ways are open.
            Broken::MasterTurns => {
                let c = self.rng.between(1, 5);
                self.rows.extend([format!("{there} v{w} 3"), format!("{back} v{w} {c}")]);
            }
            Broken::MasterFactor => {
                let row = self.rng.one_of(&["mul", "div"]);
                let c = factor(self.rng);
                self.rows.push(format!("{row} v{w} {c}"));
            }
            Broken::MasterSet if self.rng.chance(30) => {
                let off = self.off(w);
                self.rows.push(off);
            }
            Broken::MasterSet => {
                let x = value(self.rng);
                self.rows.push(format!("set v{w} {x}"));
            }
            Broken::MasterInALoop if depth > 0 && self.loops > 0 => {
                self.loops -= 1;
                let row = self.rng.one_of(&["add", "mul"]);
                self.rows.extend([format!("while v{w} < 5"), format!("{row} v{w} 1"), "end".into()]);
            }
            _ => {
                self.left += 1;
                self.moved(w, way, depth);
            }
        }
    }
}

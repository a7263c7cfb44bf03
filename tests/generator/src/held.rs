//! Change 12: loops held by a flag, with one of the terms broken now and then, and offs elsewhere.

use crate::script::{distance, factor, value, within, Builder, Way};
use crate::triangles;

/// The rows that such a loop may need without the items in its body.
pub const ROWS: usize = 16;

#[derive(Clone, Copy, PartialEq)]
enum Broken {
    Nothing,
    NoOff,
    SecondOff,
    InAPick,
    InALoop,
    FlagAssigned,
    Itself,
    WatchedStands,
    WatchedMayStand,
    WatchedTurns,
    WatchedFactor,
    WatchedSet,
    WatchedInALoop,
    WatchedOff,
    BothSides,
    StandingOnTheOtherSide,
    OtherWay,
}

const BROKEN: [Broken; 16] = [
    Broken::NoOff,
    Broken::SecondOff,
    Broken::InAPick,
    Broken::InALoop,
    Broken::FlagAssigned,
    Broken::Itself,
    Broken::WatchedStands,
    Broken::WatchedMayStand,
    Broken::WatchedTurns,
    Broken::WatchedFactor,
    Broken::WatchedSet,
    Broken::WatchedInALoop,
    Broken::WatchedOff,
    Broken::BothSides,
    Broken::StandingOnTheOtherSide,
    Broken::OtherWay,
];

#[derive(Clone, Copy)]
enum Part {
    Off,
    Watched,
    Standing,
}

#[derive(Clone, Copy)]
struct Hold {
    flag: usize,
    watched: usize,
    way: Way,
    /// The off's comparison and number.
    compare: &'static str,
    c: i64,
    broken: Broken,
}

impl Hold {
    fn off(&self) -> String {
        let watched = if self.broken == Broken::Itself { self.flag } else { self.watched };
        format!("off v{} v{watched} {} {}", self.flag, self.compare, self.c)
    }
}

/// A row that leaves a variable as it is.
fn standing(builder: &mut Builder, v: usize) -> String {
    builder.rng.one_of(&["add v 0", "sub v 0", "mul v 1", "div v 1"]).replace('v', &format!("v{v}"))
}

impl Builder<'_> {
    pub fn held(&mut self, depth: usize, locked: u32, flag: usize, watched: usize) {
        self.loops -= 1;
        let most = self.left + self.rows.len();
        self.left -= ROWS;
        let chance = if self.careless > 0 { 50 } else { 15 };
        let broken = if self.rng.chance(chance) { self.rng.one_of(&BROKEN) } else { Broken::Nothing };
        let way = self.rng.one_of(&[Way::Up, Way::Up, Way::Down]);
        let rising = (way == Way::Up) != (broken == Broken::OtherWay);
        let compare = if rising { self.rng.one_of(&[">", ">="]) } else { self.rng.one_of(&["<", "<="]) };
        let hold = Hold { flag, watched, way, compare, c: value(self.rng), broken };
        self.held_start(hold, locked);
        self.rows.push(format!("hold v{flag}"));
        let body_locked = locked | 1 << flag | 1 << watched;
        let parts: &[Part] = match (broken, self.rng.chance(50)) {
            (Broken::BothSides, _) => &[Part::Watched, Part::Off, Part::Watched],
            (Broken::StandingOnTheOtherSide, true) => &[Part::Watched, Part::Off, Part::Standing],
            (Broken::StandingOnTheOtherSide, false) => &[Part::Standing, Part::Off, Part::Watched],
            (_, true) => &[Part::Watched, Part::Off],
            (_, false) => &[Part::Off, Part::Watched],
        };
        for part in parts {
            self.inside_a_hold(depth - 1, body_locked, &[flag, watched]);
            match part {
                Part::Off => self.off_rows(depth - 1, body_locked, hold),
                Part::Watched => self.watched_rows(depth - 1, hold),
                Part::Standing => {
                    let row = standing(self, watched);
                    self.rows.push(row);
                }
            }
        }
        self.inside_a_hold(depth - 1, body_locked, &[flag, watched]);
        self.rows.push("end".into());
        self.left = most.saturating_sub(self.rows.len());
        self.reader(depth, locked | 1 << flag | 1 << watched, &[flag, watched]);
    }

    /// A few items, now and then an off for another flag or a triangle.
    fn inside_a_hold(&mut self, depth: usize, locked: u32, known: &[usize]) {
        if self.rng.chance(6) {
            if let Some(v) = self.free(locked) {
                let off = self.off(v);
                self.rows.push(off);
            }
        }
        if self.rows.len() + ROWS + triangles::ROWS <= 256 && self.rng.chance(8) && self.grown(depth, locked) {
            return;
        }
        self.few(depth, locked, known);
    }

    /// The rows before the loop. The flag is mostly a known one other than 0; the watched variable starts a distance before C.
    fn held_start(&mut self, Hold { flag, watched, way, c, .. }: Hold, locked: u32) {
        let far = distance(self.rng);
        if self.rng.chance(75) {
            let start = within(if way == Way::Up { c - far } else { c + far });
            self.rows.push(format!("set v{watched} {start}"));
        }
        match self.rng.below(20) {
            0..=11 => {
                let value = self.rng.one_of(&[1, 1, 1, 1, -1, 2, 1_000_000_000, -7]);
                self.rows.push(format!("set v{flag} {value}"));
            }
            12 => self.rows.push(format!("set v{flag} 0")),
            // Single and widened by 0.
            13 => self.rows.extend([format!("set v{flag} 3"), format!("off v{flag} v{watched} < {}", self.rng.between(-9, 9))]),
            14 => self.rows.extend([format!("set v{flag} 0"), format!("off v{flag} v{watched} >= 0")]),
            15 => {
                if let Some(u) = self.free(locked) {
                    self.rows.push(format!("set v{flag} v{u}"));
                }
            }
            // As declared, or as it was left before.
            _ => {}
        }
    }

    fn off_rows(&mut self, depth: usize, locked: u32, hold: Hold) {
        let Hold { flag, watched, broken, .. } = hold;
        let off = hold.off();
        match broken {
            Broken::NoOff => {
                if let Some(u) = self.free(locked).filter(|&u| u != flag) {
                    self.rows.push(off.replacen(&format!("off v{flag} "), &format!("off v{u} "), 1));
                }
            }
            Broken::SecondOff if depth > 0 && self.rng.chance(40) => {
                let second = ["pick".into(), off.clone(), "end".into()];
                if self.rng.chance(50) {
                    self.rows.push(off);
                    self.rows.extend(second);
                } else {
                    self.rows.extend(second);
                    self.rows.push(off);
                }
            }
            Broken::SecondOff => {
                let other = self.rng.between(-20, 20);
                self.rows.extend([off, format!("off v{flag} v{watched} {} {other}", hold.compare)]);
            }
            Broken::InAPick if depth > 0 => {
                self.rows.push("pick".into());
                if self.rng.chance(50) {
                    self.rows.push("else".into());
                }
                self.rows.extend([off, "end".into()]);
            }
            Broken::InALoop if depth > 0 && self.loops > 0 => {
                self.loops -= 1;
                let head = match (self.free(locked).filter(|&u| u != flag && u != watched), self.rng.chance(70)) {
                    (Some(u), true) => format!("for v{u} 1 <= 2 add 1"),
                    // The inner one has the same flag.
                    _ => format!("hold v{flag}"),
                };
                self.rows.extend([head, off, "end".into()]);
            }
            Broken::FlagAssigned => {
                let row = self.rng.one_of(&["add v 0", "sub v 0", "mul v 1", "div v 1", "set v 1", "set v 0", "set v v"]);
                let row = row.replace('v', &format!("v{flag}"));
                let rows = if self.rng.chance(50) { [row, off] } else { [off, row] };
                self.rows.extend(rows);
            }
            _ => self.rows.push(off),
        }
    }

    /// The watched variable's rows, or what stands in for them.
    fn watched_rows(&mut self, depth: usize, Hold { flag, watched: w, way, broken, .. }: Hold) {
        let (there, back) = if way == Way::Up { ("add", "sub") } else { ("sub", "add") };
        match broken {
            Broken::WatchedStands if self.rng.chance(30) => {}
            Broken::WatchedStands => {
                let row = standing(self, w);
                self.rows.push(row);
            }
            Broken::WatchedMayStand if depth > 0 => {
                self.rows.extend(["pick".into(), format!("{there} v{w} 3"), "end".into()]);
            }
            // Forward and back: neither end moves, or both ways are open.
            Broken::WatchedTurns => {
                let c = self.rng.between(3, 5);
                self.rows.extend([format!("{there} v{w} 3"), format!("{back} v{w} {c}")]);
            }
            Broken::WatchedFactor => {
                let row = self.rng.one_of(&["mul", "div"]);
                let c = factor(self.rng);
                self.rows.push(format!("{row} v{w} {c}"));
            }
            Broken::WatchedSet => {
                let x = value(self.rng);
                self.rows.push(format!("set v{w} {x}"));
            }
            Broken::WatchedInALoop if depth > 0 && self.loops > 0 => {
                self.loops -= 1;
                self.rows.extend([format!("while v{w} < 5"), format!("add v{w} 1"), "end".into()]);
            }
            Broken::WatchedOff => {
                let other = if self.rng.chance(50) { flag } else { w };
                self.rows.extend([format!("{there} v{w} 1"), format!("off v{w} v{other} > 1000000000")]);
            }
            _ => {
                self.left += 1;
                self.moved(w, way, depth);
            }
        }
    }

    /// An off that ends no hold, on a variable that may be assigned here.
    pub fn off(&mut self, v: usize) -> String {
        let w = self.any_variable();
        let compare = self.rng.one_of(&["<", "<=", ">", ">="]);
        format!("off v{v} v{w} {compare} {}", value(self.rng))
    }
}

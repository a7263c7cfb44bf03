//! Change 5: loops whose limit moves too, with one of the terms broken now and then.

use crate::script::{distance, factor, value, within, Builder, Way};

/// The rows that such a loop may need without the items in its body.
pub const ROWS: usize = 12;

#[derive(Clone, Copy, PartialEq)]
enum Broken {
    Nothing,
    Comparison,
    TestedGrows,
    TestedSet,
    LimitGrows,
    LimitSet,
    LimitInALoop,
    SameSpeed,
    BothWays,
    OtherWay,
}

const BROKEN: [Broken; 9] = [
    Broken::Comparison,
    Broken::TestedGrows,
    Broken::TestedSet,
    Broken::LimitGrows,
    Broken::LimitSet,
    Broken::LimitInALoop,
    Broken::SameSpeed,
    Broken::BothWays,
    Broken::OtherWay,
];

/// How the two move, where the tested variable is to come nearer.
#[derive(Clone, Copy, PartialEq)]
enum Shape {
    /// Towards each other.
    Both,
    /// The limit only has a standing row.
    LimitStands,
    /// The tested variable has a standing row or none.
    TestedStands,
    /// Both go the tested variable's way, the limit more slowly.
    Chased,
    /// Both go the limit's way, the tested variable more slowly.
    Met,
}

fn opposite(way: Way) -> Way {
    match way {
        Way::Up => Way::Down,
        _ => Way::Up,
    }
}

fn word(way: Way) -> &'static str {
    match way {
        Way::Up => "add",
        _ => "sub",
    }
}

#[derive(Clone, Copy)]
struct Chase {
    v: usize,
    w: usize,
    /// The way by which the tested variable comes nearer to the limit.
    way: Way,
    shape: Shape,
    /// The slower and the faster one, where both go one way.
    slow: i64,
    fast: i64,
    broken: Broken,
}

impl Builder<'_> {
    pub fn closing(&mut self, depth: usize, locked: u32, v: usize, w: usize) {
        self.loops -= 1;
        let most = self.left + self.rows.len();
        self.left -= ROWS;
        let chase = self.chase(v, w);
        let rising = (chase.way == Way::Up) != (chase.broken == Broken::OtherWay);
        let compare = match (chase.broken, rising) {
            (Broken::Comparison, _) => self.rng.one_of(&["==", "!="]),
            (_, true) => self.rng.one_of(&["<", "<="]),
            (_, false) => self.rng.one_of(&[">", ">="]),
        };
        let start = self.closing_start(chase);
        let form = self.rng.one_of(&["while", "while", "do", "for"]);
        let head = match form {
            "for" => format!("for v{v} {start} {compare} v{w} {}", self.for_step(chase)),
            word => format!("{word} v{v} {compare} v{w}"),
        };
        self.rows.push(head);
        let body_locked = locked | 1 << v | 1 << w;
        let tested_first = self.rng.chance(50);
        for tested in [tested_first, !tested_first] {
            self.few(depth - 1, body_locked, &[v, w]);
            if !tested {
                self.limit_rows(depth - 1, chase);
            } else if form != "for" {
                self.tested_rows(depth - 1, chase);
            }
        }
        self.few(depth - 1, body_locked, &[v, w]);
        self.rows.push("end".into());
        self.left = most - self.rows.len();
        self.reader(depth, body_locked, &[v, w]);
    }

    fn chase(&mut self, v: usize, w: usize) -> Chase {
        let chance = if self.careless > 0 { 50 } else { 18 };
        let broken = if self.rng.chance(chance) { self.rng.one_of(&BROKEN) } else { Broken::Nothing };
        let shape = match broken {
            Broken::SameSpeed => self.rng.one_of(&[Shape::Chased, Shape::Met]),
            _ => self.rng.one_of(&[Shape::Both, Shape::Both, Shape::LimitStands, Shape::TestedStands, Shape::Chased, Shape::Met]),
        };
        let slow = self.rng.between(1, 5);
        let fast = if broken == Broken::SameSpeed { slow } else { slow + self.rng.between(1, 3) };
        Chase { v, w, way: self.rng.one_of(&[Way::Up, Way::Down]), shape, slow, fast, broken }
    }

    /// The rows before the loop, and a for's start: apart from each other by a distance, or not known at all.
    fn closing_start(&mut self, Chase { v, w, way, .. }: Chase) -> String {
        let limit = value(self.rng);
        let far = distance(self.rng);
        let start = within(if way == Way::Up { limit - far } else { limit + far });
        if self.rng.chance(75) {
            self.rows.push(format!("set v{w} {limit}"));
        }
        if self.rng.chance(75) {
            self.rows.push(format!("set v{v} {start}"));
        }
        if self.rng.chance(85) { start.to_string() } else { format!("v{w}") }
    }

    fn for_step(&mut self, Chase { way, shape, slow, fast, broken, .. }: Chase) -> String {
        match (broken, shape) {
            (Broken::TestedGrows, _) => format!("{} {}", self.rng.one_of(&["mul", "div"]), factor(self.rng)),
            (_, Shape::TestedStands) => self.rng.one_of(&["add 0", "mul 1"]).into(),
            (_, Shape::Chased) => format!("{} {fast}", word(way)),
            (_, Shape::Met) => format!("{} {slow}", word(opposite(way))),
            _ => format!("{} {}", word(way), self.rng.between(1, 9)),
        }
    }

    fn tested_rows(&mut self, depth: usize, Chase { v, way, shape, slow, fast, broken, .. }: Chase) {
        match (broken, shape) {
            (Broken::TestedGrows, _) => {
                let c = factor(self.rng);
                let op = self.rng.one_of(&["mul", "div"]);
                self.rows.push(format!("{op} v{v} {c}"));
            }
            (Broken::TestedSet, _) if self.rng.chance(30) => {
                let off = self.off(v);
                self.rows.push(off);
            }
            (Broken::TestedSet, _) => self.rows.push(format!("set v{v} 3")),
            (Broken::BothWays, _) if depth > 0 => {
                self.rows.extend(["pick".into(), format!("add v{v} 4"), "else".into(), format!("sub v{v} 4"), "end".into()]);
            }
            (_, Shape::TestedStands) if self.rng.chance(60) => {}
            (_, Shape::TestedStands) => self.rows.push(format!("sub v{v} 0")),
            (_, Shape::Chased) => self.rows.push(format!("{} v{v} {fast}", word(way))),
            (_, Shape::Met) => self.rows.push(format!("{} v{v} {slow}", word(opposite(way)))),
            _ => {
                self.left += 1;
                self.moved(v, way, depth);
            }
        }
    }

    fn limit_rows(&mut self, depth: usize, Chase { v, w, way, shape, slow, fast, broken }: Chase) {
        match (broken, shape) {
            (Broken::LimitGrows, _) => {
                let c = factor(self.rng);
                let op = self.rng.one_of(&["mul", "div"]);
                self.rows.push(format!("{op} v{w} {c}"));
            }
            (Broken::LimitSet, _) if self.rng.chance(30) => {
                let off = self.off(w);
                self.rows.push(off);
            }
            (Broken::LimitSet, _) => {
                let row = if self.rng.chance(50) { format!("set v{w} v{v}") } else { format!("set v{w} 7") };
                self.rows.push(row);
            }
            (Broken::LimitInALoop, _) if depth > 0 && self.loops > 0 => {
                self.loops -= 1;
                self.rows.extend([format!("for v{w} 1 < 3 add 1"), "end".into()]);
            }
            (_, Shape::LimitStands) => {
                let row = self.rng.one_of(&["add v 0", "sub v 0", "mul v 1", "div v 1"]);
                self.rows.push(row.replace('v', &format!("v{w}")));
            }
            (_, Shape::Chased) => self.rows.push(format!("{} v{w} {slow}", word(way))),
            (_, Shape::Met) => self.rows.push(format!("{} v{w} {fast}", word(opposite(way)))),
            _ => {
                self.left += 1;
                self.moved(w, opposite(way), depth);
            }
        }
    }
}

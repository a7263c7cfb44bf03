//! Change 11: loops outside all blocks with known start and limit, no loop inside, and picks that make them slow or fast.

use crate::script::{Builder, Way};

impl Builder<'_> {
    /// Such a loop on v; its limit may stand in u.
    pub fn reached(&mut self, depth: usize, v: usize, u: usize) {
        self.loops -= 1;
        let way = self.rng.one_of(&[Way::Up, Way::Up, Way::Down, Way::Down, Way::Grow, Way::Shrink]);
        let far = match self.rng.below(10) {
            0 => self.rng.between(-3, 0),
            1..=6 => self.rng.between(0, 30),
            _ => self.rng.between(0, 600),
        };
        let low = self.rng.between(-200, 200);
        let (start, limit) = match way {
            Way::Up => (low, low + far),
            Way::Down => (low + far, low),
            Way::Grow => (self.rng.between(1, 9), self.rng.one_of(&[0, 1, 8, 9, 100, 4_096, 50_000_000])),
            Way::Shrink => (self.rng.one_of(&[-5, 0, 1, 8, 9, 100, 4_096, 1_000_000_000]), self.rng.between(1, 9)),
        };
        let compare = match way {
            Way::Up | Way::Grow => self.rng.one_of(&["<", "<="]),
            Way::Down | Way::Shrink => self.rng.one_of(&[">", ">="]),
        };
        let limit = match self.rng.below(5) {
            0 if u != v => {
                self.rows.push(format!("set v{u} {limit}"));
                format!("v{u}")
            }
            1 => format!("{}+5", limit - 5),
            _ => limit.to_string(),
        };
        let form = self.rng.one_of(&["while", "while", "do", "for"]);
        let step = self.one_step(way);
        if form == "for" {
            let (op, c) = step.split_once(' ').expect("a row and its number");
            self.rows.push(format!("for v{v} {start} {compare} {limit} {op} {c}"));
        } else {
            let start = if self.rng.chance(15) { format!("{}-7", start + 7) } else { start.to_string() };
            self.rows.extend([format!("set v{v} {start}"), format!("{form} v{v} {compare} {limit}")]);
        }
        let parts = 1 + self.rng.below(4);
        let at = self.rng.below(parts + 1);
        for part in 0..=parts {
            if part == at && form != "for" {
                self.rows.push(step.replacen(' ', &format!(" v{v} "), 1));
            } else if part != at {
                self.part(depth - 1, v, u, way);
            }
        }
        self.rows.push("end".into());
    }

    /// A move that is always made.
    fn one_step(&mut self, way: Way) -> String {
        match way {
            Way::Up => format!("add {}", self.rng.between(3, 9)),
            Way::Down => format!("sub {}", self.rng.between(3, 9)),
            Way::Grow => format!("mul {}", self.rng.between(2, 4)),
            Way::Shrink => format!("div {}", self.rng.between(2, 4)),
        }
    }

    /// A row that moves v by less than the step that is always made, on its way or back; or leaves it.
    fn small_move(&mut self, v: usize, way: Way) -> String {
        let c = self.rng.between(0, 6);
        match (way, self.rng.chance(80)) {
            (Way::Up, true) | (Way::Down, false) => format!("add v{v} {}", if way == Way::Up { c } else { 1 }),
            (Way::Down, true) | (Way::Up, false) => format!("sub v{v} {}", if way == Way::Down { c } else { 1 }),
            (Way::Grow, _) => format!("mul v{v} {}", self.rng.between(1, 4)),
            (Way::Shrink, _) => format!("div v{v} {}", self.rng.between(1, 4)),
        }
    }

    /// A row of the body, or a pick with such rows in it, no loop.
    fn part(&mut self, depth: usize, v: usize, u: usize, way: Way) {
        if depth > 0 && self.rng.chance(65) {
            self.rows.push("pick".into());
            for branch in 0..2 {
                if branch == 1 {
                    if self.rng.chance(25) {
                        break;
                    }
                    self.rows.push("else".into());
                }
                for _ in 0..self.rng.below(3) {
                    self.part(depth - 1, v, u, way);
                }
            }
            self.rows.push("end".into());
            return;
        }
        let row = match self.rng.below(10) {
            0..=5 => self.small_move(v, way),
            6 => format!("cue {}", self.rng.below(50)),
            _ => match self.free(1 << v | 1 << u) {
                Some(w) if self.rng.chance(50) => format!("set v{w} {}", self.rng.between(-9, 9)),
                Some(w) => format!("{} v{w} {}", self.rng.one_of(&["add", "sub"]), self.rng.between(0, 9)),
                None => "cue 3".into(),
            },
        };
        self.rows.push(row);
    }
}

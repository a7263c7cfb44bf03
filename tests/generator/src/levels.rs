//! Change 6: levels below 0 that are divided, before a loop that starts or ends there and inside it.

use crate::script::{value, within, Builder, Way};

/// The rows that this may need without the items in the loop's body.
pub const ROWS: usize = 12;

impl Builder<'_> {
    pub fn levels(&mut self, depth: usize, locked: u32, v: usize, w: usize) {
        self.loops -= 1;
        let most = self.left + self.rows.len();
        self.left -= ROWS;
        let level = self.level(w);
        // A little past the level, on either side, or at it.
        let near = within(level + self.rng.between(-2, 6));
        let body_locked = locked | 1 << v | 1 << w;
        let c = self.rng.between(1, 3);
        let (head, inside) = match self.rng.below(7) {
            0 => (format!("for v{v} v{w} < {near} add {c}"), ""),
            1 => (format!("for v{v} v{w} <= {near} add {c}"), ""),
            2 => (format!("for v{v} {near} >= v{w} sub {c}"), ""),
            3 => (format!("for v{v} {near} > v{w} sub {c}"), ""),
            4 => (format!("while v{w} < {near}"), "add"),
            5 => (format!("do v{w} >= {}", self.rng.between(1, 3)), "div"),
            _ => (format!("do v{w} >= {near}"), "sub"),
        };
        self.rows.push(head);
        self.few(depth - 1, body_locked, &[v, w]);
        if self.rng.chance(40) {
            // Divided in the run, at every turn.
            if let Some(u) = self.free(body_locked) {
                let divisor = self.divisor();
                self.rows.extend([format!("set v{u} v{w}"), format!("div v{u} {divisor}")]);
            }
        }
        match inside {
            "" => {}
            "div" => {
                self.left += 1;
                self.moved(w, Way::Shrink, depth - 1);
            }
            word => self.rows.push(format!("{word} v{w} {c}")),
        }
        self.few(depth - 1, body_locked, &[v, w]);
        self.rows.push("end".into());
        self.left = most - self.rows.len();
    }

    fn divisor(&mut self) -> i64 {
        match self.rng.below(8) {
            0..=2 => 2,
            3..=5 => self.rng.between(3, 10),
            6 => self.rng.one_of(&[1_000, 333_333_333, 999_999_999, 1_000_000_000]),
            _ => self.rng.between(2, 100_000),
        }
    }

    /// Rows that divide w, which is mostly below 0; about what it is after them.
    fn level(&mut self, w: usize) -> i64 {
        let mut level = if self.rng.chance(85) { -value(self.rng).abs() } else { value(self.rng) };
        match self.rng.below(10) {
            0..=5 => self.rows.push(format!("set v{w} {level}")),
            6 | 7 => {
                let c = level.abs();
                self.rows.extend([format!("set v{w} 0"), format!("sub v{w} {c}")]);
                level = -c;
            }
            // As declared, or as it was left before.
            _ => level = self.rng.between(-5, 0),
        }
        for _ in 0..1 + self.rng.below(2) {
            let divisor = self.divisor();
            self.rows.push(format!("div v{w} {divisor}"));
            level = level.div_euclid(divisor);
        }
        level
    }
}

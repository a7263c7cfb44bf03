//! The script runner.

use crate::expression::{fold, Item};
use crate::read::{Kind, Loop, Operand, Row, Script, L};
use crate::{Prices, Refusal};

#[derive(Clone, Copy, Debug, PartialEq, Eq)]
pub enum Ending {
    Ended,
    Spent,
    Range,
    NoPick,
}

/// One entry of a loop.
#[derive(Clone, Copy, Debug, PartialEq, Eq)]
pub struct Entry {
    /// The loop's head row.
    pub row: usize,
    pub turns: u64,
    /// Whether its test ended it.
    pub tested: bool,
}

/// What the run call answers beside the store; `all` and `most` by the loops' order.
#[derive(Clone, Copy, Debug, PartialEq, Eq)]
pub struct Counts {
    pub ending: Ending,
    pub row: usize,
    pub ticks: u64,
    pub used: usize,
    pub all: [u64; 16],
    pub most: [u64; 16],
}

/// Who is told of the entries and of the ticks.
pub trait Listener {
    fn enter(&mut self, l: &Loop, row: usize);
    fn turn(&mut self, l: &Loop);
    fn leave(&mut self, l: &Loop);
    /// A price is next: the row where it is met, and whether it is that of a test, which is met at the loop's `end`.
    #[inline]
    fn price(&mut self, _: usize, _: bool) {}
    /// A price is taken; all ticks so far.
    #[inline]
    fn tick(&mut self, _: u64) {}
    /// A cue is fired, its price taken.
    #[inline]
    fn cue(&mut self, _: u32) {}
}

/// Nobody.
pub struct Deaf;

impl Listener for Deaf {
    #[inline]
    fn enter(&mut self, _: &Loop, _: usize) {}
    #[inline]
    fn turn(&mut self, _: &Loop) {}
    #[inline]
    fn leave(&mut self, _: &Loop) {}
}

/// The list of entries, in the order of their beginnings.
#[derive(Default)]
pub struct List {
    pub entries: Vec<Entry>,
    /// For each loop the place of its latest entry in the list.
    latest: [usize; 16],
}

impl Listener for List {
    fn enter(&mut self, l: &Loop, row: usize) {
        self.latest[l.index as usize] = self.entries.len();
        self.entries.push(Entry { row, turns: 0, tested: false });
    }
    fn turn(&mut self, l: &Loop) {
        self.entries[self.latest[l.index as usize]].turns += 1;
    }
    fn leave(&mut self, l: &Loop) {
        self.entries[self.latest[l.index as usize]].tested = true;
    }
}

/// Where a run's picks come from.
pub trait Picks {
    /// The byte of the pick at this row, the one after so many that are used; None if there is none.
    fn next(&mut self, row: usize, used: usize) -> Option<u8>;
}

impl Picks for &[u8] {
    #[inline]
    fn next(&mut self, _: usize, used: usize) -> Option<u8> {
        self.get(used).copied()
    }
}

/// Question 15.
pub fn check_store(script: &Script, store: &[i32]) -> Result<(), Refusal> {
    for i in 0..script.vars.max(store.len()) {
        let good = i < script.vars
            && i < store.len()
            && script.ranges[i][0] <= store[i]
            && store[i] <= script.ranges[i][1];
        if !good {
            return Err((15, i as u64));
        }
    }
    Ok(())
}

/// The run of an accepted script from a store inside its ranges.
pub fn run<E: Listener, P: Picks>(
    script: &Script,
    prices: &Prices,
    store: &mut [i32; 16],
    mut picks: P,
    allowance: u64,
    listener: &mut E,
) -> Counts {
    let rows = &script.rows[..];
    let items = &script.items[..];
    let mut ticks = 0u64;
    let mut used = 0usize;
    let mut all = [0u64; 16];
    let mut most = [0u64; 16];
    // The turns of each loop's latest entry.
    let mut now = [0u64; 16];
    let mut r = 0usize;

    macro_rules! end {
        ($ending:expr, $row:expr) => {
            break ($ending, $row)
        };
    }
    macro_rules! tick {
        ($price:ident, $row:expr, $met:expr, $test:expr) => {
            listener.price($met, $test);
            if prices.$price > allowance - ticks {
                end!(Ending::Spent, $row);
            }
            ticks += prices.$price;
            listener.tick(ticks);
        };
    }
    macro_rules! turn {
        ($l:expr) => {
            let k = $l.index as usize;
            now[k] += 1;
            all[k] += 1;
            if now[k] > most[k] {
                most[k] = now[k];
            }
            listener.turn(&$l);
        };
    }
    macro_rules! change {
        ($v:expr, $by:expr, $row:expr) => {
            let Some(value) = within($by.apply(store[$v as usize])) else {
                end!(Ending::Range, $row);
            };
            store[$v as usize] = value;
        };
    }
    macro_rules! operand {
        ($x:expr, $row:expr) => {
            match value(items, store, $x) {
                Some(value) => value,
                None => end!(Ending::Range, $row),
            }
        };
    }
    macro_rules! test {
        ($l:expr, $head:expr) => {
            tick!(test, $head, $l.end as usize, true);
            let limit = operand!($l.limit, $head);
            if $l.compare.holds(store[$l.v as usize], limit) {
                turn!($l);
                r = $head + 1;
            } else {
                listener.leave(&$l);
                r = $l.end as usize + 1;
            }
        };
    }

    let (ending, row) = loop {
        let Some(row) = rows.get(r) else {
            end!(Ending::Ended, r);
        };
        match row {
            Row::Set { v, x } => {
                tick!(arithmetic, r, r, false);
                store[*v as usize] = operand!(*x, r);
                r += 1;
            }
            Row::Change { v, by } => {
                tick!(arithmetic, r, r, false);
                change!(*v, by, r);
                r += 1;
            }
            Row::Cue { n } => {
                tick!(cue, r, r, false);
                listener.cue(*n as u32);
                r += 1;
            }
            Row::Off { v, w, compare, c } => {
                tick!(arithmetic, r, r, false);
                if compare.holds(store[*w as usize], *c) {
                    store[*v as usize] = 0;
                }
                r += 1;
            }
            Row::Pick { middle, .. } => {
                tick!(pick, r, r, false);
                let Some(byte) = picks.next(r, used) else {
                    end!(Ending::NoPick, r);
                };
                used += 1;
                r = if byte != 0 { r + 1 } else { *middle as usize + 1 };
            }
            Row::Else { end } => r = *end as usize + 1,
            Row::Loop(l) => {
                now[l.index as usize] = 0;
                listener.enter(l, r);
                match l.kind {
                    Kind::Do => {
                        turn!(*l);
                        r += 1;
                        continue;
                    }
                    Kind::For { start, .. } => {
                        tick!(arithmetic, r, r, false);
                        store[l.v as usize] = operand!(start, r);
                    }
                    Kind::While | Kind::Hold => {}
                }
                test!(*l, r);
            }
            Row::End { head } => {
                let head = *head as usize;
                if let Row::Loop(l) = &rows[head] {
                    if let Kind::For { step, .. } = l.kind {
                        tick!(arithmetic, head, r, false);
                        change!(l.v, step, head);
                    }
                    test!(*l, head);
                } else {
                    r += 1;
                }
            }
        }
    };
    Counts { ending, row, ticks, used, all, most }
}

#[inline]
pub(crate) fn within(value: i64) -> Option<i32> {
    (-L as i64 <= value && value <= L as i64).then_some(value as i32)
}

/// None if one of its operators goes past ±L.
#[inline]
pub(crate) fn value(items: &[Item], store: &[i32; 16], x: Operand) -> Option<i32> {
    match x {
        Operand::Constant(c) => Some(c),
        Operand::Variable(v) => Some(store[v as usize]),
        Operand::Expression(e) => fold(
            e.items(items),
            |c| c,
            |v| store[v as usize],
            |operator, left, right| within(operator.apply(left as i64, right as i64)),
        ),
    }
}

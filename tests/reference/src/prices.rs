//! Change 3: what a row takes.

use crate::Refusal;

/// Ticks by kind of row.
#[derive(Clone, Copy, Debug, PartialEq, Eq)]
pub struct Prices {
    /// Arithmetic, `set`, `off`, a for's start and a for's step.
    pub arithmetic: u64,
    pub cue: u64,
    pub pick: u64,
    pub test: u64,
}

impl Prices {
    /// The dearest price.
    pub fn dearest(&self) -> u64 {
        self.arithmetic.max(self.cue).max(self.pick).max(self.test)
    }
}

/// Four ones: document 01's ticks.
pub const ONES: [u32; 4] = [1; 4];

const LEAST: u32 = 1;
const MOST: u32 = 1_000;

/// Question 16; the place is the first price wrong, missing or extra.
pub fn prices(lent: &[u32]) -> Result<Prices, Refusal> {
    for i in 0..lent.len().max(4) {
        let good = i < 4 && lent.get(i).is_some_and(|price| (LEAST..=MOST).contains(price));
        if !good {
            return Err((16, i as u64));
        }
    }
    let [arithmetic, cue, pick, test] = [0, 1, 2, 3].map(|i| lent[i] as u64);
    Ok(Prices { arithmetic, cue, pick, test })
}

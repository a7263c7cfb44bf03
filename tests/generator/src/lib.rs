//! Seeded random cases. Most files are built so that they are likely to be accepted; some are careless,
//! some are aimed at one question, some are damaged afterwards.

mod closing;
mod copied;
mod damage;
mod expressions;
mod frames;
mod held;
mod levels;
mod live;
mod reach;
mod rng;
mod script;
mod spread;
mod triangles;

pub use frames::{frames_case, FramesCase};
pub use live::{damaged, live_case, LiveCase, StepCase};
pub use rng::Rng;
pub use spread::Spread;

use reference::{Plan, Script};

/// The seed that is used when none is given.
pub const SEED: u64 = 20_260_115;

pub struct Case {
    pub file: Vec<u8>,
    pub prices: Vec<u32>,
    /// Goes on with stores, picks and allowances.
    pub rng: Rng,
}

/// The case number `index` of a seed.
pub fn case(seed: u64, index: u64) -> Case {
    let mut rng = Rng::new(seed, index);
    let file = match rng.below(100) {
        0..=55 => script::likely(&mut rng),
        56..=67 => script::careless(&mut rng),
        68..=75 => script::aimed(&mut rng),
        _ => {
            let file = script::likely(&mut rng);
            damage::damaged(&mut rng, file)
        }
    };
    let prices = prices(&mut rng);
    Case { file, prices, rng }
}

/// A file whose loops are likely to meet change 11's terms, and good prices.
pub fn reach_case(seed: u64, index: u64) -> Case {
    let mut rng = Rng::new(seed ^ 0x2eac_4000, index);
    let file = script::reaching(&mut rng);
    let prices = allowed_prices(&mut rng);
    Case { file, prices, rng }
}

/// A price inside its limits, often at one of them.
fn price(rng: &mut Rng) -> u32 {
    match rng.below(6) {
        0 => 1,
        1 => 1_000,
        2 | 3 => rng.between(1, 10) as u32,
        4 => rng.one_of(&[2, 3, 7, 250, 999]),
        _ => rng.between(1, 1_000) as u32,
    }
}

/// About half are four ones, and one in ten is wrong.
fn prices(rng: &mut Rng) -> Vec<u32> {
    match rng.below(20) {
        0..=9 => vec![1; 4],
        10..=17 => (0..4).map(|_| price(rng)).collect(),
        _ => wrong_prices(rng),
    }
}

/// Four prices inside their limits, ones now and then.
fn allowed_prices(rng: &mut Rng) -> Vec<u32> {
    if rng.chance(35) { vec![1; 4] } else { (0..4).map(|_| price(rng)).collect() }
}

/// Too short, too long, or with a price past its limits.
pub fn wrong_prices(rng: &mut Rng) -> Vec<u32> {
    let length = rng.one_of(&[0, 1, 2, 3, 3, 4, 4, 4, 4, 5, 5, 6, 40]);
    let mut prices: Vec<u32> = (0..length).map(|_| price(rng)).collect();
    if length == 4 || length > 0 && rng.chance(30) {
        for _ in 0..1 + rng.below(2) {
            let i = rng.below(length);
            prices[i] = rng.one_of(&[0, 0, 1_001, 1_001, u32::MAX, 65_537, 1 << 31]);
        }
    }
    prices
}

/// A store for an accepted file: mostly inside its ranges, often at an end, sometimes wrong or of another length.
pub fn store(rng: &mut Rng, script: &Script) -> Vec<i32> {
    let corner = rng.below(4);
    let mut store: Vec<i32> = script.ranges[..script.vars]
        .iter()
        .map(|&[lo, hi]| match corner {
            0 => lo,
            1 => hi,
            _ => rng.between(lo as i64, hi as i64) as i32,
        })
        .collect();
    if rng.chance(8) {
        match rng.below(5) {
            0 => {
                store.pop();
            }
            1 => store.push(rng.one_of(&[0, 1, -1_000_000_001, i32::MIN, i32::MAX])),
            2 => store.clear(),
            _ => {
                for _ in 0..1 + rng.below(2) {
                    if !store.is_empty() {
                        let i = rng.below(store.len());
                        let [lo, hi] = script.ranges[i];
                        store[i] = rng.one_of(&[lo - 1, hi + 1, i32::MIN, i32::MAX, 1_000_000_001]);
                    }
                }
                if rng.chance(20) {
                    store.resize(script.vars + 3, 0);
                }
            }
        }
    }
    store
}

/// A store for any file at all.
pub fn any_store(rng: &mut Rng) -> Vec<i32> {
    (0..rng.below(18)).map(|_| rng.next() as i32).collect()
}

pub fn picks(rng: &mut Rng) -> Vec<u8> {
    let length = match rng.below(6) {
        0 => 0,
        1 => rng.below(4),
        2 => rng.below(40),
        _ => 2_000,
    };
    let kind = rng.below(4);
    (0..length)
        .map(|_| match kind {
            0 => 1,
            1 => 0,
            2 => rng.below(2) as u8,
            _ => rng.one_of(&[0, 0, 1, 2, 48, 49, 128, 255]),
        })
        .collect()
}

/// An allowance for a file; `most` is the longest run that the caller can wait for, unless the run of
/// T ticks is known to be short.
pub fn allowance(rng: &mut Rng, plan: &Plan, short: bool, most: u64) -> u64 {
    let t = plan.ticks;
    let wanted = match rng.below(9) {
        0 => 0,
        1 => 1,
        2 => t.saturating_sub(1),
        3 | 4 => t,
        5 => t + 1,
        6 => u64::MAX,
        7 => rng.next() % (t + 2),
        _ => rng.next() % (t.min(40) + 2),
    };
    if short {
        wanted
    } else {
        wanted.min(rng.next() % (most + 1))
    }
}

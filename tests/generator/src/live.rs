//! Request 15: series of steps, with late picks, short lists, q of 0 and 1, and damaged states.

use crate::frames::{good_store, short};
use crate::{allowed_prices, Rng};
use reference::{plan, SCRATCH};

/// A step as it is lent.
pub struct StepCase {
    pub q: u64,
    /// How many of the bytes that are not used.
    pub count: usize,
    /// The length of the list of cues.
    pub room: usize,
}

/// A series.
pub struct LiveCase {
    pub file: Vec<u8>,
    pub prices: Vec<u32>,
    pub store: Vec<i32>,
    pub bytes: Vec<u8>,
    pub steps: Vec<StepCase>,
    /// Goes on.
    pub rng: Rng,
}

fn ticks(rng: &mut Rng, usual: u64) -> u64 {
    match rng.below(10) {
        0 => 0,
        1 => 1,
        2 => rng.below(1_200) as u64,
        3 => rng.one_of(&[1_000_000, 999_999]),
        _ => usual,
    }
}

/// Series number `index` of a seed.
pub fn live_case(seed: u64, index: u64) -> LiveCase {
    let mut rng = Rng::new(seed ^ 0x11fe_5e1e, index);
    let prices = allowed_prices(&mut rng);
    let one = short(&mut rng, &prices);
    let plan = plan(&one.file, &prices, SCRATCH).expect("a short script is accepted");
    let store = if rng.chance(50) { one.store } else { good_store(&mut rng, &plan) };
    let bytes: Vec<u8> = (0..rng.below(60)).map(|_| rng.one_of(&[0, 0, 1, 1, 2, 255])).collect();
    let count = 1 + rng.below(40);
    let usual = match rng.below(4) {
        0 => 1,
        1 => plan.ticks.min(3_000) / count as u64 + 1,
        2 => 1 + rng.below(50) as u64,
        _ => 1 + rng.below(3_000) as u64,
    };
    let generous = rng.chance(40);
    let steps = (0..count)
        .map(|_| StepCase {
            q: ticks(&mut rng, usual),
            count: if generous { 60 } else { rng.below(4) },
            room: if generous { rng.one_of(&[10, 100, 3_000]) } else { rng.below(4) },
        })
        .collect();
    LiveCase { file: one.file, prices, store, bytes, steps, rng }
}

/// A number of a state put in the place of another.
pub fn damaged(rng: &mut Rng, state: &[u64]) -> Vec<u64> {
    let mut state = state.to_vec();
    if rng.chance(2) {
        match rng.below(3) {
            0 => state.push(0),
            1 => {
                state.pop();
            }
            _ => state.clear(),
        }
        return state;
    }
    // The first numbers say most.
    let place = match rng.below(3) {
        0 => rng.below(6),
        1 => 16 + rng.below(12),
        _ => rng.below(64),
    };
    state[place] = match rng.below(9) {
        0 => state[place].wrapping_add(1),
        1 => state[place].wrapping_sub(1),
        2 => rng.below(5) as u64,
        3 => rng.below(40) as u64,
        4 => rng.below(300) as u64,
        5 => rng.next() % 1_000_000,
        6 => rng.next(),
        7 => rng.one_of(&[u64::MAX, 1 << 63, 1 << 32, 256, 999, 1_000]),
        _ => 0,
    };
    state
}

//! Change 14: calls of several scripts.

use crate::{allowed_prices, any_store, case, picks, store, wrong_prices, Rng};
use reference::frames::Lent;
use reference::{plan, run_planned, Ending, Plan, SCRATCH};

/// A run of more ticks than these and 20 rows of each kind is waited for now and then only, and one of more than LONGEST never.
const SHORT: u64 = 3_000;
const LONGEST: u64 = 200_000;

/// A call as it is lent; the lists need not fit.
pub struct FramesCase {
    pub files: Vec<u8>,
    pub file_lengths: Vec<usize>,
    pub stores: Vec<i32>,
    pub store_lengths: Vec<usize>,
    pub picks: Vec<u8>,
    pub pick_lengths: Vec<usize>,
    pub prices: Vec<u32>,
    pub q: u64,
    pub scratch: usize,
    /// Goes on.
    pub rng: Rng,
}

impl FramesCase {
    pub fn lent(&self) -> Lent<'_> {
        Lent {
            files: &self.files,
            file_lengths: &self.file_lengths,
            stores: &self.stores,
            store_lengths: &self.store_lengths,
            picks: &self.picks,
            pick_lengths: &self.pick_lengths,
        }
    }
}

pub(crate) struct One {
    pub(crate) file: Vec<u8>,
    pub(crate) store: Vec<i32>,
    picks: Vec<u8>,
}

pub(crate) fn good_store(rng: &mut Rng, plan: &Plan) -> Vec<i32> {
    loop {
        let store = store(rng, &plan.script);
        if reference::run::check_store(&plan.script, &store).is_ok() {
            return store;
        }
    }
}

/// A script that finishes soon with these prices.
pub(crate) fn short(rng: &mut Rng, prices: &[u32]) -> One {
    let most = if rng.chance(4) { LONGEST } else { SHORT + 20 * prices.iter().sum::<u32>() as u64 };
    loop {
        let file = case(rng.next(), rng.next()).file;
        let Ok(plan) = plan(&file, prices, SCRATCH) else { continue };
        let store = good_store(rng, &plan);
        let picks = picks(rng);
        let run = run_planned(&plan, &store, &picks, most).expect("a good store");
        // Scripts that take no tick are not wanted often.
        if run.ending != Ending::Spent && (run.ticks > 3 || rng.chance(15)) {
            return One { file, store, picks };
        }
    }
}

/// A script that is refused, by its file or by its store.
fn refused(rng: &mut Rng, prices: &[u32]) -> One {
    if rng.chance(35) {
        let One { file, mut store, picks } = short(rng, prices);
        match rng.below(4) {
            0 => store.push(0),
            1 if !store.is_empty() => {
                store.pop();
            }
            _ if !store.is_empty() => {
                let at = rng.below(store.len());
                store[at] = rng.one_of(&[i32::MIN, i32::MAX, 1_000_000_001, -1_000_000_001]);
            }
            _ => store.push(1),
        }
        return One { file, store, picks };
    }
    loop {
        let file = case(rng.next(), rng.next()).file;
        if plan(&file, prices, SCRATCH).is_err() {
            return One { file, store: any_store(rng), picks: picks(rng) };
        }
    }
}

/// Lists of lengths that do not fit.
fn break_lists(rng: &mut Rng, case: &mut FramesCase) {
    let (lengths, lent) = match rng.below(3) {
        0 => (&mut case.file_lengths, case.files.len()),
        1 => (&mut case.store_lengths, case.stores.len()),
        _ => (&mut case.pick_lengths, case.picks.len()),
    };
    let at = rng.below(lengths.len());
    match rng.below(9) {
        0 => lengths.push(0),
        1 => lengths.insert(at, 0),
        2 => {
            let last = lengths.pop().unwrap_or(0);
            if let Some(before) = lengths.last_mut() {
                *before += last;
            }
        }
        3 => lengths[at] += 1,
        4 => lengths[at] = lengths[at].checked_sub(1).unwrap_or(1),
        5 => lengths.clear(),
        6 => lengths[at] = usize::MAX,
        // The sum is what is lent, if it wraps round.
        7 => {
            let others: usize = lengths.iter().sum::<usize>() - lengths[at];
            let big = usize::MAX - rng.below(10);
            let other = (at + 1) % lengths.len();
            if other != at {
                let rest = lent.wrapping_sub(others - lengths[other]).wrapping_sub(big);
                lengths[at] = big;
                lengths[other] = rest;
            } else {
                lengths[at] = big;
            }
        }
        _ => {
            // All of them, one too few or too many.
            for lengths in [&mut case.file_lengths, &mut case.store_lengths, &mut case.pick_lengths] {
                lengths.push(0);
            }
            case.picks.push(1);
        }
    }
}

/// The call number `index` of a seed: about a fifth is refused, by every question.
pub fn frames_case(seed: u64, index: u64) -> FramesCase {
    let mut rng = Rng::new(seed ^ 0xf2a3_e500, index);
    let prices = allowed_prices(&mut rng);
    let count = match rng.below(10) {
        0 => 1,
        1..=3 => 2,
        4..=7 => 3 + rng.below(5),
        _ => 8,
    };
    let mut scripts: Vec<One> = (0..count).map(|_| short(&mut rng, &prices)).collect();
    if rng.chance(10) {
        for _ in 0..1 + rng.below(2) {
            let at = rng.below(count);
            scripts[at] = refused(&mut rng, &prices);
        }
    }
    if rng.chance(10) {
        // Several of one file.
        let at = rng.below(count);
        let file = scripts[at].file.clone();
        let plan = plan(&file, &prices, SCRATCH);
        for script in &mut scripts {
            let longest = |script: &One| plan.as_ref().ok().and_then(|plan| run_planned(plan, &script.store, &script.picks, LONGEST).ok());
            let other = One { file: file.clone(), store: scripts_store(&mut rng, plan.as_ref().ok()), picks: picks(&mut rng) };
            if longest(&other).is_some_and(|run| run.ending != Ending::Spent) {
                *script = other;
            }
        }
    }
    let q = match rng.below(12) {
        0..=2 => 1,
        3 => 2,
        4 => 3,
        5 | 6 => 1 + rng.below(20) as u64,
        7 => 1 + rng.below(2_000) as u64,
        8 => 1_000,
        9 => 1_000_000,
        10 => 999_999,
        _ => 1 + rng.next() % 1_000_000,
    };
    let mut case = FramesCase {
        files: scripts.iter().flat_map(|script| script.file.clone()).collect(),
        file_lengths: scripts.iter().map(|script| script.file.len()).collect(),
        stores: scripts.iter().flat_map(|script| script.store.clone()).collect(),
        store_lengths: scripts.iter().map(|script| script.store.len()).collect(),
        picks: scripts.iter().flat_map(|script| script.picks.clone()).collect(),
        pick_lengths: scripts.iter().map(|script| script.picks.len()).collect(),
        prices,
        q,
        scratch: SCRATCH + rng.one_of(&[0, 0, 1, 500]),
        rng: Rng::new(seed, index),
    };
    break_call(&mut rng, &mut case);
    case.rng = rng;
    case
}

fn scripts_store(rng: &mut Rng, plan: Option<&Plan>) -> Vec<i32> {
    plan.map_or(Vec::new(), |plan| good_store(rng, plan))
}

/// What is wrong with the call as a whole, now and then.
fn break_call(rng: &mut Rng, case: &mut FramesCase) {
    if rng.chance(5) {
        break_lists(rng, case);
    }
    if rng.chance(2) {
        case.q = rng.one_of(&[0, 0, 1_000_001, u64::MAX, 1 << 32, (1 << 32) + 1]);
    }
    if rng.chance(1) {
        case.scratch = rng.below(SCRATCH);
    }
    if rng.chance(1) {
        case.prices = wrong_prices(rng);
    }
    if rng.chance(1) {
        // No script; with something lent or with nothing.
        case.file_lengths.clear();
        case.store_lengths.clear();
        case.pick_lengths.clear();
        if rng.chance(70) {
            case.files.clear();
            case.stores.clear();
            case.picks.clear();
        }
    }
    if rng.chance(1) && !case.file_lengths.is_empty() {
        // Nine or more of the first.
        let (file, store, picks) = (case.file_lengths[0], case.store_lengths.first().copied().unwrap_or(0), case.pick_lengths.first().copied().unwrap_or(0));
        if file <= case.files.len() && store <= case.stores.len() && picks <= case.picks.len() {
            let count = 9 + rng.below(8);
            case.files = case.files[..file].repeat(count);
            case.stores = case.stores[..store].repeat(count);
            case.picks = case.picks[..picks].repeat(count);
            case.file_lengths = vec![file; count];
            case.store_lengths = vec![store; count];
            case.pick_lengths = vec![picks; count];
        }
    }
}

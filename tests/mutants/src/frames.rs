//! The call of several scripts, and change 14's mistakes.

use crate::{answer_of, wrong};
use reference::frames::{frames, refused_script, scripts, shared, whole, Framed, Frames, Lent};
use reference::{plan, Refusal};
use std::slice;

/// Frame by frame, with a mistake in it.
fn mistaken(taken: &[Vec<u64>], q: u64) -> (Vec<u64>, u64) {
    let prices: Vec<Vec<u64>> = taken.iter().map(|taken| (0..taken.len()).map(|k| taken[k] - if k == 0 { 0 } else { taken[k - 1] }).collect()).collect();
    let mut at = vec![0; taken.len()];
    let mut left = vec![0; taken.len()];
    let mut finished = vec![0; taken.len()];
    let (mut frame, mut most) = (0, 0);
    while finished.contains(&0) {
        frame += 1;
        let mut together = 0;
        for i in 0..prices.len() {
            // 67: a finished script is given ticks.
            if finished[i] > 0 {
                together += if wrong(67) { q } else { 0 };
                continue;
            }
            // 65: what is left is not carried forward; a price above q takes a frame.
            left[i] = if wrong(65) { q } else { left[i] + q };
            let mut here = 0;
            let mut first = true;
            while let Some(&price) = prices[i].get(at[i]) {
                if price > left[i] && !(wrong(65) && first) {
                    break;
                }
                left[i] = left[i].saturating_sub(price);
                here += price;
                at[i] += 1;
                first = false;
            }
            if at[i] == prices[i].len() {
                finished[i] = frame;
            } else if wrong(66) {
                // 66: a price that does not fit is taken in part.
                here = q;
            }
            together = if wrong(69) { u64::max(together, here) } else { together + here };
        }
        most = u64::max(most, together);
    }
    (finished, most)
}

/// The lists as a mistake takes them.
fn lists<'a>(lent: Lent<'a>, q: u64) -> Option<Result<Lent<'a>, Refusal>> {
    let sum = |lengths: &[usize]| lengths.iter().fold(0usize, |sum, length| sum.wrapping_add(*length));
    let sums = [sum(lent.file_lengths), sum(lent.store_lengths), sum(lent.pick_lengths)];
    let fits = sums == [lent.files.len(), lent.stores.len(), lent.picks.len()];
    let count = lent.file_lengths.len();
    let alike = lent.store_lengths.len() == count && lent.pick_lengths.len() == count;
    let eight = |lengths: &'a [usize]| &lengths[..8.min(lengths.len())];
    match scripts(lent, q) {
        Err(_) if wrong(71) && alike => Some(Ok(Lent {
            files: lent.files.get(..sums[0])?,
            stores: lent.stores.get(..sums[1])?,
            picks: lent.picks.get(..sums[2])?,
            ..lent
        })),
        Err(_) if wrong(76) && fits && alike && count <= 8 && count > 0 && (1..=1_000_000).contains(&q) => Some(Err((3, 1))),
        Err(_) if wrong(77) && count > 8 => {
            let lent = Lent { file_lengths: eight(lent.file_lengths), store_lengths: eight(lent.store_lengths), pick_lengths: eight(lent.pick_lengths), ..lent };
            let sums = [sum(lent.file_lengths), sum(lent.store_lengths), sum(lent.pick_lengths)];
            Some(Ok(Lent { files: lent.files.get(..sums[0])?, stores: lent.stores.get(..sums[1])?, picks: lent.picks.get(..sums[2])?, ..lent }))
        }
        _ => None,
    }
}

/// The call's answer, with a mistake or without; and the stores, if they are not those of the answer.
fn called(lent: Lent, prices: &[u32], q: u64, scratch: usize) -> (Result<Frames, Refusal>, Option<Vec<i32>>) {
    // 73: 1 before 20.
    if wrong(73) && scratch < reference::SCRATCH {
        return (Err((1, reference::SCRATCH as u64)), None);
    }
    // 75: a q of 1,000,001 passes.
    let q = if wrong(75) && q == 1_000_001 { 1_000_000 } else { q };
    // 71: lists that add up to less than what is lent pass.  76: and those whose sum wraps round.  77: of nine scripts eight are taken.
    let lent = match lists(lent, q) {
        Some(Ok(lent)) => lent,
        Some(Err(refusal)) => return (Err(refusal), None),
        None => lent,
    };
    let right = frames(lent, prices, q, scratch);
    let Ok(parts) = scripts(lent, q) else { return (right, None) };
    let own = |(file, store, _): &(&[u8], &[i32], &[u8])| plan(file, prices, scratch).and_then(|plan| reference::run::check_store(&plan.script, store));
    match right {
        Err((1 | 16, _)) => (right, None),
        // 70: the scripts before the refused one have run.
        Err(refusal) if wrong(70) => {
            let mut stores = lent.stores.to_vec();
            let mut from = 0;
            for (file, store, picks) in &parts {
                let Ok(run) = plan(file, prices, scratch).and_then(|plan| reference::run_planned(&plan, store, picks, u64::MAX)) else { break };
                stores[from..from + store.len()].copy_from_slice(&run.store);
                from += store.len();
            }
            (Err(refusal), Some(stores))
        }
        // 74: the last refused script's refusal.
        Err(refusal) if wrong(74) => (Err(parts.iter().rev().find_map(|part| own(part).err()).unwrap_or(refusal)), None),
        // 78: all files' questions before all stores'.
        Err(refusal) if wrong(78) => (Err(parts.iter().find_map(|(file, ..)| plan(file, prices, scratch).err()).unwrap_or(refusal)), None),
        Err(_) => (right, None),
        Ok(right) => {
            let runs = parts.iter().enumerate().map(|(i, (file, store, picks))| {
                // 72: a script reads the picks of the one before it.
                let picks = if wrong(72) && i > 0 { parts[i - 1].2 } else { picks };
                whole(&plan(file, prices, scratch).expect("it was accepted"), store, picks)
            });
            let (runs, taken): (Vec<_>, Vec<_>) = runs.unzip();
            let (mut finished, most) = if (65..=69).any(wrong) { mistaken(&taken, q) } else { shared(&taken, q) };
            for (frame, (file, ..)) in finished.iter_mut().zip(&parts) {
                // 68: frames count from 0.  79: the frame is that of the report's ticks.
                *frame -= wrong(68) as u64;
                if wrong(79) {
                    *frame = plan(file, prices, scratch).map_or(0, |plan| plan.ticks.div_ceil(q).max(1));
                }
            }
            let answer = Frames { scripts: runs.into_iter().zip(finished).map(|(run, frame)| Framed { frame, run }).collect(), most };
            assert!((65..=79).any(wrong) || answer == right);
            (Ok(answer), None)
        }
    }
}

/// # Safety
/// As the C interface says: every pointer is good for its length, the answer's for 433 numbers.
#[no_mangle]
pub unsafe extern "C" fn diftanew_frames(
    files: *const u8,
    files_len: usize,
    file_lens: *const usize,
    file_count: usize,
    stores: *mut i32,
    stores_len: usize,
    store_lens: *const usize,
    store_count: usize,
    picks: *const u8,
    picks_len: usize,
    pick_lens: *const usize,
    pick_count: usize,
    prices: *const u32,
    prices_len: usize,
    q: u64,
    _scratch: *mut u32,
    scratch_len: usize,
    answer: *mut u64,
) -> u32 {
    let stores = slice::from_raw_parts_mut(stores, stores_len);
    let before = stores.to_vec();
    let lent = Lent {
        files: slice::from_raw_parts(files, files_len),
        file_lengths: slice::from_raw_parts(file_lens, file_count),
        stores: &before,
        store_lengths: slice::from_raw_parts(store_lens, store_count),
        picks: slice::from_raw_parts(picks, picks_len),
        pick_lengths: slice::from_raw_parts(pick_lens, pick_count),
    };
    let answer = slice::from_raw_parts_mut(answer, 433);
    answer.fill(0);
    let prices = slice::from_raw_parts(prices, prices_len);
    let script = refused_script(lent, prices, q, scratch_len);
    let (called, others) = called(lent, prices, q, scratch_len);
    if let Some(others) = others {
        stores.copy_from_slice(&others);
    }
    match called {
        Err((number, place)) => {
            answer[0] = place;
            // 89: a refused script is counted from 0.  90: it is told for 20, 1 and 16 too.
            answer[1] = if wrong(90) { script.max(1) } else { script - (wrong(89) && script > 0) as u64 };
            number
        }
        Ok(frames) => {
            answer[0] = frames.most;
            let mut from = 0;
            for (script, numbers) in frames.scripts.iter().zip(answer[1..].chunks_mut(54)) {
                numbers[0] = script.frame;
                numbers[1..].copy_from_slice(&answer_of(&script.run));
                stores[from..from + script.run.store.len()].copy_from_slice(&script.run.store);
                from += script.run.store.len();
            }
            0
        }
    }
}

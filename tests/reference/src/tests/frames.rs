//! Change 14: several scripts in one frame.

use super::*;
use crate::frames::{breach, frames, Frames, Lent};

/// A call of scripts: file, store and picks of each.
fn call(scripts: &[(&[u8], &[i32], &[u8])], prices: &[u32], q: u64, scratch: usize) -> Result<Frames, Refusal> {
    let files: Vec<&[u8]> = scripts.iter().map(|script| script.0).collect();
    let stores: Vec<&[i32]> = scripts.iter().map(|script| script.1).collect();
    let picks: Vec<&[u8]> = scripts.iter().map(|script| script.2).collect();
    let lent = Lent {
        files: &files.concat(),
        file_lengths: &files.iter().map(|part| part.len()).collect::<Vec<_>>(),
        stores: &stores.concat(),
        store_lengths: &stores.iter().map(|part| part.len()).collect::<Vec<_>>(),
        picks: &picks.concat(),
        pick_lengths: &picks.iter().map(|part| part.len()).collect::<Vec<_>>(),
    };
    frames(lent, prices, q, scratch)
}

#[test]
fn question_20() {
    let file = file(&[(0, 9)], &["pick", "add v0 1", "end"]);
    let n = file.len();
    let two = [&file[..], &file].concat();
    let good = Lent { files: &two, file_lengths: &[n, n], stores: &[1, 2], store_lengths: &[1, 1], picks: &[1, 0, 1], pick_lengths: &[2, 1] };
    fn refused(lent: Lent, q: u64) -> Option<Refusal> {
        frames(lent, &ONES, q, SCRATCH).err()
    }
    for q in [1, 2, 1_000_000] {
        assert_eq!(refused(good, q), None);
    }
    for q in [0, 1_000_001, u64::MAX] {
        assert_eq!(refused(good, q), Some((20, 0)));
    }
    let none = Lent { files: &[], file_lengths: &[], stores: &[], store_lengths: &[], picks: &[], pick_lengths: &[] };
    assert_eq!(refused(none, 1), Some((20, 0)));
    let max = usize::MAX;
    for lengths in [&[][..], &[n], &[2 * n], &[n, n, 0], &[n, n - 1], &[n, n + 1], &[0, 2 * n, 0], &[max, 2 * n + 1], &[n, max], &[max / 2 + 1, max / 2 + 1]] {
        assert_eq!(refused(Lent { file_lengths: lengths, ..good }, 1), Some((20, 0)), "{lengths:?}");
    }
    for lengths in [&[][..], &[2], &[1, 1, 0], &[1, 0], &[1, 2], &[0, 0], &[max, 3], &[3, max]] {
        assert_eq!(refused(Lent { store_lengths: lengths, ..good }, 1), Some((20, 0)), "{lengths:?}");
    }
    for lengths in [&[][..], &[3], &[2, 1, 0], &[2, 0], &[2, 2], &[max, 4]] {
        assert_eq!(refused(Lent { pick_lengths: lengths, ..good }, 1), Some((20, 0)), "{lengths:?}");
    }
    // Other lists that add up: other questions.
    assert_eq!(refused(Lent { file_lengths: &[0, 2 * n], ..good }, 1), Some((3, 1)));
    assert_eq!(refused(Lent { file_lengths: &[2 * n, 0], ..good }, 1), Some((3, 6 + 2)));
    assert_eq!(refused(Lent { store_lengths: &[2, 0], ..good }, 1), Some((15, 1)));
    assert_eq!(refused(Lent { store_lengths: &[0, 2], ..good }, 1), Some((15, 0)));
    assert_eq!(refused(Lent { pick_lengths: &[0, 3], ..good }, 1), None);
    let script: (&[u8], &[i32], &[u8]) = (&file, &[1], &[1]);
    assert!(call(&[script; 8], &ONES, 1, SCRATCH).is_ok());
    assert_eq!(call(&[script; 9], &ONES, 1, SCRATCH).err(), Some((20, 0)));
}

#[test]
fn order_of_the_questions() {
    let good = file(&[(0, 9)], &["add v0 1"]);
    let stands = file(&[(0, 9)], &["while v0 < 3", "end"]);
    let refused = |scripts: &[(&[u8], &[i32])], prices: &[u32], q, scratch| {
        call(&scripts.iter().map(|(file, store)| (*file, *store, &b""[..])).collect::<Vec<_>>(), prices, q, scratch).err()
    };
    assert_eq!(refused(&[(b"", &[])], &[0], 0, 0), Some((20, 0)));
    assert_eq!(refused(&[(b"", &[])], &[0], 1, 0), Some((1, 1024)));
    assert_eq!(refused(&[(b"", &[])], &[0], 1, SCRATCH), Some((16, 0)));
    assert_eq!(refused(&[(b"", &[])], &ONES, 1, SCRATCH), Some((3, 1)));
    // Script 0's own questions, 15 with them, before script 1's.
    assert_eq!(refused(&[(&good, &[10]), (b"", &[])], &ONES, 1, SCRATCH), Some((15, 0)));
    assert_eq!(refused(&[(&good, &[9]), (b"", &[])], &ONES, 1, SCRATCH), Some((3, 1)));
    assert_eq!(refused(&[(&stands, &[10]), (&[b'x'; 16_385], &[])], &ONES, 1, SCRATCH), Some((9, 0)));
    assert_eq!(refused(&[(&good, &[9]), (&good, &[9]), (&good, &[9, 9]), (&stands, &[])], &ONES, 1, SCRATCH), Some((15, 1)));
}

#[test]
fn carried_forward() {
    let cue = file(&[], &["cue 1"]);
    let rows = file(&[(0, 0)], &["add v0 1", "add v0 1", "add v0 1", "add v0 1", "add v0 1"]);
    let empty = file(&[], &[]);
    let frame = |answer: &Frames| (answer.scripts.iter().map(|script| script.frame).collect::<Vec<_>>(), answer.most);
    // A price of 1,000 with one tick a frame.
    let answer = call(&[(&cue, &[], &[]), (&rows, &[0], &[])], &[1, 1_000, 1, 1], 1, SCRATCH).unwrap();
    assert_eq!(frame(&answer), (vec![1_000, 5], 1_000));
    assert_eq!(answer.scripts[1].run.store, [5]);
    // 3 a row and 4 a frame: 1, 1, 1, 2 rows; the 4th frame has one tick of each before.
    let answer = call(&[(&rows, &[0], &[])], &[3, 1, 1, 1], 4, SCRATCH).unwrap();
    assert_eq!(frame(&answer), (vec![4], 6));
    // All together, and only those that are not finished.
    let answer = call(&[(&rows, &[0], &[]), (&cue, &[], &[]), (&empty, &[], &[])], &ONES, 2, SCRATCH).unwrap();
    assert_eq!(frame(&answer), (vec![3, 1, 1], 3));
    assert_eq!(frame(&call(&[(&empty, &[], &[])], &ONES, 1_000_000, SCRATCH).unwrap()), (vec![1], 0));
    assert_eq!(frame(&call(&[(&rows, &[0], &[])], &ONES, 5, SCRATCH).unwrap()), (vec![1], 5));
    // Lacking a pick and out of range are finished; each reads its own picks.
    let pick = file(&[(0, 9)], &["cue 1", "pick", "add v0 1", "end", "cue 1"]);
    let past = file(&[(0, 9)], &["cue 1", "cue 1", "add v0 1000000000", "cue 1"]);
    let answer = call(&[(&pick, &[0], &[]), (&pick, &[0], &[1]), (&pick, &[0], &[0, 1]), (&past, &[9], &[1])], &ONES, 1, SCRATCH).unwrap();
    assert_eq!(frame(&answer), (vec![2, 4, 3, 3], 4));
    let endings: Vec<_> = answer.scripts.iter().map(|script| (script.run.ending, script.run.row, script.run.used, script.run.store[0])).collect();
    assert_eq!(endings, [(Ending::NoPick, 1, 0, 0), (Ending::Ended, 5, 1, 1), (Ending::Ended, 5, 1, 0), (Ending::Range, 2, 0, 9)]);
}

/// By the definition: in frame k a script stands where it stands alone with k·q ticks, and it is finished where that is not spent.
#[test]
fn frames_by_runs_alone() {
    let files = [
        file(&[(0, 3)], &["while v0 < 9", "pick", "cue 1", "add v0 1", "else", "add v0 2", "end", "end"]),
        file(&[(1, 1), (0, 5)], &["hold v0", "add v1 1", "off v0 v1 > 6", "cue 1", "end"]),
        file(LISTING_RANGES, LISTING),
        file(&[(999_999_990, 999_999_999)], &["cue 1", "do v0 < 1000000000", "add v0 5", "end", "cue 2"]),
    ];
    for prices in [ONES, [2, 7, 3, 5], [1, 40, 1, 3]] {
        let plans: Vec<Plan> = files.iter().map(|file| plan(file, &prices, SCRATCH).unwrap()).collect();
        for (picks, q) in [&[][..], &[1, 0, 1, 0], &[1; 9], &[0; 20]].into_iter().flat_map(|picks| [1, 2, 3, 7, 50, 1_000].map(|q| (picks, q))) {
            let stores: [&[i32]; 4] = [&[2], &[1, 3], &[0, 4], &[999_999_996]];
            let scripts: Vec<(&[u8], &[i32], &[u8])> = files.iter().zip(stores).map(|(file, store)| (&file[..], store, picks)).collect();
            let answer = call(&scripts, &prices, q, SCRATCH).unwrap();
            let alone = |i: usize, k: u64| run_planned(&plans[i], stores[i], picks, k * q).unwrap();
            let mut most = 0;
            for k in 1..=answer.scripts.iter().map(|script| script.frame).max().unwrap() {
                let taken = (0..4).map(|i| alone(i, k).ticks - alone(i, k - 1).ticks).sum();
                most = most.max(taken);
            }
            assert_eq!(answer.most, most);
            for (i, script) in answer.scripts.iter().enumerate() {
                let first = (1..).find(|k| alone(i, *k).ending != Ending::Spent).unwrap();
                assert_eq!((script.frame, &script.run), (first, &alone(i, first)));
                assert_eq!(breach(&plans[i], stores[i], picks, q, script), None);
            }
        }
    }
}

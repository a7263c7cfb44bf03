//! Change 12: loops held by a flag.

use super::*;

/// Turns and whether they are exact, of the first loop; its `end` is added.
fn line(ranges: &[(i64, i64)], rows: &[&str]) -> Result<(u64, bool), Refusal> {
    let rows = [rows, &["end"]].concat();
    plan(&file(ranges, &rows), &ONES, SCRATCH).map(|plan| (plan.lines[0].turns, plan.lines[0].exact))
}

#[test]
fn shapes() {
    for row in ["off v0 v1 > 0", "off v1 v0 < -1000000000", "off v0 v1 >= 1000000000", "off v0 v1 <= -7", "off v0 v0 > 1"] {
        assert_eq!(row_refused(row), None, "{row}");
    }
    assert_eq!(row_refused("hold v0"), Some(67));
    for row in ["hold", "hold ", "hold 0", "hold v", "hold v-1", "hold v00", "hold (v0)", "hold v0 ", "hold v0 1", "hold v0 != 0", "Hold v0",
        "off", "off v0", "off v0 v1", "off v0 v1 >", "off v0 v1 > ", "off v0 > 1", "off v0 v1 1", "off v0 v1 == 1", "off v0 v1 != 1", "off v0 v1 = 1",
        "off v0 v1 => 1", "off v0 v1 > v1", "off v0 v1 > (1)", "off v0 v1 > 1+1", "off v0 v1 > -0", "off v0 v1 > 01", "off v0 v1 > +1", "off v0 v1 > 1 1",
        "off 0 v1 > 1", "off v0 1 > 1", "off v0 v1>1", "off v01 v1 > 1", "off v0 (v1) > 1", "off v0 v1+0 > 1", "off v0  v1 > 1",
        // The shape comes before the number and the variable.
        "off v0 v1 == 1000000001", "off v9 v9 != 1", "hold v9 v9"] {
        assert_eq!(row_refused(row), Some(3), "{row}");
    }
    for row in ["off v0 v1 > 1000000001", "off v0 v1 < -1000000001", "off v9 v1 >= 1000000001", "off v0 v9 <= 99999999999999999999"] {
        assert_eq!(row_refused(row), Some(4), "{row}");
    }
    for row in ["hold v2", "hold v99999999999", "off v2 v0 > 1", "off v0 v2 > 1", "off v16 v17 < 1000000000"] {
        assert_eq!(row_refused(row), Some(5), "{row}");
    }
    // A hold opens a block and is a loop.
    let refused = |rows: &[&str]| plan(&file(&[(0, 0), (0, 0)], rows), &ONES, SCRATCH).err();
    assert_eq!(refused(&["hold v0", "else", "end"]), Some((6, 7)));
    assert_eq!(refused(&["hold v0"; 9]), Some((7, 14)));
    assert_eq!(refused(&["hold v0", "off v0 v1 > 1", "add v1 1", "end"].repeat(16)), None);
    assert_eq!(refused(&["hold v0", "off v0 v1 > 1", "add v1 1", "end"].repeat(17)), Some((7, 6 + 64)));
}

/// The opposite comparison, and where it starts.
#[test]
fn figures_of_holds() {
    let up: &[(i64, i64)] = &[(1, 1), (0, 0)];
    // At the off: 1 2 3 4; 0 1 2 3 4.
    assert_eq!(
        text(up, &["hold v0", "add v1 1", "off v0 v1 > 3", "end"]).unwrap(),
        "report=1\nrows=4\nloops=1\nloop=0 add 1 1 4 4 exact\nticks=13\n"
    );
    assert_eq!(line(up, &["hold v0", "off v0 v1 > 3", "add v1 1"]), Ok((5, true)));
    assert_eq!(line(up, &["hold v0", "add v1 1", "off v0 v1 >= 3"]), Ok((3, true)));
    assert_eq!(line(up, &["hold v0", "off v0 v1 >= 3", "add v1 1"]), Ok((4, true)));
    // 7 4 1; 10 7 4 1.
    let down: &[(i64, i64)] = &[(-3, -3), (10, 10)];
    assert_eq!(
        text(down, &["hold v0", "sub v1 3", "off v0 v1 < 2", "end"]).unwrap(),
        "report=1\nrows=4\nloops=1\nloop=0 add -3 -3 3 3 exact\nticks=10\n"
    );
    assert_eq!(line(down, &["hold v0", "off v0 v1 < 2", "sub v1 3"]), Ok((4, true)));
    assert_eq!(line(down, &["hold v0", "sub v1 3", "off v0 v1 <= 4"]), Ok((2, true)));
    assert_eq!(line(down, &["hold v0", "off v0 v1 <= 4", "sub v1 3"]), Ok((3, true)));
    // Past it at once: one turn. At it: >= is true, > is not yet.
    assert_eq!(line(up, &["hold v0", "off v0 v1 > -1", "add v1 1"]), Ok((1, true)));
    assert_eq!(line(up, &["hold v0", "off v0 v1 >= 0", "add v1 1"]), Ok((1, true)));
    assert_eq!(line(up, &["hold v0", "off v0 v1 > 0", "add v1 1"]), Ok((2, true)));
    assert_eq!(line(up, &["hold v0", "add v1 1", "off v0 v1 > 0"]), Ok((1, true)));
    // A flag that is 0 is charged no turn; one that may be 0 or not is.
    let flag = |range| line(&[range, (0, 0)], &["hold v0", "off v0 v1 > 3", "add v1 1"]);
    assert_eq!(flag((0, 0)), Ok((0, true)));
    assert_eq!(flag((0, 1)), Ok((5, false)));
    assert_eq!(flag((-1, 0)), Ok((5, false)));
    assert_eq!(flag((-1, 1)), Ok((5, false)));
    assert_eq!(flag((1, 2)), Ok((5, false)));
    assert_eq!(flag((-7, -7)), Ok((5, true)));
    // Exact needs the watched start single and the step's ends equal too; the worst start is charged.
    assert_eq!(line(&[(1, 1), (-2, 0)], &["hold v0", "off v0 v1 > 3", "add v1 1"]), Ok((7, false)));
    assert_eq!(line(&[(1, 1), (8, 10)], &["hold v0", "off v0 v1 < 3", "sub v1 1"]), Ok((9, false)));
    assert_eq!(line(up, &["hold v0", "off v0 v1 > 3", "pick", "add v1 1", "else", "add v1 3", "end"]), Ok((5, false)));
    assert_eq!(line(up, &["hold v0", "pick", "add v1 1", "else", "add v1 1", "end", "off v0 v1 > 3"]), Ok((4, true)));
    assert_eq!(line(&[(0, 0), (-2, 0)], &["hold v0", "off v0 v1 > 3", "add v1 1"]), Ok((0, false)));
    // At the limits.
    let wide: &[(i64, i64)] = &[(1, 1), (-1_000_000_000, 1_000_000_000)];
    assert_eq!(line(wide, &["hold v0", "off v0 v1 > 1000000000", "add v1 1"]), Ok((2_000_000_002, false)));
    assert_eq!(line(wide, &["hold v0", "sub v1 1", "off v0 v1 <= -1000000000"]), Ok((2_000_000_000, false)));
    // Other variables in the body are no matter, nor is an off for another flag.
    assert_eq!(line(&[(1, 1), (0, 0), (0, 0)], &["hold v0", "set v2 v1", "off v0 v1 > 3", "off v2 v1 > 1", "add v1 1", "mul v2 2"]), Ok((5, true)));
    assert_eq!(line(&[(1, 1), (0, 0), (1, 1)], &["hold v0", "off v0 v1 > 3", "off v2 v0 < 3", "add v1 1"]), Ok((5, true)));
}

/// The figure is the longest entry of all runs.
#[test]
fn holds_counted() {
    let flags = [(0, 0), (0, 1), (-2, 2), (3, 3)];
    let starts = [(0, 0), (-1, 1), (2, 2), (4, 7), (12, 12)];
    for (flag, watched) in flags.iter().flat_map(|flag| starts.iter().map(move |start| (*flag, *start))) {
        for (compare, op) in [(">", "add"), (">=", "add"), ("<", "sub"), ("<=", "sub")] {
            for (c, by) in (-2..9).flat_map(|c| (1..4).map(move |by| (c, by))) {
                let off = format!("off v0 v1 {compare} {c}");
                let row = format!("{op} v1 {by}");
                for rows in [["hold v0", &off, &row, "end"], ["hold v0", &row, &off, "end"]] {
                    let ranges = [flag, watched];
                    let plan = plan(&file(&ranges, &rows), &ONES, SCRATCH).unwrap();
                    assert_eq!(plan.lines[0].turns, longest(&ranges, &rows), "{ranges:?} {rows:?}");
                }
            }
        }
    }
}

/// Each broken term, at the head row.
#[test]
fn question_19() {
    let refused = |rows: &[&str]| {
        let rows = [&["cue 1"], rows, &["end"]].concat();
        plan(&file(&[(1, 1), (0, 0), (0, 0)], &rows), &ONES, SCRATCH).err()
    };
    let off = "off v0 v1 > 3";
    for rows in [
        // No off for the flag; one for another, and one behind the loop.
        &["hold v0"][..],
        &["hold v0", "add v1 1"],
        &["hold v0", "add v1 1", "off v2 v1 > 3"],
        &["hold v0", "add v1 1", "end", off, "pick"],
        // Two of them, also with the second one inside a block.
        &["hold v0", "add v1 1", off, off],
        &["hold v0", off, "add v1 1", "off v0 v2 > 1"],
        &["hold v0", "add v1 1", off, "pick", off, "end"],
        &["hold v0", "add v1 1", "pick", off, "end", off],
        // Not directly in it.
        &["hold v0", "add v1 1", "pick", off, "end"],
        &["hold v0", "add v1 1", "pick", "else", off, "end"],
        &["hold v0", "pick", off, "else", off, "end", "add v1 1"],
        &["hold v0", "add v1 1", "for v2 0 < 2 add 1", off, "end"],
        &["hold v0", "hold v0", off, "add v1 1", "end"],
        // The flag assigned otherwise.
        &["hold v0", "add v1 1", off, "set v0 1"],
        &["hold v0", "add v0 0", "add v1 1", off],
        &["hold v0", "add v1 1", off, "pick", "mul v0 1", "end"],
        &["hold v0", "add v1 1", off, "for v0 0 < 1 add 1", "end"],
        // The watched variable is the flag.
        &["hold v0", "off v0 v0 > 3"],
        &["hold v0", "add v1 1", "off v0 v0 > 3"],
        &["hold v0", "add v0 1", "off v0 v0 > 3"],
        // It stands, may stand, moves both ways or not by Add.
        &["hold v0", off],
        &["hold v0", "add v1 0", off],
        &["hold v0", "mul v1 1", off],
        &["hold v0", "pick", "add v1 1", "end", off],
        &["hold v0", "pick", "add v1 1", "else", "sub v1 1", "end", off],
        &["hold v0", "mul v1 2", off],
        &["hold v0", "div v1 2", "off v0 v1 < 3"],
        &["hold v0", "set v1 v2", off],
        &["hold v0", "for v1 1 < 3 add 1", "end", off],
        &["hold v0", "while v1 < 3", "add v1 1", "end", off],
        &["hold v0", "add v1 1", "off v1 v2 > 3", off],
        &["hold v0", "add v1 1", "off v1 v0 > 3", off],
        // Away from the comparison.
        &["hold v0", "sub v1 1", off],
        &["hold v0", "sub v1 1", "off v0 v1 >= 3"],
        &["hold v0", "add v1 1", "off v0 v1 < 3"],
        &["hold v0", "add v1 1", "off v0 v1 <= 3"],
        // On both sides, standing rows too.
        &["hold v0", "add v1 1", off, "add v1 1"],
        &["hold v0", "add v1 1", off, "sub v1 0"],
        &["hold v0", "div v1 1", off, "add v1 1"],
        &["hold v0", "add v1 1", off, "pick", "add v1 0", "end"],
    ] {
        assert_eq!(refused(rows), Some((19, 1)), "{rows:?}");
    }
    // A flag that is 0 asks too, and nothing of 8 to 12 is asked.
    assert_eq!(plan(&file(&[(0, 0), (0, 0)], &["hold v0", "add v1 1", "end"]), &ONES, SCRATCH).err(), Some((19, 0)));
    assert_eq!(line(&[(1, 1), (0, 0)], &["hold v0", "add v1 1", "off v0 v1 > 3"]), Ok((4, true)));
}

/// Loop by loop in row order, with 8 to 12 of the others.
#[test]
fn question_19_in_its_place() {
    let refused = |rows: &[&str]| plan(&file(&[(1, 1), (0, 0), (0, 0)], rows), &ONES, SCRATCH).err();
    let stands: &[&str] = &["while v2 < 3", "end"];
    let broken: &[&str] = &["hold v0", "end"];
    assert_eq!(refused(&[stands, broken].concat()), Some((9, 0)));
    assert_eq!(refused(&[broken, stands].concat()), Some((19, 0)));
    // The outer loop's come first.
    assert_eq!(refused(&["hold v0", "while v2 < 3", "end", "end"]), Some((19, 0)));
    assert_eq!(refused(&["while v2 < 3", "hold v0", "end", "end"]), Some((9, 0)));
    assert_eq!(refused(&["while v2 < 3", "hold v0", "end", "add v2 1", "end"]), Some((19, 1)));
    assert_eq!(refused(&["hold v0", "add v1 1", "off v0 v1 > 3", "while v2 < 3", "end", "end"]), Some((9, 3)));
    for (row, number) in [("set v2 1", 8), ("cue 1", 9), ("add v2 1", 11)] {
        let head = if number == 11 { "while v2 > 3" } else { "while v2 < 3" };
        assert_eq!(refused(&[&[head, row, "end"], broken].concat()), Some((number, 0)), "{row}");
        assert_eq!(refused(&[broken, &[head, row, "end"]].concat()), Some((19, 0)), "{row}");
    }
    // 13 comes after it.
    assert_eq!(refused(&["for v1 0 < 1000000000 add 1", "for v2 0 < 1000000000 add 1", "end", "end", "hold v0", "end"]), Some((19, 4)));
}

/// An off assigns its flag: its step is unknown, and it counts wherever "assigned" is asked.
#[test]
fn offs_elsewhere() {
    let three: &[(i64, i64)] = &[(0, 0), (0, 0), (0, 0)];
    assert_eq!(line(three, &["while v0 < 5", "add v0 1", "off v0 v1 > 3"]), Err((8, 0)));
    assert_eq!(line(three, &["while v0 < 5", "add v0 1", "pick", "off v0 v1 > 3", "end"]), Err((8, 0)));
    assert_eq!(line(three, &["for v0 0 < 5 add 1", "off v0 v0 > 3"]), Err((8, 0)));
    // What it watches is not assigned.
    assert_eq!(line(three, &["while v0 < 5", "add v0 1", "off v1 v0 > 3"]), Ok((5, true)));
    assert_eq!(line(three, &["while v0 < v1", "add v0 1", "off v2 v1 > 3"]), Ok((0, true)));
    // A limit; a limit that closes; a copy; its master.
    assert_eq!(line(three, &["while v0 < v1", "add v0 1", "off v1 v0 > 3"]), Err((10, 0)));
    assert_eq!(line(three, &["while v0 < v1+1", "add v0 1", "off v1 v0 > 3"]), Err((10, 0)));
    assert_eq!(line(three, &["while v0 < 5", "add v1 1", "set v0 v1", "off v0 v1 > 3"]), Err((8, 0)));
    assert_eq!(line(three, &["while v0 < 5", "add v1 1", "set v0 v1", "off v1 v0 > 3"]), Err((8, 0)));
    assert_eq!(line(three, &["while v0 < 5", "add v1 1", "set v0 v1", "off v2 v1 > 3"]), Ok((5, true)));
    // A hold inside assigns its flag and its watched variable.
    let inside = &["add v0 1", "hold v1", "off v1 v2 > 3", "add v2 1", "end"];
    assert_eq!(line(three, &[&["while v0 < v1"][..], inside].concat()), Err((10, 0)));
    assert_eq!(line(three, &[&["while v1 < 5"][..], inside].concat()), Err((8, 0)));
    assert_eq!(line(three, &[&["while v2 < 5"][..], inside].concat()), Err((8, 0)));
    assert_eq!(line(three, &[&["while v0 < 5"][..], inside].concat()), Ok((5, true)));
}

/// Read off by a loop from the variable and a loop up to it.
fn range_after(ranges: &[(i64, i64)], rows: &[&str], v: usize) -> (i64, i64) {
    let (from, to) = (format!("for v3 v{v} <= 1000000000 add 1"), format!("for v3 -1000000000 <= v{v} add 1"));
    let rows = [rows, &[&from, "end", &to, "end"]].concat();
    let plan = plan(&file(ranges, &rows), &ONES, SCRATCH).unwrap();
    let [.., from, to] = &plan.lines[..] else { panic!("two loops") };
    (1_000_000_001 - from.turns as i64, to.turns as i64 - 1_000_000_001)
}

#[test]
fn ranges_round_offs_and_holds() {
    const ALL: (i64, i64) = (-1_000_000_000, 1_000_000_000);
    let off = |range, rows: &[&str]| range_after(&[range, (5, 6), (0, 0), (0, 0)], rows, 0);
    for (range, widened) in [((3, 7), (0, 7)), ((-7, -3), (-7, 0)), ((-3, 7), (-3, 7)), ((0, 0), (0, 0)), ((4, 4), (0, 4)), (ALL, ALL)] {
        assert_eq!(off(range, &["off v0 v1 > 3"]), widened);
        // It is not asked whether the comparison can be true.
        assert_eq!(off(range, &["off v0 v1 > 1000000000"]), widened);
        assert_eq!(off(range, &["off v0 v1 >= -1000000000"]), widened);
    }
    assert_eq!(off((3, 7), &["pick", "off v0 v1 > 3", "else", "add v0 2", "end"]), (0, 9));
    assert_eq!(off((3, 7), &["off v1 v0 > 3"]), (3, 7));
    // Inside the hold's body and after it, both are anything; after, also without a turn.
    let hold = ["hold v0", "off v0 v1 > 3", "add v1 1", "end"];
    for flag in [(1, 1), (0, 0)] {
        let ranges = [flag, (0, 0), (8, 9), (0, 0)];
        for v in [0, 1] {
            assert_eq!(range_after(&ranges, &hold, v), ALL);
        }
        assert_eq!(range_after(&ranges, &hold, 2), (8, 9));
        assert_eq!(range_after(&ranges, &["hold v0", "off v0 v1 > 3", "add v1 1", "add v2 1", "end"], 2), ALL);
    }
    for (v, turns) in [(0, 1_000_000_000), (1, 1_000_000_000), (2, 9)] {
        for at in [1, 2, 3] {
            let inner = format!("for v3 0 < v{v} add 1");
            let mut rows = hold.to_vec();
            rows.splice(at..at, [&inner[..], "end"]);
            let plan = plan(&file(&[(1, 1), (0, 0), (8, 9), (0, 0)], &rows), &ONES, SCRATCH).unwrap();
            assert_eq!(plan.lines[1].turns, turns, "{rows:?}");
        }
    }
}

/// An off costs arithmetic, a hold what a while does.
#[test]
fn prices_of_holds() {
    let rows = ["hold v0", "add v1 1", "off v0 v1 > 1", "cue 1", "end"];
    let held = file(&[(1, 1), (0, 0)], &rows);
    // Two turns.
    let whole = 2 * (3 + 3 + 10 + 700) + 700;
    assert_eq!(plan(&held, &PRICES, SCRATCH).unwrap().ticks, whole);
    assert_eq!(plan(&file(&[(1, 1), (0, 0)], &["off v0 v1 > 1"]), &PRICES, SCRATCH).unwrap().ticks, 3);
    assert_eq!(plan(&file(&[(0, 0), (0, 0)], &rows), &PRICES, SCRATCH).unwrap().ticks, 700);
    let go = |store: &[i32], allowance| {
        let run = run(&held, &PRICES, SCRATCH, store, &[], allowance).unwrap();
        (run.ending, run.row, run.ticks, run.store, run.entries)
    };
    let entry = |turns, tested| vec![Entry { row: 0, turns, tested }];
    assert_eq!(go(&[1, 0], whole), (Ending::Ended, 5, whole, vec![0, 2], entry(2, true)));
    assert_eq!(go(&[1, 0], whole - 1), (Ending::Spent, 0, whole - 700, vec![0, 2], entry(2, false)));
    assert_eq!(go(&[1, 0], 699), (Ending::Spent, 0, 0, vec![1, 0], entry(0, false)));
    assert_eq!(go(&[1, 0], 702), (Ending::Spent, 1, 700, vec![1, 0], entry(1, false)));
    // The off that sets: at row 2 of the second turn.
    assert_eq!(go(&[1, 0], 716 + 705), (Ending::Spent, 2, 716 + 703, vec![1, 2], entry(2, false)));
    assert_eq!(go(&[1, 0], 716 + 706), (Ending::Spent, 3, 716 + 706, vec![0, 2], entry(2, false)));
    // A flag below 0 holds, one of 0 does not.
    let flags = file(&[(-9, 9), (0, 0)], &rows);
    for (flag, turns) in [(-9, 2), (9, 2), (-1, 2), (0, 0)] {
        let run = run(&flags, &ONES, SCRATCH, &[flag, 0], &[], 99).unwrap();
        assert_eq!((run.ending, run.store[0], run.entries), (Ending::Ended, 0, entry(turns, true)));
    }
    // A variable that is past ±L by its watched row: "range" there, and the flag as it was.
    let past = file(&[(1, 1), (999_999_999, 999_999_999)], &["hold v0", "add v1 1", "off v0 v1 > 1000000000", "end"]);
    let run = run(&past, &ONES, SCRATCH, &[1, 999_999_999], &[], 99).unwrap();
    assert_eq!((run.ending, run.row, run.ticks, run.store), (Ending::Range, 1, 5, vec![1, 1_000_000_000]));
}

/// A hold is a loop for the totals in it and round it, and never the outer loop of a triangle.
#[test]
fn holds_with_other_changes() {
    let figures = |ranges: &[(i64, i64)], rows: &[&str]| figures(ranges, rows).unwrap();
    let triangle: &[&str] = &["for v2 1 <= 4 add 1", "for v3 0 < v2 add 1", "end", "end"];
    let four: &[(i64, i64)] = &[(1, 1), (0, 0), (0, 0), (0, 0)];
    let hold: &[&str] = &["hold v0", "off v0 v1 > 1", "add v1 1"];
    // Round a triangle: 3 turns of 2 + 1 and the triangle's 38 ticks, and a test.
    assert_eq!(figures(four, &[hold, triangle, &["end"]].concat()), (vec![(3, 3), (4, 12), (4, 30)], 3 * (2 + 38 + 1) + 1));
    // In a triangle's inner: 10 turns, each with 3 more; v0 is set to 1 before it.
    let inner: Vec<&str> = [&triangle[..2], &["set v0 1", "set v1 0"], hold, &["end"], &triangle[2..]].concat();
    assert_eq!(figures(four, &inner), (vec![(4, 4), (4, 10), (3, 30)], 10 * (12 + 2) + 4 * 2 + 4 * 2 + 2));
    // A for that grows with a hold's flag or its watched variable is charged its longest pass.
    let grown = |limit: &str| figures(four, &["hold v0", "off v0 v1 > 1", &format!("for v2 0 < {limit} add 1"), "end", "add v1 1", "end"]).0[1];
    assert_eq!(grown("v0"), (1_000_000_000, 3_000_000_000));
    assert_eq!(grown("v1"), (1_000_000_000, 3_000_000_000));
    assert_eq!(grown("5"), (5, 15));
    // A hold between the outer loop and the for: not directly in its body.
    let between = [&["for v2 1 <= 4 add 1"], hold, &["for v3 0 < v2 add 1", "end", "end", "end"]].concat();
    assert_eq!(figures(&[(1, 1), (0, 0), (0, 0), (0, 0)], &between).0[2].1, 4 * 4 * 1_000_000_003);
    // The flag may be copied, the watched start an expression, and a copied counter may be inside.
    assert_eq!(line(&[(0, 0), (0, 0), (5, 5)], &["hold v0", "off v0 v1 > 1", "add v1 1"]), Ok((0, true)));
    let set = ["set v0 v2-4", "set v1 2*v2-10", "hold v0", "off v0 v1 > 1", "add v1 1", "end"];
    assert_eq!(figures(&[(0, 0), (0, 0), (5, 5)], &set).0, [(3, 3)]);
    let copied = ["hold v0", "off v0 v1 > 1", "add v1 1", "while v2 < 3", "add v3 1", "set v2 v3", "end", "end"];
    assert_eq!(figures(four, &copied).0, [(3, 3), (1_000_000_003, 3_000_000_009)]);
}

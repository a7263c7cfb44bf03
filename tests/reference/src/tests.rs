use crate::*;

mod frames;
mod held;
mod reach;
mod sheet;

/// A script file of these ranges and rows.
fn file(ranges: &[(i64, i64)], rows: &[&str]) -> Vec<u8> {
    let mut text = format!("script=1\nvars={}\n", ranges.len());
    for (lo, hi) in ranges {
        text += &format!("range={lo} {hi}\n");
    }
    text += &format!("rows={}\n", rows.len());
    for row in rows {
        text += &format!("row={row}\n");
    }
    text.into_bytes()
}

fn text(ranges: &[(i64, i64)], rows: &[&str]) -> Result<String, Refusal> {
    report(&file(ranges, rows), &ONES, SCRATCH, usize::MAX).map(|text| String::from_utf8(text).unwrap())
}

/// The turns of the one loop with this head and body, started from one number.
fn turns(head: &str, start: i64, body: &[&str]) -> Result<u64, u32> {
    let mut rows = vec![head];
    rows.extend(body);
    rows.push("end");
    match plan(&file(&[(start, start)], &rows), &ONES, SCRATCH) {
        Ok(plan) => {
            assert_eq!(plan.lines.len(), 1);
            Ok(plan.lines[0].turns)
        }
        Err((number, 0)) => Err(number),
        Err((13, place)) => {
            assert_eq!(place, rows.len() as u64 - 1);
            Err(13)
        }
        Err(refusal) => panic!("{refusal:?}"),
    }
}

const LISTING: &[&str] = &["for v0 1 <= 9 add 5", "for v1 0 < v0 add 1", "cue 7", "end", "end", "cue 8"];
const LISTING_RANGES: &[(i64, i64)] = &[(0, 0), (1, 4)];
const LISTING_REPORT: &str =
    "report=1\nrows=6\nloops=2\nloop=0 add 5 5 2 2 exact\nloop=1 add 1 1 9 7 most\nticks=32\n";

#[test]
fn checked_figures() {
    assert_eq!(turns("while v0 <= 9", 1, &["add v0 5"]), Ok(2));
    assert_eq!(turns("while v0 <= 9", 9, &["add v0 5"]), Ok(1));
    assert_eq!(turns("while v0 <= 9", 10, &["add v0 5"]), Ok(0));
    assert_eq!(turns("while v0 < 6", 1, &["add v0 5"]), Ok(1));
    assert_eq!(turns("while v0 < 7", 1, &["add v0 5"]), Ok(2));
    assert_eq!(turns("do v0 <= 9", 1, &["add v0 5"]), Ok(2));
    assert_eq!(turns("do v0 <= 9", 10, &["add v0 5"]), Ok(1));
    assert_eq!(turns("while v0 >= 1", 9, &["sub v0 5"]), Ok(2));
    assert_eq!(turns("while v0 <= 8", 1, &["mul v0 2"]), Ok(4));
    assert_eq!(turns("while v0 <= 7", 1, &["mul v0 2"]), Ok(3));
    assert_eq!(turns("while v0 <= 8", 0, &["mul v0 2"]), Err(12));
    assert_eq!(turns("while v0 >= 1", 8, &["div v0 2"]), Ok(4));
    assert_eq!(turns("while v0 > 0", 8, &["div v0 2"]), Ok(4));
    assert_eq!(turns("while v0 >= 0", 8, &["div v0 2"]), Err(12));
    assert_eq!(turns("do v0 <= 8", 3, &["mul v0 2"]), Ok(2));
    assert_eq!(turns("while v0 != 9", 0, &["add v0 3"]), Ok(3));
    assert_eq!(turns("while v0 != 10", 0, &["add v0 3"]), Err(12));
    assert_eq!(turns("do v0 != 5", 5, &["add v0 1"]), Err(12));
    assert_eq!(turns("while v0 == 5", 5, &["add v0 1"]), Ok(1));
    assert_eq!(turns("while v0 == 5", 4, &["add v0 1"]), Ok(0));
    assert_eq!(turns("do v0 == 5", 4, &["add v0 1"]), Ok(2));
    let rows = ["while v0 < 10", "pick", "add v0 2", "else", "add v0 3", "end", "add v0 1", "end"];
    assert_eq!(
        text(&[(0, 0)], &rows).unwrap(),
        "report=1\nrows=8\nloops=1\nloop=0 add 3 4 4 4 most\nticks=17\n"
    );
    assert_eq!(
        turns("while v0 < 10", 0, &["pick", "sub v0 3", "else", "sub v0 5", "end", "add v0 4"]),
        Err(9)
    );
}

#[test]
fn the_listing() {
    let listing = file(LISTING_RANGES, LISTING);
    assert_eq!(text(LISTING_RANGES, LISTING).unwrap(), LISTING_REPORT);
    let run = run(&listing, &ONES, SCRATCH, &[0, 1], &[], 65).unwrap();
    assert_eq!((run.ending, run.row, run.ticks, run.used), (Ending::Ended, 6, 32, 0));
    assert_eq!(run.store, [11, 6]);
    assert_eq!(run.loops, [(0, 2, 2), (1, 7, 6)]);
    let entry = |row, turns| Entry { row, turns, tested: true };
    assert_eq!(run.entries, [entry(0, 2), entry(1, 1), entry(1, 6)]);
    let mut store = [0, 1];
    let (counts, loops) = run_counts(&listing, &ONES, SCRATCH, &mut store, &[], 32).unwrap();
    assert_eq!((counts.ending, counts.row, counts.ticks, loops, store), (Ending::Ended, 6, 32, 2, [11, 6]));
    let (counts, _) = run_counts(&listing, &ONES, SCRATCH, &mut [0, 1], &[], 31).unwrap();
    assert_eq!((counts.ending, counts.row, counts.ticks), (Ending::Spent, 5, 31));
}

#[test]
fn questions_1_2_14_15() {
    let listing = file(LISTING_RANGES, LISTING);
    for little in [0, 1, 1023] {
        assert_eq!(report(b"", &ONES, little, 0), Err((1, 1024)));
        assert_eq!(run(b"", &ONES, little, &[7], &[], 0).unwrap_err(), (1, 1024));
    }
    for enough in [1024, 1025, 8191, 8192] {
        assert_eq!(report(b"", &ONES, enough, 0), Err((3, 1)));
        assert_eq!(run(b"", &ONES, enough, &[7], &[], 0).unwrap_err(), (3, 1));
    }
    assert_eq!(report(&[b'x'; 16_384], &ONES, SCRATCH, 0), Err((3, 1)));
    assert_eq!(report(&[b'x'; 16_385], &ONES, SCRATCH, 0), Err((2, 16_384)));
    let length = LISTING_REPORT.len() as u64;
    assert_eq!(report(&listing, &ONES, SCRATCH, length as usize - 1), Err((14, length)));
    assert!(report(&listing, &ONES, SCRATCH, length as usize).is_ok());
    let mut buffer = [7u8; 200];
    assert_eq!(report_into(&listing, &ONES, SCRATCH, &mut buffer[..10]), Err((14, length)));
    assert_eq!(buffer, [7; 200]);
    assert_eq!(report_into(&listing, &ONES, SCRATCH, &mut buffer), Ok(length));
    assert_eq!(&buffer[..length as usize], LISTING_REPORT.as_bytes());
    assert!(buffer[length as usize..].iter().all(|&b| b == 7));
    let place = |store: &[i32]| run(&listing, &ONES, SCRATCH, store, &[], 99).err();
    assert_eq!(place(&[]), Some((15, 0)));
    assert_eq!(place(&[0]), Some((15, 1)));
    assert_eq!(place(&[1]), Some((15, 0)));
    assert_eq!(place(&[0, 0]), Some((15, 1)));
    assert_eq!(place(&[0, 5]), Some((15, 1)));
    assert_eq!(place(&[0, 1, 0]), Some((15, 2)));
    assert_eq!(place(&[1, 1, 0]), Some((15, 0)));
    assert_eq!(place(&[0, 4]), None);
}

#[test]
fn question_3_lines() {
    let refused = |text: &str| plan(text.as_bytes(), &ONES, SCRATCH).err();
    assert_eq!(refused(""), Some((3, 1)));
    assert_eq!(refused("script=1"), Some((3, 1)));
    assert_eq!(refused("script=1\n"), Some((3, 2)));
    assert_eq!(refused("script=2\nvars=0\nrows=0\n"), Some((3, 1)));
    assert_eq!(refused("script=01\n"), Some((3, 1)));
    assert_eq!(refused("script=1 \n"), Some((3, 1)));
    assert_eq!(refused("script=1\r\n"), Some((3, 1)));
    assert_eq!(refused("script=1\nvars=0\nrows=0\n"), None);
    assert_eq!(refused("script=1\nvars=0\nrows=0"), Some((3, 3)));
    assert_eq!(refused("script=1\nvars=0\nrows=0\n\n"), Some((3, 4)));
    assert_eq!(refused("script=1\nvars=0\nrows=0\nx"), Some((3, 4)));
    assert_eq!(refused("script=1\nvars=-0\n"), Some((3, 2)));
    assert_eq!(refused("script=1\nvars=00\n"), Some((3, 2)));
    assert_eq!(refused("script=1\nvars=+1\n"), Some((3, 2)));
    assert_eq!(refused("script=1\nvars=\n"), Some((3, 2)));
    assert_eq!(refused("script=1\nvars=-1\n"), Some((4, 2)));
    assert_eq!(refused("script=1\nvars=17\n"), Some((4, 2)));
    assert_eq!(refused(&format!("script=1\nvars={}\n", "9".repeat(5_000))), Some((4, 2)));
    assert_eq!(refused("script=1\nvars=1\n"), Some((3, 3)));
    assert_eq!(refused("script=1\nvars=1\nrange=1\n"), Some((3, 3)));
    assert_eq!(refused("script=1\nvars=1\nrange=1  2\n"), Some((3, 3)));
    assert_eq!(refused("script=1\nvars=1\nrange=1 2 3\n"), Some((3, 3)));
    assert_eq!(refused("script=1\nvars=1\nrange=2 1\n"), Some((4, 3)));
    assert_eq!(refused("script=1\nvars=1\nrange=-1000000001 1\n"), Some((4, 3)));
    assert_eq!(refused("script=1\nvars=1\nrange=-1000000000 1000000000\nrows=0\n"), None);
    assert_eq!(refused("script=1\nvars=1\nrange=1 1000000001\n"), Some((4, 3)));
    assert_eq!(refused("script=1\nvars=0\nrows=257\n"), Some((4, 3)));
    assert_eq!(refused("script=1\nvars=0\nrows=256\n"), Some((3, 4)));
    assert_eq!(refused("script=1\nvars=0\nrows=1\nrow=cue 1\nrow=cue 1\n"), Some((3, 5)));
    assert_eq!(refused("script=1\nvars=0\nrows=2\nrow=cue 1\n"), Some((3, 5)));
}

/// The refusal of one row as the first of a file with two variables; the row has line 6.
fn row_refused(row: &str) -> Option<u32> {
    match plan(&file(&[(0, 0), (0, 0)], &[row]), &ONES, SCRATCH) {
        Ok(_) => None,
        Err((number, 6)) => Some(number),
        Err((6, 7)) => Some(67),
        Err(refusal) => panic!("{refusal:?}"),
    }
}

#[test]
fn rows() {
    for row in ["set v0 1", "set v1 v0", "set v0 -1000000000", "add v0 0", "sub v0 1000000000", "mul v0 1",
        "div v0 1000000000", "cue 0", "cue 9999"] {
        assert_eq!(row_refused(row), None, "{row}");
    }
    for row in ["pick", "while v0 <= 1", "while v0 == v1", "do v0 != -7", "for v0 1 <= v1 mul 3", "for v0 v1 > 0 div 1"] {
        assert_eq!(row_refused(row), Some(67), "{row}");
    }
    for row in ["", " ", "set", "set v0", "set v0 ", "set v0  1", "set v0 1 ", " set v0 1", "set v0 01", "set v0 -0",
        "set v0 +1", "set v-1 0", "set v01 0", "set v 0", "set 0 0", "set V0 0", "add v0 v1", "add v0 -", "cue v0",
        "cue", "cue 1 1", "cue 1\r", "cue 1\0", "cue\t1", "pick 1", "end ", "else else", "while v0 = 1",
        "while v0 <= 1 2", "while 1 <= v0", "while v0 <=1", "do v0 <=", "for v0 1 <= 2 add", "for v0 1 <= 2 add v1",
        "for v0 1 <= 2 set 1", "for v0 1 <= 2 add 1 1", "for v0 1 2 <= add 1", "Set v0 1", "set v0 1.0", "set v0 1e1",
        "add v99 v0", "cue -0", "set v0 --1", "set v0 v-0"] {
        assert_eq!(row_refused(row), Some(3), "{row}");
    }
    for row in ["set v0 1000000001", "set v0 -1000000001", "add v0 -1", "sub v0 1000000001", "mul v0 0", "div v0 0",
        "div v0 -1", "cue -1", "cue 10000", "while v0 <= 1000000001", "do v9 <= -1000000001",
        "for v0 1000000001 <= 1 add 1", "for v0 1 <= 1000000001 add 1", "for v0 1 <= 1 mul 0", "add v99 -1",
        "for v9 v9 <= v9 div 0"] {
        assert_eq!(row_refused(row), Some(4), "{row}");
    }
    let long = "9".repeat(5_000);
    assert_eq!(row_refused(&format!("add v0 {long}")), Some(4));
    assert_eq!(row_refused(&format!("set v0 -{long}")), Some(4));
    assert_eq!(row_refused(&format!("set v0 0{long}")), Some(3));
    assert_eq!(row_refused(&format!("set v{long} 1")), Some(5));
    for row in ["set v2 1", "set v0 v2", "add v2 0", "while v2 <= 1", "while v0 <= v2", "do v0 <= v255",
        "do v0 <= v256", "for v2 1 <= 1 add 1", "for v0 v2 <= 1 add 1", "for v0 1 <= v2 add 1", "set v0 v99999999999"] {
        assert_eq!(row_refused(row), Some(5), "{row}");
    }
    for row in ["else", "end"] {
        assert_eq!(row_refused(row), Some(6), "{row}");
    }
}

#[test]
fn blocks() {
    let refused = |rows: &[&str]| plan(&file(&[], rows), &ONES, SCRATCH).err();
    assert_eq!(refused(&["pick", "else", "end"]), None);
    assert_eq!(refused(&["pick", "end"]), None);
    assert_eq!(refused(&["pick", "else", "else", "end"]), Some((6, 6)));
    assert_eq!(refused(&["pick", "end", "end"]), Some((6, 6)));
    assert_eq!(refused(&["pick", "pick", "end"]), Some((6, 7)));
    assert_eq!(refused(&["pick", "else"]), Some((6, 6)));
    assert_eq!(refused(&["pick"; 8]), Some((6, 12)));
    assert_eq!(refused(&["pick"; 9]), Some((7, 12)));
    let loops = |count| plan(&file(&[(0, 0)], &["for v0 1 < 9 add 1", "end"].repeat(count)), &ONES, SCRATCH).err();
    assert_eq!(loops(16), None);
    assert_eq!(loops(17), Some((7, 5 + 32)));
    let inside = |row| plan(&file(&[(0, 0)], &["while v0 < 1", row, "end"]), &ONES, SCRATCH).err();
    assert_eq!(inside("else"), Some((6, 6)));
    assert_eq!(inside("add v0 1"), None);
    assert_eq!(inside("cue 1"), Some((9, 0)));
    // An open block with bytes after the last row: question 3 comes first.
    let mut open = file(&[], &["pick"]);
    open.push(b'\n');
    assert_eq!(plan(&open, &ONES, SCRATCH).err(), Some((3, 5)));
    // A pick counts for the depth and not for the loops; else opens no depth.
    let mut rows = vec!["pick"; 8];
    for _ in 0..8 {
        rows.extend(["else", "end"]);
    }
    assert_eq!(refused(&rows), None);
}

#[test]
fn questions_8_to_12() {
    let refused = |ranges: &[(i64, i64)], rows: &[&str]| plan(&file(ranges, rows), &ONES, SCRATCH).err();
    assert_eq!(turns("while v0 < 5", 0, &["set v0 1"]), Err(8));
    assert_eq!(turns("while v0 < 5", 0, &["add v0 1", "mul v0 2"]), Err(8));
    assert_eq!(turns("while v0 < 5", 0, &["div v0 2", "mul v0 3"]), Err(8));
    assert_eq!(turns("while v0 < 5", 1, &["add v0 5", "sub v0 5", "mul v0 2"]), Ok(3));
    assert_eq!(turns("while v0 < 5", 1, &["pick", "mul v0 2", "end"]), Err(9));
    assert_eq!(turns("while v0 < 5", 1, &["pick", "mul v0 2", "end", "mul v0 2"]), Ok(3));
    assert_eq!(turns("while v0 < 5", 1, &["pick", "mul v0 2", "else", "add v0 1", "end"]), Err(8));
    assert_eq!(turns("while v0 < 5", 1, &["pick", "add v0 1", "end"]), Err(9));
    assert_eq!(turns("while v0 > 5", 1, &["add v0 1"]), Err(11));
    assert_eq!(turns("while v0 < 5", 1, &["div v0 2"]), Err(11));
    assert_eq!(turns("while v0 == 5", 1, &["div v0 2"]), Err(11));
    assert_eq!(turns("while v0 < v0", 1, &["add v0 1"]), Err(10));
    assert_eq!(turns("for v0 0 < v0 add 1", 1, &[]), Err(10));
    assert_eq!(turns("for v0 0 < 5 add 1", 1, &["sub v0 1"]), Err(9));
    assert_eq!(turns("while v0 != 5", 1, &["pick", "add v0 1", "else", "add v0 2", "end"]), Err(12));
    // A standing row assigns.
    assert_eq!(refused(&[(0, 0), (9, 9)], &["while v0 != v1", "add v1 0", "add v0 1", "end"]), Some((10, 0)));
    assert_eq!(
        refused(&[(0, 0), (9, 9)], &["cue 0", "while v0 < 9", "while v1 < 5", "mul v0 1", "add v1 1", "end", "add v0 1", "end"]),
        Some((8, 1))
    );
    // The outer loop is asked first.
    assert_eq!(
        refused(&[(0, 0), (9, 9)], &["while v0 < 9", "while v1 < 5", "end", "end"]),
        Some((9, 0))
    );
    assert_eq!(
        refused(&[(0, 0), (9, 9)], &["while v0 < 9", "add v0 1", "while v1 < 5", "end", "end"]),
        Some((9, 2))
    );
}

#[test]
fn question_13() {
    let refused = |ranges: &[(i64, i64)], rows: &[&str]| plan(&file(ranges, rows), &ONES, SCRATCH).err();
    let nested = |inner: &str, outer: &str, cues: usize| {
        let outer = format!("for v0 1 <= {outer} add 1");
        let inner = format!("for v1 1 <= {inner} add 1");
        let mut rows = vec![&outer[..], &inner, "end", "end"];
        rows.extend(vec!["cue 1"; cues]);
        refused(&[(0, 0), (0, 0)], &rows)
    };
    // The inner one 2·499999 + 2 = 10^6, the outer (10^6 + 2)·N + 2: 10^12 − 2 for 999998.
    assert_eq!(nested("499999", "999998", 0), None);
    assert_eq!(nested("499999", "999998", 2), None);
    assert_eq!(nested("499999", "999998", 3), Some((13, 7)));
    assert_eq!(nested("499999", "999999", 0), Some((13, 3)));
    assert_eq!(nested("499999", "999999", 3), Some((13, 3)));
    assert_eq!(nested("500000000", "1", 0), None);
    assert_eq!(nested("500000000", "1000", 0), Some((13, 3)));
    // 8 deep, far past 64 bits; the first end row over the limit is the second loop's from inside.
    let heads: Vec<String> = (0..8).map(|v| format!("for v{v} -1000000000 <= 1000000000 add 1")).collect();
    let mut rows: Vec<&str> = heads.iter().map(String::as_str).collect();
    rows.extend(["end"; 8]);
    assert_eq!(refused(&[(0, 0); 8], &rows), Some((13, 9)));
    // Inside a loop of no turns the same, since the inner block is over the limit by itself.
    rows.splice(0..1, ["for v0 1 <= 0 add 1"]);
    assert_eq!(refused(&[(0, 0); 8], &rows), Some((13, 9)));
    // No block over the limit but the file: place R.
    let one = ["for v0 1 <= 600000 add 1", "for v1 1 <= 499999 add 1", "end", "end"];
    assert_eq!(refused(&[(0, 0); 2], &one), None);
    let mut two = one.repeat(2);
    assert_eq!(refused(&[(0, 0); 2], &two), Some((13, 8)));
    // In a body of a loop without turns their sum is no block of its own.
    two.insert(0, "for v2 1 <= 0 add 1");
    two.push("end");
    assert_eq!(refused(&[(0, 0); 3], &two), None);
    // A pick round them is.
    let mut picked = one.repeat(2);
    picked.insert(0, "pick");
    picked.extend(["end", "cue 1"]);
    assert_eq!(refused(&[(0, 0); 2], &picked), Some((13, 9)));
    // Question 12 of a later loop comes before 13.
    let mut late = one.repeat(2);
    late.extend(["while v0 != 5", "end"]);
    assert_eq!(refused(&[(0, 0); 2], &late), Some((9, 8)));
}

#[test]
fn reports() {
    assert_eq!(text(&[], &[]).unwrap(), "report=1\nrows=0\nloops=0\nticks=0\n");
    assert_eq!(
        text(&[(9, 9)], &["while v0 >= 1", "sub v0 5", "end"]).unwrap(),
        "report=1\nrows=3\nloops=1\nloop=0 add -5 -5 2 2 exact\nticks=5\n"
    );
    assert_eq!(
        text(&[(8, 9)], &["do v0 >= 1", "div v0 2", "div v0 3", "end"]).unwrap(),
        "report=1\nrows=4\nloops=1\nloop=0 shrink 6 6 2 2 most\nticks=6\n"
    );
    assert_eq!(
        text(&[(1, 1)], &["while v0 <= 100", "mul v0 1000000000", "mul v0 3", "mul v0 1", "end"]).unwrap(),
        "report=1\nrows=5\nloops=1\nloop=0 grow 2000000001 2000000001 1 1 exact\nticks=5\n"
    );
    // After the outer's body the tested one is known from below only, the others not at all.
    assert_eq!(
        text(
            &[(0, 3), (5, 5)],
            &["while v0 < 10", "add v0 2", "set v1 v0", "end", "while v0 >= -5", "sub v0 1", "end", "for v0 v1 < 0 add 1", "end"]
        )
        .unwrap(),
        "report=1\nrows=9\nloops=3\nloop=0 add 2 2 5 5 most\nloop=4 add -1 -1 1000000006 1000000006 most\n\
         loop=7 add 1 1 1000000000 1000000000 most\nticks=4000000031\n"
    );
    // do and the body's ranges: v0 from 1 to 20 at the body's start, so 20 turns inside.
    assert_eq!(
        text(&[(1, 20), (0, 0)], &["do v0 <= 9", "for v1 1 <= v0 add 1", "end", "add v0 5", "end"]).unwrap(),
        "report=1\nrows=5\nloops=2\nloop=0 add 5 5 2 2 most\nloop=1 add 1 1 20 40 most\nticks=88\n"
    );
    // A pick joins the ranges.
    assert_eq!(
        text(&[(0, 0)], &["pick", "set v0 3", "else", "sub v0 2", "end", "while v0 <= 3", "add v0 1", "end"]).unwrap(),
        "report=1\nrows=8\nloops=1\nloop=5 add 1 1 6 6 most\nticks=15\n"
    );
}

#[test]
fn runs() {
    let go = |ranges: &[(i64, i64)], rows: &[&str], store: &[i32], picks: &[u8], allowance| {
        let run = run(&file(ranges, rows), &ONES, SCRATCH, store, picks, allowance).unwrap();
        (run.ending, run.row, run.ticks, run.used, run.store)
    };
    use Ending::*;
    assert_eq!(go(&[], &[], &[], &[1], 0), (Ended, 0, 0, 0, vec![]));
    assert_eq!(go(&[], &["cue 1"], &[], &[], 0), (Spent, 0, 0, 0, vec![]));
    let rows = ["cue 1", "pick", "add v0 1", "else", "sub v0 1", "end", "mul v0 1000000000"];
    assert_eq!(go(&[(0, 1)], &rows, &[0], &[], 9), (NoPick, 1, 2, 0, vec![0]));
    assert_eq!(go(&[(0, 1)], &rows, &[0], &[], 1), (Spent, 1, 1, 0, vec![0]));
    assert_eq!(go(&[(0, 1)], &rows, &[0], &[255, 1], 9), (Ended, 7, 4, 1, vec![1_000_000_000]));
    assert_eq!(go(&[(0, 1)], &rows, &[1], &[1], 9), (Range, 6, 4, 1, vec![2]));
    assert_eq!(go(&[(0, 1)], &rows, &[0], &[0, 1], 9), (Ended, 7, 4, 1, vec![-1_000_000_000]));
    assert_eq!(go(&[(-7, 7)], &["div v0 2"], &[-7], &[], 9), (Ended, 1, 1, 0, vec![-4]));
    // A do: no tick at its head, its test at the head's row; the turn counts though the tick lacks.
    let rows = ["do v0 < 2", "add v0 1", "end"];
    let run_of = |allowance| run(&file(&[(0, 0)], &rows), &ONES, SCRATCH, &[0], &[], allowance).unwrap();
    let first = run_of(0);
    assert_eq!((first.ending, first.row, first.ticks), (Spent, 1, 0));
    assert_eq!(first.loops, [(0, 1, 1)]);
    assert_eq!(first.entries, [Entry { row: 0, turns: 1, tested: false }]);
    let second = run_of(1);
    assert_eq!((second.ending, second.row, second.ticks), (Spent, 0, 1));
    let third = run_of(3);
    assert_eq!((third.ending, third.row, third.ticks), (Spent, 0, 3));
    assert_eq!(third.loops, [(0, 2, 2)]);
    assert_eq!(run_of(4).entries, [Entry { row: 0, turns: 2, tested: true }]);
    // A for: its start, test and step at the head's row; an entry without a turn.
    let rows = ["cue 1", "for v0 999999999 <= 1000000000 add 1", "end", "cue 2"];
    let run_of = |allowance| run(&file(&[(0, 0)], &rows), &ONES, SCRATCH, &[0], &[], allowance).unwrap();
    let start = run_of(1);
    assert_eq!((start.ending, start.row, start.ticks, &start.store[..]), (Spent, 1, 1, &[0][..]));
    assert_eq!(start.entries, [Entry { row: 1, turns: 0, tested: false }]);
    let test = run_of(2);
    assert_eq!((test.ending, test.row, &test.store[..], test.loops[0]), (Spent, 1, &[999_999_999][..], (1, 0, 0)));
    let past = run_of(99);
    assert_eq!((past.ending, past.row, past.ticks, past.loops[0]), (Range, 1, 6, (1, 2, 2)));
    assert_eq!(past.store, [1_000_000_000]);
    assert!(!past.entries[0].tested);
    assert_eq!(breach(&plan(&file(&[(0, 0)], &rows), &ONES, SCRATCH).unwrap(), &past), None);
}

/// Change 4: of the blocks over the limit the one whose `end` row comes first; R only if no block is over.
#[test]
fn first_block_over() {
    let block = |head| [head, "for v1 1 <= 499999 add 1", "end", "end"];
    let over = block("for v0 1 <= 999999 add 1");
    let part = block("for v0 1 <= 600000 add 1");
    let full = block("for v0 1 <= 999998 add 1");
    let refused = |parts: &[&[&str]]| plan(&file(&[(0, 0); 3], &parts.concat()), &ONES, SCRATCH).err();
    let (twice, never, end) = (&["for v2 1 <= 2 add 1"][..], &["for v2 1 <= 0 add 1"][..], &["end"][..]);
    let (pick, other, cue) = (&["pick"][..], &["else"][..], &["cue 1"][..]);
    // Nested: the inner, neither the outermost nor the one whose head comes first.
    assert_eq!(refused(&[twice, &over, end]), Some((13, 4)));
    assert_eq!(refused(&[twice, &part, end]), Some((13, 5)));
    assert_eq!(refused(&[pick, twice, &part, end, end]), Some((13, 6)));
    // Side by side: the first, not the last.
    assert_eq!(refused(&[&over, cue, &over]), Some((13, 3)));
    assert_eq!(refused(&[&part, &over, cue]), Some((13, 7)));
    // Only the file.
    assert_eq!(refused(&[&part, cue, &part]), Some((13, 9)));
    assert_eq!(refused(&[&over, &part, cue]), Some((13, 3)));
    // A pick whose branches are within: 10^12 and the pick's own tick.
    assert_eq!(refused(&[pick, &full, cue, cue, end]), Some((13, 7)));
    assert_eq!(refused(&[pick, &full, cue, end]), None);
    assert_eq!(refused(&[pick, cue, other, &over, end]), Some((13, 6)));
    // A loop without a turn is within the limit, but not what is in it.
    assert_eq!(refused(&[never, &part, &part, end, &over]), Some((13, 13)));
    assert_eq!(refused(&[never, &over, end, &over]), Some((13, 4)));
    assert_eq!(refused(&[never, pick, &part, &part, end, end]), Some((13, 10)));
    assert_eq!(refused(&[never, &part, &part, end]), None);
}

/// Change 3: question 16 and its place, after 1 and before 2.
#[test]
fn question_16() {
    let long = [b'x'; 16_385];
    let asked = |prices: &[u32]| {
        let report = report(&long, prices, SCRATCH, 0).unwrap_err();
        assert_eq!(run(&long, prices, SCRATCH, &[7], &[], 0).unwrap_err(), report);
        report
    };
    assert_eq!(asked(&[1, 1, 1, 1]), (2, 16_384));
    assert_eq!(asked(&[1, 1_000, 1_000, 1]), (2, 16_384));
    assert_eq!(asked(&[]), (16, 0));
    assert_eq!(asked(&[1]), (16, 1));
    assert_eq!(asked(&[1, 1, 1]), (16, 3));
    assert_eq!(asked(&[1, 1, 1, 1, 1]), (16, 4));
    assert_eq!(asked(&[1; 9]), (16, 4));
    assert_eq!(asked(&[0, 1, 1, 1]), (16, 0));
    assert_eq!(asked(&[1, 1_001, 0, 1]), (16, 1));
    assert_eq!(asked(&[1, 1, 1, u32::MAX]), (16, 3));
    assert_eq!(asked(&[1, 1, 0]), (16, 2));
    assert_eq!(asked(&[1, 1, 1, 0, 1]), (16, 3));
    assert_eq!(report(b"", &[], SCRATCH - 1, 0), Err((1, SCRATCH as u64)));
    assert_eq!(run(b"", &[0], SCRATCH - 1, &[], &[], 0).unwrap_err(), (1, SCRATCH as u64));
}

const PRICES: [u32; 4] = [3, 10, 50, 700];

/// Change 3: the figures, each kind of row by itself.
#[test]
fn ticks_by_kind_of_row() {
    let ticks = |rows: &[&str]| plan(&file(&[(0, 0), (0, 0)], rows), &PRICES, SCRATCH).unwrap().ticks;
    for row in ["set v0 1", "set v0 v1", "add v0 1", "sub v0 1", "mul v0 1", "div v0 1"] {
        assert_eq!(ticks(&[row]), 3, "{row}");
    }
    assert_eq!(ticks(&["cue 1"]), 10);
    assert_eq!(ticks(&["pick", "end"]), 50);
    assert_eq!(ticks(&["pick", "else", "end"]), 50);
    // The larger branch is the dearer one, not the one of more rows.
    assert_eq!(ticks(&["pick", "add v0 1", "add v0 1", "else", "cue 1", "end"]), 60);
    // Without a turn: a test; a start and a test. With two: 2(B + test) + test, 2(B + step + test) + start + test, 2(B + test).
    assert_eq!(ticks(&["while v0 > 5", "sub v0 1", "end"]), 700);
    assert_eq!(ticks(&["for v0 0 > 5 sub 1", "end"]), 703);
    assert_eq!(ticks(&["while v0 < 2", "add v0 1", "end"]), 2 * 703 + 700);
    assert_eq!(ticks(&["for v0 0 < 2 add 1", "cue 1", "end"]), 2 * 713 + 703);
    assert_eq!(ticks(&["do v0 < 2", "add v0 1", "end"]), 2 * 703);
    // The listing: start and test of the outer; 1 and 6 turns inside, each entry with its start and test; two steps and tests; a cue.
    let whole = 703 + (703 + 713) + (703 + 6 * 713) + 2 * 703 + 10;
    let listing = file(LISTING_RANGES, LISTING);
    let text = String::from_utf8(report(&listing, &PRICES, SCRATCH, 999).unwrap()).unwrap();
    assert_eq!(text, LISTING_REPORT.replace("ticks=32", &format!("ticks={whole}")));
}

/// Change 3: the run, and when it is spent.
#[test]
fn runs_by_kind_of_row() {
    let listing = file(LISTING_RANGES, LISTING);
    let go = |allowance| run(&listing, &PRICES, SCRATCH, &[0, 1], &[], allowance).unwrap();
    // Start and test of the outer; 1 and 6 turns inside, each entry with its start and test; two steps and tests; a cue.
    let whole = 703 + (703 + 713) + (703 + 6 * 713) + 2 * 703 + 10;
    let run_of = go(whole);
    assert_eq!((run_of.ending, run_of.ticks, &run_of.store[..]), (Ending::Ended, whole, &[11, 6][..]));
    // The last price does not fit: no tick of it is taken.
    for left in 0..10 {
        let run = go(whole - 10 + left);
        assert_eq!((run.ending, run.row, run.ticks), (Ending::Spent, 5, whole - 10), "{left}");
    }
    // A for's start, its test and its step have their own prices.
    for allowance in 0..716 {
        let run = go(allowance);
        let (ticks, store) = match allowance {
            0..=2 => (0, [0, 1]),
            3..=702 => (3, [1, 1]),
            703..=705 => (703, [1, 1]),
            _ => (706, [1, 0]),
        };
        let row = if allowance < 703 { 0 } else { 1 };
        assert_eq!((run.ending, run.row, run.ticks, &run.store[..]), (Ending::Spent, row, ticks, &store[..]), "{allowance}");
    }
    // A pick is paid before its byte is asked for.
    let rows = file(&[(0, 0)], &["pick", "add v0 1", "end", "set v0 7"]);
    let go = |picks: &[u8], allowance| {
        let run = run(&rows, &PRICES, SCRATCH, &[0], picks, allowance).unwrap();
        (run.ending, run.row, run.ticks, run.used, run.store[0])
    };
    assert_eq!(go(&[], 49), (Ending::Spent, 0, 0, 0, 0));
    assert_eq!(go(&[], 50), (Ending::NoPick, 0, 50, 0, 0));
    assert_eq!(go(&[1], 52), (Ending::Spent, 1, 50, 1, 0));
    assert_eq!(go(&[1], 55), (Ending::Spent, 3, 53, 1, 1));
    assert_eq!(go(&[0], u64::MAX), (Ending::Ended, 4, 53, 1, 7));
    // A do: no price at its head.
    let rows = file(&[(0, 0)], &["do v0 < 1", "add v0 1", "end"]);
    let run = run(&rows, &PRICES, SCRATCH, &[0], &[], 702).unwrap();
    assert_eq!((run.ending, run.row, run.ticks, run.loops[0]), (Ending::Spent, 0, 3, (0, 1, 1)));
}

/// Change 3: question 13's limit is not scaled, and turns and totals do not depend on prices.
#[test]
fn question_13_with_prices() {
    // Inside 499(1000 + 1000) + 2000 = 10^6, outside 998003(10^6 + 2000) + 2000, and 495·2000 + 2000: 10^12.
    let mut rows = vec!["for v0 1 <= 998003 add 1", "for v1 1 <= 499 add 1", "end", "end", "for v2 1 <= 495 add 1", "end"];
    let ticks = |rows: &[&str], prices: &[u32]| plan(&file(&[(0, 0); 3], rows), prices, SCRATCH).map(|plan| plan.ticks);
    assert_eq!(ticks(&rows, &[1_000, 1, 1, 1_000]), Ok(1_000_000_000_000));
    rows.extend(["pick", "end"]);
    assert_eq!(ticks(&rows, &[1_000, 1, 1, 1_000]), Err((13, 8)));
    assert_eq!(ticks(&rows, &[999, 1, 1, 1_000]), Ok(999_500_000_001));
    rows[0] = "for v0 1 <= 998004 add 1";
    assert_eq!(ticks(&rows, &[1_000, 1, 1, 1_000]), Err((13, 3)));
    let plan_of = |prices| plan(&file(LISTING_RANGES, LISTING), prices, SCRATCH).unwrap();
    assert_eq!(plan_of(&PRICES).lines, plan_of(&ONES).lines);
}

/// The most turns that the first loop takes in one entry, from any store inside the ranges, without picks.
fn longest(ranges: &[(i64, i64)], rows: &[&str]) -> u64 {
    let file = file(ranges, rows);
    let mut stores = vec![Vec::new()];
    for &(lo, hi) in ranges {
        stores = stores.iter().flat_map(|s: &Vec<i32>| (lo..=hi).map(|n| [&s[..], &[n as i32]].concat())).collect();
    }
    let most = |store: &Vec<i32>| {
        let run = run(&file, &ONES, SCRATCH, store, &[], 1_000_000).unwrap();
        assert_eq!(run.ending, Ending::Ended);
        assert_eq!(breach(&plan(&file, &ONES, SCRATCH).unwrap(), &run), None);
        run.loops[0].2
    };
    stores.iter().map(most).max().unwrap()
}

/// Change 1.
#[test]
fn copied_counters() {
    let case: &[(i64, i64)] = &[(0, 0), (3, 3)];
    let line = |ranges: &[(i64, i64)], rows: &[&str]| plan(&file(ranges, rows), &ONES, SCRATCH).map(|plan| (plan.lines[0].turns, plan.lines[0].exact));
    // Document 02's case: 1 + c, from w's start moved by one turn; the copy first, it is not moved.
    assert_eq!(
        text(case, &["while v0 < 10", "add v1 1", "set v0 v1", "end"]).unwrap(),
        "report=1\nrows=4\nloops=1\nloop=0 add 1 1 7 7 exact\nticks=22\n"
    );
    assert_eq!(line(case, &["while v0 < 10", "set v0 v1", "add v1 1", "end"]), Ok((8, true)));
    assert_eq!(line(case, &["do v0 < 10", "add v1 1", "set v0 v1", "end"]), Ok((7, true)));
    assert_eq!(line(case, &["do v0 < 10", "set v0 v1", "add v1 1", "end"]), Ok((8, true)));
    // A while that never turns is not charged a turn; its best start decides, and not for a do.
    assert_eq!(line(&[(10, 20), (3, 3)], &["while v0 < 10", "add v1 1", "set v0 v1", "end"]), Ok((0, false)));
    assert_eq!(line(&[(9, 20), (3, 3)], &["while v0 < 10", "add v1 1", "set v0 v1", "end"]), Ok((7, false)));
    assert_eq!(line(&[(10, 20), (3, 3)], &["do v0 < 10", "add v1 1", "set v0 v1", "end"]), Ok((7, false)));
    assert_eq!(line(&[(0, 3), (9, 9)], &["while v0 > 3", "sub v1 1", "set v0 v1", "end"]), Ok((0, false)));
    assert_eq!(line(&[(0, 4), (9, 9)], &["while v0 > 3", "sub v1 1", "set v0 v1", "end"]), Ok((6, false)));
    // Past the limit at once: the first turn alone.
    assert_eq!(line(&[(0, 0), (900, 900)], &["while v0 < 10", "add v1 1", "set v0 v1", "end"]), Ok((1, true)));
    // Exact needs v, w and the limit single and w's ends equal.
    let rows = ["while v0 < v2", "add v1 1", "set v0 v1", "end"];
    assert_eq!(line(&[(0, 0), (3, 3), (9, 9)], &rows), Ok((6, true)));
    assert_eq!(line(&[(0, 1), (3, 3), (9, 9)], &rows), Ok((6, false)));
    assert_eq!(line(&[(0, 0), (3, 4), (9, 9)], &rows), Ok((6, false)));
    assert_eq!(line(&[(0, 0), (3, 3), (9, 10)], &rows), Ok((7, false)));
    assert_eq!(line(case, &["while v0 < 10", "pick", "add v1 1", "else", "add v1 2", "end", "set v0 v1", "end"]), Ok((7, false)));
    // v's range is kept neither inside nor after.
    let plan_of = |rows: &[&str]| plan(&file(&[(0, 0), (0, 0), (0, 0)], rows), &ONES, SCRATCH).unwrap();
    let inside = plan_of(&["while v0 < 3", "for v2 0 < v0 add 1", "end", "add v1 1", "set v0 v1", "end"]);
    assert_eq!(inside.lines[1].turns, 1_000_000_000);
    let after = plan_of(&["while v0 < 3", "add v1 1", "set v0 v1", "end", "for v2 0 < v0 add 1", "end"]);
    assert_eq!(after.lines[1].turns, 1_000_000_000);
    // The master before and after: its range is that at the loop, and lost after it.
    let master = plan_of(&["set v1 5", "while v0 < 10", "add v1 1", "set v0 v1", "end", "for v2 0 < v1 add 1", "end"]);
    assert_eq!((master.lines[0].turns, master.lines[1].turns), (5, 1_000_000_000));
}

/// Change 1: each broken term leaves the step unknown; 10 and 11 are asked as ever.
#[test]
fn broken_copies() {
    let refused = |rows: &[&str]| {
        let rows = [rows, &["end"]].concat();
        plan(&file(&[(0, 0), (3, 3), (0, 0)], &rows), &ONES, SCRATCH).err()
    };
    for rows in [
        &["while v0 < 10", "add v1 1", "pick", "set v0 v1", "end"][..],
        &["while v0 < 10", "add v1 1", "for v2 0 < 1 add 1", "set v0 v1", "end"],
        &["for v0 0 < 10 add 1", "add v1 1", "set v0 v1"],
        &["while v0 == 0", "add v1 1", "set v0 v1"],
        &["do v0 != 10", "add v1 1", "set v0 v1"],
        &["while v0 < 10", "add v1 1", "set v0 v1", "add v1 1"],
        &["while v0 < 10", "add v1 0", "set v0 v1", "add v1 1"],
        &["while v0 < 10", "add v1 1", "set v0 v1", "pick", "sub v1 0", "end"],
        &["while v0 < 10", "set v0 v1"],
        &["while v0 < 10", "add v1 0", "set v0 v1"],
        &["while v0 < 10", "pick", "add v1 1", "end", "set v0 v1"],
        &["while v0 < 10", "pick", "add v1 1", "else", "sub v1 1", "end", "set v0 v1"],
        &["while v0 < 10", "mul v1 2", "set v0 v1"],
        &["while v0 > 1", "div v1 2", "set v0 v1"],
        &["while v0 < 10", "set v1 50", "set v0 v1"],
        &["while v0 < 10", "for v1 1 < 20 add 1", "end", "set v0 v1"],
        &["while v0 < 10", "add v1 1", "set v0 v1", "set v0 v1"],
        &["while v0 < 10", "mul v0 1", "add v1 1", "set v0 v1"],
        &["while v0 < 10", "add v1 1", "set v0 v1", "for v0 0 < 1 add 1", "end"],
        &["while v0 < 10", "add v1 1", "set v0 v0"],
        &["while v0 < 10", "add v1 1", "set v0 50"],
    ] {
        assert_eq!(refused(rows), Some((8, 0)), "{rows:?}");
    }
    assert_eq!(refused(&["while v0 < v1", "add v1 1", "set v0 v1"]), Some((10, 0)));
    assert_eq!(refused(&["while v0 < v0", "add v1 1", "set v0 v1"]), Some((10, 0)));
    assert_eq!(refused(&["while v0 < v2", "add v1 1", "set v0 v1", "div v2 1"]), Some((10, 0)));
    assert_eq!(refused(&["while v0 > v2", "add v1 1", "set v0 v1", "div v2 1"]), Some((10, 0)));
    assert_eq!(refused(&["while v0 > 10", "add v1 1", "set v0 v1"]), Some((11, 0)));
    assert_eq!(refused(&["do v0 <= 10", "set v0 v1", "sub v1 1"]), Some((11, 0)));
}

/// Change 1: the figure is the longest entry of all runs.
#[test]
fn copied_counters_counted() {
    let ranges = [(0, 0), (-1, 1), (0, 3), (2, 2), (4, 6)];
    for (v, w) in ranges.iter().flat_map(|v| ranges.iter().map(move |w| (*v, *w))) {
        for limit in [(0, 0), (3, 3), (2, 5)] {
            for head in ["while v0 < v2", "while v0 <= v2", "do v0 < v2", "do v0 <= v2"] {
                for rows in [[head, "add v1 2", "set v0 v1", "end"], [head, "set v0 v1", "add v1 2", "end"]] {
                    let starts = [v, w, limit];
                    assert_eq!(plan(&file(&starts, &rows), &ONES, SCRATCH).unwrap().lines[0].turns, longest(&starts, &rows), "{starts:?} {rows:?}");
                    // Turned round.
                    let starts = starts.map(|(lo, hi)| (-hi, -lo));
                    let rows = rows.map(|row| row.replace('<', ">").replace("add", "sub"));
                    let rows = [&rows[0][..], &rows[1], &rows[2], &rows[3]];
                    assert_eq!(plan(&file(&starts, &rows), &ONES, SCRATCH).unwrap().lines[0].turns, longest(&starts, &rows), "{starts:?} {rows:?}");
                }
            }
        }
    }
}

/// Change 5.
#[test]
fn closing_chases() {
    let case: &[(i64, i64)] = &[(0, 0), (10, 10)];
    let line = |ranges: &[(i64, i64)], rows: &[&str]| {
        let rows = [rows, &["end"]].concat();
        plan(&file(ranges, &rows), &ONES, SCRATCH).map(|plan| (plan.lines[0].step, plan.lines[0].turns, plan.lines[0].exact))
    };
    let two = Step::Add(2, 2);
    // Document 02's case; the report line shows the difference's step.
    assert_eq!(
        text(case, &["while v0 < v1", "add v0 1", "sub v1 1", "end"]).unwrap(),
        "report=1\nrows=4\nloops=1\nloop=0 add 2 2 5 5 exact\nticks=16\n"
    );
    // E of < is -1, of <= 0, of > 1, of >= 0.
    assert_eq!(line(&[(10, 10), (10, 10)], &["while v0 < v1", "add v0 1", "sub v1 1"]), Ok((two, 0, true)));
    assert_eq!(line(&[(10, 10), (10, 10)], &["while v0 <= v1", "add v0 1", "sub v1 1"]), Ok((two, 1, true)));
    assert_eq!(line(&[(10, 10), (10, 10)], &["while v0 > v1", "sub v0 1", "add v1 1"]), Ok((Step::Add(-2, -2), 0, true)));
    assert_eq!(line(&[(10, 10), (10, 10)], &["while v0 >= v1", "sub v0 1", "add v1 1"]), Ok((Step::Add(-2, -2), 1, true)));
    // The ends are a - b' and b - a'.
    let picks = ["while v0 < v1", "pick", "add v0 4", "else", "add v0 6", "end", "pick", "add v1 1", "else", "sub v1 2", "end"];
    assert_eq!(line(case, &picks), Ok((Step::Add(3, 8), 4, false)));
    // The limit's worst end is its far one, and the tested variable's too.
    assert_eq!(line(&[(0, 5), (7, 10)], &["while v0 < v1", "add v0 1", "sub v1 1"]), Ok((two, 5, false)));
    assert_eq!(line(&[(7, 10), (0, 5)], &["while v0 > v1", "sub v0 1", "add v1 1"]), Ok((Step::Add(-2, -2), 5, false)));
    // Exact needs single starts.
    assert_eq!(line(&[(0, 0), (9, 10)], &["while v0 < v1", "add v0 1", "sub v1 1"]), Ok((two, 5, false)));
    assert_eq!(line(&[(0, 1), (10, 10)], &["while v0 < v1", "add v0 1", "sub v1 1"]), Ok((two, 5, false)));
    // A do's start is moved by one turn of the difference; a for's step row counts.
    assert_eq!(line(case, &["do v0 < v1", "add v0 1", "sub v1 1"]), Ok((two, 5, true)));
    assert_eq!(line(&[(9, 9), (10, 10)], &["do v0 < v1", "add v0 1", "sub v1 1"]), Ok((two, 1, true)));
    assert_eq!(line(&[(9, 9), (10, 10)], &["for v0 0 < v1 add 1", "sub v1 1"]), Ok((two, 5, true)));
    // One of the two may stand, in a row of its own or without.
    assert_eq!(line(case, &["while v0 < v1", "sub v1 1"]), Ok((Step::Add(1, 1), 10, true)));
    assert_eq!(line(case, &["while v0 < v1", "mul v0 1", "sub v1 1"]), Ok((Step::Add(1, 1), 10, true)));
    assert_eq!(line(case, &["while v0 < v1", "add v0 1", "div v1 1"]), Ok((Step::Add(1, 1), 10, true)));
    assert_eq!(line(case, &["for v0 0 < v1 add 0", "sub v1 1"]), Ok((Step::Add(1, 1), 10, true)));
    // Both one way.
    assert_eq!(line(case, &["while v0 < v1", "add v0 3", "add v1 1"]), Ok((two, 5, true)));
    assert_eq!(line(case, &["while v0 < v1", "sub v0 1", "sub v1 3"]), Ok((two, 5, true)));
    // 2L apart.
    let far = 1_000_000_000;
    assert_eq!(line(&[(-far, -far), (far, far)], &["while v0 <= v1", "sub v1 1"]), Ok((Step::Add(1, 1), 2_000_000_001, true)));
    // Neither range is kept, also of a variable that the body does not assign.
    let plan_of = |rows: &[&str]| plan(&file(&[(0, 0), (3, 3), (0, 0)], rows), &ONES, SCRATCH).unwrap();
    for (v, moved) in [("v0", "sub v1 1"), ("v1", "sub v1 1"), ("v0", "add v0 1")] {
        let inner = format!("for v2 0 < {v} add 1");
        let standing = if moved == "add v0 1" { "sub v1 0" } else { "cue 1" };
        let inside = plan_of(&["while v0 < v1", &inner, "end", moved, standing, "end"]);
        assert_eq!((inside.lines[0].turns, inside.lines[1].turns), (3, 1_000_000_000));
        let after = plan_of(&["while v0 < v1", moved, standing, "end", &inner, "end"]);
        assert_eq!((after.lines[0].turns, after.lines[1].turns), (3, 1_000_000_000));
    }
}

/// Change 5: what the questions answer where the limit is assigned.
#[test]
fn closing_chases_refused() {
    let refused = |rows: &[&str]| {
        let rows = [rows, &["end"]].concat();
        plan(&file(&[(0, 0), (10, 10), (0, 0)], &rows), &ONES, SCRATCH).err()
    };
    for (number, rows) in [
        (8, &["while v0 < v1", "set v0 5", "sub v1 1"][..]),
        // Question 9 reads the difference.
        (9, &["while v0 < v1", "add v0 1", "add v1 1"]),
        (9, &["while v0 < v1", "add v0 0", "add v1 0"]),
        (9, &["while v0 < v1", "pick", "add v0 1", "else", "add v0 2", "end", "pick", "add v1 1", "end"]),
        // A term fails: question 9 reads the tested variable's own step, and 10 refuses.
        (9, &["while v0 < v1", "mul v1 2"]),
        (9, &["while v0 == v1", "sub v1 1"]),
        (10, &["while v0 < v1", "add v0 1", "mul v1 2"]),
        (10, &["while v0 < v1", "add v0 1", "div v1 2"]),
        (10, &["while v0 < v1", "add v0 1", "set v1 5"]),
        (10, &["while v0 < v1", "add v0 1", "for v1 1 < 2 add 1", "end"]),
        (10, &["while v0 < v1", "mul v0 2", "sub v1 1"]),
        (10, &["while v0 == v1", "add v0 1", "sub v1 1"]),
        (10, &["do v0 != v1", "add v0 1", "add v1 0"]),
        (10, &["while v0 < v0", "add v0 1"]),
        (10, &["for v0 0 < v0 add 1", "sub v1 1"]),
        // A copied counter closes on nothing.
        (10, &["while v0 < v1", "add v2 1", "set v0 v2", "sub v1 1"]),
        (10, &["while v0 < v2", "add v2 1", "set v0 v2"]),
        (11, &["while v0 < v1", "sub v0 1", "add v1 1"]),
        (11, &["while v0 < v1", "add v0 1", "add v1 3"]),
        (11, &["while v0 >= v1", "add v0 3", "add v1 1"]),
    ] {
        assert_eq!(refused(rows), Some((number, 0)), "{rows:?}");
    }
}

/// Change 5: the figure is the longest entry of all runs.
#[test]
fn closing_chases_counted() {
    let ranges = [(0, 0), (-1, 1), (2, 2), (4, 7), (12, 12)];
    let moves = [["add v0 1", "sub v1 1"], ["add v0 2", "sub v1 1"], ["add v0 3", "add v1 1"], ["sub v0 1", "sub v1 3"], ["sub v1 2", "cue 1"]];
    for (v, w) in ranges.iter().flat_map(|v| ranges.iter().map(move |w| (*v, *w))) {
        for head in ["while v0 < v1", "while v0 <= v1", "do v0 < v1", "do v0 <= v1", "for v0 0 < v1 add 1"] {
            for [first, second] in moves {
                let starts = [v, w];
                let rows = [head, first, second, "end"];
                if let Ok(plan) = plan(&file(&starts, &rows), &ONES, SCRATCH) {
                    assert_eq!(plan.lines[0].turns, longest(&starts, &rows), "{starts:?} {rows:?}");
                }
                // Turned round.
                let starts = starts.map(|(lo, hi)| (-hi, -lo));
                let rows = rows.map(|row| row.replace('<', ">").replace("add", "ADD").replace("sub", "add").replace("ADD", "sub"));
                let rows = [&rows[0][..], &rows[1], &rows[2], &rows[3]];
                if let Ok(plan) = plan(&file(&starts, &rows), &ONES, SCRATCH) {
                    assert_eq!(plan.lines[0].turns, longest(&starts, &rows), "{starts:?} {rows:?}");
                }
            }
        }
    }
}

/// Change 6: the quotient, in runs and in ranges.
#[test]
fn levels_round_down() {
    for (value, c, level) in [
        (-5, 2, -3),
        (-6, 2, -3),
        (-1, 2, -1),
        (-1, 1_000_000_000, -1),
        (-1_000_000_000, 3, -333_333_334),
        (-1_000_000_000, 1_000_000_000, -1),
        (-999_999_999, 1_000_000_000, -1),
        (-7, 1, -7),
        (0, 9, 0),
        (5, 2, 2),
        (1_000_000_000, 3, 333_333_333),
    ] {
        let row = format!("div v0 {c}");
        let divided = file(&[(value, value)], &[&row]);
        assert_eq!(run(&divided, &ONES, SCRATCH, &[value as i32], &[], 1).unwrap().store, [level as i32], "{value} {row}");
        // The range is the run's value: as a limit it is one turn from the number below, and met from itself.
        for (x, turns) in [(level - 1, 1), (level, 0)] {
            let start = format!("set v1 {x}");
            let rows = [&row[..], &start, "while v1 < v0", "add v1 1", "end"];
            let plan = plan(&file(&[(value, value), (0, 0)], &rows), &ONES, SCRATCH).unwrap();
            assert_eq!((plan.lines[0].turns, plan.lines[0].exact), (turns, true), "{value} {row}");
        }
    }
    // Both ends of a range: -4 and 3.
    let rows = ["div v0 2", "for v1 v0 < 0 add 1", "end", "for v1 0 < v0 add 1", "end"];
    let plan_of = plan(&file(&[(-7, 7), (0, 0)], &rows), &ONES, SCRATCH).unwrap();
    assert_eq!((plan_of.lines[0].turns, plan_of.lines[1].turns), (4, 3));
    // A do's moved start is below 1: its first turn alone.
    assert_eq!(turns("do v0 >= 1", -1, &["div v0 2"]), Ok(1));
    assert_eq!(turns("do v0 >= 1", -9, &["div v0 2"]), Ok(1));
    assert_eq!(turns("do v0 >= 1", 9, &["div v0 2"]), Ok(4));
}

/// Change 6: factors in sequence multiply.
#[test]
fn quotients_multiply() {
    for value in -200..=200 {
        for (first, second) in (1..12).flat_map(|first| (1..12).map(move |second| (first, second))) {
            let one = read::quotient(read::quotient(value, first), second);
            assert_eq!(one, read::quotient(value, first * second), "{value} {first} {second}");
            assert!(one * first * second <= value && value < (one + 1) * first * second);
        }
    }
}

/// Change 8: shapes, and the order of 3, 17, 4 and 5 on a line.
#[test]
fn expression_shapes() {
    for x in ["(1)", "((v1))", "1+1", "1-1", "1--1", "3--2", "-3*-2", "1+-1", "2*v1+2", "(v0-v1)*(v1-v0)", "-1-1", "(-1)", "v1-1", "0*0", "1-(2)"] {
        assert_eq!(row_refused(&format!("set v0 {x}")), None, "{x}");
        for row in [format!("while v0 < {x}"), format!("do v0 != {x}"), format!("for v0 {x} <= 5 add 1"), format!("for v0 5 > {x} sub 1")] {
            assert_eq!(row_refused(&row), Some(67), "{row}");
        }
    }
    for x in ["-v0", "-(1)", "1--0", "-0", "1+-0", "--1", "1---1", "+1", "1++1", "1+", "1-", "1*", "*1", "1**1", "1/1", "1%1", "()", "(", ")", "(1", "1)",
        "((1)", "(1))", ")1(", "1(2)", "(1)2", "(1)(2)", "2v1", "v1v1", "v", "v+1", "v-1", "1+v", "v01+1", "01+1", "1+01", "1+-01", "(1+)", "(+1)", "1,1", "1.5",
        "1+V0", "(-v0)", "1\t+1", "[1]", "1=1", "1+\0", "v(1)", "-", "1-+1", "1*+1", "v0-", "(v0"] {
        assert_eq!(row_refused(&format!("set v0 {x}")), Some(3), "{x}");
        assert_eq!(row_refused(&format!("for v0 {x} <= 5 add 1")), Some(3), "{x}");
        assert_eq!(row_refused(&format!("while v0 < {x}")), Some(3), "{x}");
    }
    // No other number may be an expression, and no space may stand in one.
    for row in ["set v0 1 + 1", "set v0 1 +1", "set v0+1 1", "set (v0) 1", "add v0 1+1", "sub v0 (1)", "mul v0 v1", "cue 1+1", "cue (1)", "while v0+1 < 2",
        "while (v0) < 2", "while 1 < v0", "for v0 1 <= 2 add 1+1", "for v0 1 <= 2 add (1)", "for (v0) 1 <= 2 add 1", "pick (1)", "while v0 (<) 2"] {
        assert_eq!(row_refused(row), Some(3), "{row}");
    }
    for row in ["set v0 1000000001-1", "set v0 1-1000000001", "set v0 0*-1000000001", "set v0 (1000000001)", "while v0 < 1+1000000001",
        "for v0 (1000000001) < 1 add 1", "for v0 v9 < 1000000001*0 add 1", "set v9 v9+1000000001", "set v0 99999999999999999999-1"] {
        assert_eq!(row_refused(row), Some(4), "{row}");
    }
    for row in ["set v0 v2+1", "set v0 1-v2", "set v0 (v2)", "set v2 1+1", "while v0 < 2*v16", "for v0 v0+v2 < 1 add 1", "for v0 1 < v0*0+v99999999999 add 1"] {
        assert_eq!(row_refused(row), Some(5), "{row}");
    }
    let set = |x: &str| row_refused(&format!("set v0 {x}"));
    let nested = |x: &str, pairs: usize| format!("{}{x}{}", "(".repeat(pairs), ")".repeat(pairs));
    let sum = |operators: usize| vec!["1"; operators + 1].join("*");
    assert_eq!(set(&nested("1", 8)), None);
    assert_eq!(set(&nested("1", 9)), Some(17));
    assert_eq!(set(&sum(15)), None);
    assert_eq!(set(&sum(16)), Some(17));
    // Open together, not in all; a sign is no operator.
    assert_eq!(set(&vec![nested("1", 8); 16].join("+")), None);
    assert_eq!(set(&format!("1+{}", nested("1", 9))), Some(17));
    assert_eq!(set(&vec!["-1"; 16].join("-")), None);
    assert_eq!(set(&vec!["-1"; 17].join("-")), Some(17));
    assert_eq!(set(&format!("({})+{}", sum(7), sum(7))), None);
    assert_eq!(set(&format!("({})+{}", sum(8), sum(7))), Some(17));
    // Each expression alone.
    assert_eq!(row_refused(&format!("for v0 {} < {} add 1", sum(15), sum(15))), Some(67));
    assert_eq!(row_refused(&format!("for v0 {} < {} add 1", nested("v0", 8), nested("v1", 8))), Some(67));
    assert_eq!(row_refused(&format!("for v0 {} < 1 add 1", sum(16))), Some(17));
    assert_eq!(row_refused(&format!("for v0 1 < {} add 1", sum(16))), Some(17));
    // 3 before 17 before 4 before 5.
    assert_eq!(row_refused(&format!("for v0 {} < -v0 add 1", sum(16))), Some(3));
    assert_eq!(set(&format!("{}+", sum(16))), Some(3));
    assert_eq!(row_refused(&format!("for v99 1000000001 < {} add 1", sum(16))), Some(17));
    assert_eq!(row_refused(&format!("for v0 v99 < {} add -1", sum(16))), Some(17));
    assert_eq!(row_refused(&format!("for v99 v99 < 1000000001+{} add 1", sum(14))), Some(4));
    // As long as a file can be.
    assert_eq!(set(&"(".repeat(16_300)), Some(3));
    assert_eq!(set(&nested("", 8_100)), Some(3));
    assert_eq!(set(&nested("1", 8_100)), Some(17));
    assert_eq!(set(&sum(8_100)), Some(17));
    assert_eq!(set(&")".repeat(16_300)), Some(3));
    assert_eq!(set(&format!("1{}", "-".repeat(16_000))), Some(3));
    assert_eq!(set(&format!("{}*0", "9".repeat(16_000))), Some(4));
    assert_eq!(set(&format!("v{}*0", "9".repeat(16_000))), Some(5));
}

/// Expression calls term, term calls factor, factor calls expression: the value of a word, with what follows it, or None for a wrong shape.
fn by_descent(text: &str, variable: i64) -> Option<i64> {
    fn expression<'t>(text: &'t str, v: i64) -> Option<(i64, &'t str)> {
        let (mut value, mut rest) = term(text, v)?;
        while rest.starts_with(['+', '-']) {
            let (next, after) = term(&rest[1..], v)?;
            value = if rest.starts_with('+') { value + next } else { value - next };
            rest = after;
        }
        Some((value, rest))
    }
    fn term<'t>(text: &'t str, v: i64) -> Option<(i64, &'t str)> {
        let (mut value, mut rest) = factor(text, v)?;
        while let Some(after) = rest.strip_prefix('*') {
            let (next, after) = factor(after, v)?;
            value *= next;
            rest = after;
        }
        Some((value, rest))
    }
    fn factor<'t>(text: &'t str, v: i64) -> Option<(i64, &'t str)> {
        if let Some(inner) = text.strip_prefix('(') {
            let (value, rest) = expression(inner, v)?;
            return Some((value, rest.strip_prefix(')')?));
        }
        if let Some(rest) = text.strip_prefix("v1") {
            return (!rest.starts_with(|c: char| c.is_ascii_digit())).then_some((v, rest));
        }
        let sign = text.starts_with('-') as usize;
        let digits = text[sign..].find(|c: char| !c.is_ascii_digit()).unwrap_or(text.len() - sign);
        let (number, rest) = text.split_at(sign + digits);
        let value: i64 = number.parse().ok()?;
        (value.to_string() == number).then_some((value, rest))
    }
    let (value, rest) = expression(text, variable)?;
    rest.is_empty().then_some(value)
}

/// Change 8: every word of up to six of these parts has the shape and the value that descent gives it.
#[test]
fn expressions_by_descent() {
    let parts = ["2", "v1", "+", "-", "*", "(", ")", "0"];
    let (mut words, mut good) = (vec![String::new()], 0);
    for _ in 0..6 {
        let mut longer = Vec::new();
        for word in &words {
            for part in parts {
                let word = format!("{word}{part}");
                let mut items = vec![expression::Item::Constant(9)];
                let value = match expression::operand(word.as_bytes(), &mut items) {
                    None => None,
                    Some(read::Operand::Constant(c)) => Some(c as i64),
                    // v10 is another one.
                    Some(read::Operand::Variable(v)) => (v == 1).then_some(7),
                    Some(read::Operand::Expression(e)) => {
                        let other = e.items(&items).iter().any(|item| matches!(item, expression::Item::Variable(v) if *v != 1));
                        let value = expression::fold(e.items(&items), |c| c as i64, |_| 7, |operator, l, r| Some(operator.apply(l, r)));
                        if other { None } else { value }
                    }
                };
                assert_eq!(value, by_descent(&word, 7), "{word}");
                good += value.is_some() as u64;
                longer.push(word);
            }
        }
        words = longer;
    }
    assert!(good > 1_500, "{good}");
}

/// Change 8: times before plus and minus, equals from the left, in runs.
#[test]
fn expression_values() {
    let run_of = |x: &str, v1: i32| {
        let row = format!("set v0 {x}");
        let run = run(&file(&[(0, 0), (-1_000_000_000, 1_000_000_000)], &[&row]), &ONES, SCRATCH, &[0, v1], &[], 1).unwrap();
        assert_eq!(run.ticks, 1, "{x}");
        match run.ending {
            Ending::Ended => Some(run.store[0]),
            Ending::Range => {
                assert_eq!((run.row, run.store[0]), (0, 0), "{x}");
                None
            }
            _ => panic!("{x}"),
        }
    };
    for (x, value) in [
        ("2*v1+2", 16),
        ("2+v1*2", 16),
        ("(2+v1)*2", 18),
        ("9-4-3", 2),
        ("9-(4-3)", 8),
        ("9-4+3", 8),
        ("2*3-4*5", -14),
        ("2*(3-4)*5", -10),
        ("3--2", 5),
        ("1-2", -1),
        ("-3*-2", 6),
        ("((v1))", 7),
        ("v1-v1", 0),
        ("2-3*4-5", -15),
        ("1000000000*1", 1_000_000_000),
        ("-1000000000+0", -1_000_000_000),
        ("1000000000-1000000000-1000000000", -1_000_000_000),
        ("1+1+1+1+1+1+1+1+1+1+1+1+1+1+1+1", 16),
        ("((((((((1+1)*2)*2)*2)*2)*2)*2)*2)", 256),
    ] {
        assert_eq!(run_of(x, 7), Some(value), "{x}");
    }
    // Each operator is asked, not the whole.
    for x in ["1000000000+1", "-1000000000-1", "1000000000+1-1", "1-1000000000-1000000000", "500000000*3-1000000000", "0*(500000000*3)",
        "v1*142857143", "v1*142857143*0", "1000000000*1000000000*0", "-1000000000*-1000000000"] {
        assert_eq!(run_of(x, 7), None, "{x}");
    }
    assert_eq!(run_of("1-1+1000000000", 0), Some(1_000_000_000));
    assert_eq!(run_of("v1*v1", 31_622), Some(999_950_884));
    assert_eq!(run_of("v1*v1", 31_623), None);
    assert_eq!(run_of("v1+v1", -500_000_000), Some(-1_000_000_000));
    assert_eq!(run_of("v1+v1", -500_000_001), None);
}

/// Change 8: where and when a run ends in an expression.
#[test]
fn expressions_past_the_limit() {
    let ranges: &[(i64, i64)] = &[(0, 0), (0, 1_000_000_000), (0, 0)];
    let go = |rows: &[&str], v1: i32, allowance| {
        let run = run(&file(ranges, rows), &PRICES, SCRATCH, &[0, v1, 0], &[], allowance).unwrap();
        (run.ending, run.row, run.ticks, run.store[0], run.entries)
    };
    let entry = |row, turns, tested| Entry { row, turns, tested };
    // The price comes first, and then the row of the `set`.
    let rows = ["cue 1", "set v0 v1+v1"];
    assert_eq!(go(&rows, 500_000_001, 12), (Ending::Spent, 1, 10, 0, vec![]));
    assert_eq!(go(&rows, 500_000_001, 13), (Ending::Range, 1, 13, 0, vec![]));
    assert_eq!(go(&rows, 500_000_000, 13), (Ending::Ended, 2, 13, 1_000_000_000, vec![]));
    // The head row of a limit; its test does not end the entry.
    let rows = ["cue 1", "while v0 < 2*v1", "add v0 1000000000", "end"];
    assert_eq!(go(&rows, 500_000_001, 709), (Ending::Spent, 1, 10, 0, vec![entry(1, 0, false)]));
    assert_eq!(go(&rows, 500_000_001, 710), (Ending::Range, 1, 710, 0, vec![entry(1, 0, false)]));
    assert_eq!(go(&rows, 500_000_000, 9_999), (Ending::Ended, 4, 10 + 700 + 703, 1_000_000_000, vec![entry(1, 1, true)]));
    // A do's test, behind its first turn.
    let rows = ["cue 1", "do v0 < 2*v1", "add v0 1000000000", "end"];
    assert_eq!(go(&rows, 500_000_001, 9_999), (Ending::Range, 1, 10 + 3 + 700, 1_000_000_000, vec![entry(1, 1, false)]));
    // A for's start, then its limit; the start is assigned.
    let rows = ["cue 1", "for v0 v1+1 < 3*v1 add 1000000000", "end"];
    assert_eq!(go(&rows, 1_000_000_000, 12), (Ending::Spent, 1, 10, 0, vec![entry(1, 0, false)]));
    assert_eq!(go(&rows, 1_000_000_000, 9_999), (Ending::Range, 1, 13, 0, vec![entry(1, 0, false)]));
    assert_eq!(go(&rows, 400_000_000, 9_999), (Ending::Range, 1, 713, 400_000_001, vec![entry(1, 0, false)]));
    assert_eq!(go(&rows, 0, 9_999), (Ending::Ended, 3, 713, 1, vec![entry(1, 0, true)]));
    // The start may read the for's own variable.
    let rows = ["for v2 5 <= 5 add 1", "end", "for v2 v2*2 < 14 add 1", "end"];
    let own = run(&file(ranges, &rows), &ONES, SCRATCH, &[0, 0, 0], &[], 99).unwrap();
    assert_eq!((own.store[2], own.entries), (14, vec![entry(0, 1, true), entry(2, 2, true)]));
}

/// Change 8: each operator's range, read off by a loop from it and a loop up to it.
#[test]
fn expression_ranges() {
    let range = |ranges: [(i64, i64); 2], x: &str| {
        let set = format!("set v2 {x}");
        let rows = [&set[..], "for v3 v2 <= 1000000000 add 1", "end", "for v3 -1000000000 <= v2 add 1", "end"];
        let plan = plan(&file(&[ranges[0], ranges[1], (0, 0), (0, 0)], &rows), &ONES, SCRATCH).unwrap();
        (1_000_000_001 - plan.lines[0].turns as i64, plan.lines[1].turns as i64 - 1_000_000_001)
    };
    const L: i64 = 1_000_000_000;
    for (v0, v1, x, expected) in [
        ((1, 3), (-2, 5), "v0+v1", (-1, 8)),
        ((1, 3), (-2, 5), "v0-v1", (-4, 5)),
        ((1, 3), (-2, 5), "v1-v0", (-5, 4)),
        // 15, -12, -10, 8.
        ((-3, 2), (-5, 4), "v0*v1", (-12, 15)),
        ((-3, -2), (-5, -4), "v0*v1", (8, 15)),
        ((-3, -2), (4, 5), "v0*v1", (-15, -8)),
        ((-3, 2), (-7, -7), "v0*v1", (-14, 21)),
        ((-3, 2), (0, 0), "v0-v0", (-5, 5)),
        ((-3, 2), (0, 0), "v0*v0", (-6, 9)),
        ((4, 4), (7, 7), "2*v0+v1*(v0-1)", (29, 29)),
        // Drawn back inside.
        ((2, 2), (0, 0), "v0*1000000000-1000000000", (0, 0)),
        ((-2, 2), (0, 0), "v0*1000000000*0", (0, 0)),
        ((-2, 2), (0, 0), "v0*1000000000-1000000000", (-L, 0)),
        ((1, 3), (0, 0), "v0*600000000-600000000", (0, 400_000_000)),
        ((-L, L), (-L, L), "v0*v1", (-L, L)),
        ((L, L), (L, L), "v0+v1-v1", (0, 0)),
        ((-L, -L), (L, L), "v0-v1+v1", (0, 0)),
        ((5, 9), (0, 0), "(v0)", (5, 9)),
        ((0, 0), (0, 0), "(-7)", (-7, -7)),
    ] {
        assert_eq!(range([v0, v1], x), expected, "{x} of {v0:?} {v1:?}");
    }
}

/// Change 8: limits and starts, question 10, and what is neither a variable nor a constant.
#[test]
fn expression_limits() {
    let line = |ranges: &[(i64, i64)], rows: &[&str]| plan(&file(ranges, rows), &ONES, SCRATCH).map(|plan| (plan.lines[0].turns, plan.lines[0].exact));
    // Twice the rig plus two.
    assert_eq!(line(&[(0, 0), (5, 5)], &["while v0 < 2*v1+2", "add v0 1", "end"]), Ok((12, true)));
    assert_eq!(line(&[(0, 0), (5, 6)], &["while v0 < 2*v1+2", "add v0 1", "end"]), Ok((14, false)));
    assert_eq!(line(&[(0, 0), (5, 5)], &["for v0 v1-3 <= (v1) add 1", "end"]), Ok((4, true)));
    assert_eq!(line(&[(9, 9), (5, 5)], &["do v0 >= v1-2", "sub v0 2", "end"]), Ok((4, true)));
    assert_eq!(line(&[(1, 1), (5, 5)], &["while v0 < (9)", "mul v0 2", "end"]), Ok((4, true)));
    assert_eq!(line(&[(0, 0), (5, 5)], &["while v0 != v1+1", "add v0 3", "end"]), Ok((2, true)));
    // The limit is read when the for's start is assigned: so it refuses here, and the start may read what it assigns.
    assert_eq!(line(&[(4, 4), (5, 5)], &["for v0 v0+1 < 7+0*v0 add 1", "end"]), Err((10, 0)));
    assert_eq!(line(&[(4, 4), (5, 5)], &["for v0 v0+1 < 7 add 1", "end"]), Ok((2, true)));
    // Any of its variables, also in a standing row or an inner loop; it never closes.
    for row in ["add v1 1", "sub v1 0", "set v1 v1", "mul v1 1"] {
        assert_eq!(line(&[(0, 0), (5, 5), (3, 3)], &["while v0 < v2*v1", "add v0 1", row, "end"]), Err((10, 0)), "{row}");
        assert_eq!(line(&[(0, 0), (5, 5), (3, 3)], &["while v0 < (v1)", "add v0 1", row, "end"]), Err((10, 0)), "{row}");
    }
    assert_eq!(line(&[(0, 0), (5, 5)], &["while v0 < v0+1", "add v0 1", "end"]), Err((10, 0)));
    assert_eq!(line(&[(0, 0), (5, 5)], &["while v0 < v1-v1", "sub v1 1", "end"]), Err((9, 0)));
    assert_eq!(line(&[(0, 0), (5, 5)], &["while v0 < v1", "sub v1 1", "end"]), Ok((5, true)));
    assert_eq!(line(&[(0, 0), (5, 5)], &["while v0 < v1+0", "add v0 1", "for v1 0 < 1 add 1", "end", "end"]), Err((10, 0)));
    assert_eq!(line(&[(0, 0), (5, 5), (1, 1)], &["while v0 < v1+v1", "add v0 1", "add v2 1", "end"]), Ok((10, true)));
    // A copy in parentheses is none.
    assert_eq!(line(&[(0, 0), (3, 3)], &["while v0 < 10", "add v1 1", "set v0 v1", "end"]), Ok((7, true)));
    for copy in ["set v0 (v1)", "set v0 v1+0", "set v0 1*v1"] {
        assert_eq!(line(&[(0, 0), (3, 3)], &["while v0 < 10", "add v1 1", copy, "end"]), Err((8, 0)), "{copy}");
    }
    // A copied counter's limit may be an expression.
    assert_eq!(line(&[(0, 0), (3, 3), (5, 5)], &["while v0 < 2*v2", "add v1 1", "set v0 v1", "end"]), Ok((7, true)));
    assert_eq!(line(&[(0, 0), (3, 3), (5, 5)], &["while v0 < 2*v1", "add v1 1", "set v0 v1", "end"]), Err((10, 0)));
}

/// Turns and total of each loop, and the ticks.
fn figures(ranges: &[(i64, i64)], rows: &[&str]) -> Result<(Vec<(u64, u128)>, u64), Refusal> {
    let plan = plan(&file(ranges, rows), &ONES, SCRATCH)?;
    Ok((plan.lines.iter().map(|line| (line.turns, line.total)).collect(), plan.ticks))
}

/// Change 9: the sums are what a run takes, to the tick.
#[test]
fn triangles_counted() {
    let mut summed = 0;
    let outers = [("<", "add"), ("<=", "add"), (">", "sub"), (">=", "sub")];
    for (start, limit, c) in (-3..6).flat_map(|start| (-3..6).flat_map(move |limit| (1..4).map(move |c| (start, limit, c)))) {
        for (compare, op) in outers {
            for inner in ["for v1 0 < v0 add 1", "for v1 0 <= v0 add 1", "for v1 -2 < v0 add 2", "for v1 3 <= v0 add 3", "for v1 1 < v0 add 7"] {
                let (step, row) = (format!("{op} {c}"), format!("{op} v0 {c}"));
                let heads = [
                    format!("for v0 {start} {compare} {limit} {step}"),
                    format!("while v0 {compare} {limit}"),
                    format!("do v0 {compare} {limit}"),
                ];
                for head in &heads {
                    let body = [inner, "cue 1", "for v2 0 < 2 add 1", "end", "end", "for v1 0 < v0 add 2", "end"];
                    let moves: &[&str] = if head.starts_with("for") { &[] } else { &[&row] };
                    // Twice, from the same start.
                    let set = format!("set v0 {start}");
                    let rows = [&["for v3 0 < 2 add 1", &set, head][..], &body, moves, &["end", "end"]].concat();
                    let file = file(&[(start, start), (0, 0), (0, 0), (0, 0)], &rows);
                    let plan = plan(&file, &PRICES, SCRATCH).unwrap();
                    let run = run(&file, &PRICES, SCRATCH, &[start as i32, 0, 0, 0], &[], plan.ticks).unwrap();
                    assert_eq!((run.ending, run.ticks), (Ending::Ended, plan.ticks), "{rows:?}");
                    assert_eq!(breach(&plan, &run), None);
                    for (line, (row, all, _)) in plan.lines.iter().zip(&run.loops) {
                        assert_eq!(line.total, *all as u128, "loop {row} of {rows:?}");
                        summed += line.summed as u64;
                    }
                }
            }
        }
    }
    // Two in each file.
    assert_eq!(summed, 2 * 9 * 9 * 3 * 4 * 5 * 3);
}

/// Change 9: what is summed and what is not.
#[test]
fn triangles() {
    let three: &[(i64, i64)] = &[(0, 0), (0, 0), (0, 0)];
    // With the inner loop at the same place: the total is 10 as a sum, 16 as a product.
    let total = |outer: &str, rows: &[&str]| {
        let rows = [&[outer][..], rows, &["end"]].concat();
        let plan = plan(&file(&[(1, 1), (0, 0), (0, 0), (4, 5)], &rows), &ONES, SCRATCH).unwrap();
        plan.lines.iter().find(|line| line.row > 0).map(|line| (line.turns, line.total, line.summed)).unwrap()
    };
    let outer = "for v0 1 <= 4 add 1";
    let inner = "for v1 0 < v0 add 1";
    assert_eq!(total(outer, &[inner, "end"]), (4, 10, true));
    assert_eq!(total("for v0 4 >= 1 sub 1", &[inner, "end"]), (4, 10, true));
    assert_eq!(total("while v0 < 5", &[inner, "end", "add v0 1"]), (4, 10, true));
    assert_eq!(total("do v0 <= 4", &[inner, "end", "add v0 1"]), (4, 10, true));
    assert_eq!(total(outer, &["cue 1", "set v1 5", inner, "end"]), (4, 10, true));
    assert_eq!(total(outer, &[inner, "end", "add v0 0"]), (4, 10, true));
    assert_eq!(total("for v0 2-1 <= (4) add 1", &[inner, "end"]), (4, 10, true));
    // Equal ends of a step in a pick are exact.
    assert_eq!(total("while v0 < 5", &[inner, "end", "pick", "add v0 1", "else", "add v0 1", "end"]), (4, 10, true));
    for rows in [
        &["add v0 0", inner, "end"][..],
        &["pick", "sub v0 0", "end", inner, "end"],
        &["pick", inner, "end", "end"],
        &["pick", "else", inner, "end", "end"],
        &["for v1 v2 < v0 add 1", "end"],
        &["for v1 (0) < v0 add 1", "end"],
        &["for v1 0 < (v0) add 1", "end"],
        &["for v1 0 < 1*v0 add 1", "end"],
        &["while v2 < v0", "add v2 1", "end"],
    ] {
        let (turns, total, summed) = total(outer, rows);
        assert_eq!((total, summed), (4 * turns as u128, false), "{rows:?}");
    }
    assert_eq!(total("for v0 1 <= v3 add 1", &[inner, "end"]), (5, 25, false));
    assert_eq!(total("while v0 < 5", &[inner, "end", "pick", "add v0 1", "else", "add v0 2", "end"]), (4, 16, false));
    assert_eq!(total("while v0 < 5", &[inner, "end", "mul v0 2"]), (4, 12, false));
    assert_eq!(total("while v0 != 5", &[inner, "end", "add v0 1"]), (1_000_000_000, 4_000_000_000, false));
    // At most 4,096 turns.
    let passes = |turns: &str| total(&format!("for v0 1 <= {turns} add 1"), &[inner, "end"]);
    assert_eq!(passes("4096"), (4_096, 8_390_656, true));
    assert_eq!(passes("4097"), (4_097, 16_785_409, false));
    // One value: the inner is exact, and its own inner is summed.
    assert_eq!(
        figures(three, &["for v0 3 <= 3 add 1", inner, "for v2 0 < v1 add 1", "end", "end", "end"]),
        Ok((vec![(1, 1), (3, 3), (2, 3)], 24))
    );
    // The total of the loop round the outer, also if that is itself a sum; further inside it is multiplied on.
    assert_eq!(
        figures(&[(0, 0); 4], &["for v3 0 < 3 add 1", outer, inner, "for v2 0 < 5 add 1", "end", "end", "end", "end"]),
        Ok((vec![(3, 3), (4, 12), (4, 30), (5, 150)], 3 * (158 + 2) + 2))
    );
    // No pass.
    assert_eq!(figures(three, &["for v0 5 <= 4 add 1", inner, "end", "end"]), Ok((vec![(0, 0), (5, 0)], 2)));
    // A chase takes what is known of v0 without assigning it.
    let (lines, ticks) = figures(three, &[outer, "while v0 < v2", "sub v2 1", "end", inner, "end", "end"]).unwrap();
    assert_eq!((lines[2], ticks), ((1_000_000_000, 10), 4 * (1_999_999_999 + 2) + 28 + 2));
    // The inner's block figure is its longest pass, the outer's the sum.
    let heavy = |turns: &str, inside: &str| {
        let (head, last) = (format!("for v0 1 <= {turns} add 1"), format!("for v2 0 < {inside} add 1"));
        figures(three, &[&head, inner, &last, "end", "end", "end"]).map(|figures| figures.1)
    };
    assert_eq!(heavy("4000", "50000"), Ok(800_232_024_002));
    assert_eq!(heavy("4096", "150000"), Err((13, 5)));
    assert_eq!(heavy("4097", "50000"), Err((13, 5)));
}

//! files CRATE ANSWERS: writes the hand-made script files into the crate's data, with its stdin and stdout, and their answers into
//! the other directory. Every answer in the table below was found by thought from documents 01 and 02; the exit code is 1 if
//! the reference's differs.
//!
//! An answer is "refused NUMBER PLACE", or the loop lines and the ticks of the report, with commas between.

use std::path::Path;

struct Files<'d> {
    scripts: &'d Path,
    answers: &'d Path,
    /// Every file's name and answer.
    written: Vec<(String, String)>,
    wrong: usize,
}

fn text(ranges: &[(i64, i64)], rows: &[&str]) -> Vec<u8> {
    let mut text = format!("script=1\nvars={}\n", ranges.len());
    for (lo, hi) in ranges {
        text += &format!("range={lo} {hi}\n");
    }
    text += &format!("rows={}\n", rows.len());
    for row in rows {
        text += &format!("row={row}\n");
    }
    text.into_bytes()
}

impl Files<'_> {
    fn bytes(&mut self, name: &str, file: &[u8], thought: &str) {
        let answer = match reference::plan(file, &reference::ONES, reference::SCRATCH) {
            Ok(plan) => String::from_utf8(reference::report_text(&plan)).unwrap(),
            Err((number, place)) => format!("refused={number} {place}\n"),
        };
        let expected = match thought.strip_prefix("refused ") {
            Some(refusal) => format!("refused={refusal}\n"),
            None => {
                let mut parts: Vec<&str> = thought.split(", ").collect();
                let ticks = parts.pop().unwrap();
                let rows = String::from_utf8_lossy(file).lines().filter(|line| line.starts_with("row=")).count();
                let loops: String = parts.iter().map(|line| format!("loop={line}\n")).collect();
                format!("report=1\nrows={rows}\nloops={}\n{loops}ticks={ticks}\n", parts.len())
            }
        };
        if expected != answer {
            self.wrong += 1;
            println!("{name}: thought\n{expected}but the reference says\n{answer}");
        }
        let script = self.scripts.join(format!("{name}.script"));
        assert!(!script.exists(), "{name} twice");
        std::fs::write(script, file).unwrap();
        std::fs::write(self.answers.join(format!("{name}.expected")), &answer).unwrap();
        self.written.push((format!("{name}.script"), answer));
    }

    fn rows(&mut self, name: &str, ranges: &[(i64, i64)], rows: &[&str], thought: &str) {
        self.bytes(name, &text(ranges, rows), thought);
    }

    /// Rows in one string, with commas between.
    fn brief(&mut self, name: &str, ranges: &[(i64, i64)], rows: &str, thought: &str) {
        let rows: Vec<&str> = rows.split(", ").collect();
        self.rows(name, ranges, &rows, thought);
    }

    /// A file with two variables and this one row, which has line 6.
    fn row(&mut self, name: &str, row: &str, thought: &str) {
        self.rows(name, &[(0, 0), (0, 0)], &[row], thought);
    }
}

const L: i64 = 1_000_000_000;
const ALL: (i64, i64) = (-L, L);

fn main() {
    let directory = |n| std::env::args().nth(n).expect("use: files CRATE ANSWERS");
    let (crate_of, answers) = (directory(1), directory(2));
    let scripts = Path::new(&crate_of).join("data");
    let mut f = Files { scripts: &scripts, answers: Path::new(&answers), written: Vec::new(), wrong: 0 };
    checked_figures(&mut f);
    accepted(&mut f);
    questions_2_and_3(&mut f);
    questions_4_and_5(&mut f);
    questions_6_and_7(&mut f);
    questions_8_to_12(&mut f);
    question_13(&mut f);
    copied_counters(&mut f);
    first_block_over(&mut f);
    closing_chases(&mut f);
    levels_below_zero(&mut f);
    expressions(&mut f);
    expressions_refused(&mut f);
    triangles(&mut f);
    no_triangles(&mut f);
    holds(&mut f);
    holds_with_others(&mut f);
    offs(&mut f);
    holds_refused(&mut f);
    holds_in_order(&mut f);
    f.written.sort();
    let names: String = f.written.iter().map(|(name, _)| format!("{name}\n")).collect();
    let printed: String = f.written.iter().map(|(name, answer)| format!("{name}\n{answer}")).collect();
    std::fs::write(Path::new(&crate_of).join("stdin"), names).unwrap();
    std::fs::write(Path::new(&crate_of).join("stdout"), printed).unwrap();
    println!("{} files, {} not as thought", f.written.len(), f.wrong);
    std::process::exit((f.wrong > 0) as i32);
}

/// Document 01's listing and its checked figures. A while of N turns with one row has 2N + 1 ticks, a do 2N.
fn checked_figures(f: &mut Files) {
    f.brief(
        "figure-listing",
        &[(0, 0), (1, 4)],
        "for v0 1 <= 9 add 5, for v1 0 < v0 add 1, cue 7, end, end, cue 8",
        // 1 and 6 turns inside, 3 ticks each and 2 an entry: 5 and 20; two passes with 2 more, and 2; the last cue.
        "0 add 5 5 2 2 exact, 1 add 1 1 9 7 most, 32",
    );
    let mut figure = |name: &str, start: i64, rows: &str, thought: &str| {
        f.brief(&format!("figure-{name}"), &[(start, start)], rows, thought)
    };
    figure("le-9-add-5-from-1", 1, "while v0 <= 9, add v0 5, end", "0 add 5 5 2 2 exact, 5");
    figure("le-9-add-5-from-9", 9, "while v0 <= 9, add v0 5, end", "0 add 5 5 1 1 exact, 3");
    figure("le-9-add-5-from-10", 10, "while v0 <= 9, add v0 5, end", "0 add 5 5 0 0 exact, 1");
    figure("lt-6-add-5-from-1", 1, "while v0 < 6, add v0 5, end", "0 add 5 5 1 1 exact, 3");
    figure("lt-7-add-5-from-1", 1, "while v0 < 7, add v0 5, end", "0 add 5 5 2 2 exact, 5");
    figure("do-le-9-add-5-from-1", 1, "do v0 <= 9, add v0 5, end", "0 add 5 5 2 2 exact, 4");
    figure("do-le-9-add-5-from-10", 10, "do v0 <= 9, add v0 5, end", "0 add 5 5 1 1 exact, 2");
    figure("ge-1-sub-5-from-9", 9, "while v0 >= 1, sub v0 5, end", "0 add -5 -5 2 2 exact, 5");
    figure("le-8-mul-2-from-1", 1, "while v0 <= 8, mul v0 2, end", "0 grow 2 2 4 4 exact, 9");
    figure("le-7-mul-2-from-1", 1, "while v0 <= 7, mul v0 2, end", "0 grow 2 2 3 3 exact, 7");
    figure("le-8-mul-2-from-0", 0, "while v0 <= 8, mul v0 2, end", "refused 12 0");
    figure("ge-1-div-2-from-8", 8, "while v0 >= 1, div v0 2, end", "0 shrink 2 2 4 4 exact, 9");
    figure("gt-0-div-2-from-8", 8, "while v0 > 0, div v0 2, end", "0 shrink 2 2 4 4 exact, 9");
    figure("ge-0-div-2-from-8", 8, "while v0 >= 0, div v0 2, end", "refused 12 0");
    figure("do-le-8-mul-2-from-3", 3, "do v0 <= 8, mul v0 2, end", "0 grow 2 2 2 2 exact, 4");
    figure("ne-9-add-3-from-0", 0, "while v0 != 9, add v0 3, end", "0 add 3 3 3 3 exact, 7");
    figure("ne-10-add-3-from-0", 0, "while v0 != 10, add v0 3, end", "refused 12 0");
    figure("do-ne-5-add-1-from-5", 5, "do v0 != 5, add v0 1, end", "refused 12 0");
    figure("eq-5-add-1-from-5", 5, "while v0 == 5, add v0 1, end", "0 add 1 1 1 1 exact, 3");
    figure("eq-5-add-1-from-4", 4, "while v0 == 5, add v0 1, end", "0 add 1 1 0 0 exact, 1");
    figure("do-eq-5-add-1-from-4", 4, "do v0 == 5, add v0 1, end", "0 add 1 1 2 2 exact, 4");
    // Four turns of a pick (1 + 1), a row and a test, and the last test.
    figure(
        "lt-10-pick-2-or-3-then-1",
        0,
        "while v0 < 10, pick, add v0 2, else, add v0 3, end, add v0 1, end",
        "0 add 3 4 4 4 most, 17",
    );
    figure(
        "lt-10-pick-sub-3-or-5-then-add-4",
        0,
        "while v0 < 10, pick, sub v0 3, else, sub v0 5, end, add v0 4, end",
        "refused 9 0",
    );
}

fn accepted(f: &mut Files) {
    f.rows("accepted-nothing", &[], &[], "0");
    f.rows("accepted-16-variables", &[(-5, 5); 16], &["set v15 v0", "add v9 0", "cue 9999"], "3");
    f.rows("accepted-ranges-at-the-limits", &[ALL, (L, L), (-L, -L)], &["set v0 -1000000000", "set v1 1000000000"], "2");
    f.rows("accepted-256-rows", &[], &["cue 0"; 256], "256");
    f.brief(
        "accepted-every-row",
        &[(0, 0), (3, 4)],
        "set v0 v1, set v0 -7, add v0 1000000000, sub v0 1000000000, mul v0 1, div v0 3, cue 0, pick, cue 1, cue 2, else, \
         cue 3, end, while v1 < 5, add v1 1, end, do v1 > 0, sub v1 2, end, for v0 2 <= 9 mul 3, add v0 0, end",
        // 7 rows, the pick 1 + 2; while from 3: 2 turns, 5 ticks; then v1 is [3, L]: the do has 1 + the figure
        // from L - 2 down to 1, floor((L - 3)/2) + 1 = 499999999, so 500000000 turns of 2; for 2, 6: 2(1 + 2) + 2.
        "13 add 1 1 2 2 most, 16 add -2 -2 500000000 500000000 most, 19 grow 3 3 2 2 exact, 1000000023",
    );
    f.brief(
        "accepted-six-comparisons",
        &[(0, 0)],
        "for v0 0 < 3 add 1, end, for v0 0 <= 3 add 1, end, for v0 3 > 0 sub 1, end, for v0 3 >= 0 sub 1, end, \
         for v0 3 == 3 sub 1, end, for v0 3 != 0 sub 1, end",
        // A for of N turns without a row has 2N + 2 ticks: 8, 10, 8, 10, 4, 8.
        "0 add 1 1 3 3 exact, 2 add 1 1 4 4 exact, 4 add -1 -1 3 3 exact, 6 add -1 -1 4 4 exact, \
         8 add -1 -1 1 1 exact, 10 add -1 -1 3 3 exact, 48",
    );
    f.brief(
        "accepted-for-with-a-moving-body",
        &[(0, 9)],
        "for v0 v0 < 20 add 3, pick, sub v0 1, end, end",
        // Step 2 to 3, worst start 0: floor(19/2) + 1 = 10 turns of 2 + 2 ticks.
        "0 add 2 3 10 10 most, 42",
    );
    f.brief("accepted-for-without-a-turn", &[(0, 0)], "for v0 9 < 9 add 1, cue 1, end", "0 add 1 1 0 0 exact, 2");
    f.brief(
        "accepted-add-back-then-grow",
        &[(1, 1)],
        "while v0 < 5, add v0 5, sub v0 5, mul v0 2, end",
        "0 grow 2 2 3 3 exact, 13",
    );
    f.brief(
        "accepted-pick-or-not-then-grow",
        &[(1, 1)],
        "while v0 <= 8, pick, mul v0 3, end, mul v0 2, end",
        "0 grow 2 6 4 4 most, 17",
    );
    f.brief(
        "accepted-factor-counts-as-two-thousand-million-and-one",
        &[(1, 1)],
        "while v0 <= 1000000000, mul v0 1000000000, mul v0 1000000000, end",
        "0 grow 2000000001 2000000001 1 1 exact, 4",
    );
    f.brief(
        "accepted-do-shrink-from-below-zero",
        &[(-9, -2)],
        "do v0 >= 1, div v0 2, end",
        "0 shrink 2 2 1 1 most, 2",
    );
    f.brief(
        "accepted-range-after-shrink",
        &[(-3, 8), (0, 0)],
        "while v0 > 2, div v0 2, end, for v1 v0 <= 0 add 1, end",
        // E is 3: 3, 6: two turns, 5 ticks. After it v0 is [-3, 8]: 4 turns from -3, 10 ticks.
        "0 shrink 2 2 2 2 most, 3 add 1 1 4 4 most, 15",
    );
    f.brief(
        "accepted-ranges-drawn-back",
        &[(5, L)],
        "mul v0 7, sub v0 35, while v0 < 1000000000, add v0 500000000, end",
        // [35, L] and then [0, L - 35]: from 0 the turns are floor((L - 1)/(L/2)) + 1 = 2.
        "2 add 500000000 500000000 2 2 most, 7",
    );
    f.brief(
        "accepted-do-body-starts-past-the-limit",
        &[(1, 20), (0, 0)],
        "do v0 <= 9, for v1 1 <= v0 add 1, end, add v0 5, end",
        // The do: 1 + from 6 to 9 by 5: 2 turns. In the body v0 is [1, 20]: 20 turns, 42 ticks. 2(43 + 1).
        "0 add 5 5 2 2 most, 1 add 1 1 20 40 most, 88",
    );
    f.brief(
        "accepted-falling-body-range",
        &[(9, 9), (0, 0)],
        "while v0 > 5, for v1 0 > v0 sub 1, end, for v1 0 < v0 add 1, end, sub v0 1, end",
        // E is 6: 4 turns. v0 in the body is [6, 9]: no turn of the first, 9 of the second, in all 9 + 8 + 7 + 6 = 30.
        // Four passes with 2 ticks of the first, a row and a test; 2·30 + 4·2 of the second; a test.
        "0 add -1 -1 4 4 exact, 1 add -1 -1 0 0 most, 3 add 1 1 9 30 most, 85",
    );
    f.brief(
        "accepted-equal-body-range-is-all",
        &[(5, 5), (0, 0)],
        "while v0 == 5, add v0 1, end, for v1 0 < v0 add 1, end",
        "0 add 1 1 1 1 exact, 3 add 1 1 1000000000 1000000000 most, 2000000005",
    );
    f.brief(
        "accepted-unequal-by-ones-over-ranges",
        &[(1, 5), (5, 9)],
        "while v0 != v1, add v0 1, end",
        "0 add 1 1 8 8 most, 17",
    );
    f.brief(
        "accepted-unequal-down-by-ones-over-ranges",
        &[(5, 9), (1, 5)],
        "do v1 != -3, sub v1 1, end, while v0 != -3, sub v0 1, end",
        // The do starts moved: [0, 4], so 1 + 7. The while 9 + 3 = 12.
        "0 add -1 -1 8 8 most, 3 add -1 -1 12 12 most, 41",
    );
    f.brief(
        "accepted-do-equal-over-a-moved-range",
        &[(0, 3)],
        "do v0 == 9, pick, add v0 1, else, add v0 6, end, end",
        // Moved: [1, 9], which has 9. Two turns of the pick's 2 and the test.
        "0 add 1 6 2 2 most, 6",
    );
    f.brief(
        "accepted-limit-in-a-variable-that-a-for-start-changes",
        &[(0, 0), (3, 3)],
        "for v0 v1 < v1 add 1, end, while v1 < v0, add v1 1, end",
        // No turn of the first, 2 ticks. Then v0 is [3, L]: L - 3 turns.
        "0 add 1 1 0 0 exact, 2 add 1 1 999999997 999999997 most, 1999999997",
    );
    f.brief(
        "accepted-heavy-body-without-a-turn",
        &[(0, 0); 3],
        "for v2 1 <= 0 add 1, for v0 1 <= 600000 add 1, for v1 1 <= 499999 add 1, end, end, \
         for v0 1 <= 600000 add 1, for v1 1 <= 499999 add 1, end, end, end",
        "0 add 1 1 0 0 exact, 1 add 1 1 600000 0 exact, 2 add 1 1 499999 0 exact, \
         5 add 1 1 600000 0 exact, 6 add 1 1 499999 0 exact, 2",
    );
    f.brief(
        "accepted-ticks-at-the-limit",
        &[(0, 0); 2],
        "for v0 1 <= 999998 add 1, for v1 1 <= 499999 add 1, end, end, cue 1, cue 2",
        // Inside 2·499999 + 2 = 10^6, so 999998·(10^6 + 2) + 2 = 10^12 - 2.
        "0 add 1 1 999998 999998 exact, 1 add 1 1 499999 499998000002 exact, 1000000000000",
    );
    f.rows("accepted-8-deep", &[], &[&["pick"; 8][..], &["else"], &["end"; 8]].concat(), "8");
    f.rows(
        "accepted-16-loops",
        &[(0, 0)],
        &["for v0 1 < 1 add 1", "end"].repeat(16),
        &format!("{}32", (0..16).map(|k| format!("{} add 1 1 0 0 exact, ", 2 * k)).collect::<String>()),
    );
    f.rows(
        "accepted-loop-in-the-last-rows",
        &[(0, 0)],
        &[&["cue 1"; 254][..], &["for v0 1 < 3 mul 2", "end"]].concat(),
        "254 grow 2 2 2 2 exact, 260",
    );
    // Two towers of eight loops with one turn each, filled up with the longest rows: about the longest file that
    // can be accepted, since a number inside its limits has at most eleven bytes.
    let heads: Vec<String> = (7..15).map(|v| format!("for v{v} -1000000000 >= -1000000000 sub 1000000000")).collect();
    let mut rows: Vec<&str> = Vec::new();
    let mut lines = String::new();
    for _ in 0..2 {
        for head in &heads {
            lines += &format!("{} add -1000000000 -1000000000 1 1 exact, ", rows.len());
            rows.push(head);
        }
        rows.extend(["set v15 -1000000000"; 112]);
        rows.extend(["end"; 8]);
    }
    // From inside: 112 + 4 for each loop.
    f.rows("accepted-worst", &[(-L, -L); 16], &rows, &format!("{lines}{}", 2 * (112 + 8 * 4)));
}

fn questions_2_and_3(f: &mut Files) {
    f.bytes("refused-3-empty-file", b"", "refused 3 1");
    f.bytes("refused-3-lone-lf", b"\n", "refused 3 1");
    f.bytes("refused-3-first-line-without-lf", b"script=1", "refused 3 1");
    f.bytes("refused-3-script-2", b"script=2\nvars=0\nrows=0\n", "refused 3 1");
    f.bytes("refused-3-script-01", b"script=01\nvars=0\nrows=0\n", "refused 3 1");
    f.bytes("refused-3-no-second-line", b"script=1\n", "refused 3 2");
    f.bytes("refused-3-vars-minus-zero", b"script=1\nvars=-0\nrows=0\n", "refused 3 2");
    f.bytes("refused-3-vars-leading-zero", b"script=1\nvars=00\nrows=0\n", "refused 3 2");
    f.bytes("refused-3-vars-plus", b"script=1\nvars=+1\nrange=0 0\nrows=0\n", "refused 3 2");
    f.bytes("refused-3-missing-range", b"script=1\nvars=1\nrows=0\n", "refused 3 3");
    f.bytes("refused-3-extra-range", b"script=1\nvars=0\nrange=0 0\nrows=0\n", "refused 3 3");
    f.bytes("refused-3-range-of-one", b"script=1\nvars=1\nrange=0\nrows=0\n", "refused 3 3");
    f.bytes("refused-3-range-doubled-space", b"script=1\nvars=1\nrange=0  0\nrows=0\n", "refused 3 3");
    f.bytes("refused-3-range-space-at-the-end", b"script=1\nvars=1\nrange=0 0 \nrows=0\n", "refused 3 3");
    f.bytes("refused-3-rows-line-without-lf", b"script=1\nvars=0\nrows=0", "refused 3 3");
    f.bytes("refused-3-row-missing", b"script=1\nvars=0\nrows=2\nrow=cue 1\n", "refused 3 5");
    f.bytes("refused-3-row-too-many", b"script=1\nvars=0\nrows=1\nrow=cue 1\nrow=cue 1\n", "refused 3 5");
    f.bytes("refused-3-last-line-without-lf", b"script=1\nvars=0\nrows=1\nrow=cue 1", "refused 3 4");
    f.bytes("refused-3-extra-lf", b"script=1\nvars=0\nrows=1\nrow=cue 1\n\n", "refused 3 5");
    f.bytes("refused-3-extra-nul", b"script=1\nvars=0\nrows=0\n\0", "refused 3 4");
    f.bytes("refused-3-extra-bytes-and-an-open-block", b"script=1\nvars=0\nrows=1\nrow=pick\nx", "refused 3 5");
    f.bytes("refused-3-cr-lf", b"script=1\r\nvars=0\r\nrows=0\r\n", "refused 3 1");
    f.bytes("refused-3-cr-on-the-last-line", b"script=1\nvars=0\nrows=1\nrow=end\r\n", "refused 3 4");
    f.bytes("refused-3-nul-in-a-number", b"script=1\nvars=0\nrows=1\nrow=cue 1\0\n", "refused 3 4");
    f.bytes("refused-3-byte-order-mark", b"\xef\xbb\xbfscript=1\nvars=0\nrows=0\n", "refused 3 1");
    f.row("refused-3-empty-row", "", "refused 3 6");
    f.row("refused-3-row-minus-zero", "set v0 -0", "refused 3 6");
    f.row("refused-3-row-leading-zero", "set v0 007", "refused 3 6");
    f.row("refused-3-variable-leading-zero", "set v00 7", "refused 3 6");
    f.row("refused-3-variable-below-zero", "set v-1 7", "refused 3 6");
    f.row("refused-3-variable-without-number", "set v 7", "refused 3 6");
    f.row("refused-3-capital-letter", "set V0 7", "refused 3 6");
    f.row("refused-3-tab", "set v0\t7", "refused 3 6");
    f.row("refused-3-space-before", " cue 1", "refused 3 6");
    f.row("refused-3-space-after", "pick ", "refused 3 6");
    f.row("refused-3-add-a-variable", "add v0 v1", "refused 3 6");
    f.row("refused-3-cue-a-variable", "cue v0", "refused 3 6");
    f.row("refused-3-constant-tested", "while 1 <= v0", "refused 3 6");
    f.row("refused-3-one-equals-sign", "while v0 = 1", "refused 3 6");
    f.row("refused-3-for-step-set", "for v0 1 <= 2 set 1", "refused 3 6");
    f.row("refused-3-for-of-six-words", "for v0 1 <= 2 add", "refused 3 6");
    f.row("refused-3-for-of-eight-words", "for v0 1 <= 2 add v0 1", "refused 3 6");
    // 3 before 4 and 5 on one line; a line before the next.
    f.row("refused-3-before-4-and-5", "add v99 -1 1", "refused 3 6");
    f.rows("refused-4-on-a-line-before-3", &[], &["cue -1", "cue"], "refused 4 4");
    f.rows("refused-3-row-255", &[], &[&["cue 1"; 255][..], &["cue"]].concat(), "refused 3 259");
    let mut more = text(&[], &["cue 1"; 256]);
    more.extend_from_slice(b"row=cue 1\n");
    f.bytes("refused-3-behind-row-255", &more, "refused 3 260");

    let digits = |count: usize, sign: &str| format!("script=1\nvars=0\nrows=1\nrow=cue {sign}{}\n", "9".repeat(count));
    let short = digits(0, "").len();
    f.bytes("refused-4-file-of-16384-bytes", digits(16_384 - short, "").as_bytes(), "refused 4 4");
    f.bytes("refused-2-file-of-16385-bytes", digits(16_385 - short, "").as_bytes(), "refused 2 16384");
    f.bytes("refused-3-16384-letters", &[b'x'; 16_384], "refused 3 1");
    f.bytes("refused-2-16385-letters", &[b'x'; 16_385], "refused 2 16384");
    f.bytes("refused-3-16384-lf", &[b'\n'; 16_384], "refused 3 1");
    f.bytes("refused-2-good-file-with-zeros-behind", &[text(&[], &[]), vec![0; 40_000]].concat(), "refused 2 16384");
}

fn questions_4_and_5(f: &mut Files) {
    let long = "9".repeat(5_000);
    f.bytes("refused-4-vars-17", b"script=1\nvars=17\n", "refused 4 2");
    f.bytes("refused-4-vars-minus-1", b"script=1\nvars=-1\nrows=0\n", "refused 4 2");
    f.bytes("refused-4-vars-of-5000-digits", format!("script=1\nvars={long}\n").as_bytes(), "refused 4 2");
    f.bytes("refused-4-range-turned-round", b"script=1\nvars=1\nrange=1 0\nrows=0\n", "refused 4 3");
    f.bytes("refused-4-range-below", b"script=1\nvars=1\nrange=-1000000001 0\nrows=0\n", "refused 4 3");
    f.bytes("refused-4-range-above", b"script=1\nvars=2\nrange=0 0\nrange=0 1000000001\nrows=0\n", "refused 4 4");
    f.bytes("refused-4-range-past-64-bits", b"script=1\nvars=1\nrange=-18446744073709551616 18446744073709551616\nrows=0\n", "refused 4 3");
    f.bytes("refused-4-rows-257", b"script=1\nvars=0\nrows=257\n", "refused 4 3");
    f.bytes("refused-4-rows-4294967296", b"script=1\nvars=0\nrows=4294967296\n", "refused 4 3");
    f.row("refused-4-set-above", "set v0 1000000001", "refused 4 6");
    f.row("refused-4-set-below", "set v0 -1000000001", "refused 4 6");
    f.row("refused-4-set-4294967296", "set v0 4294967296", "refused 4 6");
    f.row("refused-4-add-minus-1", "add v0 -1", "refused 4 6");
    f.row("refused-4-sub-above", "sub v0 1000000001", "refused 4 6");
    f.row("refused-4-mul-0", "mul v0 0", "refused 4 6");
    f.row("refused-4-div-0", "div v0 0", "refused 4 6");
    f.row("refused-4-cue-10000", "cue 10000", "refused 4 6");
    f.row("refused-4-cue-minus-1", "cue -1", "refused 4 6");
    f.row("refused-4-limit-above", "while v0 <= 1000000001", "refused 4 6");
    f.row("refused-4-do-limit-below", "do v0 > -1000000001", "refused 4 6");
    f.row("refused-4-for-start", "for v0 1000000001 <= 1 add 1", "refused 4 6");
    f.row("refused-4-for-limit", "for v0 1 <= 1000000001 add 1", "refused 4 6");
    f.row("refused-4-for-step-div-0", "for v0 1 <= 2 div 0", "refused 4 6");
    f.row("refused-4-before-5", "add v99 -1", "refused 4 6");
    f.row("refused-4-minus-and-5000-digits", &format!("set v0 -{long}"), "refused 4 6");
    f.rows("refused-4-row-255", &[], &[&["cue 1"; 255][..], &["cue 10000"]].concat(), "refused 4 259");
    f.rows("refused-5-no-variables", &[], &["set v0 1"], "refused 5 4");
    f.row("refused-5-set", "set v2 1", "refused 5 6");
    f.row("refused-5-set-from", "set v0 v2", "refused 5 6");
    f.row("refused-5-limit", "while v0 <= v16", "refused 5 6");
    f.row("refused-5-for-start", "for v0 v2 <= 1 add 1", "refused 5 6");
    f.row("refused-5-variable-256", "add v256 1", "refused 5 6");
    f.row("refused-5-variable-past-64-bits", "add v18446744073709551616 1", "refused 5 6");
    f.row("refused-5-variable-of-5000-digits", &format!("add v{long} 1"), "refused 5 6");
    f.rows("refused-5-before-7", &[(0, 0)], &[&["pick"; 8][..], &["while v1 < 1"]].concat(), "refused 5 13");
    f.rows("refused-5-row-255", &[(0, 0)], &[&["cue 1"; 255][..], &["mul v1 1"]].concat(), "refused 5 260");
}

fn questions_6_and_7(f: &mut Files) {
    f.rows("refused-6-else-in-row-0", &[], &["else"], "refused 6 4");
    f.rows("refused-6-end-in-row-0", &[], &["end"], "refused 6 4");
    f.rows("refused-6-second-else", &[], &["pick", "else", "else", "end"], "refused 6 6");
    f.rows("refused-6-else-in-a-loop", &[(0, 0)], &["pick", "while v0 < 1", "else", "end", "end"], "refused 6 7");
    f.rows("refused-6-end-too-many", &[], &["pick", "end", "end"], "refused 6 6");
    f.rows("refused-6-end-in-row-255", &[], &[&["cue 1"; 255][..], &["end"]].concat(), "refused 6 259");
    f.rows("refused-6-open-pick", &[], &["pick", "pick", "end"], "refused 6 7");
    f.rows("refused-6-open-else", &[], &["pick", "else"], "refused 6 6");
    f.rows("refused-6-open-loop-in-row-255", &[(0, 0)], &[&["cue 1"; 255][..], &["while v0 < 1"]].concat(), "refused 6 261");
    f.rows("refused-7-nine-deep", &[], &[&["pick"; 9][..], &["end"; 9]].concat(), "refused 7 12");
    f.rows(
        "refused-7-nine-deep-in-an-else",
        &[(0, 0)],
        &[&["pick"; 8][..], &["else", "for v0 1 < 2 add 1", "end"], &["end"; 8]].concat(),
        "refused 7 14",
    );
    f.rows("refused-7-seventeen-loops", &[(0, 0)], &["for v0 1 < 2 add 1", "end"].repeat(17), "refused 7 37");
    f.rows(
        "refused-7-seventeenth-loop-in-row-255",
        &[(0, 0)],
        &[&["for v0 1 < 2 add 1", "end"].repeat(16)[..], &["cue 1"; 223], &["do v0 < 2"]].concat(),
        "refused 7 260",
    );
}

fn questions_8_to_12(f: &mut Files) {
    let one: &[(i64, i64)] = &[(1, 1)];
    let two: &[(i64, i64)] = &[(1, 1), (9, 9)];
    f.brief("refused-8-set", one, "while v0 < 5, set v0 9, end", "refused 8 0");
    f.brief("refused-8-add-and-mul", one, "while v0 < 5, add v0 1, mul v0 2, end", "refused 8 0");
    f.brief("refused-8-div-and-mul", one, "while v0 < 5, div v0 2, mul v0 3, end", "refused 8 0");
    f.brief("refused-8-pick-of-add-and-mul", one, "while v0 < 5, pick, add v0 1, else, mul v0 2, end, end", "refused 8 0");
    f.brief("refused-8-unknown-and-standing", one, "while v0 < 5, set v0 2, add v0 0, end", "refused 8 0");
    f.brief("refused-8-inner-loop", two, "cue 1, do v0 < 5, add v0 1, while v1 < 9, mul v0 1, end, end", "refused 8 1");
    f.brief("refused-8-inner-for", two, "while v0 < 5, add v0 1, for v0 1 > 3 sub 1, end, end", "refused 8 0");
    f.rows("refused-8-head-row-253", one, &[&["cue 1"; 253][..], &["while v0 < 5", "set v0 v0", "end"]].concat(), "refused 8 253");
    f.brief("refused-9-no-row", one, "while v0 < 5, end", "refused 9 0");
    f.brief("refused-9-standing-rows", one, "while v0 < 5, mul v0 1, div v0 1, add v0 0, sub v0 0, end", "refused 9 0");
    f.brief("refused-9-pick-without-else", one, "while v0 < 5, pick, add v0 1, end, end", "refused 9 0");
    f.brief("refused-9-pick-and-factor-1", one, "while v0 < 5, pick, else, mul v0 2, end, end", "refused 9 0");
    f.brief("refused-9-for-held", one, "for v0 1 < 5 add 1, sub v0 1, end", "refused 9 0");
    f.brief("refused-9-before-the-inner-8", two, "while v0 < 5, while v1 < 5, set v1 1, end, end", "refused 9 0");
    f.brief("refused-9-inner-after-the-outer", two, "while v0 < 5, add v0 1, while v1 < 5, end, end", "refused 9 2");
    f.brief("refused-9-in-the-then-before-8-in-the-else", two, "pick, do v0 < 5, end, else, do v0 < 5, set v0 1, end, end", "refused 9 1");
    f.rows("refused-9-head-row-254", one, &[&["cue 1"; 254][..], &["while v0 < 5", "end"]].concat(), "refused 9 254");
    f.brief("refused-10-limit-assigned", two, "while v0 < v1, add v0 1, mul v1 2, end", "refused 10 0");
    f.brief("refused-10-limit-is-the-tested", one, "while v0 <= v0, add v0 1, end", "refused 10 0");
    f.brief("refused-10-limit-is-the-for-s-own", one, "for v0 1 < v0 add 1, end", "refused 10 0");
    f.brief("refused-10-limit-of-an-inner-for", two, "while v0 < v1, add v0 1, for v1 1 < 2 add 1, end, end", "refused 10 0");
    f.brief("refused-10-before-11", two, "while v0 > v1, add v0 1, set v1 v1, end", "refused 10 0");
    f.brief("refused-11-rising-gt", one, "while v0 > 5, add v0 1, end", "refused 11 0");
    f.brief("refused-11-falling-le", one, "while v0 <= 5, sub v0 1, end", "refused 11 0");
    f.brief("refused-11-grow-ge", one, "while v0 >= 5, mul v0 2, end", "refused 11 0");
    f.brief("refused-11-shrink-lt", one, "do v0 < 5, div v0 2, end", "refused 11 0");
    f.brief("refused-11-grow-eq", one, "while v0 == 5, mul v0 2, end", "refused 11 0");
    f.brief("refused-11-shrink-ne", one, "while v0 != 0, div v0 2, end", "refused 11 0");
    f.brief("refused-12-do-grow-from-0", &[(0, 5)], "do v0 < 5, mul v0 2, end", "refused 12 0");
    f.brief("refused-12-grow-below-the-limit-0", &[(0, 0)], "while v0 < 0, mul v0 2, end", "refused 12 0");
    f.brief("refused-12-shrink-gt-minus-1", &[(5, 5)], "while v0 > -1, div v0 2, end", "refused 12 0");
    f.brief("refused-12-shrink-limit-range", &[(5, 5), (0, 7)], "while v0 >= v1, div v0 2, end", "refused 12 0");
    f.brief("refused-12-ne-two-steps", &[(0, 0)], "while v0 != 6, pick, add v0 1, else, add v0 2, end, end", "refused 12 0");
    f.brief("refused-12-ne-away", &[(7, 7)], "while v0 != 5, add v0 1, end", "refused 12 0");
    f.brief("refused-12-ne-away-by-threes", &[(8, 8)], "while v0 != 5, add v0 3, end", "refused 12 0");
    f.brief("refused-12-ne-threes-from-a-range", &[(2, 5)], "while v0 != 8, add v0 3, end", "refused 12 0");
    f.brief("refused-12-ne-over-crossing-ranges", &[(1, 5), (4, 9)], "while v0 != v1, add v0 1, end", "refused 12 0");
    // After the do v1 is not known to be positive.
    f.brief("refused-12-for-start-unknown", two, "do v1 > 0, sub v1 2, end, for v0 v1 <= 9 mul 3, end", "refused 12 3");
    f.brief("refused-12-inner-start-unknown", two, "while v0 < 5, while v1 < 9, mul v1 2, end, add v0 1, end", "refused 12 1");
}

fn question_13(f: &mut Files) {
    let part = "for v0 1 <= 600000 add 1, for v1 1 <= 499999 add 1, end, end";
    let two: &[(i64, i64)] = &[(0, 0); 2];
    f.brief(
        "refused-13-loop",
        two,
        "for v0 1 <= 999999 add 1, for v1 1 <= 499999 add 1, end, end, cue 1",
        "refused 13 3",
    );
    f.brief("refused-13-file", two, &format!("{part}, {part}"), "refused 13 8");
    f.brief("refused-13-file-by-one", two, "for v0 1 <= 999998 add 1, for v1 1 <= 499999 add 1, end, end, cue 1, cue 2, cue 3", "refused 13 7");
    f.brief("refused-13-pick", two, &format!("pick, {part}, {part}, else, cue 1, end, cue 2"), "refused 13 11");
    f.brief("refused-13-inside-a-loop-without-a-turn", &[(0, 0); 3], &format!("for v2 1 <= 0 add 1, pick, {part}, {part}, end, end"), "refused 13 10");
    let heads: Vec<String> = (0..8).map(|v| format!("for v{v} -1000000000 <= 1000000000 add 1")).collect();
    let mut rows: Vec<&str> = heads.iter().map(String::as_str).collect();
    rows.extend(["end"; 8]);
    f.rows("refused-13-eight-deep-past-128-bits", &[(0, 0); 8], &rows, "refused 13 9");
    let late: Vec<&str> = part.split(", ").collect();
    let mut rows = [vec!["cue 1"; 248], late.repeat(2)].concat();
    f.rows("refused-13-file-of-256-rows", two, &rows, "refused 13 256");
    rows.remove(0);
    rows.remove(0);
    rows.insert(246, "pick");
    rows.push("end");
    f.rows("refused-13-end-row-255", two, &rows, "refused 13 255");
    f.brief("refused-9-before-13", two, &format!("{part}, {part}, do v0 > 0, div v0 1, end"), "refused 9 8");
    f.brief("refused-12-before-13", two, &format!("{part}, {part}, while v0 != 5, add v0 3, end"), "refused 12 8");
}

/// Change 1. A body of the master's row and the copy has 2 ticks.
fn copied_counters(f: &mut Files) {
    let case: &[(i64, i64)] = &[(0, 0), (3, 3)];
    // The copies are 4 to 9, and 10 fails: 1 + 6.
    f.brief("accepted-copied-case", case, "while v0 < 10, add v1 1, set v0 v1, end", "0 add 1 1 7 7 exact, 22");
    // The copies are 3 to 9.
    f.brief("accepted-copied-copy-first", case, "while v0 < 10, set v0 v1, add v1 1, end", "0 add 1 1 8 8 exact, 25");
    f.brief("accepted-copied-do", case, "do v0 < 10, add v1 1, set v0 v1, end", "0 add 1 1 7 7 exact, 21");
    f.brief("accepted-copied-do-copy-first", case, "do v0 < 10, set v0 v1, add v1 1, end", "0 add 1 1 8 8 exact, 24");
    // The first copy fails: the first turn alone.
    f.brief("accepted-copied-first-turn-alone", &[(0, 0), (9, 9)], "while v0 < 10, add v1 1, set v0 v1, end", "0 add 1 1 1 1 exact, 4");
    f.brief("accepted-copied-without-a-turn", &[(10, 20), (3, 3)], "while v0 < 10, add v1 1, set v0 v1, end", "0 add 1 1 0 0 most, 1");
    f.brief("accepted-copied-best-start-passes", &[(9, 20), (3, 3)], "while v0 < 10, add v1 1, set v0 v1, end", "0 add 1 1 7 7 most, 22");
    f.brief("accepted-copied-do-from-past-the-limit", &[(10, 20), (3, 3)], "do v0 < 10, add v1 1, set v0 v1, end", "0 add 1 1 7 7 most, 21");
    // E is 3; the copies of 9 are 7, 5, 3, those of 8 fewer.
    f.brief("accepted-copied-falling", &[(0, 3), (8, 9)], "while v0 >= 3, sub v1 2, set v0 v1, end", "0 add -2 -2 4 4 most, 13");
    f.brief("accepted-copied-falling-without-a-turn", &[(0, 3), (8, 9)], "while v0 > 3, sub v1 2, set v0 v1, end", "0 add -2 -2 0 0 most, 1");
    f.brief("accepted-copied-counter-not-single", &[(0, 1), (3, 3)], "while v0 < 10, add v1 1, set v0 v1, end", "0 add 1 1 7 7 most, 22");
    f.brief("accepted-copied-master-not-single", &[(0, 0), (3, 4)], "while v0 < 10, add v1 1, set v0 v1, end", "0 add 1 1 7 7 most, 22");
    // The loosest limit is 12: the copies are 4 to 11.
    f.brief("accepted-copied-limit-not-single", &[(0, 0), (3, 3), (10, 12)], "while v0 < v2, add v1 1, set v0 v1, end", "0 add 1 1 9 9 most, 28");
    // Step 2 to 3: 5, 7, 9. A body of a pick with a row, and the copy.
    f.brief(
        "accepted-copied-slowest-step",
        case,
        "while v0 < 10, pick, add v1 2, else, add v1 3, end, set v0 v1, end",
        "0 add 2 3 4 4 most, 17",
    );
    // All rows of the master on one side, standing ones too: 3, 5, 7, 9.
    f.brief(
        "accepted-copied-rows-on-one-side",
        case,
        "while v0 < 10, cue 1, set v0 v1, add v1 0, pick, cue 2, end, add v1 3, sub v1 1, end",
        // A turn: cue, copy, three rows of the master and the pick's 2, and the test.
        "0 add 2 2 5 5 exact, 41",
    );
    // The range of the master is that at the loop: copies 6 to 9.
    f.brief("accepted-copied-master-set-before", case, "set v1 5, while v0 < 10, add v1 1, set v0 v1, end", "1 add 1 1 5 5 exact, 17");
    // In the body the counter is not known: as many turns as up to L. 3 turns outside; inside 2·10^9 + 2 ticks.
    f.brief(
        "accepted-copied-not-known-in-the-body",
        &[(0, 0), (0, 0), (0, 0)],
        "while v0 < 3, for v2 0 < v0 add 1, end, add v1 1, set v0 v1, end",
        "0 add 1 1 3 3 exact, 1 add 1 1 1000000000 3000000000 most, 6000000016",
    );
    f.brief(
        "accepted-copied-not-known-after",
        &[(0, 0), (0, 0), (0, 0)],
        "while v0 < 3, add v1 1, set v0 v1, end, for v2 0 < v0 add 1, end, for v2 0 > v1 sub 1, end",
        "0 add 1 1 3 3 exact, 4 add 1 1 1000000000 1000000000 most, 6 add -1 -1 1000000000 1000000000 most, 4000000014",
    );
    // Two of them, one in the other: the inner starts are not known. 1 + (4 + L - 1) + 1 turns inside, of 3 ticks.
    f.brief(
        "accepted-copied-in-a-copied",
        &[(0, 0), (3, 3), (0, 0), (0, 0)],
        "while v0 < 10, add v1 1, set v0 v1, while v2 < 5, add v3 1, set v2 v3, end, end",
        "0 add 1 1 7 7 exact, 3 add 1 1 1000000005 7000000035 most, 21000000134",
    );
    // -L, 0, L: moved first, the copies are 0 and L.
    f.brief(
        "accepted-copied-at-the-limits",
        &[(-L, -L), (-L, -L)],
        "while v0 <= 1000000000, add v1 1000000000, set v0 v1, end",
        "0 add 1000000000 1000000000 3 3 exact, 10",
    );
    f.brief("accepted-copied-by-ones", &[(-L, -L), (-L, -L)], "do v0 <= 1000000000, set v0 v1, add v1 1, end", "0 add 1 1 2000000002 2000000002 exact, 6000000006");
    let three: &[(i64, i64)] = &[(0, 0), (3, 3), (0, 0)];
    f.brief("refused-8-copy-in-a-pick", case, "while v0 < 10, add v1 1, pick, set v0 v1, end, end", "refused 8 0");
    f.brief("refused-8-copy-in-both-branches", case, "while v0 < 10, add v1 1, pick, set v0 v1, else, set v0 v1, end, end", "refused 8 0");
    f.brief("refused-8-copy-in-an-inner-loop", three, "while v0 < 10, add v1 1, for v2 0 < 1 add 1, set v0 v1, end, end", "refused 8 0");
    f.brief("refused-8-copy-in-a-for", case, "for v0 0 < 10 add 1, add v1 1, set v0 v1, end", "refused 8 0");
    f.brief("refused-8-copy-rows-on-both-sides", case, "while v0 < 10, add v1 1, set v0 v1, add v1 1, end", "refused 8 0");
    f.brief("refused-8-copy-standing-row-before", case, "while v0 < 10, add v1 0, set v0 v1, add v1 1, end", "refused 8 0");
    f.brief("refused-8-copy-standing-row-after", case, "do v0 < 10, add v1 1, set v0 v1, mul v1 1, end", "refused 8 0");
    f.brief("refused-8-copy-of-a-standing-master", case, "while v0 < 10, set v0 v1, end", "refused 8 0");
    f.brief("refused-8-copy-of-a-master-that-may-stand", case, "while v0 < 10, pick, add v1 1, end, set v0 v1, end", "refused 8 0");
    f.brief("refused-8-copy-of-a-master-of-both-ways", case, "while v0 < 10, pick, add v1 5, else, sub v1 5, end, set v0 v1, end", "refused 8 0");
    f.brief("refused-8-copy-of-a-growing-master", case, "while v0 < 10, mul v1 2, set v0 v1, end", "refused 8 0");
    f.brief("refused-8-copy-of-a-shrinking-master", case, "while v0 > 1, div v1 2, set v0 v1, end", "refused 8 0");
    f.brief("refused-8-copy-of-a-master-that-is-set", case, "while v0 < 10, set v1 20, set v0 v1, end", "refused 8 0");
    f.brief("refused-8-copy-of-a-master-in-an-inner-loop", three, "while v0 < 10, for v2 0 < 1 add 1, add v1 1, end, set v0 v1, end", "refused 8 0");
    f.brief("refused-8-copy-equal", case, "while v0 == 0, add v1 1, set v0 v1, end", "refused 8 0");
    f.brief("refused-8-copy-unequal", case, "do v0 != 10, add v1 1, set v0 v1, end", "refused 8 0");
    f.brief("refused-8-copy-and-a-standing-row", case, "while v0 < 10, add v1 1, set v0 v1, add v0 0, end", "refused 8 0");
    f.brief("refused-8-copy-twice", case, "while v0 < 10, add v1 1, set v0 v1, set v0 v1, end", "refused 8 0");
    f.brief("refused-8-copy-and-an-inner-for", case, "while v0 < 10, add v1 1, set v0 v1, for v0 0 < 1 add 1, end, end", "refused 8 0");
    f.brief("refused-8-copy-of-itself", case, "while v0 < 10, add v1 1, set v0 v0, end", "refused 8 0");
    f.brief("refused-10-copied-limit-is-the-master", case, "while v0 < v1, add v1 1, set v0 v1, end", "refused 10 0");
    f.brief("refused-10-copied-limit-is-the-counter", case, "while v0 < v0, add v1 1, set v0 v1, end", "refused 10 0");
    f.brief("refused-10-copied-limit-assigned", three, "while v0 < v2, add v1 1, set v0 v1, cue 1, sub v2 0, end", "refused 10 0");
    f.brief("refused-11-copied-falling", case, "while v0 < 10, sub v1 1, set v0 v1, end", "refused 11 0");
    f.brief("refused-11-copied-rising", case, "do v0 >= 10, set v0 v1, add v1 1, end", "refused 11 0");
}

/// Change 4: of the blocks over the limit the one whose `end` row comes first.
fn first_block_over(f: &mut Files) {
    // 999999(10^6 + 2) + 2, 10^12 - 2, and 600000(10^6 + 2) + 2.
    let over = "for v0 1 <= 999999 add 1, for v1 1 <= 499999 add 1, end, end";
    let full = "for v0 1 <= 999998 add 1, for v1 1 <= 499999 add 1, end, end";
    let part = "for v0 1 <= 600000 add 1, for v1 1 <= 499999 add 1, end, end";
    let never = "for v2 1 <= 0 add 1";
    let three: &[(i64, i64)] = &[(0, 0); 3];
    f.brief("refused-13-inner-of-two-nested", three, &format!("for v2 1 <= 2 add 1, {over}, end"), "refused 13 4");
    f.brief("refused-13-inner-pick-of-two-nested", three, &format!("pick, pick, {part}, {part}, end, else, cue 1, end"), "refused 13 10");
    f.brief("refused-13-outer-of-two-nested", three, &format!("for v2 1 <= 2 add 1, {part}, end"), "refused 13 5");
    f.brief("refused-13-first-of-two-side-by-side", three, &format!("{over}, cue 1, {over}"), "refused 13 3");
    f.brief("refused-13-second-of-two-side-by-side", three, &format!("{full}, {over}"), "refused 13 7");
    f.brief("refused-13-only-the-file", three, &format!("pick, cue 1, end, {full}, {full}, cue 1"), "refused 13 12");
    // Each branch has at most 10^12 ticks, and the pick one more.
    f.brief("refused-13-pick-with-both-branches-within", three, &format!("pick, {full}, cue 1, cue 2, else, {full}, end, cue 3"), "refused 13 12");
    f.brief("refused-13-in-the-else-before-its-pick", three, &format!("pick, cue 1, else, {over}, end"), "refused 13 6");
    // A loop without a turn is within the limit, whatever is in it; a block in it can be over by itself.
    f.brief("refused-13-behind-a-loop-without-a-turn", three, &format!("{never}, {part}, {part}, end, {over}"), "refused 13 13");
    f.brief("refused-13-in-a-loop-without-a-turn-first", three, &format!("{never}, {over}, end, {over}"), "refused 13 4");
}

/// Change 5. With a row each a turn has 3 ticks.
fn closing_chases(f: &mut Files) {
    let case: &[(i64, i64)] = &[(0, 0), (10, 10)];
    let turned: &[(i64, i64)] = &[(10, 10), (0, 0)];
    let three: &[(i64, i64)] = &[(0, 0), (3, 3), (0, 0)];
    // The difference goes from -10 to below 0 by twos: -10, -8, -6, -4, -2.
    f.brief("accepted-closing-case", case, "while v0 < v1, add v0 1, sub v1 1, end", "0 add 2 2 5 5 exact, 16");
    f.brief("accepted-closing-le", case, "while v0 <= v1, sub v1 1, add v0 1, end", "0 add 2 2 6 6 exact, 19");
    f.brief("accepted-closing-do", case, "do v0 < v1, add v0 1, sub v1 1, end", "0 add 2 2 5 5 exact, 15");
    f.brief("accepted-closing-do-once", &[(9, 9), (10, 10)], "do v0 < v1, add v0 1, sub v1 1, end", "0 add 2 2 1 1 exact, 3");
    f.brief("accepted-closing-for", &[(7, 7), (10, 10)], "for v0 0 < v1 add 1, sub v1 1, end", "0 add 2 2 5 5 exact, 17");
    // 10, 7, 4, 1 and 10, 8, 6, 4, 2, 0.
    f.brief("accepted-closing-falling", turned, "while v0 > v1, sub v0 1, add v1 2, end", "0 add -3 -3 4 4 exact, 13");
    f.brief("accepted-closing-ge", turned, "while v0 >= v1, sub v0 1, add v1 1, end", "0 add -2 -2 6 6 exact, 19");
    f.brief("accepted-closing-without-a-turn", &[(10, 10), (10, 10)], "while v0 < v1, add v0 1, sub v1 1, end", "0 add 2 2 0 0 exact, 1");
    f.brief("accepted-closing-tested-stands", case, "while v0 < v1, sub v1 1, end", "0 add 1 1 10 10 exact, 21");
    f.brief("accepted-closing-limit-stands", &[(1, 1), (9, 9)], "while v0 < v1, add v0 1, sub v1 0, end", "0 add 1 1 8 8 exact, 25");
    f.brief("accepted-closing-chased", case, "while v0 < v1, add v0 3, add v1 1, end", "0 add 2 2 5 5 exact, 16");
    f.brief("accepted-closing-met", case, "while v0 < v1, sub v0 1, sub v1 3, end", "0 add 2 2 5 5 exact, 16");
    // Steps 1 to 2 and -3 to -1: the difference 2 to 5.
    f.brief(
        "accepted-closing-slowest-step",
        case,
        "while v0 < v1, pick, add v0 1, else, add v0 2, end, pick, sub v1 1, else, sub v1 3, end, end",
        "0 add 2 5 5 5 most, 26",
    );
    // The worst starts: 0 and 10, 10 and 0.
    f.brief("accepted-closing-ranges", &[(0, 3), (8, 10)], "while v0 < v1, add v0 1, sub v1 1, end", "0 add 2 2 5 5 most, 16");
    f.brief("accepted-closing-ranges-falling", &[(8, 10), (0, 3)], "while v0 > v1, sub v0 1, add v1 1, end", "0 add -2 -2 5 5 most, 16");
    f.brief("accepted-closing-tested-not-single", &[(0, 1), (10, 10)], "while v0 < v1, add v0 1, sub v1 1, end", "0 add 2 2 5 5 most, 16");
    f.brief("accepted-closing-limit-not-single", &[(0, 0), (9, 10)], "while v0 < v1, add v0 1, sub v1 1, end", "0 add 2 2 5 5 most, 16");
    // The tested variable is not assigned in the body, and yet not known there, nor after the loop.
    f.brief(
        "accepted-closing-not-known-in-the-body",
        three,
        "while v0 < v1, for v2 0 < v0 add 1, end, sub v1 1, end",
        "0 add 1 1 3 3 exact, 1 add 1 1 1000000000 3000000000 most, 6000000013",
    );
    f.brief(
        "accepted-closing-not-known-after",
        three,
        "while v0 < v1, sub v1 1, end, for v2 0 < v0 add 1, end, for v2 0 > v1 sub 1, end",
        "0 add 1 1 3 3 exact, 3 add 1 1 1000000000 1000000000 most, 5 add -1 -1 1000000000 1000000000 most, 4000000011",
    );
    // From one limit to the other: 2L apart.
    f.brief("accepted-closing-at-the-limits", &[(-L, -L), (L, L)], "while v0 <= v1, add v0 1, sub v1 1, end", "0 add 2 2 1000000001 1000000001 exact, 3000000004");
    f.brief("accepted-closing-by-ones", &[(L, L), (-L, -L)], "do v0 >= v1, add v1 1, end", "0 add -1 -1 2000000001 2000000001 exact, 4000000002");
    // 120 rows each: the difference's step is 240L.
    let rows = |first, up, down| [&[first][..], &[up; 120], &[down; 120], &["end"]].concat();
    f.rows(
        "accepted-closing-longest-steps",
        &[(-L, -L), (L, L)],
        &rows("while v0 < v1", "add v0 1000000000", "sub v1 1000000000"),
        "0 add 240000000000 240000000000 1 1 exact, 242",
    );
    f.rows(
        "accepted-closing-longest-steps-of-a-do",
        &[(L, L), (-L, -L)],
        &rows("do v0 > v1", "sub v0 1000000000", "add v1 1000000000"),
        "0 add -240000000000 -240000000000 1 1 exact, 241",
    );
    // One in the other. Nothing assigns v2, so it is 0 at the inner loop; v3 is not known: from -L to -1 by ones.
    f.brief(
        "accepted-closing-in-a-closing",
        &[(0, 0), (10, 10), (0, 0), (0, 0)],
        "while v0 < v1, add v0 1, sub v1 1, while v2 < v3, sub v3 1, end, end",
        // Inside 2·10^9 + 1, outside 5(2 + 2·10^9 + 1 + 1) + 1.
        "0 add 2 2 5 5 exact, 3 add 1 1 1000000000 5000000000 most, 10000000021",
    );
    f.brief("refused-8-closing-tested-set", case, "while v0 < v1, set v0 5, sub v1 1, end", "refused 8 0");
    f.brief("refused-9-closing-same-speed", case, "while v0 < v1, add v0 1, add v1 1, end", "refused 9 0");
    f.brief("refused-9-closing-both-stand", case, "while v0 < v1, add v0 0, add v1 0, end", "refused 9 0");
    f.brief("refused-9-closing-may-stand", case, "while v0 < v1, pick, add v0 1, end, add v1 0, end", "refused 9 0");
    // Steps 1 to 2 and 0 to 1: the difference 0 to 2.
    f.brief("refused-9-closing-ends-meet", case, "while v0 < v1, pick, add v0 1, else, add v0 2, end, pick, add v1 1, end, end", "refused 9 0");
    // A term fails: question 9 reads the tested variable's own step.
    f.brief("refused-9-closing-own-step", case, "while v0 < v1, mul v1 2, end", "refused 9 0");
    f.brief("refused-10-closing-limit-grows", case, "while v0 < v1, add v0 1, mul v1 2, end", "refused 10 0");
    f.brief("refused-10-closing-limit-shrinks", case, "while v0 < v1, add v0 1, div v1 2, end", "refused 10 0");
    f.brief("refused-10-closing-limit-set", case, "do v0 < v1, add v0 1, set v1 5, end", "refused 10 0");
    f.brief("refused-10-closing-limit-in-an-inner-loop", three, "while v0 < v1, add v0 1, for v2 0 < 1 add 1, sub v1 1, end, end", "refused 10 0");
    f.brief("refused-10-closing-tested-grows", case, "while v0 < v1, mul v0 2, sub v1 1, end", "refused 10 0");
    f.brief("refused-10-closing-for-shrinks", turned, "for v0 9 > v1 div 2, add v1 1, end", "refused 10 0");
    f.brief("refused-10-closing-equal", case, "while v0 == v1, add v0 1, sub v1 1, end", "refused 10 0");
    f.brief("refused-10-closing-unequal", case, "while v0 != v1, add v0 1, sub v1 1, end", "refused 10 0");
    f.brief("refused-11-closing-apart", case, "while v0 < v1, sub v0 1, add v1 1, end", "refused 11 0");
    f.brief("refused-11-closing-left-behind", case, "while v0 < v1, add v0 1, add v1 3, end", "refused 11 0");
}

/// Change 6: the quotient is the next lower whole number. The loop turns once for each number from the level up to -1.
fn levels_below_zero(f: &mut Files) {
    let mut up = |name: &str, range: (i64, i64), rows: &str, thought: &str| {
        f.brief(&format!("accepted-level-{name}"), &[range, (0, 0)], &format!("{rows}, while v0 < 0, add v0 1, end"), thought)
    };
    up("minus-5-div-2", (-5, -5), "div v0 2", "1 add 1 1 3 3 exact, 8");
    up("minus-6-div-2", (-6, -6), "div v0 2", "1 add 1 1 3 3 exact, 8");
    up("minus-1-div-1000000000", (-1, -1), "div v0 1000000000", "1 add 1 1 1 1 exact, 4");
    up("minus-7-div-1", (-7, -7), "div v0 1", "1 add 1 1 7 7 exact, 16");
    up("5-div-2", (5, 5), "sub v0 10, div v0 2", "2 add 1 1 3 3 exact, 9");
    // [-7, 7] becomes [-4, 3].
    up("both-ends", (-7, 7), "div v0 2", "1 add 1 1 4 4 most, 10");
    // -4 and then -2, which is -7 div 6.
    up("twice", (-7, -7), "div v0 2, div v0 3", "2 add 1 1 2 2 exact, 7");
    up("at-once", (-7, -7), "div v0 6", "1 add 1 1 2 2 exact, 6");
    // A third of -L is -333333334.
    f.brief("accepted-level-third", &[(-L, -L)], "div v0 3, while v0 < -333333333, add v0 1, end", "1 add 1 1 1 1 exact, 4");
    f.brief("accepted-level-third-drawn-back", &[(-L, 0)], "mul v0 7, div v0 3, while v0 < -333333333, add v0 1, end", "2 add 1 1 1 1 most, 5");
    // As a start and as a limit; E is -2.
    f.brief("accepted-level-as-a-start", &[(-5, -5), (0, 0)], "div v0 2, for v1 v0 <= 0 add 1, end", "1 add 1 1 4 4 exact, 11");
    f.brief("accepted-level-as-a-limit", &[(-5, -5), (0, 0)], "div v0 2, for v1 0 > v0 sub 1, end", "1 add -1 -1 3 3 exact, 9");
    // Of the two branches the larger high end is -1 div 2.
    f.brief("accepted-level-in-a-pick", &[(-1, -1), (0, 0)], "pick, div v0 2, else, sub v0 5, end, for v1 0 < v0 add 1, end, for v1 v0 < 0 add 1, end", "5 add 1 1 0 0 most, 7 add 1 1 6 6 most, 18");
    // In a body and behind it.
    f.brief(
        "accepted-level-in-a-body",
        &[(0, 0), (-5, -5), (0, 0)],
        "while v0 < 2, add v0 1, set v2 -9, div v2 4, while v2 < 0, add v2 1, end, end",
        // -9 div 4 is -3: 3 turns, 7 ticks; 2(3 + 7 + 1) + 1.
        "0 add 1 1 2 2 exact, 4 add 1 1 3 6 exact, 23",
    );
    // A do's moved start: -1 div 2 is -1, and no turn more.
    f.brief("accepted-level-do-start", &[(-1, -1)], "do v0 > 0, div v0 2, end", "0 shrink 2 2 1 1 exact, 2");
    f.brief("accepted-level-do-start-range", &[(-9, 9)], "do v0 >= 2, div v0 2, end, for v0 v0 < 0 add 1, end", "0 shrink 2 2 3 3 most, 3 add 1 1 9 9 most, 26");
    // Factors in sequence still multiply.
    f.brief("accepted-level-factors-multiply", &[(-9, 100)], "while v0 > 0, div v0 2, div v0 5, end", "0 shrink 10 10 3 3 most, 10");
}

/// Parentheses round a word.
fn nested(word: &str, pairs: usize) -> String {
    format!("{}{word}{}", "(".repeat(pairs), ")".repeat(pairs))
}

/// A sum of so many ones and operators.
fn ones(operators: usize) -> String {
    vec!["1"; operators + 1].join("+")
}

/// Change 8. A for of N turns without a row has 2N + 2 ticks, a while with one row 2N + 1.
fn expressions(f: &mut Files) {
    let two: &[(i64, i64)] = &[(0, 0), (5, 5)];
    f.brief("accepted-expression-case", two, "while v0 < 2*v1+2, add v0 1, end", "0 add 1 1 12 12 exact, 25");
    let mut upto = |name: &str, x: &str, thought: &str| {
        f.brief(&format!("accepted-expression-{name}"), two, &format!("for v0 1 <= {x} add 1, end"), thought)
    };
    upto("times-first", "2+3*2", "0 add 1 1 8 8 exact, 18");
    upto("times-first-on-the-left", "2*3-1", "0 add 1 1 5 5 exact, 12");
    upto("parentheses", "(2+3)*2", "0 add 1 1 10 10 exact, 22");
    upto("from-the-left", "9-4-3", "0 add 1 1 2 2 exact, 6");
    upto("from-the-left-in-parentheses", "9-(4-3)", "0 add 1 1 8 8 exact, 18");
    upto("minus-and-sign", "3--2", "0 add 1 1 5 5 exact, 12");
    upto("signs-and-times", "-3*-2", "0 add 1 1 6 6 exact, 14");
    upto("subtraction-without-a-space", "v1-2", "0 add 1 1 3 3 exact, 8");
    upto("constant-in-parentheses", "(5)", "0 add 1 1 5 5 exact, 12");
    upto("variable-in-parentheses", "(v1)", "0 add 1 1 5 5 exact, 12");
    upto("two-parts-in-parentheses", "(v1-2)*(v1-3)", "0 add 1 1 6 6 exact, 14");
    upto("15-operators", &ones(15), "0 add 1 1 16 16 exact, 34");
    upto("8-parentheses", &nested("v1", 8), "0 add 1 1 5 5 exact, 12");
    upto("8-parentheses-in-each-of-16-parts", &vec![nested("1", 8); 16].join("+"), "0 add 1 1 16 16 exact, 34");
    // From 16 to 17 by ones: 2 turns.
    f.brief(
        "accepted-expression-15-operators-twice-in-a-line",
        two,
        &format!("for v0 {} <= {} add 1, end", ones(15), ones(14) + "+2"),
        "0 add 1 1 2 2 exact, 6",
    );
    f.brief("accepted-expression-start-and-limit", two, "for v0 v1-3 <= v1+1 add 1, end", "0 add 1 1 5 5 exact, 12");
    // 5 and 6; the limit is read when the start is assigned, but it has another variable.
    f.brief("accepted-expression-own-start", &[(4, 4), (5, 5)], "for v0 v0+1 < v1+2 add 1, end", "0 add 1 1 2 2 exact, 6");
    f.brief("accepted-expression-do", &[(9, 9), (5, 5)], "do v0 >= v1-2, sub v0 2, end", "0 add -2 -2 4 4 exact, 8");
    f.brief("accepted-expression-unequal", two, "while v0 != v1+1, add v0 3, end", "0 add 3 3 2 2 exact, 5");
    f.brief("accepted-expression-grow", &[(1, 1), (5, 5)], "while v0 < (9), mul v0 2, end", "0 grow 2 2 4 4 exact, 9");
    f.brief("accepted-expression-limit-not-single", &[(0, 0), (5, 6)], "while v0 < 2*v1+2, add v0 1, end", "0 add 1 1 14 14 most, 29");
    f.brief("accepted-expression-limit-of-a-copied", &[(0, 0), (3, 3), (5, 5)], "while v0 < 2*v2, add v1 1, set v0 v1, end", "0 add 1 1 7 7 exact, 22");
    // Ranges, read by a loop from the low end up to -1 and one from 0 to below the high end.
    let mut range = |name: &str, v0: (i64, i64), v1: (i64, i64), x: &str, thought: &str| {
        let rows = format!("set v2 {x}, for v3 v2 < 0 add 1, end, for v3 0 < v2 add 1, end");
        f.brief(&format!("accepted-expression-range-{name}"), &[v0, v1, (0, 0), (0, 0)], &rows, thought)
    };
    range("plus", (-1, 3), (-2, 5), "v0+v1", "1 add 1 1 3 3 most, 3 add 1 1 8 8 most, 27");
    range("minus", (1, 3), (-2, 5), "v0-v1", "1 add 1 1 4 4 most, 3 add 1 1 5 5 most, 23");
    // 15, -12, -10, 8.
    range("times", (-3, 2), (-5, 4), "v0*v1", "1 add 1 1 12 12 most, 3 add 1 1 15 15 most, 59");
    // -21 and 14, and -15 and -8.
    range("times-below-zero", (-3, 2), (7, 7), "v0*v1", "1 add 1 1 21 21 most, 3 add 1 1 14 14 most, 75");
    range("times-both-below-zero", (-3, -2), (4, 5), "v0*v1", "1 add 1 1 15 15 most, 3 add 1 1 0 0 most, 35");
    // Nothing is known of one variable being the same twice.
    range("of-itself", (-3, 2), (0, 0), "v0-v0", "1 add 1 1 5 5 most, 3 add 1 1 5 5 most, 25");
    range("single", (4, 4), (-7, -7), "2*v0+v1", "1 add 1 1 0 0 exact, 3 add 1 1 1 1 exact, 7");
    // [0, 9] times L is [0, L].
    range("drawn-back", (0, 9), (0, 0), "v0*1000000000-999999990", "1 add 1 1 999999990 999999990 most, 3 add 1 1 10 10 most, 2000000005");
    range("drawn-back-inside", (L, L), (5, 5), "v0+v1-v0", "1 add 1 1 0 0 exact, 3 add 1 1 0 0 exact, 5");
    range("drawn-back-below", (-L, -L), (5, 5), "v0-v1-v0", "1 add 1 1 0 0 exact, 3 add 1 1 0 0 exact, 5");
    range("of-all", ALL, ALL, "v0*v1", "1 add 1 1 1000000000 1000000000 most, 3 add 1 1 1000000000 1000000000 most, 4000000005");
    // Two towers of eight loops with one turn each, with 8 parentheses and 15 operators in every start and limit and in the
    // rows inside: -L all of them.
    let mut x = "1*-1000000000".to_string();
    for _ in 0..8 {
        x = format!("({x})+0");
    }
    x += &"+0".repeat(6);
    let heads: Vec<String> = (7..15).map(|v| format!("for v{v} {x} >= {x} sub 1000000000")).collect();
    let set = format!("set v15 {x}");
    let mut rows: Vec<&str> = Vec::new();
    let mut lines = String::new();
    for _ in 0..2 {
        for head in &heads {
            lines += &format!("{} add -1000000000 -1000000000 1 1 exact, ", rows.len());
            rows.push(head);
        }
        rows.extend([&[&set[..]; 70][..], &["set v15 0"; 42], &["end"; 8]].concat());
    }
    f.rows("accepted-expression-worst", &[(-L, -L); 16], &rows, &format!("{lines}{}", 2 * (112 + 8 * 4)));
    // Rows of 203 bytes: 16 numbers of 11 bytes and 15 operators; the last has 9 of 10 bytes and 8.
    let row = format!("set v0 {}", ["-1000000000"; 16].join("*"));
    let last = format!("set v0 {}", ["1000000000"; 9].join("-"));
    let full = text(&[(0, 0)], &[&vec![&row[..]; 80][..], &[&last]].concat());
    assert_eq!(full.len(), 16_384);
    f.bytes("accepted-expression-file-of-16384-bytes", &full, "81");
    let more = text(&[(0, 0)], &[&vec![&row[..]; 80][..], &[&last.replacen(" 1", " -1", 1)]].concat());
    f.bytes("refused-2-expression-file-of-16385-bytes", &more, "refused 2 16384");
}

/// Change 8: the rows that are refused have line 6.
fn expressions_refused(f: &mut Files) {
    for (name, x) in [
        ("minus-variable", "-v1"),
        ("minus-parenthesis", "-(1)"),
        ("minus-variable-behind-times", "2*-v1"),
        ("minus-variable-in-parentheses", "(-v1)"),
        ("minus-minus-zero", "1--0"),
        ("three-minus", "1---1"),
        ("two-minus-first", "--1"),
        ("plus-first", "+1"),
        ("plus-sign", "1-+1"),
        ("times-first", "*1"),
        ("operator-last", "1+"),
        ("minus-last", "v0-"),
        ("operator-before-the-closing", "(1+)"),
        ("two-times", "2**2"),
        ("division", "4/2"),
        ("empty-parentheses", "()"),
        ("not-closed", "(1"),
        ("inner-not-closed", "((1)"),
        ("not-opened", "1)"),
        ("closed-twice", "(1))"),
        ("closed-first", ")1("),
        ("number-before-a-parenthesis", "2(1)"),
        ("number-behind-a-parenthesis", "(1)2"),
        ("parentheses-side-by-side", "(1)(2)"),
        ("number-before-a-variable", "2v1"),
        ("variables-side-by-side", "v0v1"),
        ("variable-before-a-parenthesis", "v0(1)"),
        ("variable-without-number", "v+1"),
        ("leading-zero", "1+01"),
        ("variable-leading-zero", "1+v01"),
        ("square-brackets", "[1]"),
        ("spaces", "1 + 1"),
        ("space-in-parentheses", "(1 )"),
    ] {
        f.row(&format!("refused-3-expression-{name}"), &format!("set v0 {x}"), "refused 3 6");
    }
    f.row("refused-3-expression-in-a-limit", "while v0 < -v1", "refused 3 6");
    f.row("refused-3-expression-in-a-start", "for v0 -(1) < 1 add 1", "refused 3 6");
    f.row("refused-3-expression-for-add", "add v0 1+1", "refused 3 6");
    f.row("refused-3-expression-for-cue", "cue (1)", "refused 3 6");
    f.row("refused-3-expression-for-a-step", "for v0 1 <= 2 add (1)", "refused 3 6");
    f.row("refused-3-expression-tested", "while v0+1 < 2", "refused 3 6");
    f.row("refused-3-expression-assigned", "set (v0) 2", "refused 3 6");
    f.bytes("refused-3-expression-in-a-range", b"script=1\nvars=1\nrange=0 1+1\nrows=0\n", "refused 3 3");
    let room = 16_384 - text(&[(0, 0), (0, 0)], &["set v0 "]).len();
    let set = |x: String| format!("set v0 {x}");
    f.row("refused-3-expression-of-16000-parentheses", &set("(".repeat(room)), "refused 3 6");
    f.row("refused-3-expression-of-16000-closing", &set(")".repeat(room)), "refused 3 6");
    f.row("refused-17-expression-of-8000-pairs", &set(nested("1", (room - 1) / 2)), "refused 17 6");
    f.row("refused-17-expression-of-8000-operators", &set(ones((room - 1) / 2)), "refused 17 6");
    f.row("refused-4-expression-of-16000-digits", &set(format!("({}-1)", "9".repeat(room - 4))), "refused 4 6");
    f.row("refused-5-expression-of-16000-digits", &set(format!("(v{}-1)", "9".repeat(room - 5))), "refused 5 6");

    f.row("refused-17-expression-9-parentheses", &set(nested("1", 9)), "refused 17 6");
    f.row("refused-17-expression-9-parentheses-round-a-part", &set(format!("1+{}*2", nested("v0-1", 9))), "refused 17 6");
    f.row("refused-17-expression-16-operators", &set(ones(16)), "refused 17 6");
    f.row("refused-17-expression-16-operators-in-two-parts", &set(format!("({})*({})", ones(7), ones(8))), "refused 17 6");
    f.row("refused-17-expression-16-operators-and-signs", &set(vec!["-1"; 17].join("-")), "refused 17 6");
    f.row("refused-17-expression-limit-of-a-while", &format!("while v0 < {}", ones(16)), "refused 17 6");
    f.row("refused-17-expression-limit-of-a-do", &format!("do v0 < {}", nested("v1", 9)), "refused 17 6");
    f.row("refused-17-expression-start", &format!("for v0 {} < 1 add 1", ones(16)), "refused 17 6");
    f.row("refused-17-expression-limit-of-a-for", &format!("for v0 1 < {} add 1", nested("1", 9)), "refused 17 6");
    f.row("refused-3-expression-before-17", &format!("for v0 {} < -v1 add 1", ones(16)), "refused 3 6");
    f.row("refused-3-expression-before-17-in-one", &set(format!("{}+", ones(16))), "refused 3 6");
    f.row("refused-17-expression-before-4", &set(format!("1000000001+{}", ones(15))), "refused 17 6");
    f.row("refused-17-expression-before-4-of-the-step", &format!("for v0 {} < 1 add -1", ones(16)), "refused 17 6");
    f.row("refused-17-expression-before-5", &format!("set v99 {}", nested("v98", 9)), "refused 17 6");
    f.rows("refused-17-expression-before-7", &[(0, 0)], &[&["pick"; 8][..], &[&format!("while v0 < {}", ones(16))]].concat(), "refused 17 13");
    f.rows("refused-17-expression-on-a-line-before-3", &[(0, 0)], &[&set(ones(16))[..], "cue"], "refused 17 5");
    f.rows("refused-3-expression-on-a-line-before-17", &[(0, 0)], &["cue", &set(ones(16))], "refused 3 5");

    f.row("refused-4-expression-above", &set("1000000001-1".into()), "refused 4 6");
    f.row("refused-4-expression-below", &set("1+-1000000001".into()), "refused 4 6");
    f.row("refused-4-expression-times-zero", &set("0*4294967296".into()), "refused 4 6");
    f.row("refused-4-expression-in-parentheses", &set("(1000000001)".into()), "refused 4 6");
    f.row("refused-4-expression-limit", "while v0 < v1+1000000001", "refused 4 6");
    f.row("refused-4-expression-start", "for v0 0-1000000001 < 1 add 1", "refused 4 6");
    f.row("refused-4-expression-before-5", &set("v99*1000000001".into()), "refused 4 6");
    f.row("refused-5-expression-variable", &set("1+v2".into()), "refused 5 6");
    f.row("refused-5-expression-times-zero", &set("v2*0".into()), "refused 5 6");
    f.row("refused-5-expression-in-parentheses", &set("(v2)".into()), "refused 5 6");
    f.row("refused-5-expression-limit", "do v0 < 2*v16+2", "refused 5 6");
    f.row("refused-5-expression-start", "for v0 v0-v256 < 1 add 1", "refused 5 6");

    let three: &[(i64, i64)] = &[(0, 0), (5, 5), (3, 3)];
    f.brief("refused-8-expression-copy-in-parentheses", three, "while v0 < 10, add v1 1, set v0 (v1), end", "refused 8 0");
    f.brief("refused-8-expression-copy-plus-zero", three, "while v0 < 10, add v1 1, set v0 v1+0, end", "refused 8 0");
    f.brief("refused-10-expression-first-variable", three, "while v0 < v1+v2, add v0 1, sub v1 1, end", "refused 10 0");
    f.brief("refused-10-expression-last-variable", three, "while v0 < v1+v2, add v0 1, sub v2 1, end", "refused 10 0");
    f.brief("refused-10-expression-times-zero", three, "while v0 < 9+0*v2, add v0 1, set v2 v2, end", "refused 10 0");
    // In parentheses a limit that comes down closes on nothing.
    f.brief("refused-10-expression-closing", three, "while v0 < (v1), add v0 1, sub v1 1, end", "refused 10 0");
    f.brief("refused-10-expression-closing-plus", three, "while v0 < v1+1, add v0 1, sub v1 1, end", "refused 10 0");
    f.brief("refused-10-expression-standing-row", three, "do v0 < 2*v1, add v0 1, mul v1 1, end", "refused 10 0");
    f.brief("refused-10-expression-inner-for", three, "while v0 < v1+1, add v0 1, for v1 0 < 1 add 1, end, end", "refused 10 0");
    f.brief("refused-10-expression-of-the-tested", three, "while v0 < v0+1, add v0 1, end", "refused 10 0");
    f.brief("refused-10-expression-of-the-for-s-own", three, "for v0 0 < v1-v0 add 1, end", "refused 10 0");
    f.brief("refused-10-expression-of-the-master", three, "while v0 < 2*v1, add v1 1, set v0 v1, end", "refused 10 0");
    // Question 9 reads the tested variable's own step: nothing closes.
    f.brief("refused-9-expression-closing", three, "while v0 < (v1), sub v1 1, end", "refused 9 0");
    f.brief("refused-12-expression-shrink", &[(5, 5), (1, 2)], "while v0 >= 2*v1-2, div v0 2, end", "refused 12 0");
    f.brief("refused-12-expression-grow-from-0", &[(0, 0), (1, 1)], "for v0 v1-1 < 5 mul 2, end", "refused 12 0");
}

/// Change 9. An inner for without a row has 2t + 2 ticks in a pass of t turns; an outer for has 2 more in each pass, and 2.
fn triangles(f: &mut Files) {
    let two: &[(i64, i64)] = &[(0, 0), (0, 0)];
    let from_1: &[(i64, i64)] = &[(1, 1), (0, 0)];
    let three: &[(i64, i64)] = &[(0, 0), (0, 0), (0, 0)];
    // 1 + 2 + 3 + 4 = 10 turns of 3 ticks.
    f.brief("accepted-triangle-case", two, "for v0 1 <= 4 add 1, for v1 0 < v0 add 1, cue 7, end, end", "0 add 1 1 4 4 exact, 1 add 1 1 4 10 most, 48");
    // 2 + 3 + 4 + 5.
    f.brief("accepted-triangle-le", two, "for v0 1 <= 4 add 1, for v1 0 <= v0 add 1, end, end", "0 add 1 1 4 4 exact, 1 add 1 1 5 14 most, 46");
    f.brief("accepted-triangle-while", from_1, "while v0 <= 4, for v1 0 < v0 add 1, end, add v0 1, end", "0 add 1 1 4 4 exact, 1 add 1 1 4 10 most, 37");
    f.brief("accepted-triangle-do", from_1, "do v0 <= 4, for v1 0 < v0 add 1, end, add v0 1, end", "0 add 1 1 4 4 exact, 1 add 1 1 4 10 most, 36");
    // One pass, with the start past the limit.
    f.brief("accepted-triangle-do-once", &[(9, 9), (0, 0)], "do v0 <= 4, for v1 0 < v0 add 1, end, add v0 1, end", "0 add 1 1 1 1 exact, 1 add 1 1 9 9 exact, 22");
    f.brief("accepted-triangle-falling", two, "for v0 4 >= 1 sub 1, for v1 0 < v0 add 1, end, end", "0 add -1 -1 4 4 exact, 1 add 1 1 4 10 most, 38");
    // 9 + 6 + 3.
    f.brief("accepted-triangle-falling-by-threes", two, "for v0 9 > 0 sub 3, for v1 0 < v0 add 1, end, end", "0 add -3 -3 3 3 exact, 1 add 1 1 9 18 most, 50");
    // 0, 0, 0, 1, 2.
    f.brief("accepted-triangle-passes-without-a-turn", two, "for v0 -2 <= 2 add 1, for v1 0 < v0 add 1, end, end", "0 add 1 1 5 5 exact, 1 add 1 1 2 3 most, 28");
    // 1, 1, 2, 2.
    f.brief("accepted-triangle-inner-by-threes", two, "for v0 1 <= 4 add 1, for v1 -1 < v0 add 3, end, end", "0 add 1 1 4 4 exact, 1 add 3 3 2 6 most, 30");
    // The slowest step: a turn has 4 ticks.
    f.brief("accepted-triangle-inner-slowest-step", two, "for v0 1 <= 4 add 1, for v1 0 < v0 add 1, pick, add v1 1, end, end, end", "0 add 1 1 4 4 exact, 1 add 1 2 4 10 most, 58");
    f.brief("accepted-triangle-without-a-pass", two, "for v0 5 <= 4 add 1, for v1 0 < v0 add 1, end, end", "0 add 1 1 0 0 exact, 1 add 1 1 5 0 exact, 2");
    // The inner total times that of the loop round the outer: 3·10; 3(38 + 2) + 2.
    f.brief(
        "accepted-triangle-in-a-loop",
        three,
        "for v2 0 < 3 add 1, for v0 1 <= 4 add 1, for v1 0 < v0 add 1, end, end, end",
        "0 add 1 1 3 3 exact, 1 add 1 1 4 12 exact, 2 add 1 1 4 30 most, 122",
    );
    f.brief("accepted-triangle-in-a-pick", two, "pick, for v0 1 <= 4 add 1, for v1 0 < v0 add 1, end, end, end", "1 add 1 1 4 4 exact, 2 add 1 1 4 10 most, 39");
    // Loops further inside multiply on. 12 ticks each: 10(12 + 2) + 8, and 10.
    f.brief(
        "accepted-triangle-inner-s-inner",
        three,
        "for v0 1 <= 4 add 1, for v1 0 < v0 add 1, for v2 0 < 5 add 1, end, end, end",
        "0 add 1 1 4 4 exact, 1 add 1 1 4 10 most, 2 add 1 1 5 50 exact, 158",
    );
    // The inner is not exact: its own inner is charged its longest pass, 3 turns and 8 ticks.
    f.brief(
        "accepted-triangle-inner-s-inner-by-the-inner",
        three,
        "for v0 1 <= 4 add 1, for v1 0 < v0 add 1, for v2 0 < v1 add 1, end, end, end",
        "0 add 1 1 4 4 exact, 1 add 1 1 4 10 most, 2 add 1 1 3 30 most, 118",
    );
    // Not directly in the outer's body: 4 turns and 10 ticks each time.
    f.brief(
        "accepted-triangle-inner-s-inner-by-the-outer",
        three,
        "for v0 1 <= 4 add 1, for v1 0 < v0 add 1, for v2 0 < v0 add 1, end, end, end",
        "0 add 1 1 4 4 exact, 1 add 1 1 4 10 most, 2 add 1 1 4 40 most, 138",
    );
    // One value, 3, so that the inner is exact: 0 + 1 + 2 turns in it, 2 + 4 + 6 ticks.
    f.brief(
        "accepted-triangle-of-one-value",
        three,
        "for v0 3 <= 3 add 1, for v1 0 < v0 add 1, for v2 0 < v1 add 1, end, end, end",
        "0 add 1 1 1 1 exact, 1 add 1 1 3 3 exact, 2 add 1 1 2 3 most, 24",
    );
    // 10 turns and 0 + 1 + 2 + 3.
    f.brief(
        "accepted-triangle-twice-in-a-body",
        three,
        "for v0 1 <= 4 add 1, for v1 0 < v0 add 1, end, for v2 1 < v0 add 1, end, end",
        "0 add 1 1 4 4 exact, 1 add 1 1 4 10 most, 3 add 1 1 3 6 most, 58",
    );
    f.brief(
        "accepted-triangle-beside-another-loop",
        three,
        "for v0 1 <= 4 add 1, for v1 0 < v0 add 1, end, for v2 0 < 3 add 1, end, end",
        "0 add 1 1 4 4 exact, 1 add 1 1 4 10 most, 3 add 1 1 3 12 exact, 70",
    );
    f.brief(
        "accepted-triangle-outer-with-expressions",
        &[(0, 0), (0, 0), (2, 2)],
        "for v0 v2-1 <= 2*v2 add 1, for v1 0 < v0 add 1, end, end",
        "0 add 1 1 4 4 exact, 1 add 1 1 4 10 most, 38",
    );
    // The closing chase takes what is known of v0, but does not assign it: the longest pass is not known, the sum is.
    let wide = "for v0 1 <= 4 add 1, while v0 < v2, sub v2 1, end, for v1 0 < v0 add 1";
    f.brief(
        "accepted-triangle-not-known-and-not-assigned",
        three,
        &format!("{wide}, end, end"),
        "0 add 1 1 4 4 exact, 1 add 1 1 999999999 3999999996 most, 4 add 1 1 1000000000 10 most, 8000000034",
    );
    // The inner's own figure stays its longest pass: L(1002 + 2).
    f.brief("refused-13-triangle-inner-s-longest-pass", &[(0, 0); 4], &format!("{wide}, for v3 0 < 500 add 1, end, end, end"), "refused 13 7");
    f.brief(
        "accepted-triangle-at-the-limits",
        two,
        "for v0 1000000000 >= 0 sub 1000000000, for v1 -1000000000 <= v0 add 1, end, end",
        "0 add -1000000000 -1000000000 2 2 exact, 1 add 1 1 2000000001 3000000002 most, 6000000014",
    );
    // 4096·4097/2 turns; one turn more, and the longest pass is charged each time.
    f.brief("accepted-triangle-4096-turns", two, "for v0 1 <= 4096 add 1, for v1 0 < v0 add 1, end, end", "0 add 1 1 4096 4096 exact, 1 add 1 1 4096 8390656 most, 16797698");
    f.brief("accepted-no-triangle-4097-turns", two, "for v0 1 <= 4097 add 1, for v1 0 < v0 add 1, end, end", "0 add 1 1 4097 4097 exact, 1 add 1 1 4097 16785409 most, 33587208");
    // 8002000 turns of 100004 ticks; with 4000 turns each time it would be over the limit.
    f.brief(
        "accepted-triangle-within-the-limit-by-its-sum",
        three,
        "for v0 1 <= 4000 add 1, for v1 0 < v0 add 1, for v2 0 < 50000 add 1, end, end, end",
        "0 add 1 1 4000 4000 exact, 1 add 1 1 4000 8002000 most, 2 add 1 1 50000 400100000000 exact, 800232024002",
    );
    f.brief("refused-13-triangle-sum", three, "for v0 1 <= 4096 add 1, for v1 0 < v0 add 1, for v2 0 < 150000 add 1, end, end, end", "refused 13 5");
    let eight: Vec<&str> = ["for v0 1 <= 4096 add 1", "for v1 0 < v0 add 1", "end", "end"].repeat(8);
    let lines: String = (0..8).map(|k| format!("{} add 1 1 4096 4096 exact, {} add 1 1 4096 8390656 most, ", 4 * k, 4 * k + 1)).collect();
    f.rows("accepted-triangle-eight-of-4096-turns", two, &eight, &format!("{lines}{}", 8 * 16_797_698));
    let mut fifteen = vec!["for v0 1 <= 4096 add 1"];
    fifteen.extend(["for v1 0 < v0 add 1", "end"].repeat(15));
    fifteen.push("end");
    let lines: String = (0..15).map(|k| format!("{} add 1 1 4096 8390656 most, ", 1 + 2 * k)).collect();
    // 15(2·8390656 + 8192), and 8194.
    f.rows("accepted-triangle-fifteen-in-a-body", two, &fifteen, &format!("0 add 1 1 4096 4096 exact, {lines}251850754"));
}

/// Change 9: what is as before. The longest pass has 4 turns and 10 ticks, and there are 4 passes.
fn no_triangles(f: &mut Files) {
    let three: &[(i64, i64)] = &[(0, 0), (0, 0), (0, 0)];
    let from_1: &[(i64, i64)] = &[(1, 1), (0, 0)];
    let mut inner = |name: &str, rows: &str, thought: &str| {
        f.brief(&format!("accepted-no-triangle-{name}"), three, &format!("for v0 1 <= 4 add 1, {rows}, end"), &format!("0 add 1 1 4 4 exact, {thought}"))
    };
    inner("standing-row-before", "sub v0 0, for v1 0 < v0 add 1, end", "2 add 1 1 4 16 most, 54");
    inner("standing-row-before-in-a-pick", "pick, mul v0 1, end, for v1 0 < v0 add 1, end", "4 add 1 1 4 16 most, 58");
    inner("moved-and-back-before", "add v0 3, sub v0 3, for v1 0 < v0 add 1, end", "3 add 1 1 4 16 most, 58");
    inner("in-a-pick", "pick, for v1 0 < v0 add 1, end, end", "2 add 1 1 4 16 most, 54");
    inner("in-an-else", "pick, else, for v1 0 < v0 add 1, end, end", "3 add 1 1 4 16 most, 54");
    inner("inner-while", "set v1 0, while v1 < v0, add v1 1, end", "2 add 1 1 4 16 most, 50");
    inner("start-in-a-variable", "for v1 v2 < v0 add 1, end", "1 add 1 1 4 16 most, 50");
    inner("start-in-parentheses", "for v1 (0) < v0 add 1, end", "1 add 1 1 4 16 most, 50");
    inner("limit-in-parentheses", "for v1 0 < (v0) add 1, end", "1 add 1 1 4 16 most, 50");
    inner("limit-plus-zero", "for v1 0 < v0+0 add 1, end", "1 add 1 1 4 16 most, 50");
    inner("limit-in-another", "set v2 v0, for v1 0 < v2 add 1, end", "2 add 1 1 4 16 most, 54");
    // From 9 down to 2; 1 and 2; once.
    inner("inner-falling", "for v1 9 > v0 sub 1, end", "1 add -1 -1 8 32 most, 82");
    inner("inner-growing", "for v1 1 < v0 mul 2, end", "1 grow 2 2 2 8 most, 34");
    inner("inner-equal", "for v1 1 == v0 add 1, end", "1 add 1 1 1 4 most, 26");
    // In the body of a loop that is no triangle's outer.
    inner("in-a-loop-of-the-body", "for v2 0 < 2 add 1, for v1 0 < v0 add 1, end, end", "1 add 1 1 2 8 exact, 2 add 1 1 4 32 most, 114");
    // v0 is [2, 5] there.
    f.brief("accepted-no-triangle-moved-before", from_1, "while v0 <= 4, add v0 1, for v1 0 < v0 add 1, end, end", "0 add 1 1 4 4 exact, 2 add 1 1 5 20 most, 57");
    f.brief("accepted-no-triangle-limit-not-single", &[(0, 0), (0, 0), (4, 5)], "for v0 1 <= v2 add 1, for v1 0 < v0 add 1, end, end", "0 add 1 1 5 5 most, 1 add 1 1 5 25 most, 72");
    f.brief("accepted-no-triangle-start-not-single", &[(1, 2), (0, 0)], "while v0 <= 4, for v1 0 < v0 add 1, end, add v0 1, end", "0 add 1 1 4 4 most, 1 add 1 1 4 16 most, 49");
    f.brief(
        "accepted-no-triangle-two-steps",
        from_1,
        "while v0 <= 4, for v1 0 < v0 add 1, end, pick, add v0 1, else, add v0 2, end, end",
        "0 add 1 2 4 4 most, 1 add 1 1 4 16 most, 53",
    );
    f.brief("accepted-no-triangle-growing", from_1, "while v0 <= 4, for v1 0 < v0 add 1, end, mul v0 2, end", "0 grow 2 2 3 3 exact, 1 add 1 1 4 12 most, 37");
    f.brief("accepted-no-triangle-shrinking", &[(8, 8), (0, 0)], "while v0 >= 1, for v1 0 < v0 add 1, end, div v0 2, end", "0 shrink 2 2 4 4 exact, 1 add 1 1 8 32 most, 81");
    // Nothing is known of v0 in the body.
    f.brief("accepted-no-triangle-equal", &[(3, 3), (0, 0)], "while v0 == 3, for v1 0 < v0 add 1, end, add v0 1, end", "0 add 1 1 1 1 exact, 1 add 1 1 1000000000 1000000000 most, 2000000005");
    f.brief("accepted-no-triangle-unequal", from_1, "while v0 != 5, for v1 0 < v0 add 1, end, add v0 1, end", "0 add 1 1 4 4 exact, 1 add 1 1 1000000000 4000000000 most, 8000000017");
    f.brief(
        "accepted-no-triangle-copied",
        &[(1, 1), (1, 1), (0, 0)],
        "while v0 <= 4, for v2 0 < v0 add 1, end, add v1 1, set v0 v1, end",
        "0 add 1 1 4 4 exact, 1 add 1 1 1000000000 4000000000 most, 8000000021",
    );
    f.brief(
        "accepted-no-triangle-closing",
        &[(1, 1), (9, 9), (0, 0)],
        "while v0 < v1, for v2 0 < v0 add 1, end, add v0 1, sub v1 1, end",
        "0 add 2 2 4 4 exact, 1 add 1 1 1000000000 4000000000 most, 8000000021",
    );
}

/// Change 12: a hold of N turns with two rows has 3N + 1 ticks.
fn holds(f: &mut Files) {
    // v0 is the flag, v1 watched.
    let up: &[(i64, i64)] = &[(1, 1), (0, 0)];
    let down: &[(i64, i64)] = &[(-3, -3), (10, 10)];
    let mut hold = |name: &str, ranges: &[(i64, i64)], rows: &str, thought: &str| f.brief(&format!("accepted-hold-{name}"), ranges, &format!("hold v0, {rows}, end"), thought);
    // What the off sees: 1 2 3 4 and 0 1 2 3 4; up to 3.
    hold("gt-rows-first", up, "add v1 1, off v0 v1 > 3", "0 add 1 1 4 4 exact, 13");
    hold("gt-off-first", up, "off v0 v1 > 3, add v1 1", "0 add 1 1 5 5 exact, 16");
    hold("ge-rows-first", up, "add v1 1, off v0 v1 >= 3", "0 add 1 1 3 3 exact, 10");
    hold("ge-off-first", up, "off v0 v1 >= 3, add v1 1", "0 add 1 1 4 4 exact, 13");
    // 7 4 1 and 10 7 4 1; down to 4.
    hold("lt-rows-first", down, "sub v1 3, off v0 v1 < 2", "0 add -3 -3 3 3 exact, 10");
    hold("lt-off-first", down, "off v0 v1 < 2, sub v1 3", "0 add -3 -3 4 4 exact, 13");
    hold("le-rows-first", down, "sub v1 3, off v0 v1 <= 4", "0 add -3 -3 2 2 exact, 7");
    hold("le-off-first", down, "off v0 v1 <= 4, sub v1 3", "0 add -3 -3 3 3 exact, 10");
    // At the number itself, and past it.
    hold("gt-at-it", up, "off v0 v1 > 0, add v1 1", "0 add 1 1 2 2 exact, 7");
    hold("ge-at-it", up, "off v0 v1 >= 0, add v1 1", "0 add 1 1 1 1 exact, 4");
    hold("gt-past-it", up, "off v0 v1 > -1, add v1 1", "0 add 1 1 1 1 exact, 4");
    hold("gt-moved-past-it", up, "add v1 9, off v0 v1 > 3", "0 add 9 9 1 1 exact, 4");
    hold("far-past-it", &[(1, 1), (900, 900)], "add v1 1, off v0 v1 >= 3", "0 add 1 1 1 1 exact, 4");
    hold("two-rows-of-the-watched", up, "add v1 3, sub v1 1, off v0 v1 > 7", "0 add 2 2 4 4 exact, 17");
    // The flag.
    let five = "off v0 v1 > 3, add v1 1";
    hold("flag-zero", &[(0, 0), (0, 0)], five, "0 add 1 1 0 0 exact, 1");
    hold("flag-zero-watched-not-single", &[(0, 0), (0, 1)], five, "0 add 1 1 0 0 most, 1");
    hold("flag-zero-or-one", &[(0, 1), (0, 0)], five, "0 add 1 1 5 5 most, 16");
    hold("flag-below-zero-or-zero", &[(-1, 0), (0, 0)], five, "0 add 1 1 5 5 most, 16");
    hold("flag-on-both-sides-of-zero", &[(-1, 1), (0, 0)], five, "0 add 1 1 5 5 most, 16");
    hold("flag-not-single", &[(1, 2), (0, 0)], five, "0 add 1 1 5 5 most, 16");
    hold("flag-below-zero", &[(-7, -7), (0, 0)], five, "0 add 1 1 5 5 exact, 16");
    hold("flag-at-the-limit", &[(L, L), (0, 0)], five, "0 add 1 1 5 5 exact, 16");
    // The worst start, and the slowest step.
    hold("watched-not-single", &[(1, 1), (-2, 3)], five, "0 add 1 1 7 7 most, 22");
    hold("watched-not-single-falling", &[(1, 1), (8, 10)], "off v0 v1 < 3, sub v1 1", "0 add -1 -1 9 9 most, 28");
    hold("watched-not-single-rows-first", &[(1, 1), (-2, 3)], "add v1 2, off v0 v1 > 3", "0 add 2 2 3 3 most, 10");
    hold("step-not-single", up, "off v0 v1 > 3, pick, add v1 1, else, add v1 3, end", "0 add 1 3 5 5 most, 21");
    hold("step-not-single-rows-first", up, "pick, add v1 2, else, add v1 3, end, off v0 v1 > 3", "0 add 2 3 2 2 most, 9");
    hold("step-not-single-falling", down, "off v0 v1 < 0, pick, sub v1 4, else, sub v1 2, end", "0 add -4 -2 7 7 most, 29");
    hold("ends-equal-in-a-pick", up, "pick, add v1 1, else, add v1 1, end, off v0 v1 > 3", "0 add 1 1 4 4 exact, 17");
    // At the limits: from -L to L, and one turn.
    hold("at-the-limits", &[(1, 1), ALL], "off v0 v1 > 1000000000, add v1 1", "0 add 1 1 2000000002 2000000002 most, 6000000007");
    hold("at-the-limits-falling", &[(1, 1), ALL], "sub v1 1, off v0 v1 <= -1000000000", "0 add -1 -1 2000000000 2000000000 most, 6000000001");
    hold("longest-step", &[(1, 1), (-L, -L)], "add v1 1000000000, add v1 1000000000, off v0 v1 >= 1000000000", "0 add 2000000000 2000000000 1 1 exact, 5");
    // Rows of others, offs for others, and a flag that is watched.
    hold(
        "others-in-the-body",
        &[(1, 1), (0, 0), (4, 4)],
        "set v2 v1, off v0 v1 > 3, off v2 v0 < 1, cue 5, add v1 1, mul v2 2",
        "0 add 1 1 5 5 exact, 36",
    );
    hold("off-of-another-reads-the-same", &[(1, 1), (0, 0), (4, 4)], "off v2 v1 > 3, off v0 v1 > 3, add v1 1", "0 add 1 1 5 5 exact, 21");
    hold("watched-in-a-pick-without-else", up, "pick, add v1 1, end, add v1 1, off v0 v1 > 3", "0 add 1 2 4 4 most, 21");
}

/// Change 12: among loops.
fn holds_with_others(f: &mut Files) {
    let up: &[(i64, i64)] = &[(1, 1), (0, 0)];
    let four: &[(i64, i64)] = &[(1, 1), (0, 0), (0, 0), (0, 0)];
    let hold = "hold v0, off v0 v1 > 3, add v1 1";
    // After it nothing is known of the two: from -L, L + 4 tests that fail, and the last turn.
    f.brief("accepted-hold-twice", up, &format!("{hold}, end, set v0 1, {hold}, end"), "0 add 1 1 5 5 exact, 5 add 1 1 1000000005 1000000005 most, 3000000033");
    f.brief("accepted-hold-twice-set-again", up, &format!("{hold}, end, set v0 1, set v1 0, {hold}, end"), "0 add 1 1 5 5 exact, 6 add 1 1 5 5 exact, 34");
    // Also after one without a turn, and then the flag may be anything.
    f.brief("accepted-hold-after-one-of-no-turn", &[(0, 0), (0, 0)], &format!("{hold}, end, set v1 0, {hold}, end"), "0 add 1 1 0 0 exact, 5 add 1 1 5 5 most, 18");
    let after = |v: &str| format!("{hold}, end, for v2 0 < {v} add 1, end");
    f.brief("accepted-hold-flag-after-it", four, &after("v0"), "0 add 1 1 5 5 exact, 4 add 1 1 1000000000 1000000000 most, 2000000018");
    f.brief("accepted-hold-watched-after-it", four, &after("v1"), "0 add 1 1 5 5 exact, 4 add 1 1 1000000000 1000000000 most, 2000000018");
    f.brief("accepted-hold-another-after-it", four, &after("v3"), "0 add 1 1 5 5 exact, 4 add 1 1 0 0 exact, 18");
    // In the body nothing is known of them either: 5 turns of 2 + (2L + 2) + 1, and a test.
    let inside = |v: &str| format!("hold v0, for v2 0 < {v} add 1, end, off v0 v1 > 3, add v1 1, end");
    f.brief("accepted-hold-flag-inside", four, &inside("v0"), "0 add 1 1 5 5 exact, 1 add 1 1 1000000000 5000000000 most, 10000000026");
    f.brief("accepted-hold-watched-inside", four, &inside("v1"), "0 add 1 1 5 5 exact, 1 add 1 1 1000000000 5000000000 most, 10000000026");
    // A variable that the body assigns is not known after it.
    f.brief("accepted-hold-assigned-after-it", four, &format!("{hold}, add v3 1, end, for v2 0 < v3 add 1, end"), "0 add 1 1 5 5 exact, 5 add 1 1 1000000000 1000000000 most, 2000000023");
    // 16 ticks inside, and 2 + 2: 5 turns of 21, and a test.
    f.brief(
        "accepted-hold-in-a-hold",
        four,
        &format!("{hold}, set v2 1, set v3 0, hold v2, off v2 v3 > 3, add v3 1, end, end"),
        "0 add 1 1 5 5 exact, 5 add 1 1 5 25 exact, 106",
    );
    f.brief("accepted-hold-in-a-for", four, &format!("for v2 0 < 3 add 1, set v0 1, set v1 0, {hold}, end, end"), "0 add 1 1 3 3 exact, 3 add 1 1 5 15 exact, 62");
    f.brief("accepted-hold-in-a-pick", up, &format!("pick, {hold}, end, else, cue 1, end"), "1 add 1 1 5 5 exact, 17");
    f.brief("accepted-hold-round-a-do", four, &format!("{hold}, set v2 0, do v2 < 3, add v2 1, end, end"), "0 add 1 1 5 5 exact, 4 add 1 1 3 15 exact, 51");
    // A triangle has 10 turns in 4 passes, and 38 ticks; 5 turns of 2 + 38 + 1, and a test.
    f.brief(
        "accepted-hold-round-a-triangle",
        four,
        &format!("{hold}, for v2 1 <= 4 add 1, for v3 0 < v2 add 1, end, end, end"),
        "0 add 1 1 5 5 exact, 3 add 1 1 4 20 exact, 4 add 1 1 4 50 most, 206",
    );
    // 10 turns inside with 18 + 2 ticks, 4 passes with 2, 4 turns with 2 and 2.
    f.brief(
        "accepted-hold-in-a-triangle-s-inner",
        four,
        &format!("for v2 1 <= 4 add 1, for v3 0 < v2 add 1, set v0 1, set v1 0, {hold}, end, end, end"),
        "0 add 1 1 4 4 exact, 1 add 1 1 4 10 most, 4 add 1 1 5 50 exact, 218",
    );
    // Beside the inner loop: 4 passes with 18 and 2 more.
    f.brief(
        "accepted-hold-in-a-triangle-s-outer",
        four,
        &format!("for v2 1 <= 4 add 1, set v0 1, set v1 0, {hold}, end, for v3 0 < v2 add 1, end, end"),
        "0 add 1 1 4 4 exact, 3 add 1 1 5 20 exact, 7 add 1 1 4 10 most, 110",
    );
    // No triangle: the hold is not of a base kind, and the for between is charged its longest pass.
    f.brief("accepted-no-triangle-hold", four, &format!("{hold}, for v2 0 < v1 add 1, end, end"), "0 add 1 1 5 5 exact, 3 add 1 1 1000000000 5000000000 most, 10000000026");
    f.brief(
        "accepted-no-triangle-hold-between",
        four,
        "for v2 1 <= 4 add 1, set v0 1, set v1 0, hold v0, off v0 v1 > 3, for v3 0 < v2 add 1, end, add v1 1, end, end",
        // 5 turns of 2 + 10 + 1, and a test; 4 passes with 2 and 2 more.
        "0 add 1 1 4 4 exact, 3 add 1 1 5 20 exact, 5 add 1 1 4 80 most, 282",
    );
    // The watched start and the flag by expressions.
    f.brief("accepted-hold-after-expressions", &[(0, 0), (0, 0), (5, 5)], "set v0 v2-4, set v1 2*v2-10, hold v0, off v0 v1 > 3, add v1 1, end", "2 add 1 1 5 5 exact, 18");
    f.brief("accepted-hold-flag-zero-by-an-expression", &[(0, 0), (0, 0), (5, 5)], "set v0 v2-5, hold v0, off v0 v1 > 3, add v1 1, end", "1 add 1 1 0 0 exact, 2");
    // A copied counter and a chase inside, whose variables the hold's body assigns.
    f.brief(
        "accepted-hold-round-a-copied-counter",
        four,
        &format!("{hold}, set v2 0, set v3 0, while v2 < 3, add v3 1, set v2 v3, end, end"),
        "0 add 1 1 5 5 exact, 5 add 1 1 3 15 exact, 76",
    );
    f.brief(
        "accepted-hold-round-a-chase",
        four,
        &format!("{hold}, set v2 0, set v3 6, while v2 < v3, add v2 1, sub v3 1, end, end"),
        "0 add 1 1 5 5 exact, 5 add 2 2 3 15 exact, 76",
    );
    f.brief("accepted-hold-level-rounded-down", &[(1, 1), (-5, -5)], "div v1 2, hold v0, off v0 v1 > 0, add v1 1, end", "1 add 1 1 5 5 exact, 17");
    let sixteen: Vec<&str> = ["set v0 1", "set v1 0", "hold v0", "add v1 1", "off v0 v1 > 3", "end"].repeat(16);
    let lines: String = (0..16).map(|k| format!("{} add 1 1 4 4 exact, ", 6 * k + 2)).collect();
    f.rows("accepted-hold-16-loops", up, &sixteen, &format!("{lines}240"));
    let mut deep = vec!["pick"; 7];
    deep.extend(["hold v0", "add v1 1", "off v0 v1 > 3", "end"]);
    deep.extend(["end"; 7]);
    f.rows("accepted-hold-8-deep", up, &deep, "7 add 1 1 4 4 exact, 20");
    // Two towers of eight holds with two turns each, from -L, filled up with cues. From inside: 2(98 + 1) + 1 ticks, and then 2(T + 3) + 1.
    let heads: Vec<[String; 3]> = (0..8).map(|v| [format!("hold v{v}"), format!("off v{v} v{} > -1000000000", v + 8), format!("add v{} 1", v + 8)]).collect();
    let mut rows: Vec<&str> = Vec::new();
    let mut lines = String::new();
    for tower in 0..2 {
        for (k, head) in heads.iter().enumerate() {
            lines += &format!("{} add 1 1 2 {} {}, ", rows.len(), 2 << k, if (tower, k) == (0, 0) { "exact" } else { "most" });
            rows.extend(head.iter().map(String::as_str));
        }
        rows.extend([&["cue 9999"; 96][..], &["end"; 8]].concat());
    }
    let ticks = (1..8).fold(2 * 99 + 1, |ticks, _| 2 * (ticks + 3) + 1);
    f.rows("accepted-hold-worst", &[&[(1, 1); 8][..], &[(-L, -L); 8]].concat(), &rows, &format!("{lines}{}", 2 * ticks));
    // 1000002 turns of 2 + 2000002 + 1 ticks.
    f.brief(
        "refused-13-hold",
        &[(1, 1), (0, 0), (0, 0)],
        "hold v0, off v0 v1 > 1000000, add v1 1, for v2 0 < 1000000 add 1, end, end",
        "refused 13 5",
    );
    f.brief("refused-13-in-a-hold-of-no-turn", &[(0, 0), (0, 0), (0, 0), (0, 0)], "hold v0, off v0 v1 > 3, add v1 1, for v2 0 < 1000000 add 1, for v3 0 < 1000000 add 1, end, end, end", "refused 13 6");
}

/// Change 12: offs that end no hold.
fn offs(f: &mut Files) {
    f.row("accepted-off", "off v0 v1 > 3", "1");
    f.row("accepted-off-lt", "off v0 v1 < -1000000000", "1");
    f.row("accepted-off-le", "off v1 v0 <= 1000000000", "1");
    f.row("accepted-off-ge", "off v0 v1 >= 0", "1");
    f.row("accepted-off-watches-its-flag", "off v0 v0 > 0", "1");
    // Widened by 0: from 3 to 7 it is from 0, from -7 to -3 up to 0.
    let above: &[(i64, i64)] = &[(3, 7), (0, 0), (0, 0)];
    let below: &[(i64, i64)] = &[(-7, -3), (0, 0), (0, 0)];
    f.brief("accepted-off-widens-down", above, "off v0 v1 > 3, for v2 v0 <= 7 add 1, end", "1 add 1 1 8 8 most, 19");
    f.brief("accepted-off-widens-up", below, "off v0 v1 > 3, for v2 -7 <= v0 add 1, end", "1 add 1 1 8 8 most, 19");
    f.brief("accepted-off-keeps-the-other-end", above, "off v0 v1 > 3, for v2 0 <= v0 add 1, end", "1 add 1 1 8 8 most, 19");
    f.brief("accepted-off-widens-a-single-one", &[(4, 4), (0, 0), (0, 0)], "off v0 v1 > 3, for v2 v0 < 4 add 1, end", "1 add 1 1 4 4 most, 11");
    f.brief("accepted-off-widens-whatever-is-compared", above, "off v0 v1 > 1000000000, for v2 v0 <= 7 add 1, end", "1 add 1 1 8 8 most, 19");
    f.brief("accepted-off-not-the-watched", above, "off v1 v0 > 3, for v2 v0 <= 7 add 1, end", "1 add 1 1 5 5 most, 13");
    f.brief("accepted-off-in-a-pick", above, "pick, off v0 v1 > 3, else, add v0 2, end, for v2 v0 <= 9 add 1, end", "5 add 1 1 10 10 most, 24");
    f.brief("accepted-off-zero-stays-zero", &[(0, 0), (0, 0)], "off v0 v1 < 3, hold v0, off v0 v1 > 3, add v1 1, end", "1 add 1 1 0 0 exact, 2");
    f.brief("accepted-off-then-hold", &[(1, 1), (0, 0)], "off v0 v1 > 3, hold v0, off v0 v1 > 3, add v1 1, end", "1 add 1 1 5 5 most, 17");
    // In a loop it assigns another variable than those that matter.
    f.brief("accepted-off-in-a-while", &[(0, 0), (1, 1)], "while v0 < 5, add v0 1, off v1 v0 > 3, end", "0 add 1 1 5 5 exact, 16");
    f.brief("accepted-off-reads-the-limit", &[(0, 0), (1, 1), (5, 5)], "while v0 < v2, add v0 1, off v1 v2 > 3, end", "0 add 1 1 5 5 exact, 16");
    f.brief("accepted-off-beside-a-copy", &[(0, 0), (3, 3), (1, 1)], "while v0 < 10, add v1 1, off v2 v1 > 5, set v0 v1, end", "0 add 1 1 7 7 exact, 29");
    f.brief("accepted-off-in-another-s-hold", &[(1, 1), (0, 0), (1, 1)], "hold v0, off v0 v1 > 3, off v2 v1 > 1, add v1 1, end", "0 add 1 1 5 5 exact, 21");
    // An unknown step, an assigned limit, no only assignment.
    let three: &[(i64, i64)] = &[(0, 0), (3, 3), (0, 0)];
    let mut refused = |name: &str, rows: &str, thought: &str| f.brief(&format!("refused-{name}"), three, &format!("{rows}, end"), &format!("refused {thought}"));
    refused("8-off-in-a-while", "while v0 < 5, add v0 1, off v0 v1 > 3", "8 0");
    refused("8-off-in-a-do", "do v0 > -5, off v0 v1 > 3, sub v0 1", "8 0");
    refused("8-off-in-a-for", "for v0 0 < 5 add 1, off v0 v0 > 3", "8 0");
    refused("8-off-in-a-pick-of-a-while", "while v0 < 5, add v0 1, pick, off v0 v1 > 3, end", "8 0");
    refused("8-off-on-a-copied-counter", "while v0 < 10, add v1 1, set v0 v1, off v0 v2 > 3", "8 0");
    refused("8-off-on-a-master", "while v0 < 10, add v1 1, off v1 v2 > 3, set v0 v1", "8 0");
    refused("8-hold-on-the-tested-variable", "while v0 < 5, hold v0, off v0 v1 > 9, add v1 1, end", "8 0");
    refused("8-hold-watches-the-tested-variable", "while v1 < 5, hold v0, off v0 v1 > 9, add v1 1, end", "8 0");
    refused("10-off-on-the-limit", "while v0 < v1, add v0 1, off v1 v2 > 3", "10 0");
    refused("10-off-on-a-limit-that-would-close", "while v0 < v1, add v0 1, sub v1 1, off v1 v2 > 3", "10 0");
    refused("10-off-on-a-limit-with-arithmetic", "while v0 < v1+2, add v0 1, off v1 v2 > 3", "10 0");
    refused("10-hold-watches-the-limit", "while v2 < v1, add v2 1, hold v0, off v0 v1 > 9, add v1 1, end", "10 0");
    refused("10-hold-on-the-limit", "while v2 < v0, add v2 1, hold v0, off v0 v1 > 9, add v1 1, end", "10 0");
}

/// Change 12: shapes, numbers, variables and blocks; and every broken term.
fn holds_refused(f: &mut Files) {
    for (name, row) in [
        ("hold-alone", "hold"),
        ("hold-number", "hold 0"),
        ("hold-parentheses", "hold (v0)"),
        ("hold-test", "hold v0 != 0"),
        ("hold-space-at-the-end", "hold v0 "),
        ("hold-leading-zero", "hold v00"),
        ("off-alone", "off v0"),
        ("off-without-a-number", "off v0 v1 >"),
        ("off-without-the-watched", "off v0 > 1"),
        ("off-without-a-comparison", "off v0 v1 1"),
        ("off-equal", "off v0 v1 == 1"),
        ("off-unequal", "off v0 v1 != 1"),
        ("off-equal-past-the-limit", "off v0 v1 == 1000000001"),
        ("off-comparison-turned", "off v0 v1 => 1"),
        ("off-variable-for-the-number", "off v0 v1 > v1"),
        ("off-expression", "off v0 v1 > 1+1"),
        ("off-parentheses", "off v0 v1 > (1)"),
        ("off-watches-an-expression", "off v0 v1+0 > 1"),
        ("off-watches-a-number", "off v0 1 > 1"),
        ("off-minus-zero", "off v0 v1 > -0"),
        ("off-leading-zero", "off v0 v1 > 01"),
        ("off-six-words", "off v0 v1 > 1 1"),
    ] {
        f.row(&format!("refused-3-{name}"), row, "refused 3 6");
    }
    f.row("refused-4-off", "off v0 v1 > 1000000001", "refused 4 6");
    f.row("refused-4-off-below", "off v0 v1 < -1000000001", "refused 4 6");
    f.row("refused-4-off-before-5", "off v9 v1 <= 99999999999999999999", "refused 4 6");
    f.row("refused-5-hold", "hold v2", "refused 5 6");
    f.row("refused-5-off", "off v2 v0 > 1", "refused 5 6");
    f.row("refused-5-off-watched", "off v0 v2 > 1", "refused 5 6");
    f.row("refused-6-hold-left-open", "hold v0", "refused 6 7");
    f.brief("refused-6-else-in-a-hold", &[(1, 1), (0, 0)], "hold v0, else, end", "refused 6 7");
    f.rows("refused-7-hold-nine-deep", &[(1, 1), (0, 0)], &[&["pick"; 8][..], &["hold v0"]].concat(), "refused 7 14");
    f.rows("refused-7-hold-the-seventeenth", &[(1, 1), (0, 0)], &[&["for v0 1 < 9 add 1", "end"].repeat(16)[..], &["hold v0"]].concat(), "refused 7 38");
    f.rows("refused-7-seventeenth-after-holds", &[(1, 1), (0, 0)], &["hold v0", "off v0 v1 > 1", "add v1 1", "end"].repeat(17), "refused 7 70");

    let three: &[(i64, i64)] = &[(1, 1), (0, 0), (0, 0)];
    let off = "off v0 v1 > 3";
    let mut broken = |name: &str, rows: &str| f.brief(&format!("refused-19-{name}"), three, &format!("cue 1, hold v0, {rows}, end"), "refused 19 1");
    broken("no-off", "add v1 1");
    broken("no-row", "cue 1");
    broken("off-for-another", "add v1 1, off v2 v1 > 3");
    broken("off-behind-it", &format!("add v1 1, end, {off}, pick"));
    broken("two-offs", &format!("add v1 1, {off}, {off}"));
    broken("two-offs-of-two-watched", &format!("add v1 1, {off}, off v0 v2 > 3, add v2 1"));
    broken("second-off-in-a-pick", &format!("add v1 1, {off}, pick, {off}, end"));
    broken("second-off-in-a-loop", &format!("add v1 1, for v2 0 < 2 add 1, {off}, end, {off}"));
    broken("off-in-a-pick", &format!("add v1 1, pick, {off}, end"));
    broken("off-in-an-else", &format!("add v1 1, pick, else, {off}, end"));
    broken("off-in-both-branches", &format!("add v1 1, pick, {off}, else, {off}, end"));
    broken("off-in-a-loop", &format!("add v1 1, for v2 0 < 2 add 1, {off}, end"));
    broken("off-in-an-inner-hold", &format!("hold v0, {off}, add v1 1, end"));
    broken("off-in-an-inner-hold-and-its-own", &format!("hold v0, {off}, add v1 1, end, {off}"));
    broken("flag-set", &format!("add v1 1, {off}, set v0 1"));
    broken("flag-set-to-zero", &format!("add v1 1, set v0 0, {off}"));
    broken("flag-standing-row", &format!("add v0 0, add v1 1, {off}"));
    broken("flag-set-in-a-pick", &format!("add v1 1, {off}, pick, mul v0 1, end"));
    broken("flag-of-a-for", &format!("add v1 1, {off}, for v0 0 < 1 add 1, end"));
    broken("watches-its-flag", "add v1 1, off v0 v0 > 3");
    broken("watches-its-flag-that-moves", "add v0 1, off v0 v0 > 3");
    broken("watched-not-assigned", off);
    broken("watched-stands", &format!("add v1 0, {off}"));
    broken("watched-stands-by-mul", &format!("{off}, mul v1 1"));
    broken("watched-may-stand", &format!("pick, add v1 1, end, {off}"));
    broken("watched-both-ways", &format!("pick, add v1 1, else, sub v1 1, end, {off}"));
    broken("watched-there-and-back", &format!("add v1 3, sub v1 3, {off}"));
    broken("watched-grows", &format!("mul v1 2, {off}"));
    broken("watched-shrinks", "div v1 2, off v0 v1 < 3");
    broken("watched-set", &format!("set v1 v2, {off}"));
    broken("watched-of-a-for", &format!("for v1 1 < 3 add 1, end, {off}"));
    broken("watched-moved-in-a-loop", &format!("while v1 < 3, add v1 1, end, {off}"));
    broken("watched-off", &format!("add v1 1, off v1 v2 > 3, {off}"));
    broken("watched-off-by-the-flag", &format!("{off}, off v1 v0 > 3, add v1 1"));
    broken("away-gt", &format!("sub v1 1, {off}"));
    broken("away-ge", "off v0 v1 >= 3, sub v1 1");
    broken("away-lt", "add v1 1, off v0 v1 < 3");
    broken("away-le", "off v0 v1 <= 3, add v1 1");
    broken("both-sides", &format!("add v1 1, {off}, add v1 1"));
    broken("standing-row-behind", &format!("add v1 1, {off}, sub v1 0"));
    broken("standing-row-before", &format!("div v1 1, {off}, add v1 1"));
    broken("standing-row-behind-in-a-pick", &format!("add v1 1, {off}, pick, add v1 0, end"));
    f.brief("refused-19-flag-zero", &[(0, 0), (0, 0)], "hold v0, add v1 1, end", "refused 19 0");
}

/// Change 12: 19 is asked loop by loop in row order, before 8 on that loop.
fn holds_in_order(f: &mut Files) {
    let mut order = |name: &str, rows: &str, thought: &str| f.brief(name, &[(1, 1), (0, 0), (0, 0)], rows, thought);
    order("refused-8-before-19-of-a-later-hold", "while v2 < 3, set v2 1, end, hold v0, end", "refused 8 0");
    order("refused-9-before-19-of-a-later-hold", "while v2 < 3, end, hold v0, end", "refused 9 0");
    order("refused-10-before-19-of-a-later-hold", "while v2 < v1, add v2 1, mul v1 2, end, hold v0, end", "refused 10 0");
    order("refused-11-before-19-of-a-later-hold", "while v2 > 3, add v2 1, end, hold v0, end", "refused 11 0");
    order("refused-12-before-19-of-a-later-hold", "while v2 < 3, mul v2 2, end, hold v0, end", "refused 12 0");
    order("refused-19-before-8-of-a-later-loop", "hold v0, end, while v2 < 3, set v2 1, end", "refused 19 0");
    order("refused-19-before-8-of-an-inner-loop", "hold v0, while v2 < 3, set v2 1, end, end", "refused 19 0");
    order("refused-9-of-an-outer-loop-before-19", "while v2 < 3, hold v0, end, end", "refused 9 0");
    order("refused-19-of-an-inner-hold", "while v2 < 3, hold v0, end, add v2 1, end", "refused 19 1");
    order("refused-9-of-a-loop-in-a-hold", "hold v0, off v0 v1 > 3, add v1 1, while v2 < 3, end, end", "refused 9 3");
    order("refused-19-of-the-second-hold", "hold v0, off v0 v1 > 3, add v1 1, end, hold v0, end", "refused 19 4");
    order("refused-19-before-13", "for v1 0 < 1000000000 add 1, for v2 0 < 1000000000 add 1, end, end, hold v0, end", "refused 19 4");
}

//! bench [quick]: times the library against the reference. Both are called in this process with the same
//! input; the answers are compared before anything is timed.

use diftanew::numbers::{self, ANSWER, FRAMES_ANSWER, STATE, STEP_ANSWER};
use reference::paused;
use reference::{Ending, ONES, SCRATCH};
use std::hint::black_box;
use std::time::{Duration, Instant};

fn file(ranges: &[(i64, i64)], rows: &[String]) -> Vec<u8> {
    let mut text = format!("script=1\nvars={}\n", ranges.len());
    for (lo, hi) in ranges {
        text += &format!("range={lo} {hi}\n");
    }
    text += &format!("rows={}\n", rows.len());
    for row in rows {
        text += &format!("row={row}\n");
    }
    text.into_bytes()
}

fn rows(text: &str) -> Vec<String> {
    text.split(", ").map(String::from).collect()
}

fn chase() -> Vec<u8> {
    file(
        &[(0, 0), (1, 4), (0, 255)],
        &rows("cue 1, for v0 1 <= 9 add 5, cue 7, for v1 0 < v0 add 1, cue 8, end, pick, set v2 255, else, div v2 2, end, end, cue 9"),
    )
}

/// 256 rows, 16 loops, 8 deep: two towers of eight loops, every row a long one.
fn worst() -> Vec<u8> {
    let mut rows = Vec::new();
    let tower = |rows: &mut Vec<String>| {
        for v in 0..8 {
            rows.push(format!("for v{v} 999999990 <= 1000000000 add 1000000000"));
            rows.push(format!("set v{} -1000000000", 8 + v));
        }
        rows.extend((0..104).map(|i| format!("add v{} 1000000000", 8 + i % 8)));
        rows.extend((0..8).map(|_| "end".to_string()));
    };
    tower(&mut rows);
    tower(&mut rows);
    assert_eq!(rows.len(), 256);
    file(&[(-1_000_000_000, 1_000_000_000); 16], &rows)
}

/// The same, with a block left open: refused by question 6 behind the last line.
fn refused() -> Vec<u8> {
    let text = String::from_utf8(worst()).unwrap();
    let cut = text.len() - "row=end\n".len();
    format!("{}row=cue 1\n", &text[..cut]).into_bytes()
}

/// One loop with so many rows in it.
fn body(count: usize) -> Vec<u8> {
    let mut all = rows("while v0 < 5, add v0 1");
    all.extend((0..count - 3).map(|i| format!("add v{} 7", 1 + i % 3)));
    all.push("end".into());
    file(&[(0, 0); 4], &all)
}

fn counting(turns: u64) -> Vec<u8> {
    file(&[(0, 0)], &rows(&format!("while v0 < {turns}, add v0 1, end")))
}

/// A limit of twice the rig plus two, worked out at every test.
fn twice_plus_two(rig: u64) -> Vec<u8> {
    file(&[(0, 0), (rig as i64, rig as i64)], &rows("while v0 < 2*v1+2, add v0 1, end"))
}

/// A file of 16,384 bytes, nearly all of them in expressions of 15 operators.
fn expressions() -> Vec<u8> {
    let mut rows = vec![format!("set v0 {}", ["-1000000000"; 16].join("*")); 80];
    rows.push(format!("set v0 {}", ["1000000000"; 9].join("-")));
    file(&[(0, 0)], &rows)
}

/// 256 rows and 16 loops, of which 8 are summed over 4,096 passes each.
fn triangles() -> Vec<u8> {
    let mut all = Vec::new();
    for _ in 0..8 {
        all.extend(rows("for v0 1 <= 4096 add 1, for v1 0 < v0 add 1, end, end"));
        all.extend((0..28).map(|i| format!("set v{} 1000000000", 2 + i % 14)));
    }
    assert_eq!(all.len(), 256);
    file(&[(-1_000_000_000, 1_000_000_000); 16], &all)
}

/// 15 loops that are summed over the same 4,096 passes.
fn fifteen() -> Vec<u8> {
    let inner = "for v1 0 < v0 add 1, end, ".repeat(15);
    file(&[(0, 0); 2], &rows(&format!("for v0 1 <= 4096 add 1, {inner}end")))
}

/// A for round three picks in each other.
fn picking(turns: u64) -> Vec<u8> {
    file(
        &[(0, 0), (0, 0)],
        &rows(&format!(
            "for v0 1 <= {turns} add 1, pick, pick, set v1 1, else, pick, cue 2, else, cue 3, end, end, else, cue 4, end, end"
        )),
    )
}

fn nested(turns: u64) -> Vec<u8> {
    file(
        &[(0, 0); 4],
        &rows(&format!(
            "for v0 1 <= {turns} add 1, for v1 0 < 10 add 1, for v2 10 > 0 sub 1, set v3 v2, end, end, end"
        )),
    )
}

/// A loop of each kind that document 02 adds: a copied counter, two closing chases, a hold.
fn kinds() -> Vec<u8> {
    file(
        &[(0, 0), (0, 0), (0, 0), (100, 100), (1, 1), (0, 0)],
        &rows("while v0 < 9, add v1 1, set v0 v1, end, while v2 < v3, add v2 1, sub v3 2, end, hold v4, add v5 1, off v4 v5 > 9, end"),
    )
}

fn copied(turns: u64) -> Vec<u8> {
    file(&[(0, 0), (0, 0)], &rows(&format!("while v0 < {turns}, add v1 1, set v0 v1, end")))
}

fn closing(turns: u64) -> Vec<u8> {
    file(&[(0, 0), (2 * turns as i64, 2 * turns as i64)], &rows("while v0 < v1, add v0 1, sub v1 1, end"))
}

fn held(turns: u64) -> Vec<u8> {
    file(&[(1, 1), (0, 0)], &rows(&format!("hold v0, add v1 1, off v0 v1 >= {turns}, end")))
}

/// Eight scripts of the examples.
const EXAMPLES: [&[u8]; 8] = [
    include_bytes!("../../../examples/chase.eff"),
    include_bytes!("../../../examples/closing.eff"),
    include_bytes!("../../../examples/fade.eff"),
    include_bytes!("../../../examples/heartbeat.eff"),
    include_bytes!("../../../examples/listing.eff"),
    include_bytes!("../../../examples/master.eff"),
    include_bytes!("../../../examples/rain.eff"),
    include_bytes!("../../../examples/storm.eff"),
];

/// What a caller holds of a live run, and the list that its cues go into.
#[derive(Clone, Debug, PartialEq)]
struct Held {
    store: Vec<i32>,
    state: [u64; STATE],
    cues: [u32; 128],
    answer: [u64; STEP_ANSWER],
}

impl Held {
    /// Before the first step, from the lowest store.
    fn start(file: &[u8]) -> Held {
        let plan = reference::plan(file, &ONES, SCRATCH).expect("an example is accepted");
        let store = plan.script.ranges[..plan.script.vars].iter().map(|range| range[0]).collect();
        Held { store, state: [0; STATE], cues: [0; 128], answer: [0; STEP_ANSWER] }
    }

    fn set(&mut self, from: &Held) {
        self.store.copy_from_slice(&from.store);
        self.state = from.state;
    }
}

/// For each of the two the shortest of several rounds, each of as many calls as fill a while; the rounds take turns.
fn time(quick: bool, mut first: impl FnMut(), mut second: impl FnMut()) -> (Duration, Duration) {
    fn round(calls: u32, call: &mut impl FnMut()) -> Duration {
        let begin = Instant::now();
        for _ in 0..calls {
            call();
        }
        begin.elapsed() / calls
    }
    let once = round(1, &mut first).max(round(1, &mut second)).max(Duration::from_nanos(20));
    let length = Duration::from_millis(if quick { 2 } else { 30 });
    let calls = (length.as_nanos() / once.as_nanos()).clamp(1, 1_000_000) as u32;
    let rounds = if once > Duration::from_millis(300) { 2 } else { 7 };
    let mut best = (Duration::MAX, Duration::MAX);
    for _ in 0..rounds {
        best.0 = best.0.min(round(calls, &mut first));
        best.1 = best.1.min(round(calls, &mut second));
    }
    best
}

fn human(time: Duration) -> String {
    let ns = time.as_nanos() as f64;
    match ns {
        n if n < 1e3 => format!("{n:.0} ns"),
        n if n < 1e6 => format!("{:.2} us", n / 1e3),
        n if n < 1e9 => format!("{:.2} ms", n / 1e6),
        n => format!("{:.2} s", n / 1e9),
    }
}

struct Bench {
    quick: bool,
    scratch: Vec<u32>,
}

impl Bench {
    fn line(&self, name: &str, library: Duration, reference: Duration) {
        let ratio = library.as_secs_f64() / reference.as_secs_f64();
        println!("{name:<54} {:>12} {:>12} {ratio:>8.2}", human(library), human(reference));
    }

    fn report(&mut self, name: &str, file: &[u8]) {
        let (mut ours, mut theirs) = (vec![0; 2_048], vec![0; 2_048]);
        let mut place = 0;
        let number = numbers::report(file, &ONES, &mut self.scratch, &mut theirs, &mut place);
        let expected = reference::report_into(file, &ONES, SCRATCH, &mut ours).map_or_else(|r| r, |length| (0, length));
        assert_eq!((number, place), expected, "{name}");
        assert!(ours == theirs, "{name}");
        let scratch = &mut self.scratch;
        let (library, reference) = time(
            self.quick,
            || {
                black_box(numbers::report(black_box(file), &ONES, scratch, &mut theirs, &mut place));
            },
            || {
                let _ = black_box(reference::report_into(black_box(file), &ONES, SCRATCH, &mut ours));
            },
        );
        let (bytes, answer) = (file.len(), if number == 0 { "accepted".into() } else { format!("refused {number}") });
        self.line(&format!("report: {name}, {bytes} bytes, {answer}"), library, reference);
    }

    fn run(&mut self, name: &str, file: &[u8], store: &[i32], picks: &[u8]) {
        let mut answer = [0; ANSWER];
        let (mut ours, mut theirs) = (store.to_vec(), store.to_vec());
        let number = numbers::run(file, &ONES, &mut self.scratch, &mut theirs, picks, u64::MAX, &mut answer);
        let (counts, loops) = reference::run_counts(file, &ONES, SCRATCH, &mut ours, picks, u64::MAX).expect(name);
        assert_eq!(counts.ending, Ending::Ended, "{name}");
        let first = [0, counts.row as u64, counts.ticks, counts.used as u64, loops as u64, 0, counts.all[0], counts.most[0]];
        assert_eq!((number, &answer[..8]), (0, &first[..]), "{name}");
        assert_eq!(ours, theirs, "{name}");
        let scratch = &mut self.scratch;
        let (library, reference) = time(
            self.quick,
            || {
                theirs.copy_from_slice(store);
                black_box(numbers::run(black_box(file), &ONES, scratch, &mut theirs, picks, u64::MAX, &mut answer));
            },
            || {
                ours.copy_from_slice(store);
                let _ = black_box(reference::run_counts(black_box(file), &ONES, SCRATCH, &mut ours, picks, u64::MAX));
            },
        );
        self.line(&format!("run: {name}, {} ticks", counts.ticks), library, reference);
    }

    /// Eight scripts together, q ticks a frame.
    fn frames(&mut self, name: &str, file: &[u8], store: &[i32], q: u64) {
        let files = file.repeat(8);
        let (file_lengths, store_lengths, pick_lengths) = ([file.len(); 8], [store.len(); 8], [0; 8]);
        let stores = store.repeat(8);
        let mut ours = stores.clone();
        let mut answer = [0; FRAMES_ANSWER];
        let lent = reference::frames::Lent {
            files: &files,
            file_lengths: &file_lengths,
            stores: &stores,
            store_lengths: &store_lengths,
            picks: &[],
            pick_lengths: &pick_lengths,
        };
        let scratch = &mut self.scratch;
        let mut call = || {
            ours.copy_from_slice(&stores);
            let lent = numbers::Lent {
                files: black_box(&files),
                file_lengths: &file_lengths,
                stores: &mut ours,
                store_lengths: &store_lengths,
                picks: &[],
                pick_lengths: &pick_lengths,
            };
            let number = numbers::frames(lent, &ONES, q, scratch, &mut answer);
            (number, answer[0], answer[1])
        };
        let expected = reference::frames::frames(lent, &ONES, q, SCRATCH).expect(name);
        let frame = expected.scripts[0].frame;
        assert_eq!(call(), (0, expected.most, frame), "{name}");
        let (library, reference) = time(
            self.quick,
            || {
                black_box(call());
            },
            || {
                let _ = black_box(reference::frames::frames(lent, &ONES, q, SCRATCH));
            },
        );
        self.line(&format!("frames: 8 of {name}, q = {q}, {frame} frames"), library, reference);
    }

    /// A frame of eight scripts, which is a loop over `step`; the frames before it have been played.
    fn steps(&mut self, q: u64, before: usize) {
        let picks: [u8; 64] = std::array::from_fn(|i| (i % 3 == 0) as u8);
        let theirs = |file: &[u8], held: &mut Held| {
            let lent = paused::Lent { q, picks: &picks, cues: &mut held.cues };
            held.answer = paused::step(file, &ONES, SCRATCH, &mut held.store, &mut held.state, lent).expect("a good state");
        };
        let scratch = &mut self.scratch;
        let mut ours = |file: &[u8], held: &mut Held| {
            let frame = numbers::Frame { q, picks: &picks, cues: &mut held.cues };
            numbers::step(file, &ONES, scratch, &mut held.store, &mut held.state, frame, &mut held.answer)
        };
        let mut from = EXAMPLES.map(Held::start);
        for (file, held) in EXAMPLES.iter().zip(&mut from) {
            for _ in 0..before {
                theirs(file, held);
            }
        }
        let (mut first, mut second) = (from.clone(), from.clone());
        for (i, file) in EXAMPLES.iter().enumerate() {
            assert_eq!(ours(file, &mut first[i]), 0, "example {i}");
            theirs(file, &mut second[i]);
        }
        assert_eq!(first, second);
        let ticks: u64 = second.iter().map(|held| held.answer[2]).sum();
        let (library, reference) = time(
            self.quick,
            || {
                for ((file, held), from) in EXAMPLES.iter().zip(&mut first).zip(&from) {
                    held.set(from);
                    black_box(ours(black_box(file), held));
                }
            },
            || {
                for ((file, held), from) in EXAMPLES.iter().zip(&mut second).zip(&from) {
                    held.set(from);
                    theirs(black_box(file), held);
                }
            },
        );
        self.line(&format!("steps: 8 examples, q = {q}, frame {}, {ticks} ticks", before + 1), library, reference);
    }
}

fn main() {
    let quick = std::env::args().nth(1).is_some_and(|word| word == "quick");
    let mut bench = Bench { quick, scratch: vec![0; SCRATCH] };
    if cfg!(debug_assertions) {
        println!("NOT a release build: these times say nothing");
    }
    println!("Same process, same input. Scratch and report buffer are reused and not cleared between calls; the store is");
    println!("set before each run, store and state before each step. All calls read and analyse the file first.");
    println!("Best of 7 rounds (2 if over 0.3 s). The reference keeps its rows on the heap and counts only, without a list of entries.");
    println!();
    println!("{:<54} {:>12} {:>12} {:>8}", "workload", "library", "reference", "ratio");
    bench.report("small chase", &chase());
    bench.report("worst file", &worst());
    bench.report("worst file left open", &refused());
    for count in [3, 30, 256] {
        bench.report(&format!("one loop, {count} rows"), &body(count));
    }
    bench.report("the loops of document 02", &kinds());
    bench.report("long expressions", &expressions());
    bench.report("8 sums of 4096", &triangles());
    bench.report("15 sums of the same 4096", &fifteen());
    let most = if quick { 500_000 } else { 50_000_000 };
    for turns in [most / 100, most / 10, most] {
        bench.run("while", &counting(turns), &[0], &[]);
    }
    for rig in [2_499, 24_999, 249_999] {
        bench.run("while v0 < 2*v1+2", &twice_plus_two(rig), &[0, rig as i32], &[]);
    }
    let turns = if quick { 50_000 } else { 5_000_000 };
    bench.run("copied counter", &copied(turns), &[0, 0], &[]);
    bench.run("closing chases", &closing(turns), &[0, 2 * turns as i32], &[]);
    bench.run("hold", &held(turns), &[1, 0], &[]);
    let most = if quick { 10_000 } else { 1_000_000 };
    let picks: Vec<u8> = (0..3 * most).map(|i: u64| (i.wrapping_mul(0x9e37_79b9_7f4a_7c15) >> 62) as u8 & 1).collect();
    for turns in [most / 100, most / 10, most] {
        bench.run("picks, 3 deep", &picking(turns), &[0, 0], &picks);
    }
    let most = if quick { 1_000 } else { 100_000 };
    for turns in [most / 100, most / 10, most] {
        bench.run("fors, 3 deep", &nested(turns), &[0; 4], &[]);
    }
    for q in [1, 100, 10_000] {
        bench.frames("while", &counting(if quick { 1_000 } else { 20_000 }), &[0], q);
    }
    for before in [0, 1] {
        bench.steps(100, before);
    }
}

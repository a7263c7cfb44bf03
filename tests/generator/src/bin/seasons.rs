//! seasons CRATE CASES: writes the script files of the season's stored cases into the crate's data, the main case as its stdin and stdout,
//! and the others into the other directory: NAME.in is what the program reads in the folder of the files, NAME.out what it prints. Every
//! sheet below was found by thought from document 02; the exit code is 1 if the reference's differs.
//!
//! A sheet is "refused 18 0", or what stands in its lines, with commas between.

use reference::sheet::season;
use std::path::Path;

struct Seasons<'d> {
    data: &'d Path,
    wrong: usize,
}

impl Seasons<'_> {
    fn file(&self, name: &str, ranges: &[(i64, i64)], rows: &str) {
        let rows: Vec<&str> = rows.split(", ").filter(|row| !row.is_empty()).collect();
        let mut text = format!("script=1\nvars={}\n", ranges.len());
        text.extend(ranges.iter().map(|(lo, hi)| format!("range={lo} {hi}\n")));
        text += &format!("rows={}\n", rows.len());
        text.extend(rows.iter().map(|row| format!("row={row}\n")));
        self.bytes(name, text.as_bytes());
    }

    fn bytes(&self, name: &str, file: &[u8]) {
        std::fs::write(self.data.join(format!("{name}.script")), file).unwrap();
    }

    /// A case as it is read and printed.
    fn case(&mut self, read: &Path, printed: &Path, input: &[u8], thought: &str) {
        let expected = match thought.strip_prefix("refused ") {
            Some(refusal) => format!("refused={refusal}\n"),
            None => thought.split(", ").map(|line| format!("{line}\n")).collect(),
        };
        let answer = season(input, |name| std::fs::read(self.data.join(String::from_utf8_lossy(name).as_ref())).ok());
        if expected.as_bytes() != answer {
            self.wrong += 1;
            println!("{}: thought\n{expected}but the reference says\n{}", read.display(), String::from_utf8_lossy(&answer));
        }
        std::fs::write(read, input).unwrap();
        std::fs::write(printed, &answer).unwrap();
    }
}

/// The name of a file, of so many bytes.
fn long(name: &str, length: usize) -> String {
    let mut long = format!("{name}.script");
    while long.len() + 2 <= length {
        long.insert_str(0, "./");
    }
    // A slash may stand twice.
    if long.len() < length {
        long.insert(1, '/');
    }
    assert_eq!(long.len(), length);
    long
}

/// One name a line, `.script` added to those that are plain words.
fn list(names: &[&str]) -> Vec<u8> {
    let plain = |name: &str| !name.is_empty() && name.bytes().all(|byte| byte.is_ascii_alphanumeric() || byte == b'-');
    names.iter().map(|name| if plain(name) { format!("{name}.script\n") } else { format!("{name}\n") }).collect::<String>().into_bytes()
}

fn files(s: &Seasons) {
    let one: &[(i64, i64)] = &[(0, 0)];
    // 3 turns of 2 + 2 ticks, and 2: five files of one report, two of them with the same cues.
    s.file("rain", one, "for v0 0 < 3 add 1, cue 10, cue 20, end");
    s.file("rain-copied", &[(0, 0), (1, 2)], "for v0 0 < 3 add 1, cue 10, cue 20, end");
    s.file("rain-turned", one, "for v0 0 < 3 add 1, cue 20, cue 10, end");
    s.file("rain-ends-otherwise", one, "for v0 0 < 3 add 1, cue 10, cue 21, end");
    s.file("fire", one, "for v0 0 < 3 add 1, cue 30, cue 40, end");
    s.file("fourteen", &[], &"cue 5, ".repeat(14));
    // 4 turns: another report, and the rain's cues.
    s.file("rain-longer", one, "for v0 0 < 4 add 1, cue 10, cue 20, end");
    // Equal as sets; equal when sorted.
    s.file("drum-112", &[], "cue 1, cue 1, cue 2");
    s.file("drum-122", &[], "cue 1, cue 2, cue 2");
    s.file("drum-211", &[], "cue 2, cue 1, cue 1");
    s.file("pick-5-or-6", &[], "pick, cue 5, else, cue 6, end");
    s.file("pick-5-or-7", &[], "pick, cue 5, else, cue 7, end");
    s.file("one-row", one, "add v0 1");
    s.file("one-cue", one, "cue 1");
    s.file("nothing", &[], "");
    s.file("listing", &[(0, 0), (1, 4)], "for v0 1 <= 9 add 5, for v1 0 < v0 add 1, cue 7, end, end, cue 8");
    // 5 turns of 3 + 1 ticks, and 1: one report, and the same cue.
    s.file("held", &[(1, 1), (0, 0)], "hold v0, off v0 v1 > 3, add v1 1, cue 10, end");
    s.file("while", &[(0, 0), (0, 0)], "while v0 < 5, add v0 1, add v1 1, cue 10, end");
    // 10^12 ticks.
    s.file("longest", &[(0, 0), (0, 0)], "for v0 1 <= 999998 add 1, for v1 1 <= 499999 add 1, end, end, cue 1, cue 2");
    s.bytes("refused-2", &[b'\n'; 16_385]);
    s.file("refused-3", one, "add v0 v0");
    s.file("refused-4", one, "add v0 1000000001");
    s.file("refused-5", one, "add v1 1");
    s.file("refused-6", one, "pick");
    s.file("refused-7", one, &"pick, ".repeat(9));
    s.file("refused-8", one, "while v0 < 3, set v0 1, end");
    s.file("refused-9", one, "while v0 < 3, end");
    s.file("refused-10", one, "for v0 1 < v0 add 1, end");
    s.file("refused-11", one, "while v0 > 3, add v0 1, end");
    s.file("refused-12", one, "while v0 < 3, mul v0 2, end");
    s.file("refused-13", &[(0, 0), (0, 0)], "for v0 1 <= 999998 add 1, for v1 1 <= 499999 add 1, end, end, cue 1, cue 2, cue 3");
    s.file("refused-17", one, "set v0 (((((((((1)))))))))");
    s.file("refused-19", one, "hold v0, end");
}

/// Every file and every kind of name.
const WHOLE: [&str; 43] = [
    "refused-17", "rain", "rain-copied", "rain-turned", "rain-ends-otherwise", "fire", "rain-longer", "drum-112", "drum-122", "drum-211", "pick-5-or-6",
    "pick-5-or-7", "one-row", "one-cue", "nothing", "listing", "longest", "refused-2", "refused-3", "refused-4", "refused-5", "refused-6", "refused-7",
    "refused-8", "refused-9", "refused-10", "refused-11", "refused-12", "refused-13", "missing", "", "rain", "rain", "listing", "refused-9", ".", "rain.script\r",
    " rain.script", "rain.script\0", "\0", "fourteen",
    "refused-19", "held",
];
/// Its sheet, with three names more, of 256 bytes, 3,000 and 255. Ticks: 14 eight times, 18, 3 three times, 2 twice, 1 twice, 0, 32 twice, 21, 10^12 and the 14 of the
/// long name. Empty: missing, no name, the folder, CR, space, two with a 0 byte, and the two long ones.
const WHOLE_SHEET: &str = "accepted=22, refused=24, refused-2=1, refused-3=10, refused-4=1, refused-5=1, refused-6=1, refused-7=1, refused-8=1, refused-9=2, \
    refused-10=1, refused-11=1, refused-12=1, refused-13=1, refused-17=1, refused-19=1, ticks=1000000000244, greatest=1000000000000, groups=17";

fn main() {
    let directory = |n| std::env::args().nth(n).expect("use: seasons CRATE CASES");
    let (crate_of, cases) = (directory(1), directory(2));
    let data = Path::new(&crate_of).join("data");
    let mut s = Seasons { data: &data, wrong: 0 };
    files(&s);
    let [long_255, long_256, long_3000, long_20000] = [255, 256, 3_000, 20_000].map(|length| long("rain", length));
    let without_lf = |mut list: Vec<u8>| {
        list.pop();
        list
    };
    let whole = without_lf(list(&[&WHOLE[..], &[&long_256, &long_3000, &long_255]].concat()));
    s.case(&Path::new(&crate_of).join("stdin"), &Path::new(&crate_of).join("stdout"), &whole, WHOLE_SHEET);

    let mut count = 1;
    let mut case = |name: &str, input: &[u8], thought: &str| {
        count += 1;
        let file = |end| Path::new(&cases).join(format!("{name}.{end}"));
        s.case(&file("in"), &file("out"), input, thought);
    };
    let none = "ticks=0, greatest=0, groups=0";
    let empty = |n: usize| format!("accepted=0, refused={n}, refused-3={n}, {none}");
    let many = |name: &str, n: usize| list(&vec![name; n]);
    case("no-name", b"", "refused 18 0");
    case("lone-lf", b"\n", &empty(1));
    case("two-lfs", b"\n\n", &empty(2));
    case("one-name", b"rain.script\n", "accepted=1, refused=0, ticks=14, greatest=14, groups=1");
    case("one-name-without-lf", b"rain.script", "accepted=1, refused=0, ticks=14, greatest=14, groups=1");
    case("last-name-without-lf", b"rain.script\nlisting.script", "accepted=2, refused=0, ticks=46, greatest=32, groups=2");
    case("empty-name-first", b"\nrain.script", "accepted=1, refused=1, refused-3=1, ticks=14, greatest=14, groups=1");
    case("lf-twice-at-the-end", b"rain.script\n\n", "accepted=1, refused=1, refused-3=1, ticks=14, greatest=14, groups=1");
    // 64 and 65.
    let all_rain = "accepted=64, refused=0, ticks=896, greatest=14, groups=1";
    case("64-names", &many("rain", 64), all_rain);
    case("64-names-without-lf", &without_lf(many("rain", 64)), all_rain);
    case("65-names", &many("rain", 65), "refused 18 0");
    case("65-names-without-lf", &without_lf(many("rain", 65)), "refused 18 0");
    case("65-names-of-one-byte-without-lf", &without_lf(list(&["/"; 65])), "refused 18 0");
    case("200-names", &many("rain", 200), "refused 18 0");
    case("64-empty-names", &[b'\n'; 64], &empty(64));
    case("65-empty-names", &[b'\n'; 65], "refused 18 0");
    case("64-long-names", &many(&long_255, 64), all_rain);
    case("65-names-the-last-long", &[many("rain", 64), list(&[&long_20000])].concat(), "refused 18 0");
    // 64 times 10^12.
    case("64-of-the-longest", &many("longest", 64), "accepted=64, refused=0, ticks=64000000000000, greatest=1000000000000, groups=1");
    // Long names.
    case("name-of-255-bytes", &list(&[&long_255]), "accepted=1, refused=0, ticks=14, greatest=14, groups=1");
    case("name-of-255-bytes-without-lf", &without_lf(list(&[&long_255])), "accepted=1, refused=0, ticks=14, greatest=14, groups=1");
    case("name-of-256-bytes", &list(&[&long_256]), &empty(1));
    case("name-of-256-bytes-without-lf", &without_lf(list(&[&long_256])), &empty(1));
    case("names-of-thousands-of-bytes", &list(&[&long_3000, "rain", &long_20000, "listing"]), "accepted=2, refused=2, refused-3=2, ticks=46, greatest=32, groups=2");
    case("name-of-20000-bytes-without-lf", &without_lf(list(&["rain", &long_20000])), "accepted=1, refused=1, refused-3=1, ticks=14, greatest=14, groups=1");
    // A name ends at its LF, not at a 0, a CR or a space.
    case("name-with-a-0-byte", b"rain.script\0\nrain.script\0x\n\0rain.script\nrain\0.script\nrain.script\n", "accepted=1, refused=4, refused-3=4, ticks=14, greatest=14, groups=1");
    case("0-byte-behind-255", &[long_255.as_bytes(), b"\0\n"].concat(), &empty(1));
    case("crs", b"rain.script\r\nrain.script\r\n", &empty(2));
    case("spaces", b"rain.script \n rain.script\nrain.script rain.script\n", &empty(3));
    case("folders", b".\n./\n..\n/\nrain.script/\n", &empty(5));
    case("paths", b"./rain.script\n.//rain.script\n", "accepted=2, refused=0, ticks=28, greatest=14, groups=1");
    case("missing", &list(&["missing", "missing"]), &empty(2));
    // The sum is of accepted files, the greatest of all of them, and a name counts as often as it is listed.
    case("greatest-first", &list(&["longest", "rain", "nothing"]), "accepted=3, refused=0, ticks=1000000000014, greatest=1000000000000, groups=3");
    case("greatest-last", &list(&["nothing", "rain", "longest"]), "accepted=3, refused=0, ticks=1000000000014, greatest=1000000000000, groups=3");
    case("greatest-before-a-refused-one", &list(&["listing", "rain", "refused-13"]), "accepted=2, refused=1, refused-13=1, ticks=46, greatest=32, groups=2");
    case("nothing-alone", &list(&["nothing", "nothing"]), "accepted=2, refused=0, ticks=0, greatest=0, groups=1");
    case("repeated", &list(&["rain", "listing", "rain", "refused-9", "rain", "refused-9"]), "accepted=4, refused=2, refused-9=2, ticks=74, greatest=32, groups=2");
    // In rising order, by number and not as words, and in no order of the list.
    case(
        "refusals-falling",
        &list(&["refused-19", "refused-17", "refused-13", "refused-12", "refused-9", "refused-8", "refused-3", "refused-2", "refused-10", "refused-2"]),
        &format!("accepted=0, refused=10, refused-2=2, refused-3=1, refused-8=1, refused-9=1, refused-10=1, refused-12=1, refused-13=1, refused-17=1, refused-19=1, {none}"),
    );
    case("refused-alone", &list(&["refused-12"]), &format!("accepted=0, refused=1, refused-12=1, {none}"));
    groups(&mut case);
    println!("{count} seasons, {} not as thought", s.wrong);
    std::process::exit((s.wrong > 0) as i32);
}

/// Which files count as one: those of one report with the same cues in the same order.
fn groups(case: &mut dyn FnMut(&str, &[u8], &str)) {
    let mut same = |name: &str, names: &[&str], ticks: u64, greatest: u64, groups: usize| {
        let sheet = format!("accepted={}, refused=0, ticks={ticks}, greatest={greatest}, groups={groups}", names.len());
        case(&format!("groups-{name}"), &list(names), &sheet);
    };
    same("same-file", &["rain", "rain"], 28, 14, 1);
    same("same-report-and-cues", &["rain", "rain-copied"], 28, 14, 1);
    same("same-report", &["rain", "fire"], 28, 14, 2);
    same("cues-turned", &["rain", "rain-turned"], 28, 14, 2);
    same("first-cue-the-same", &["rain", "rain-ends-otherwise"], 28, 14, 2);
    same("same-cues", &["rain", "rain-longer"], 32, 18, 2);
    same("same-ticks", &["rain", "fourteen"], 28, 14, 2);
    same("same-set-of-cues", &["drum-112", "drum-122"], 6, 3, 2);
    same("same-cues-sorted", &["drum-112", "drum-211"], 6, 3, 2);
    same("cue-in-a-branch", &["pick-5-or-6", "pick-5-or-7"], 4, 2, 2);
    same("no-cue", &["one-row", "one-cue"], 2, 1, 2);
    same("hold-and-while", &["held", "while"], 42, 21, 1);
    // Equal ones apart from each other.
    same("between-others", &["rain", "listing", "rain-copied", "fire", "listing", "rain-turned", "fire", "rain"], 148, 32, 4);
    same("every-report", &["rain", "rain-longer", "drum-112", "pick-5-or-6", "one-row", "nothing", "listing"], 70, 32, 7);
    same("every-one-of-a-report", &["rain", "fire", "rain-turned", "rain-ends-otherwise", "rain-copied", "rain"], 84, 14, 4);
}

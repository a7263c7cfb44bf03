//! Seeded repertoires: a folder of script files, and names.

use crate::program::Way;
use generator::{case, Rng};
use reference::{plan, sheet, ONES, SCRATCH};
use std::collections::BTreeSet;
use std::ffi::OsStr;
use std::os::unix::ffi::OsStrExt;
use std::os::unix::fs::PermissionsExt;
use std::path::Path;

pub struct Repertoire {
    pub input: Vec<u8>,
    pub way: Way,
    /// What it has.
    pub labels: BTreeSet<&'static str>,
}

fn accepted(file: &[u8]) -> bool {
    plan(file, &ONES, SCRATCH).is_ok()
}

/// A file of the generator; mostly an accepted one.
fn script(rng: &mut Rng) -> Vec<u8> {
    let wanted = rng.chance(75);
    loop {
        let file = case(rng.next(), rng.next()).file;
        if !wanted || accepted(&file) {
            return file;
        }
    }
}

fn lines(file: &[u8]) -> Vec<Vec<u8>> {
    file.split_inclusive(|&byte| byte == b'\n').map(<[u8]>::to_vec).collect()
}

/// Another file with the same report, or nearly: other cues, cues in another order, a variable more, a row more.
fn variant(rng: &mut Rng, file: &[u8]) -> Vec<u8> {
    let mut all = lines(file);
    let cues: Vec<usize> = (0..all.len()).filter(|&at| all[at].starts_with(b"row=cue ")).collect();
    match rng.below(6) {
        0 | 1 if !cues.is_empty() => all[rng.one_of(&cues)] = format!("row=cue {}\n", rng.one_of(&[0, 1, 7, 8, 10, 9_999])).into_bytes(),
        2 if cues.len() > 1 => all.swap(rng.one_of(&cues), rng.one_of(&cues)),
        3 => return file.to_vec(),
        4 => {
            let text = String::from_utf8_lossy(file);
            let vars = text.lines().filter(|line| line.starts_with("range=")).count();
            return text.replacen(&format!("vars={vars}\n"), &format!("vars={}\n", vars + 1), 1).replacen("rows=", "range=3 4\nrows=", 1).into_bytes();
        }
        // An arithmetic row is a cue, or a cue is one: the ticks are the same, the cues are not.
        _ => {
            let rows: Vec<usize> = (0..all.len()).filter(|&at| all[at].starts_with(b"row=cue ") || all[at].starts_with(b"row=add ")).collect();
            if !rows.is_empty() {
                let at = rng.one_of(&rows);
                all[at] = if all[at].starts_with(b"row=cue ") { b"row=add v0 0\n".to_vec() } else { b"row=cue 3\n".to_vec() };
            }
        }
    }
    all.concat()
}

/// Names of files, some of them unusual.
fn name(rng: &mut Rng, k: usize) -> Vec<u8> {
    match rng.below(10) {
        0 => format!("f {k}.eff").into_bytes(),
        1 => [b"f\xff\xc3", k.to_string().as_bytes()].concat(),
        2 => format!("-{k}").into_bytes(),
        3 => format!("{k}{}", "x".repeat(200)).into_bytes(),
        4 => format!("f{k}\r").into_bytes(),
        5 => format!("sub/f{k}.eff").into_bytes(),
        _ => format!("f{k}.eff").into_bytes(),
    }
}

/// The name with `./` before it, of so many bytes.
fn lengthened(name: &[u8], length: usize) -> Vec<u8> {
    let mut long = name.to_vec();
    while long.len() + 2 <= length {
        long.splice(0..0, *b"./");
    }
    if long.len() < length && long.starts_with(b"./") {
        long.insert(1, b'/');
    }
    long
}

/// A name that is not one of the files, or one that is written in another way; and what it is.
fn odd(rng: &mut Rng, known: &[u8]) -> (Vec<u8>, &'static str) {
    match rng.below(9) {
        0 => (b"missing.eff".to_vec(), "missing"),
        1 | 2 => (Vec::new(), "no name"),
        3 => (lengthened(known, 255), "255 bytes"),
        4 => (lengthened(known, rng.one_of(&[256, 256, 257, 300, 2_000])), "over 255 bytes"),
        5 => (lengthened(known, rng.one_of(&[4_095, 4_096, 5_000, 9_000])), "over 4000 bytes"),
        6 => {
            let mut name = known.to_vec();
            let at = rng.one_of(&[0, name.len(), name.len(), name.len() / 2]);
            name.insert(at, 0);
            (name, "a 0 byte")
        }
        7 => (rng.one_of(&[&b"."[..], b"sub", b"sub/", b"/"]).to_vec(), "a folder"),
        _ => {
            let mut name = known.to_vec();
            name.push(rng.one_of(b"\r /.\xff"));
            (name, "a byte more")
        }
    }
}

/// The repertoire number `index` of a seed; its files are written into the folder.
pub fn made(seed: u64, index: u64, folder: &Path) -> Repertoire {
    let mut rng = Rng::new(seed, index);
    let rng = &mut rng;
    let mut labels = BTreeSet::new();
    std::fs::create_dir_all(folder.join("sub")).expect("a folder for the files");
    let mut files: Vec<Vec<u8>> = Vec::new();
    let mut names: Vec<Vec<u8>> = Vec::new();
    for k in 0..1 + rng.below(12) {
        let file = match files.last() {
            Some(_) if rng.chance(45) => {
                let other = rng.below(files.len());
                variant(rng, &files[other].clone())
            }
            _ => script(rng),
        };
        let name = name(rng, k);
        let path = folder.join(OsStr::from_bytes(&name));
        std::fs::write(&path, &file).expect("a script file");
        if rng.chance(3) {
            labels.insert("not readable");
            std::fs::set_permissions(&path, std::fs::Permissions::from_mode(0)).expect("its permissions");
        }
        files.push(file);
        names.push(name);
    }
    let count = match rng.below(20) {
        0 | 1 => 0,
        2 => 1,
        3 | 4 => 63,
        5..=7 => 64,
        8 | 9 => 65,
        10 => 66 + rng.below(200),
        _ => 2 + rng.below(30),
    };
    let mut listed: Vec<Vec<u8>> = Vec::new();
    let odds = rng.one_of(&[0, 5, 20, 50]);
    for _ in 0..count {
        let known = rng.below(names.len());
        if rng.chance(odds) {
            let (name, label) = odd(rng, &names[known]);
            labels.insert(label);
            listed.push(name);
        } else {
            labels.extend(listed.contains(&names[known]).then_some("repeated"));
            listed.push(names[known].clone());
        }
    }
    let mut input = listed.join(&b'\n');
    if !listed.is_empty() {
        if rng.chance(60) {
            input.push(b'\n');
        } else {
            labels.insert("no final LF");
        }
    }
    label(&input, folder, &mut labels);
    let way = match rng.below(4) {
        0 | 1 => Way::File,
        2 => Way::Pieces(1 + rng.below(20)),
        _ => Way::Pieces(1 + rng.below(5_000)),
    };
    Repertoire { input, way, labels }
}

/// What the sheet comes to.
fn label(input: &[u8], folder: &Path, labels: &mut BTreeSet<&'static str>) {
    let Ok(names) = sheet::names(input) else {
        labels.insert(if input.is_empty() { "refused for no name" } else { "refused for more than 64" });
        return;
    };
    if names.len() == 64 {
        labels.insert("64 names");
    }
    let opened = names.iter().filter(|name| sheet::opened(name));
    let files: Vec<Vec<u8>> = opened.map(|name| std::str::from_utf8(name).map(|name| std::fs::read(folder.join(name)).unwrap_or_default()).unwrap_or_default()).collect();
    let mut reports = BTreeSet::new();
    let mut contents = BTreeSet::new();
    let mut cues = BTreeSet::new();
    let mut refusals = BTreeSet::new();
    for file in &files {
        match plan(file, &ONES, SCRATCH) {
            Ok(plan) => {
                reports.insert(reference::report_text(&plan));
                contents.insert(file);
                cues.insert(lines(file).into_iter().filter(|line| line.starts_with(b"row=cue ")).collect::<Vec<_>>());
            }
            Err((number, _)) => {
                refusals.insert(number);
            }
        }
    }
    labels.extend((contents.len() > reports.len()).then_some("other files of one report"));
    labels.extend((contents.len() > cues.len()).then_some("other files of the same cues"));
    let groups = sheet::sheet(&files);
    labels.extend((!groups.ends_with(format!("groups={}\n", reports.len()).as_bytes())).then_some("other cues of one report"));
    labels.extend((!groups.ends_with(format!("groups={}\n", contents.len()).as_bytes())).then_some("other files of one group"));
    labels.extend((refusals.len() > 1).then_some("several refusal numbers"));
}

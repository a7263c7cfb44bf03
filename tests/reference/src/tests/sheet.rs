//! Change 10: the sheet of a season.

use super::*;
use crate::sheet::{names, opened, season, sheet};

#[test]
fn names_and_question_18() {
    assert_eq!(names(b""), Err((18, 0)));
    assert_eq!(names(b"\n"), Ok(vec![&b""[..]]));
    assert_eq!(names(b"\n\n"), Ok(vec![&b""[..], b""]));
    assert_eq!(names(b"a"), Ok(vec![&b"a"[..]]));
    assert_eq!(names(b"a\n"), Ok(vec![&b"a"[..]]));
    assert_eq!(names(b"a\n\nb\r\n c\0"), Ok(vec![&b"a"[..], b"", b"b\r", b" c\0"]));
    for (bytes, count) in [("a\n", 64), ("\n", 64)] {
        assert_eq!(names(bytes.repeat(count).as_bytes()).map(|names| names.len()), Ok(count));
        assert_eq!(names(bytes.repeat(count + 1).as_bytes()), Err((18, 0)));
    }
    assert_eq!(names(&["a\n".repeat(63), "a".into()].concat().into_bytes()).map(|names| names.len()), Ok(64));
    assert_eq!(names(&["a\n".repeat(64), "a".into()].concat().into_bytes()), Err((18, 0)));
    assert!(opened(b"a") && opened(&[b'a'; 255]) && opened(b"\r") && opened(b"\xff "));
    assert!(!opened(b"") && !opened(&[b'a'; 256]) && !opened(b"\0") && !opened(b"a\0") && !opened(b"a\0b"));
    // Before any file is read.
    assert_eq!(season(b"", |_| panic!("a file is read")), b"refused=18 0\n");
    assert_eq!(season(&[b'\n'; 65], |_| panic!("a file is read")), b"refused=18 0\n");
    // These are not opened.
    let empty = season(&[&b"\na\0\n"[..], &[b'a'; 256], b"\n"].concat(), |_| panic!("a file is opened"));
    assert_eq!(empty, b"accepted=0\nrefused=3\nrefused-3=3\nticks=0\ngreatest=0\ngroups=0\n");
}

#[test]
fn sheets() {
    let listing = file(LISTING_RANGES, LISTING);
    let printed = |files: &[&[u8]]| String::from_utf8(sheet(&files.iter().map(|file| file.to_vec()).collect::<Vec<_>>())).unwrap();
    assert_eq!(printed(&[]), "accepted=0\nrefused=0\nticks=0\ngreatest=0\ngroups=0\n");
    assert_eq!(printed(&[&listing, &listing]), "accepted=2\nrefused=0\nticks=64\ngreatest=32\ngroups=1\n");
    let cue = file(&[], &["cue 1"]);
    let stands = file(&[(0, 0)], &["while v0 < 3", "end"]);
    let grows = file(&[(0, 0)], &["while v0 < 3", "mul v0 2", "end"]);
    assert_eq!(
        printed(&[&grows, &cue, &stands, b"", &listing, &[b'x'; 16_385], &stands, &cue, &[b'x'; 16_384]]),
        "accepted=3\nrefused=6\nrefused-2=1\nrefused-3=2\nrefused-9=2\nrefused-12=1\nticks=34\ngreatest=32\ngroups=2\n"
    );
    // Report and cues decide: other ranges and other bytes are no matter, other ticks are.
    let groups = |files: &[&[u8]]| printed(files).lines().last().unwrap().to_string();
    assert_eq!(groups(&[&cue, &file(&[(0, 9)], &["cue 1"])]), "groups=1");
    assert_eq!(groups(&[&cue, &file(&[], &["cue 1", "cue 1"])]), "groups=2");
    assert_eq!(groups(&[&file(&[(0, 0)], &["for v0 1 < 3 add 1", "end"]), &file(&[(0, 0)], &["for v0 1 < 3 add 1", "end"])]), "groups=1");
    assert_eq!(groups(&[&file(&[(0, 0)], &["for v0 1 < 3 add 1", "end"]), &file(&[(0, 0)], &["for v0 3 > 1 sub 1", "end"])]), "groups=2");
    // Change 13: all cues in row order, and the reports as before.
    let rows = |rows: &[&str]| file(&[(0, 0), (0, 0)], rows);
    for (one, other, same) in [
        (&["cue 1", "cue 2"][..], &["cue 1", "cue 2"][..], true),
        (&["cue 1", "cue 2"], &["cue 2", "cue 1"], false),
        (&["cue 1", "cue 2"], &["cue 1", "cue 3"], false),
        (&["cue 1", "cue 1", "cue 2"], &["cue 1", "cue 2", "cue 2"], false),
        (&["cue 1", "cue 1", "cue 2"], &["cue 2", "cue 1", "cue 1"], false),
        (&["cue 1", "add v0 1"], &["add v0 1", "cue 1"], true),
        (&["cue 1", "add v0 1"], &["cue 1", "cue 1"], false),
        (&["cue 1"], &["add v0 1"], false),
        (&["pick", "cue 1", "else", "cue 2", "end"], &["pick", "cue 1", "else", "cue 3", "end"], false),
        (&["pick", "cue 1", "else", "cue 2", "end"], &["pick", "add v0 1", "cue 2", "else", "end"], false),
        (&["for v0 1 < 1 add 1", "cue 1", "end"], &["for v0 1 < 1 add 1", "cue 2", "end"], false),
        (&["for v0 1 < 3 add 1", "cue 1", "end"], &["for v1 1 < 3 add 1", "cue 1", "end"], true),
        (&["for v0 1 < 3 add 1", "cue 1", "end"], &["for v0 1 < 4 add 1", "cue 1", "end"], false),
    ] {
        assert_eq!(groups(&[&rows(one), &rows(other)]), if same { "groups=1" } else { "groups=2" }, "{one:?} {other:?}");
    }
}

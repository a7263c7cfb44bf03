//! Change 11: figures that can happen.

use super::*;
use crate::reach::{chosen, meets_the_terms};

fn planned(ranges: &[(i64, i64)], rows: &[&str]) -> Plan {
    plan(&file(ranges, rows), &ONES, SCRATCH).unwrap()
}

#[test]
fn terms() {
    let three: &[(i64, i64)] = &[(0, 0), (1, 1), (0, 3)];
    let meets = |rows: &[&str]| {
        let plan = planned(three, rows);
        plan.lines.iter().map(|line| meets_the_terms(&plan, line)).collect::<Vec<_>>()
    };
    for head in ["while v0 < 9", "do v0 < 9", "while v0 <= v1", "while v0 < 2*v1+3"] {
        assert_eq!(meets(&[head, "add v0 1", "end"]), [true], "{head}");
        assert_eq!(meets(&[head, "pick", "add v0 1", "else", "add v0 2", "end", "end"]), [true], "{head}");
    }
    assert_eq!(meets(&["for v0 9 >= 1 sub 1", "end"]), [true]);
    assert_eq!(meets(&["while v1 < 9", "mul v1 2", "end", "do v0 > 1", "div v0 2", "end"]), [true, true]);
    // Inside a block, or a loop inside.
    assert_eq!(meets(&["pick", "while v0 < 9", "add v0 1", "end", "end"]), [false]);
    assert_eq!(meets(&["for v1 0 < 2 add 1", "for v0 0 < 2 add 1", "end", "end", "for v0 0 < 2 add 1", "end"]), [false, false, true]);
    // == and !=, other kinds, and what is not single.
    assert_eq!(meets(&["while v0 == 0", "add v0 1", "end"]), [false]);
    assert_eq!(meets(&["while v0 != 3", "add v0 1", "end"]), [false]);
    assert_eq!(meets(&["while v0 < 3", "add v1 1", "set v0 v1", "end"]), [false]);
    assert_eq!(meets(&["while v0 < v1", "add v0 2", "add v1 1", "end"]), [false]);
    assert_eq!(meets(&["hold v1", "add v0 1", "off v1 v0 > 3", "end"]), [false]);
    assert_eq!(meets(&["while v0 < v2", "add v0 1", "end"]), [false]);
    assert_eq!(meets(&["while v2 < 9", "add v2 1", "end"]), [false]);
}

/// The slow branch each time reaches the turns, the fast one does not; the list alone does it too.
#[test]
fn slow_branches() {
    for (start, rows, turns, fast) in [
        (0, &["while v0 < 10", "pick", "add v0 2", "else", "add v0 3", "end", "add v0 1", "end"][..], 4, 3),
        (0, &["while v0 < 10", "pick", "add v0 3", "else", "add v0 1", "end", "end"], 10, 4),
        (0, &["while v0 < 10", "pick", "end", "pick", "sub v0 1", "end", "add v0 2", "end"], 10, 5),
        (9, &["do v0 > 0", "pick", "sub v0 1", "else", "pick", "sub v0 2", "else", "sub v0 9", "end", "end", "end"], 9, 1),
        (9, &["while v0 >= 0", "pick", "sub v0 4", "add v0 3", "else", "sub v0 5", "end", "end"], 10, 2),
        (1, &["while v0 <= 64", "pick", "mul v0 4", "end", "mul v0 2", "end"], 7, 3),
        (1, &["while v0 <= 64", "pick", "mul v0 4", "else", "mul v0 2", "end", "end"], 7, 4),
        (64, &["do v0 >= 1", "pick", "else", "div v0 4", "end", "div v0 2", "end"], 7, 3),
        (0, &["for v0 0 < 12 add 1", "pick", "add v0 1", "end", "pick", "add v0 1", "else", "sub v0 0", "end", "end"], 12, 4),
    ] {
        let plan = planned(&[(start, start)], rows);
        let (line, store) = (&plan.lines[0], [start as i32]);
        assert_eq!((line.turns, meets_the_terms(&plan, line)), (turns, true), "{rows:?}");
        let (counts, list) = chosen(&plan, line, &store, true, plan.ticks);
        assert_eq!((counts.ending, counts.all[0]), (Ending::Ended, turns), "{rows:?}");
        assert_eq!(run_planned(&plan, &store, &list, plan.ticks).unwrap().loops[0].1, turns, "{rows:?}");
        assert_eq!(chosen(&plan, line, &store, false, plan.ticks).0.all[0], fast, "{rows:?}");
    }
}

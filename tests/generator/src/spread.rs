//! How the generated files are answered, and how many of them use each change request.

use crate::{case, Case};
use reference::analyse::{blocks_over, closing, copied, counts_passes, grows_with, held, own_step, ClosingTerm, Term};
use reference::prices::prices;
use reference::read::{self, Kind, Loop, Operand};
use reference::{Counted, Line, Plan, Refusal, Row, Step, ONES, SCRATCH};
use std::collections::{BTreeMap, BTreeSet};

#[derive(Default)]
pub struct Spread {
    pub files: u64,
    /// Files by their refusal's number with four ones; 0 is accepted.
    pub answers: [u64; 20],
    /// Files by what they use: a change's word, a colon and what it comes to. `WORD:` counts each file once.
    pub uses: BTreeMap<String, u64>,
}

impl Spread {
    pub fn of(count: u64, seed: u64) -> Spread {
        let mut spread = Spread { files: count, ..Spread::default() };
        for index in 0..count {
            let Case { file, prices, .. } = case(seed, index);
            let plan = reference::plan(&file, &ONES, SCRATCH);
            let number = plan.as_ref().map_or_else(|refusal| refusal.0, |_| 0);
            spread.answers[number as usize] += 1;
            for label in labels(&file, &prices, &plan) {
                *spread.uses.entry(label).or_default() += 1;
            }
        }
        spread
    }

    pub fn used(&self, label: &str) -> u64 {
        self.uses.get(label).copied().unwrap_or(0)
    }
}

/// What a file uses. A refused file counts if it is refused for that use.
fn labels(file: &[u8], lent: &[u32], plan: &Result<Plan, Refusal>) -> BTreeSet<String> {
    let mut labels = BTreeSet::new();
    match prices(lent) {
        Ok(_) if lent == ONES => {}
        Ok(_) => {
            labels.insert("prices: good".into());
            labels.extend(lent.iter().filter(|price| [1, 1_000].contains(*price)).map(|price| format!("prices: {price}")));
        }
        Err((_, place)) => {
            labels.insert(format!("prices: refused at {}", place.min(5)));
            labels.insert(format!("prices: {} prices", lent.len().min(6)));
            labels.extend(lent.iter().filter(|price| [0, 1_001, u32::MAX].contains(*price)).map(|price| format!("prices: {price}")));
        }
    }
    let lines: Vec<&[u8]> = file.split(|&byte| byte == b'\n').collect();
    if lines.iter().any(|line| written(line)) {
        labels.insert("written: an expression".into());
    }
    match plan {
        Ok(plan) => {
            for line in &plan.lines {
                let Row::Loop(l) = plan.script.rows[line.row] else { unreachable!("a head row") };
                accepted(&plan.script.rows, line, &l, &mut labels);
            }
            for row in &plan.script.rows {
                expressions(row, &mut labels);
            }
            triangles(plan, &mut labels);
            offs(&plan.script.rows, &mut labels);
            if plan.rounded {
                labels.insert("level: rounded down".into());
            }
        }
        Err((number @ (8..=12 | 19), head)) => {
            let rows = read::script(file).expect("questions 2 to 7 have passed").rows;
            let Row::Loop(l) = rows[*head as usize] else { unreachable!("a head row") };
            refused(&rows, *number, *head as usize, &l, &mut labels);
        }
        Err((number @ (3 | 4 | 5 | 17), line)) if lines.get(*line as usize - 1).is_some_and(|line| written(line)) => {
            labels.insert(format!("expression: refused by {number}"));
            if *number == 17 {
                labels.extend(over(lines[*line as usize - 1]));
            }
        }
        Err((number @ (3 | 4 | 5 | 7), line)) if lines.get(*line as usize - 1).is_some_and(|line| holding(line)) => {
            labels.insert(format!("held: refused by {number}"));
        }
        Err((13, _)) => {
            let script = read::script(file).expect("questions 2 to 7 have passed");
            let over = blocks_over(&script, prices(&ONES).expect("four ones")).expect("questions 8 to 12 have passed");
            labels.insert(match over.len() {
                0 => "over: the file".into(),
                1 => "over: one block".into(),
                _ => "over: several blocks".into(),
            });
        }
        Err(_) => {}
    }
    let words: Vec<String> = labels.iter().map(|label| format!("{}:", label.split(':').next().unwrap())).collect();
    labels.extend(words);
    labels
}

/// Whether a row line has a word with an operator or a parenthesis, in a good shape or not.
fn written(line: &[u8]) -> bool {
    let operates = |word: &[u8]| word.iter().any(|byte| b"+*()".contains(byte)) || word.iter().skip(1).any(|&byte| byte == b'-');
    line.strip_prefix(b"row=").is_some_and(|row| row.split(|&byte| byte == b' ').any(operates))
}

/// Whether a row line has one of change 12's words, in a good shape or not.
fn holding(line: &[u8]) -> bool {
    line.starts_with(b"row=hold") || line.starts_with(b"row=off")
}

/// Where the offs are that end no hold.
fn offs(rows: &[Row], labels: &mut BTreeSet<String>) {
    let mut open: Vec<&Row> = Vec::new();
    for row in rows {
        match row {
            Row::Pick { .. } | Row::Loop(_) => open.push(row),
            Row::End { .. } => {
                open.pop();
            }
            Row::Off { v, w, .. } => {
                let place = match open.last() {
                    Some(Row::Loop(Loop { kind: Kind::Hold, v: flag, .. })) if flag == v => continue,
                    Some(Row::Loop(Loop { kind: Kind::Hold, .. })) => "in another's hold",
                    Some(Row::Loop(_)) => "in a loop",
                    Some(_) => "in a pick",
                    None => "outside all blocks",
                };
                labels.insert(format!("off: {place}"));
                if v == w {
                    labels.insert("off: watches its flag".into());
                }
            }
            _ => {}
        }
    }
}

/// By which of its measures a line is refused, where it is by one more than the limit.
fn over(line: &[u8]) -> Option<String> {
    let words = line.split(|&byte| byte == b' ');
    let measures = words.filter_map(|word| match reference::expression::operand(word, &mut Vec::new()) {
        Some(Operand::Expression(e)) => Some((e.depth, e.operators)),
        _ => None,
    });
    measures.max_by_key(|(depth, operators)| depth.max(operators).to_owned()).and_then(|measure| match measure {
        (9, 0..=15) => Some("expression: 17 for 9 parentheses".into()),
        (0..=8, 16) => Some("expression: 17 for 16 operators".into()),
        _ => None,
    })
}

/// Where an accepted row has expressions, and of what size.
fn expressions(row: &Row, labels: &mut BTreeSet<String>) {
    let places: &[&str] = match row {
        Row::Loop(Loop { kind: Kind::For { .. }, .. }) => &["start of a for", "limit of a for"],
        Row::Loop(Loop { kind: Kind::Do, .. }) => &["limit of a do"],
        Row::Loop(_) => &["limit of a while"],
        _ => &["set"],
    };
    let mut operators = 0;
    for (x, place) in row.operands().zip(places) {
        let Operand::Expression(e) = x else { continue };
        labels.insert(format!("expression: {place}"));
        operators += e.operators;
        if e.depth == 8 {
            labels.insert("expression: 8 parentheses".into());
        }
        if e.operators == 15 {
            labels.insert("expression: 15 operators".into());
        }
        if e.operators == 0 {
            labels.insert("expression: parentheses alone".into());
        }
    }
    if operators > 15 {
        labels.insert("expression: more than 15 operators in two".into());
    }
}

/// The loops whose total is a sum, and those that a broken term leaves a product.
fn triangles(plan: &Plan, labels: &mut BTreeSet<String>) {
    let rows = &plan.script.rows;
    let loops: Vec<(&Line, &Loop)> = plan.lines.iter().filter_map(|line| match &rows[line.row] {
        Row::Loop(l) => Some((line, l)),
        _ => None,
    }).collect();
    for (k, (outer, o)) in loops.iter().enumerate() {
        let inside: Vec<_> = loops[k + 1..].iter().filter(|(line, _)| line.row < o.end as usize).collect();
        let mut sums = 0;
        for (line, l) in &inside {
            let grows = grows_with(rows, outer.row, o, line.row, l);
            match (counts_passes(o, outer), grows) {
                (Ok(()), Ok(())) => {
                    sums += 1;
                    labels.insert(format!("triangle: in a {}", form(o)));
                    labels.insert(format!("triangle: {:?}", o.compare));
                    labels.insert(format!("triangle: inner {:?}", l.compare));
                    if outer.turns < 2 {
                        labels.insert(format!("triangle: {} passes", outer.turns));
                    }
                    if outer.turns == 4_096 {
                        labels.insert("triangle: 4096 passes".into());
                    }
                    if loops[..k].iter().any(|(_, round)| round.end > o.end) {
                        labels.insert("triangle: in a loop".into());
                    }
                    if loops[..k].iter().any(|(_, round)| round.end > o.end && round.kind == Kind::Hold) {
                        labels.insert("held: round a triangle".into());
                    }
                    if inside.iter().any(|(further, f)| line.row < further.row && further.row < l.end as usize && f.kind == Kind::Hold) {
                        labels.insert("held: in a triangle's inner".into());
                    }
                    if inside.iter().any(|(_, f)| f.kind == Kind::Hold) {
                        labels.insert("held: in a triangle's outer".into());
                    }
                    if inside.iter().any(|(further, _)| line.row < further.row && further.row < l.end as usize) {
                        labels.insert("triangle: with a loop further inside".into());
                    }
                    if line.turns > 100_000_000 {
                        labels.insert("triangle: a longest pass that is not known".into());
                    }
                }
                (Err(term), Ok(())) => {
                    labels.insert(format!("no triangle: for the outer's {term:?}"));
                    labels.extend((outer.turns == 4_097).then(|| "no triangle: 4097 passes".into()));
                }
                // Only those that read the outer variable.
                (Ok(()), Err(term)) if l.limit.variables(&plan.script.items) & 1 << o.v != 0 => {
                    labels.insert(format!("no triangle: for the inner's {term:?}"));
                }
                _ => {}
            }
        }
        if sums > 1 {
            labels.insert("triangle: several in a body".into());
        }
    }
}

fn form(l: &Loop) -> &'static str {
    match l.kind {
        Kind::While => "while",
        Kind::Do => "do",
        Kind::For { .. } => "for",
        Kind::Hold => "hold",
    }
}

fn accepted(rows: &[Row], line: &Line, l: &Loop, labels: &mut BTreeSet<String>) {
    let (word, kind) = match line.counted {
        Counted::Tested => return,
        Counted::Copied => match copied(rows, line.row, l) {
            Ok(copy) if copy.rows_first => ("copied", "rows first"),
            _ => ("copied", "copy first"),
        },
        Counted::Closing => match own_step(rows, line.row, l) {
            Step::STILL => ("closing", "the tested stands"),
            step if step == line.step => ("closing", "the limit stands"),
            _ => ("closing", "both move"),
        },
        Counted::Held => match held(rows, line.row, l) {
            Ok(held) if held.rows_first => ("held", "rows first"),
            _ => ("held", "off first"),
        },
    };
    labels.insert(format!("{word}: {}, {kind}", form(l)));
    let compare = held(rows, line.row, l).map_or(l.compare, |held| held.compare);
    labels.insert(format!("{word}: {compare:?}"));
    labels.insert(format!("{word}: {}", if line.exact { "exact" } else { "most" }));
    if line.turns < 2 {
        labels.insert(format!("{word}: {} of {} turns", form(l), line.turns));
    }
}

fn refused(rows: &[Row], number: u32, head: usize, l: &Loop, labels: &mut BTreeSet<String>) {
    if let Err(term) = held(rows, head, l) {
        if number == 19 {
            labels.insert(format!("held: 19 for {term:?}"));
            return;
        }
    }
    let body = &rows[head + 1..l.end as usize];
    let switched = |variable: u8| body.iter().any(|row| matches!(row, Row::Off { v, .. } if *v == variable));
    if number == 8 && switched(l.v) {
        labels.insert("off: refused by 8".into());
    }
    if number == 10 && matches!(l.limit, Operand::Variable(w) if switched(w)) {
        labels.insert("off: refused by 10".into());
    }
    let sets = rows[head + 1..l.end as usize].iter().filter_map(|row| match *row {
        Row::Set { v, x } if v == l.v => Some(x),
        _ => None,
    });
    let copies = sets.clone().any(|x| matches!(x, Operand::Variable(w) if w != l.v));
    if number == 8 && sets.clone().any(|x| matches!(x, Operand::Expression(_))) {
        labels.insert("expression: refused by 8".into());
    }
    if number == 10 && matches!(l.limit, Operand::Expression(_)) {
        labels.insert("expression: refused by 10".into());
    }
    match copied(rows, head, l) {
        Ok(_) => {
            labels.insert(format!("copied: refused by {number}"));
        }
        Err(term) if number == 8 && (copies || term == Term::Copy && sets.count() > 0) => {
            labels.insert(format!("copied: 8 for {term:?}"));
        }
        Err(_) => {}
    }
    match closing(rows, head, l) {
        Ok(_) => {
            labels.insert(format!("closing: refused by {number}"));
        }
        Err(ClosingTerm::Limit) => {}
        Err(term) => {
            labels.insert(format!("closing: {number} for {term:?}"));
        }
    }
}

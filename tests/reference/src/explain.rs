//! What docs/PROGRAMS.md says of the program explain: a script with its figures in a margin, or where a refusal points.

use crate::analyse::{block_ticks, unknown};
use crate::causes::{cause, Kind};
use crate::{desk, prices, read, Line, Plan, Prices, Refusal, Row, Script};

const COLUMNS: usize = 100;

/// The figure of a block or a file that 13 refuses.
const OVER: &str = "\nits figure: more than 1000000000000 ticks\n";

/// A text from a column on, in lines of no more than 100 columns; a byte that is not plain ASCII is shown as `?`.
fn wrapped(text: &[u8], column: usize) -> String {
    let shown: String = text.iter().map(|&b| if (b' '..=b'~').contains(&b) { b as char } else { '?' }).collect();
    let room = COLUMNS.saturating_sub(column).max(1);
    let mut lines = Vec::new();
    let mut rest = shown.as_str();
    while rest.len() > room {
        lines.push(&rest[..room]);
        rest = &rest[room..];
    }
    lines.push(rest);
    lines.join(&format!("\n{:column$}", ""))
}

/// Line n of a file, from 1, if it has bytes or an LF.
fn line(file: &[u8], n: usize) -> Option<&[u8]> {
    let mut rest = file;
    for _ in 1..n {
        let end = rest.iter().position(|&b| b == b'\n')?;
        rest = &rest[end + 1..];
    }
    if rest.is_empty() {
        return None;
    }
    Some(rest.split(|&b| b == b'\n').next().unwrap_or(rest))
}

/// A line with a mark under a byte, cut round it where it has more than 94 bytes.
fn marked(line: &[u8], at: Option<usize>) -> String {
    let mark = at.unwrap_or(0);
    let from = if line.len() <= 94 { 0 } else { mark.saturating_sub(48).min(line.len()) };
    let to = (from + 94).min(line.len());
    let dots = |shown: bool| if shown { ".." } else { "" };
    let text: String = line[from..to].iter().map(|&b| if (b' '..=b'~').contains(&b) { b as char } else { '?' }).collect();
    let front = dots(from > 0);
    let shown = format!("  {front}{text}{}\n", dots(to < line.len()));
    match at {
        Some(at) => format!("{shown}  {:1$}^\n", "", front.len() + at - from),
        None => shown,
    }
}

fn named(file: &[u8], n: usize) -> String {
    line(file, n).map_or("  (the file ends before this line)\n".into(), |text| marked(text, None))
}

/// The number after a key of five bytes on a line that has been read.
fn count(file: &[u8], n: usize) -> usize {
    let text = line(file, n).map_or("", |text| std::str::from_utf8(&text[5..]).unwrap_or(""));
    text.parse().unwrap_or(0)
}

/// Of a refusal by 3 the line with its mark, and the first line of the cause.
fn shapeless(file: &[u8], place: usize) -> String {
    let Some(text) = line(file, place) else {
        return named(file, place) + "\ncause\n  the file ends too early\n";
    };
    let vars = if place > 2 { count(file, 2) } else { 0 };
    let rows = if place > 3 + vars { count(file, 3 + vars) } else { 0 };
    if place > 3 + vars + rows && place > 3 {
        return named(file, place) + "\ncause\n  the last row stands before this line, and nothing may follow it\n";
    }
    let kind = match place {
        1 => Kind::Script,
        2 => Kind::Vars,
        _ if place <= 2 + vars => Kind::Range,
        _ if place == 3 + vars => Kind::Rows,
        _ => Kind::Row,
    };
    let ended = file.split(|&b| b == b'\n').count() > place;
    let (at, words) = cause(kind, text, ended).expect("a cause");
    marked(text, Some(at)) + &format!("\ncause\n  {words}\n")
}

/// The front of what is printed of a refusal, of 3 up to the first line of its cause. `script`: a file that was read.
fn refused(file: &[u8], script: Option<&Script>, refusal: Refusal) -> String {
    let (number, place) = (refusal.0, refusal.1 as usize);
    let mut text = String::from_utf8(desk::refused(refusal)).expect("ASCII");
    let row = |script: &Script, row: usize| format!("row {row}, line {}\n{}", 4 + script.vars + row, named(file, 4 + script.vars + row));
    match (number, script) {
        (3, _) => text += &format!("\nline {place}\n{}", shapeless(file, place)),
        // The mark, and so the cut of a long line, is not compared.
        (4 | 5, _) => text += &format!("\nline {place}\n{}", line(file, place).map_or(String::new(), |text| if text.len() <= 94 { marked(text, None) } else { "  ".into() })),
        (6 | 7 | 17, _) => text += &format!("\nline {place}\n{}", named(file, place)),
        (8..=13 | 19, Some(script)) if place >= script.rows.len() => text += &format!("\nthe whole file\n{OVER}"),
        (13, Some(script)) => {
            let head = script.rows.iter().position(|row| end_of(row) == Some(place)).expect("a head");
            text += &format!("\nthe block\n{}\n{}{OVER}", row(script, head), row(script, place));
        }
        (8..=12 | 19, Some(script)) => text += &format!("\n{}", row(script, place)),
        _ => (),
    }
    text
}

/// The last row of the block that a row begins.
fn end_of(row: &Row) -> Option<usize> {
    match row {
        Row::Pick { end, .. } => Some(*end as usize),
        Row::Loop(l) => Some(l.end as usize),
        _ => None,
    }
}

/// How much of the whole a part is, in n-ths, rounded down and no more than all.
fn share(part: u128, whole: u64, n: u128) -> usize {
    if whole == 0 {
        return 0;
    }
    (part.saturating_mul(n) / whole as u128).min(n) as usize
}

struct Widths {
    turns: usize,
    total: usize,
    ticks: usize,
}

fn width<T: ToString>(figures: impl Iterator<Item = T>) -> usize {
    figures.map(|figure| figure.to_string().len()).max().unwrap_or(0).max("turns".len())
}

fn figures_of(line: Option<&Line>, w: &Widths) -> String {
    let Some(line) = line else {
        return " ".repeat(w.turns + 1 + w.total + 6);
    };
    let word = if line.exact { "exact" } else { "most " };
    format!("{:>2$} {:>3$} {word}", line.turns, line.total, w.turns, w.total)
}

fn block_of(ticks: Option<u128>, passes: u128, whole: u64, w: &Widths) -> String {
    let Some(ticks) = ticks else {
        return " ".repeat(w.ticks + 21);
    };
    let part = ticks.saturating_mul(passes);
    let bar = "#".repeat(share(part, whole, 10));
    format!(" {ticks:>0$} [{bar:<10}] {1:>3}%  ", w.ticks, share(part, whole, 100))
}

/// A line for each variable of the bits: it is not known before the loop, and what helps.
fn not_known(script: &Script, bits: u16) -> String {
    let line = |v: usize| {
        let wide = script.ranges[v] == [-1_000_000_000, 1_000_000_000];
        let narrower = if wide { "give it a narrower range= or " } else { "" };
        format!("        v{v} is not known here (-L to L): {narrower}set it before the loop\n")
    };
    (0..16).filter(|v| bits & 1 << v != 0).map(line).collect()
}

fn shown(file: &[u8], plan: &Plan) -> String {
    let rows = &plan.script.rows;
    let unknown = unknown(&plan.script, plan.prices);
    let blocks = block_ticks(&plan.script, plan.prices);
    let ticks_at = |end: usize| blocks.iter().find(|block| block.0 == end).map(|block| block.1);
    let w = Widths {
        turns: width(plan.lines.iter().map(|line| line.turns)),
        total: width(plan.lines.iter().map(|line| line.total)),
        ticks: width(blocks.iter().map(|block| block.1)),
    };
    let heading = |word: &str, width: usize| format!("{word:>width$}");
    let mut text = format!("ticks={}\n\nrow {} {}", plan.ticks, heading("turns", w.turns), heading("total", w.total));
    text += &format!("       {} share              script\n", heading("ticks", w.ticks));
    // The totals of the loops round a row, 1 outside; a pick has that of what it stands in.
    let mut open: Vec<u128> = vec![1];
    for (i, row) in rows.iter().enumerate() {
        if let Row::End { .. } = row {
            open.pop();
        }
        let depth = open.len() - 1 - matches!(row, Row::Else { .. }) as usize;
        let line = plan.lines.iter().find(|line| line.row == i);
        let passes = open[open.len() - 1];
        let margin = format!("{i:>3} {}{}", figures_of(line, &w), block_of(end_of(row).and_then(ticks_at), passes, plan.ticks, &w));
        let column = margin.len() + 2 * depth;
        let words = self::line(file, 4 + plan.script.vars + i).expect("a row's line");
        text += &format!("{margin}{:1$}{2}\n", "", 2 * depth, wrapped(&words["row=".len()..], column));
        text += &unknown.iter().filter(|(head, _)| *head == i).map(|(_, bits)| not_known(&plan.script, *bits)).collect::<String>();
        match row {
            Row::Pick { .. } => open.push(passes),
            Row::Loop(_) => open.push(line.expect("a loop's line").total),
            _ => (),
        }
    }
    text
}

/// What explain prints of a file: all of an accepted one, and of a refused one what stands before its cause, of 3 with the first line of it.
pub fn explain(file: &[u8], lent: &[u32]) -> Result<String, (u32, String)> {
    let wrong = |script: Option<&Script>, refusal: Refusal| (refusal.0, refused(file, script, refusal));
    let by: Prices = prices::prices(lent).map_err(|refusal| wrong(None, refusal))?;
    let script: Script = read::script(file).map_err(|refusal| wrong(None, refusal))?;
    let plan = crate::analyse::analyse(script.clone(), by).map_err(|refusal| wrong(Some(&script), refusal))?;
    Ok(shown(file, &plan))
}

//! A second implementation of document 01 in plain Rust, written from its text alone, to compare the
//! proved one with and to time it against. A refusal is the question's number and its place.
//! In force are the change requests of documents 02 and 03 that the code names.

pub mod analyse;
pub mod causes;
pub mod desk;
pub mod explain;
pub mod expression;
pub mod frames;
pub mod live;
pub mod paused;
pub mod prices;
pub mod reach;
pub mod read;
pub mod run;
pub mod sheet;
pub mod write;

pub use analyse::{Counted, Line, Plan, Step};
pub use prices::{Prices, ONES};
pub use read::{Row, Script};
pub use run::{Counts, Ending, Entry};

pub type Refusal = (u32, u64);

/// Question 1's number, by change 7.
pub const SCRATCH: usize = 1_024;

/// Everything that both calls ask: 1 to 13, 16, 17 and 19.
pub fn plan(file: &[u8], prices: &[u32], scratch_len: usize) -> Result<Plan, Refusal> {
    if scratch_len < SCRATCH {
        return Err((1, SCRATCH as u64));
    }
    let prices = prices::prices(prices)?;
    analyse::analyse(read::script(file)?, prices)
}

/// The report of an accepted file, as the call would write it without a limit.
pub fn report_text(plan: &Plan) -> Vec<u8> {
    let mut text = [0; write::REPORT_LIMIT];
    let length = write::report(plan, &mut text);
    text[..length].to_vec()
}

/// The report call; the buffer gets the report, and the answer is its length.
pub fn report_into(file: &[u8], prices: &[u32], scratch_len: usize, buffer: &mut [u8]) -> Result<u64, Refusal> {
    let plan = plan(file, prices, scratch_len)?;
    let mut text = [0; write::REPORT_LIMIT];
    let length = write::report(&plan, &mut text);
    if buffer.len() < length {
        return Err((14, length as u64));
    }
    buffer[..length].copy_from_slice(&text[..length]);
    Ok(length as u64)
}

/// The report call for a buffer of a length; the answer is the report itself.
pub fn report(file: &[u8], prices: &[u32], scratch_len: usize, buffer_len: usize) -> Result<Vec<u8>, Refusal> {
    let text = report_text(&plan(file, prices, scratch_len)?);
    if buffer_len < text.len() {
        return Err((14, text.len() as u64));
    }
    Ok(text)
}

/// The run call, counts only: what the library's own call keeps. The second answer is the number of loops.
pub fn run_counts(
    file: &[u8],
    prices: &[u32],
    scratch_len: usize,
    store: &mut [i32],
    picks: &[u8],
    allowance: u64,
) -> Result<(Counts, usize), Refusal> {
    let Plan { script, prices, .. } = plan(file, prices, scratch_len)?;
    run::check_store(&script, store)?;
    let mut values = [0; 16];
    values[..store.len()].copy_from_slice(store);
    let counts = run::run(&script, &prices, &mut values, picks, allowance, &mut run::Deaf);
    store.copy_from_slice(&values[..store.len()]);
    Ok((counts, script.loops))
}

/// The whole answer of a run, with the list of entries.
#[derive(Clone, Debug, PartialEq, Eq)]
pub struct Run {
    pub ending: Ending,
    pub row: usize,
    pub ticks: u64,
    pub used: usize,
    pub store: Vec<i32>,
    /// In the order of their beginnings.
    pub entries: Vec<Entry>,
    /// Head row, all turns, most in one entry; in row order.
    pub loops: Vec<(usize, u64, u64)>,
}

/// The run of a planned file from a store inside its ranges, whose entries and ticks a listener is told; the list of entries is empty.
fn run_told<E: run::Listener>(plan: &Plan, store: &[i32], picks: &[u8], allowance: u64, listener: &mut E) -> Run {
    let mut values = [0; 16];
    values[..store.len()].copy_from_slice(store);
    let counts = run::run(&plan.script, &plan.prices, &mut values, picks, allowance, listener);
    let heads = plan.lines.iter().map(|line| line.row);
    Run {
        ending: counts.ending,
        row: counts.row,
        ticks: counts.ticks,
        used: counts.used,
        store: values[..store.len()].to_vec(),
        entries: Vec::new(),
        loops: heads.enumerate().map(|(k, row)| (row, counts.all[k], counts.most[k])).collect(),
    }
}

/// The run of a file that has its plan.
pub fn run_planned(plan: &Plan, store: &[i32], picks: &[u8], allowance: u64) -> Result<Run, Refusal> {
    run::check_store(&plan.script, store)?;
    let mut list = run::List::default();
    let run = run_told(plan, store, picks, allowance, &mut list);
    Ok(Run { entries: list.entries, ..run })
}

/// The run call.
pub fn run(
    file: &[u8],
    prices: &[u32],
    scratch_len: usize,
    store: &[i32],
    picks: &[u8],
    allowance: u64,
) -> Result<Run, Refusal> {
    run_planned(&plan(file, prices, scratch_len)?, store, picks, allowance)
}

/// Whether a run with an allowance of T or more keeps within its report's figures: it is not spent, takes
/// at most T ticks, no entry has more turns than TURNS and no loop more than TOTAL, and every entry of an
/// exact loop that its test ended has TURNS. The two counts must be those of the list. None if all is
/// well, else what is not.
pub fn breach(plan: &Plan, run: &Run) -> Option<String> {
    if run.ending == Ending::Spent {
        return Some("spent with the plan's ticks".into());
    }
    if run.ticks > plan.ticks {
        return Some(format!("{} ticks, planned {}", run.ticks, plan.ticks));
    }
    for (line, &(row, all, most)) in plan.lines.iter().zip(&run.loops) {
        let mut sum = 0;
        let mut greatest = 0;
        for entry in run.entries.iter().filter(|entry| entry.row == line.row) {
            sum += entry.turns;
            greatest = greatest.max(entry.turns);
            if entry.turns > line.turns {
                return Some(format!("loop {row}: {} turns in an entry, planned {}", entry.turns, line.turns));
            }
            if line.exact && entry.tested && entry.turns != line.turns {
                return Some(format!("loop {row}: {} turns in an entry, exactly {}", entry.turns, line.turns));
            }
        }
        if (row, all, most) != (line.row, sum, greatest) {
            return Some(format!("loop {row}: counts {all} {most}, listed {sum} {greatest}"));
        }
        if all as u128 > line.total {
            return Some(format!("loop {row}: {all} turns, planned {}", line.total));
        }
    }
    None
}

#[cfg(test)]
mod tests;

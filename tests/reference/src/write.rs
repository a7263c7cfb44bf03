//! The report writer.

use crate::analyse::{Plan, Step};

/// More than any report needs: 16 loop lines of less than 100 bytes each, and four short lines.
pub const REPORT_LIMIT: usize = 2_048;

struct Writer<'a> {
    buffer: &'a mut [u8; REPORT_LIMIT],
    at: usize,
}

impl Writer<'_> {
    fn text(&mut self, text: &[u8]) {
        self.buffer[self.at..self.at + text.len()].copy_from_slice(text);
        self.at += text.len();
    }

    fn number(&mut self, mut n: u64) {
        let mut digits = [0u8; 20];
        let mut first = digits.len();
        loop {
            first -= 1;
            digits[first] = b'0' + (n % 10) as u8;
            n /= 10;
            if n == 0 {
                break;
            }
        }
        self.text(&digits[first..]);
    }

    fn signed(&mut self, n: i64) {
        if n < 0 {
            self.text(b"-");
        }
        self.number(n.unsigned_abs());
    }
}

/// Writes the report and answers its length.
pub fn report(plan: &Plan, buffer: &mut [u8; REPORT_LIMIT]) -> usize {
    let mut out = Writer { buffer, at: 0 };
    out.text(b"report=1\nrows=");
    out.number(plan.script.rows.len() as u64);
    out.text(b"\nloops=");
    out.number(plan.lines.len() as u64);
    for line in &plan.lines {
        out.text(b"\nloop=");
        out.number(line.row as u64);
        let (word, first, second): (&[u8], i64, i64) = match line.step {
            Step::Add(a, b) => (b" add ", a, b),
            Step::Grow(a, b) => (b" grow ", a, b),
            Step::Shrink(a, b) => (b" shrink ", a, b),
            Step::Unknown => unreachable!("question 8"),
        };
        out.text(word);
        out.signed(first);
        out.text(b" ");
        out.signed(second);
        out.text(b" ");
        out.number(line.turns);
        out.text(b" ");
        out.number(line.total as u64);
        out.text(if line.exact { b" exact" } else { b" most" });
    }
    out.text(b"\nticks=");
    out.number(plan.ticks);
    out.text(b"\n");
    out.at
}

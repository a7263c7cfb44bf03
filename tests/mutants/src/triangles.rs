//! Mistakes of totals and ticks: both a second time, from the turns of each loop, by rules that can be wrong.

use reference::analyse::own_step;
use reference::read::{Compare, Kind, Loop, Operand};
use reference::{Counted, Line, Plan, Row, Step};

/// The rules, right ones first.
#[derive(Clone, Copy)]
pub struct Rules {
    /// Totals and ticks are sums at all.
    pub totals: bool,
    pub ticks: bool,
    /// The first value that is summed: the start, or that after so many passes.
    pub from_pass: i64,
    pub most_passes: u64,
    pub assigned_before: bool,
    pub in_a_pick: bool,
    pub not_exact: bool,
    pub in_parentheses: bool,
    /// Loops further inside multiply on from the sum.
    pub multiply_on: bool,
    /// The sum is taken times the total of the loop round the outer.
    pub times_round: bool,
    /// An off costs arithmetic.
    pub off_costs: bool,
}

pub const RIGHT: Rules = Rules {
    totals: true,
    ticks: true,
    from_pass: 0,
    most_passes: 4_096,
    assigned_before: false,
    in_a_pick: false,
    not_exact: false,
    in_parentheses: false,
    multiply_on: true,
    times_round: true,
    off_costs: true,
};

/// A loop with what is known of it, and the total of the loop round it.
#[derive(Clone, Copy)]
struct Outer<'p> {
    line: &'p Line,
    l: Loop,
    round: u128,
}

struct Walk<'p> {
    plan: &'p Plan,
    rules: Rules,
    totals: Vec<u128>,
}

/// The plan with totals and ticks by these rules.
pub fn figures(plan: &Plan, rules: Rules) -> Plan {
    let mut walk = Walk { plan, rules, totals: vec![0; plan.lines.len()] };
    let (ticks, _) = walk.block(0, plan.script.rows.len(), 1, 1, None, true);
    let mut plan = plan.clone();
    for (line, total) in plan.lines.iter_mut().zip(walk.totals) {
        line.total = total;
    }
    plan.ticks = ticks as u64;
    plan
}

impl Walk<'_> {
    /// The ticks of rows in a pass of the loop round them, and those of its loops that grow with it, over all passes. `round` is the total
    /// of the loop next round them and `product` what it would be without sums.
    fn block(&mut self, from: usize, to: usize, round: u128, product: u128, outer: Option<Outer>, direct: bool) -> (u128, u128) {
        let prices = self.plan.prices;
        let (mut ticks, mut grown) = (0, 0);
        let mut r = from;
        while r < to {
            match self.plan.script.rows[r] {
                Row::Off { .. } if !self.rules.off_costs => {}
                Row::Set { .. } | Row::Change { .. } | Row::Off { .. } => ticks += prices.arithmetic as u128,
                Row::Cue { .. } => ticks += prices.cue as u128,
                Row::Pick { middle, end } => {
                    let (middle, end) = (middle as usize, end as usize);
                    let (first, more) = self.block(r + 1, middle, round, product, outer, false);
                    let (second, still_more) = self.block(middle + 1, end, round, product, outer, false);
                    ticks += first.max(second) + prices.pick as u128;
                    grown += more.max(still_more);
                    r = end;
                }
                Row::Loop(l) => {
                    let (once, over_all) = self.looped(r, l, round, product, outer, direct);
                    ticks += once;
                    grown += over_all;
                    r = l.end as usize;
                }
                Row::Else { .. } | Row::End { .. } => {}
            }
            r += 1;
        }
        (ticks, grown)
    }

    fn loop_ticks(&self, l: &Loop, turns: u64, body: u128) -> u128 {
        let (test, arithmetic) = (self.plan.prices.test as u128, self.plan.prices.arithmetic as u128);
        let turns = turns as u128;
        match l.kind {
            Kind::While | Kind::Hold => turns * (body + test) + test,
            Kind::For { .. } => turns * (body + arithmetic + test) + arithmetic + test,
            Kind::Do => turns * (body + test),
        }
    }

    /// The turns of the loop at a row in each pass of the outer one, if it grows with it.
    fn by_pass(&self, r: usize, l: &Loop, outer: Option<Outer>, direct: bool) -> Option<Vec<u64>> {
        let (rows, rules) = (&self.plan.script.rows, self.rules);
        let Outer { line, l: o, .. } = outer?;
        let Step::Add(step, _) = line.step else { return None };
        let Kind::For { start: Operand::Constant(start), .. } = l.kind else { return None };
        let Step::Add(by, _) = own_step(rows, r, l) else { return None };
        let less = match l.compare {
            Compare::Lt => 1,
            Compare::Le => 0,
            _ => return None,
        };
        let limit = match l.limit {
            Operand::Variable(v) => v == o.v,
            Operand::Expression(e) => rules.in_parentheses && e.operators == 0 && l.limit.variables(&self.plan.script.items) == 1 << o.v,
            Operand::Constant(_) => false,
        };
        let assigned = rows[line.row + 1..r].iter().any(|row| match *row {
            Row::Set { v, .. } | Row::Change { v, .. } => v == o.v,
            _ => false,
        });
        let outer_fits = line.counted == Counted::Tested
            && (line.exact || rules.not_exact)
            && !matches!(o.compare, Compare::Eq | Compare::Ne)
            && line.turns <= rules.most_passes;
        if !outer_fits || !limit || !(direct || rules.in_a_pick) || assigned && !rules.assigned_before {
            return None;
        }
        let turns = |k: i64| {
            let last = line.start[0] + (k + rules.from_pass) * step - less;
            if (start as i64) > last { 0 } else { ((last - start as i64) / by + 1) as u64 }
        };
        Some((0..line.turns as i64).map(turns).collect())
    }

    /// The ticks of a loop in each pass of the one round it, and over all passes if it grows with that.
    fn looped(&mut self, r: usize, l: Loop, round: u128, product: u128, outer: Option<Outer>, direct: bool) -> (u128, u128) {
        let line = &self.plan.lines[l.index as usize];
        let by_pass = self.by_pass(r, &l, outer, direct);
        let turns = line.turns as u128;
        let total = match (&by_pass, outer) {
            (Some(by_pass), Some(outer)) if self.rules.totals => {
                let sum: u128 = by_pass.iter().map(|turns| *turns as u128).sum();
                if self.rules.times_round { sum * outer.round } else { sum }
            }
            _ => round * turns,
        };
        self.totals[l.index as usize] = total;
        let further = if self.rules.multiply_on { total } else { product * turns };
        let (body, grown) = self.block(r + 1, l.end as usize, further, product * turns, Some(Outer { line, l, round }), true);
        match by_pass {
            Some(by_pass) if self.rules.ticks => (0, by_pass.iter().map(|turns| self.loop_ticks(&l, *turns, body) + grown).sum()),
            _ => (self.loop_ticks(&l, line.turns, body) + grown, 0),
        }
    }
}

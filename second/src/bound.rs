//! The section 'Bound': overload, busy lengths, completions, responses, and the count of evaluations; and 'the bound with
//! its mode, candidate and job number' of document 02.

use crate::interference::{ceil_div, held, phase, Charging, Fixed};
use crate::parts::parts;
use crate::table::Table;

/// What a task gets: its bound, or why it has none.
#[derive(Clone, Copy, Debug, PartialEq, Eq)]
pub enum Outcome {
    Bounded(Bound),
    Overload,
    PastHorizon,
    BudgetSpent,
}

/// The greatest response, and the first in the walk that gives it: job p in the chains of candidate c of u in a mode.
#[derive(Clone, Copy, Debug, PartialEq, Eq)]
pub struct Bound {
    pub response: i64,
    pub mode: usize,
    pub c: usize,
    /// p, and p0 of that candidate.
    pub job: i64,
    pub first_job: i64,
    pub completion: i64,
}

/// The end of one task's analysis.
#[derive(Clone, Copy, Debug, PartialEq, Eq)]
pub struct Verdict {
    pub outcome: Outcome,
    pub evaluations: u32,
}

/// What a walk does, in order, for those who want to watch it.
#[derive(Clone, Copy, Debug, PartialEq, Eq)]
pub enum Step {
    /// Candidate c in a mode: what follows is of that.
    Candidate { c: usize, mode: usize },
    /// One evaluation put `at` in and gave `value`.
    Evaluation { at: i64, value: i64 },
    /// A chain for L ended.
    BusyLength(i64),
    /// A chain for a job ended.
    Response { job: i64, completion: i64, response: i64 },
}

/// 'That count is handed on from chain to chain', and with it the greatest response so far.
struct Walk<'w> {
    budget: u32,
    evaluations: u32,
    greatest: Option<Bound>,
    watch: &'w mut dyn FnMut(Step),
}

impl Walk<'_> {
    /// 'Each evaluation puts the present t in; the chain ends when t comes back.' With a limit (L only): 'with code 22
    /// when the value exceeds H'. 'Code 23 is given exactly when one more is due and the budget is already used.'
    fn chain(&mut self, start: i64, limit: Option<i64>, f: impl Fn(i64) -> i64) -> Result<i64, Outcome> {
        let mut t = start;
        loop {
            if self.evaluations == self.budget {
                return Err(Outcome::BudgetSpent);
            }
            self.evaluations += 1;
            let value = f(t);
            (self.watch)(Step::Evaluation { at: t, value });
            if limit.is_some_and(|limit| value > limit) {
                return Err(Outcome::PastHorizon);
            }
            if value == t {
                return Ok(t);
            }
            t = value;
        }
    }

    /// One candidate of u in one mode: its L chain, then its jobs, lowest first.
    fn candidate(&mut self, fixed: &Fixed, charging: Charging, c: usize, mode: usize) -> Result<(), Outcome> {
        (self.watch)(Step::Candidate { c, mode });
        let a = fixed.task();
        let period = fixed.own().period;
        let time = a.times[mode];
        // F, a's phase.
        let own_phase = phase(period, a, &fixed.own().tasks[c]);
        let first_job = 1 - held(period, a.jitter, own_phase);

        // 'The least t ≥ 1 with B + (ceil((t − F)/T) − p0 + 1)·C + released charges at t ≤ t.'
        let busy_length = self.chain(1, Some(Table::HORIZON), |t| {
            let jobs = ceil_div(t - own_phase, period) - first_job + 1;
            a.blocking + jobs * time + fixed.charges(Charging::Released, c, mode, t)
        })?;
        (self.watch)(Step::BusyLength(busy_length));

        // 'Jobs p0 to ceil((L − F)/T); there may be none for a candidate other than a.'
        let last_job = ceil_div(busy_length - own_phase, period);
        for job in first_job..=last_job {
            // 'The least t with B + (p − p0 + 1)·C + imposed charges at t = t.'
            let start = a.blocking + (job - first_job + 1) * time;
            let completion = self.chain(start, None, |t| start + fixed.charges(charging, c, mode, t))?;
            assert!(completion <= busy_length, "a completion never passes L");
            // 'Response of job p: w − (F + (p − 1)·T) + O, a signed number.'
            let response = completion - (own_phase + (job - 1) * period) + a.offset;
            (self.watch)(Step::Response { job, completion, response });
            // 'On ties the first in the walk order counts.'
            if self.greatest.is_none_or(|so_far| response > so_far.response) {
                self.greatest = Some(Bound { response, mode, c, job, first_job, completion });
            }
        }
        Ok(())
    }

    /// 'Take modes of u where a has C > 0 in ascending order, and in each the candidates in image order.'
    fn whole(&mut self, fixed: &Fixed, charging: Charging) -> Result<(), Outcome> {
        for mode in 0..fixed.own().modes {
            if fixed.task().times[mode] == 0 {
                continue;
            }
            for c in 0..fixed.own().tasks.len() {
                if fixed.is_candidate(c, mode) {
                    self.candidate(fixed, charging, c, mode)?;
                }
            }
        }
        Ok(())
    }
}

/// 'Demand of a and its rivals in one major frame, taking for each transaction the mode with the greatest sum (for u
/// only modes where a runs).'
pub fn frame_demand(fixed: &Fixed) -> i64 {
    let mut demand = 0;
    for (v, transaction) in fixed.table.transactions.iter().enumerate() {
        let mut greatest = 0;
        for mode in 0..transaction.modes {
            if v == fixed.u && fixed.task().times[mode] == 0 {
                continue;
            }
            let mut sum = 0;
            for (j, task) in transaction.tasks.iter().enumerate() {
                if fixed.is_rival(v, j, mode) || (v == fixed.u && j == fixed.a) {
                    sum += task.times[mode];
                }
            }
            greatest = greatest.max(sum);
        }
        demand += fixed.table.frame / transaction.period * greatest;
    }
    demand
}

/// The analysis of one task. `Imposed` gives the bound, `Released` the whole-job bound: 'the same with released charges
/// in each completion; L is unchanged'.
pub fn analyse(fixed: &Fixed, charging: Charging, budget: u32) -> Verdict {
    watched(fixed, charging, budget, &mut |_| ())
}

/// The same, telling each step of the walk. The parts of every bound are checked to add up to it.
pub fn watched(fixed: &Fixed, charging: Charging, budget: u32, watch: &mut dyn FnMut(Step)) -> Verdict {
    let mut walk = Walk { budget, evaluations: 0, greatest: None, watch };
    let outcome = if frame_demand(fixed) > fixed.table.frame {
        Outcome::Overload
    } else {
        match walk.whole(fixed, charging) {
            Err(outcome) => outcome,
            Ok(()) => Outcome::Bounded(walk.greatest.expect("a as its own candidate has a job")),
        }
    };
    if let Outcome::Bounded(bound) = outcome {
        parts(fixed, charging, bound).check(bound);
    }
    Verdict { outcome, evaluations: walk.evaluations }
}

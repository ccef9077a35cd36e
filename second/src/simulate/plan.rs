//! What happens outside the processor in a run: modes, events, arrivals, readiness, needs.
//!
//! 'Each transaction has a first event at any tick, then one every T, and one mode throughout. A job arrives O after
//! its event, is ready at most J later, and needs 1 to C ticks (no job where C is 0). Jobs of one task become ready
//! and are served in arrival order.'

use crate::interference::ceil_div;
use crate::random::Random;
use crate::table::{Table, Task, Transaction};

#[derive(Clone, Debug)]
pub struct Job {
    pub event: i64,
    pub ready: i64,
    pub need: i64,
}

/// A run up to tick `end`, but for who holds the processor. `jobs` has a row for each task, in arrival order.
#[derive(Clone, Debug)]
pub struct Plan {
    pub modes: Vec<usize>,
    pub first_events: Vec<i64>,
    pub jobs: Vec<Vec<Job>>,
    pub end: i64,
}

/// How the jobs of a run are drawn.
#[derive(Clone, Copy, Debug, PartialEq, Eq)]
pub enum Style {
    /// Readiness and needs at random.
    Random,
    /// Before the instant 0 as little work as may be, and what can be held back is ready at 0; from 0 on everything is
    /// ready at once and needs C.
    Critical,
    /// The same, with a few jobs at random.
    NearlyCritical,
}

/// How a transaction starts: its mode, and the task that sets the instant 0, if one does.
#[derive(Clone, Copy, Debug, PartialEq, Eq)]
pub struct Start {
    pub mode: usize,
    pub candidate: Option<usize>,
}

impl Start {
    /// A random mode, and in it some task that sets the instant, but none for a run that is random throughout.
    pub fn any(random: &mut Random, transaction: &Transaction, style: Style) -> Start {
        let mode = random.below(transaction.modes);
        let running: Vec<usize> =
            (0..transaction.tasks.len()).filter(|&task| transaction.tasks[task].times[mode] > 0).collect();
        let is_set = style != Style::Random && !running.is_empty();
        Start { mode, candidate: is_set.then(|| random.pick(&running)) }
    }
}

/// How large a run may be: its ticks after the instant 0, and the jobs of one transaction before it.
#[derive(Clone, Copy, Debug)]
pub struct Size {
    pub length: i64,
    pub jobs_before: i64,
}

/// A run from these starts, one for each transaction.
pub fn plan(random: &mut Random, table: &Table, starts: &[Start], style: Style, size: Size) -> Plan {
    let mut plan = Plan { modes: Vec::new(), first_events: Vec::new(), jobs: Vec::new(), end: size.length };
    for (transaction, start) in table.transactions.iter().zip(starts) {
        let first = first_event(random, transaction, start, size.jobs_before);
        plan.modes.push(start.mode);
        plan.first_events.push(first);
        for task in &transaction.tasks {
            plan.jobs.push(jobs(random, task, start.mode, first, transaction.period, style, size.length));
        }
    }
    plan
}

/// The candidate's job arrives as early as can be ready at tick 0, which is how it sets the critical instant.
fn first_event(random: &mut Random, transaction: &Transaction, start: &Start, jobs_before: i64) -> i64 {
    let period = transaction.period;
    let anywhere = random.within(-2 * period, period);
    let Some(c) = start.candidate.map(|c| &transaction.tasks[c]) else { return anywhere };
    let event = -(c.offset + c.jitter);
    let running: Vec<&Task> = transaction.tasks.iter().filter(|task| task.times[start.mode] > 0).collect();
    // The first event of which some job can be held back to 0.
    let back = |task: &&Task| ceil_div(-(task.offset + task.jitter) - event, period);
    let first = event + running.iter().map(back).min().unwrap_or(0) * period;
    let before: i64 = running.iter().map(|task| ceil_div(-(first + task.offset), period).max(0)).sum();
    if before <= jobs_before {
        first
    } else {
        anywhere
    }
}

fn jobs(
    random: &mut Random,
    task: &Task,
    mode: usize,
    first_event: i64,
    period: i64,
    style: Style,
    end: i64,
) -> Vec<Job> {
    let mut jobs: Vec<Job> = Vec::new();
    let time = task.times[mode];
    if time == 0 {
        return jobs;
    }
    let mut event = first_event;
    while event + task.offset < end {
        let arrival = event + task.offset;
        let latest = arrival + task.jitter;
        let at_random = match style {
            Style::Random => true,
            Style::Critical => false,
            Style::NearlyCritical => random.percent(8),
        };
        let (ready, need) = if at_random {
            (random.within(arrival, latest), random.within(1, time))
        } else if arrival < 0 && latest >= 0 {
            (0, time)
        } else {
            (arrival, if arrival < 0 { 1 } else { time })
        };
        // In arrival order: not before the job ahead.
        let ready = jobs.last().map_or(ready, |ahead| ready.max(ahead.ready));
        jobs.push(Job { event, ready, need });
        event += period;
    }
    jobs
}

//! Whether a recorded run is legal: each sentence of 'Legal run' looked at again, from the record alone.

use crate::interference::ceil_div;
use crate::simulate::play::{tasks, Run};
use crate::table::Table;
use std::collections::BTreeMap;

/// A job from its event to its finish, or to the end of the run if it is not finished there.
pub struct Response {
    pub task: usize,
    pub event: i64,
    pub until: i64,
    pub is_finished: bool,
}

impl Response {
    /// 'Response runs from event to finish.' A job that is not finished at the end of the run finishes a tick later at
    /// the earliest.
    pub fn ticks(&self) -> i64 {
        self.until - self.event + !self.is_finished as i64
    }
}

/// The response of each job, or the first sentence that the run breaks. With `wide` a stretch of pending work also ends
/// where all its jobs have finished at the edge of a tick.
pub fn responses(table: &Table, run: &Run, wide: bool) -> Result<Vec<Response>, String> {
    arrivals(table, run)?;
    let finishes = service(run)?;
    holding(table, &sections(&changes(table, run, &finishes), run.plan.end), wide)?;
    let mut responses = Vec::new();
    for (task, row) in run.plan.jobs.iter().enumerate() {
        for (index, job) in row.iter().enumerate() {
            let finish = finishes[task].get(index);
            let until = *finish.unwrap_or(&run.plan.end);
            responses.push(Response { task, event: job.event, until, is_finished: finish.is_some() });
        }
    }
    Ok(responses)
}

/// 'Each transaction has a first event at any tick, then one every T, and one mode throughout. A job arrives O after
/// its event, is ready at most J later, and needs 1 to C ticks (no job where C is 0). Jobs of one task become ready in
/// arrival order.'
fn arrivals(table: &Table, run: &Run) -> Result<(), String> {
    let mut number = 0;
    for (v, transaction) in table.transactions.iter().enumerate() {
        for task in &transaction.tasks {
            let time = task.times[run.plan.modes[v]];
            let row = &run.plan.jobs[number];
            let first_arrival = run.plan.first_events[v] + task.offset;
            let arrived = ceil_div(run.plan.end - first_arrival, transaction.period).max(0);
            if row.len() as i64 != if time > 0 { arrived } else { 0 } {
                return Err(format!("task {number} has not one job for each event, or one where C is 0"));
            }
            for (index, job) in row.iter().enumerate() {
                let arrival = job.event + task.offset;
                let is_event = job.event == run.plan.first_events[v] + index as i64 * transaction.period;
                let in_order = index == 0 || row[index - 1].ready <= job.ready;
                let is_ready = arrival <= job.ready && job.ready <= arrival + task.jitter;
                if !(is_event && in_order && is_ready && 1 <= job.need && job.need <= time) {
                    return Err(format!("task {number} job {index} does not arrive as the table says"));
                }
            }
            number += 1;
        }
    }
    Ok(())
}

/// When the finished jobs of each task finished (the tick after the last), in arrival order, if a job is served only
/// when it is ready and unfinished, in arrival order.
fn service(run: &Run) -> Result<Vec<Vec<i64>>, String> {
    let mut finishes = vec![Vec::new(); run.plan.jobs.len()];
    let mut served = vec![0; run.plan.jobs.len()];
    let mut tick = run.start;
    for piece in &run.pieces {
        let until = tick + piece.ticks;
        while let (Some(task), true) = (piece.who, tick < until) {
            let Some(job) = run.plan.jobs[task].get(finishes[task].len()) else {
                return Err(format!("task {task} is served with no job left"));
            };
            if tick < job.ready {
                return Err(format!("task {task} is served before it is ready"));
            }
            let ticks = (until - tick).min(job.need - served[task]);
            tick += ticks;
            served[task] += ticks;
            if served[task] == job.need {
                finishes[task].push(tick);
                served[task] = 0;
            }
        }
        tick = until;
    }
    let is_whole = tick == run.plan.end && run.pieces.iter().all(|piece| piece.ticks > 0);
    is_whole.then_some(finishes).ok_or("the pieces do not go from the start to the end".into())
}

/// What can change between two ticks, in this order.
#[derive(Clone, Copy, PartialEq, Eq, PartialOrd, Ord)]
enum Change {
    /// A job of this priority finishes, or becomes ready.
    Finished(i64),
    Ready(i64),
    Held(Option<usize>),
}

/// All changes of the record before its end, in order.
fn changes(table: &Table, run: &Run, finishes: &[Vec<i64>]) -> Vec<(i64, Change)> {
    let mut changes = Vec::new();
    for (number, task) in tasks(table).into_iter().enumerate() {
        let row = &run.plan.jobs[number];
        let priority = task.priority;
        changes.extend(row.iter().map(|job| (job.ready, Change::Ready(priority))));
        changes.extend(finishes[number].iter().map(|&finish| (finish, Change::Finished(priority))));
    }
    let mut tick = run.start;
    for piece in &run.pieces {
        changes.push((tick, Change::Held(piece.who)));
        tick += piece.ticks;
    }
    changes.retain(|&(tick, _)| tick < run.plan.end);
    changes.sort_unstable();
    changes
}

/// How many jobs of each priority are pending, where any are.
#[derive(Default)]
struct Pending(BTreeMap<i64, usize>);

impl Pending {
    fn apply(&mut self, change: Change) {
        match change {
            Change::Ready(priority) => *self.0.entry(priority).or_default() += 1,
            Change::Finished(priority) => {
                let count = self.0.get_mut(&priority).expect("a job is ready before it finishes");
                *count -= 1;
                if *count == 0 {
                    self.0.remove(&priority);
                }
            }
            Change::Held(_) => (),
        }
    }

    /// The greatest priority, −1 if nothing is pending.
    fn most(&self) -> i64 {
        self.0.last_key_value().map_or(-1, |(&priority, _)| priority)
    }
}

/// Some ticks of the record in which nothing changes.
struct Section {
    ticks: i64,
    who: Option<usize>,
    /// The greatest priority of a pending job, and of one that was pending at the tick before as well.
    pending: i64,
    kept: i64,
}

fn sections(changes: &[(i64, Change)], end: i64) -> Vec<Section> {
    let mut sections = Vec::new();
    let mut pending = Pending::default();
    let mut who = None;
    let mut at = 0;
    while at < changes.len() {
        let tick = changes[at].0;
        let mut kept = pending.most();
        while let Some(&(_, change)) = changes.get(at).filter(|change| change.0 == tick) {
            pending.apply(change);
            match change {
                Change::Finished(_) => kept = pending.most(),
                Change::Ready(_) => (),
                Change::Held(next) => who = next,
            }
            at += 1;
        }
        let until = changes.get(at).map_or(end, |next| next.0);
        sections.push(Section { ticks: until - tick, who, pending: pending.most(), kept });
    }
    sections
}

/// The holding rule with each task as a. 'An unbroken stretch' is a run of ticks at each of which such a job is pending.
fn holding(table: &Table, sections: &[Section], wide: bool) -> Result<(), String> {
    let tasks = tasks(table);
    for (a, task) in tasks.iter().enumerate() {
        let mut taken = 0;
        for section in sections {
            let is_stretch = section.pending >= task.priority;
            if !is_stretch || (wide && section.kept < task.priority) {
                taken = 0;
            }
            if is_stretch && section.who.is_none_or(|j| tasks[j].priority < task.priority) {
                taken += section.ticks;
            }
            if taken > task.blocking {
                return Err(format!("lower work takes more than B from task {a}"));
            }
        }
    }
    Ok(())
}

//! What the document and the papers give as figures, and what they leave to be checked on many tables.

mod budget;
mod by_hand;
mod desk;
mod full;
mod given;
mod legal;
mod many;
mod papers;
mod plain;
mod plain_cases;
mod plain_text;
mod progress;
mod refusals;
mod who;
mod write;

use crate::answer::{cells, Cells};
use crate::bound::{watched, Step};
use crate::interference::{Charging, Fixed};
use crate::table::{Table, Task, Transaction};

const PLENTY: u32 = 10_000_000;

/// A task with no jitter and no blocking that keeps any deadline.
fn task(offset: i64, times: &[i64], priority: i64) -> Task {
    Task { offset, jitter: 0, blocking: 0, deadline: 1000, priority, times: times.to_vec() }
}

fn transaction(period: i64, tasks: Vec<Task>) -> Transaction {
    Transaction { period, modes: tasks[0].times.len(), tasks }
}

/// A transaction of one task that starts at 0: period, jitter, blocking, time and priority.
fn one(period: i64, jitter: i64, blocking: i64, time: i64, priority: i64) -> Transaction {
    let deadline = 67_108_863;
    transaction(period, vec![Task { jitter, blocking, deadline, ..task(0, &[time], priority) }])
}

fn alone(task: Task) -> Table {
    Table { frame: 10, transactions: vec![transaction(10, vec![task])] }
}

/// The transaction's tasks, urgent, above one lower task alone in a transaction of period and frame `frame`.
fn above_lower(frame: i64, period: i64, tasks: Vec<Task>, lower_time: i64) -> Table {
    let lower = task(0, &[lower_time], 1);
    Table { frame, transactions: vec![transaction(period, tasks), transaction(frame, vec![lower])] }
}

fn lower(table: &Table) -> Fixed<'_> {
    Fixed { table, u: table.transactions.len() - 1, a: 0 }
}

fn triple(fixed: &Fixed, charging: Charging, budget: u32) -> (u32, u32, u32) {
    let Cells { code, bound, evaluations, .. } = cells(fixed, charging, budget);
    (code, bound, evaluations)
}

fn bound(fixed: &Fixed, charging: Charging) -> u32 {
    cells(fixed, charging, PLENTY).bound
}

fn steps(fixed: &Fixed) -> Vec<Step> {
    let mut steps = Vec::new();
    watched(fixed, Charging::Imposed, PLENTY, &mut |step| steps.push(step));
    steps
}

/// 63 transactions and 128 tasks in eight modes: as many of each as there may be. The task is in each place.
fn longest(task: Task) -> Table {
    let with = |count| transaction(20, vec![task.clone(); count]);
    Table { frame: 20, transactions: [vec![with(2); 61], vec![with(3); 2]].concat() }
}

/// Sample S.
fn s() -> Table {
    let due = |deadline: i64, task: Task| Task { deadline, ..task };
    let first = transaction(20, vec![due(10, task(0, &[2], 9)), due(10, task(4, &[3], 8))]);
    let second = transaction(20, vec![due(4, task(0, &[2], 1))]);
    Table { frame: 20, transactions: vec![first, second] }
}

//! Tables of short periods in which blocking and jitter reach over many of them, so that many jobs of a transaction count
//! for a bound: held back, later, or both; on both sides of as many as a page draws.

use crate::draft;
use crate::random::Random;
use crate::table::{Table, Task, Transaction};

/// About as many jobs of a task count as a page draws, or half as many.
const JOBS: &[i64] = &[1, 20, 31, 32, 33, 60, 63, 64, 65, 70];

fn task(random: &mut Random, period: i64, most: i64) -> Task {
    let time = random.within(1, most);
    let offset = random.within(0, 2 * period);
    let jobs = random.pick(JOBS);
    let jitter = if random.percent(40) { 0 } else { jobs * period + random.within(-period, period) };
    let jobs = random.pick(JOBS);
    let blocking = if random.percent(30) { 0 } else { jobs * (period - most).max(1) + random.within(0, period) };
    let deadline = offset + time + random.within(0, 200 * period);
    Task { offset, jitter, blocking, deadline, priority: random.within(1, 4), times: vec![time] }
}

pub fn image(random: &mut Random) -> Vec<u8> {
    let period = random.within(4, 30);
    let frame = period * random.within(1, 4);
    let tasks = random.within(1, 3);
    let share = random.pick(&[2, 3, 5]);
    let own = (0..tasks).map(|_| task(random, period, (period / share).max(1))).collect();
    let mut transactions = vec![Transaction { period, modes: 1, tasks: own }];
    if random.percent(50) {
        transactions.push(Transaction {
            period: frame,
            modes: 1,
            tasks: vec![task(random, frame, (frame / share).max(1))],
        });
    }
    draft::image(&Table { frame, transactions })
}

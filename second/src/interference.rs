//! The section 'Interference': phases, jobs held back, charges. Every number is worked out from the formula each time.

use crate::table::{Table, Task, Transaction};

/// How a later job is charged: as far as it is imposed by t, or whole once it is released.
#[derive(Clone, Copy, Debug, PartialEq, Eq)]
pub enum Charging {
    Imposed,
    Released,
}

/// floor(x / y) for y > 0; −12 by 10 is −2.
pub fn floor_div(x: i64, y: i64) -> i64 {
    x.div_euclid(y)
}

/// ceil(x / y) for y > 0; −12 by 10 is −1.
pub fn ceil_div(x: i64, y: i64) -> i64 {
    -floor_div(-x, y)
}

/// x mod y for y > 0, in 0..y−1; −12 by 10 is 8.
pub fn modulo(x: i64, y: i64) -> i64 {
    x.rem_euclid(y)
}

/// 'Phase of task j when candidate c sets the critical instant: (Oj − (Oc + Jc)) mod T.'
pub fn phase(period: i64, j: &Task, c: &Task) -> i64 {
    modulo(j.offset - (c.offset + c.jitter), period)
}

/// 'Jobs held back to the instant: floor((Jj + phase) / T).'
pub fn held(period: i64, jitter: i64, phase: i64) -> i64 {
    floor_div(jitter + phase, period)
}

/// 'Later jobs, with s = t − phase: nothing if s ≤ 0. Else the imposed charge is floor(s/T)·C + min(s mod T, C); the
/// released charge is ceil(s/T)·C.'
pub fn later(charging: Charging, period: i64, time: i64, phase: i64, t: i64) -> i64 {
    let s = t - phase;
    if s <= 0 {
        return 0;
    }
    match charging {
        Charging::Imposed => floor_div(s, period) * time + modulo(s, period).min(time),
        Charging::Released => ceil_div(s, period) * time,
    }
}

/// The task a whose bound is sought: task `a` of transaction `u`.
#[derive(Clone, Copy)]
pub struct Fixed<'t> {
    pub table: &'t Table,
    pub u: usize,
    pub a: usize,
}

/// The greatest charge of a transaction, and where it comes from: candidate c of that transaction in a mode.
#[derive(Clone, Copy, Debug, PartialEq, Eq)]
pub struct Greatest {
    pub charge: i64,
    pub mode: usize,
    pub c: usize,
}

impl<'t> Fixed<'t> {
    pub fn own(&self) -> &'t Transaction {
        &self.table.transactions[self.u]
    }

    pub fn task(&self) -> &'t Task {
        &self.own().tasks[self.a]
    }

    fn is_a(&self, v: usize, j: usize) -> bool {
        v == self.u && j == self.a
    }

    /// 'Its rivals are all other tasks with priority at least its own. A task with C = 0 in a mode is neither rival
    /// nor candidate in that mode.'
    pub fn is_rival(&self, v: usize, j: usize, mode: usize) -> bool {
        let task = &self.table.transactions[v].tasks[j];
        !self.is_a(v, j) && task.priority >= self.task().priority && task.times[mode] > 0
    }

    /// 'For u, c is a rival in u or a itself.' Only asked in modes where a runs.
    pub fn is_candidate(&self, c: usize, mode: usize) -> bool {
        c == self.a || self.is_rival(self.u, c, mode)
    }

    /// 'A transaction's charge for (c, mode) sums its rivals.'
    pub fn charge(&self, charging: Charging, v: usize, c: usize, mode: usize, t: i64) -> i64 {
        let transaction = &self.table.transactions[v];
        let period = transaction.period;
        let mut sum = 0;
        for (j, task) in transaction.tasks.iter().enumerate() {
            if self.is_rival(v, j, mode) {
                let time = task.times[mode];
                let phase = phase(period, task, &transaction.tasks[c]);
                sum += held(period, task.jitter, phase) * time + later(charging, period, time, phase, t);
            }
        }
        sum
    }

    /// 'For any other transaction take the greatest charge over its modes and its rivals as candidates, or 0 if it
    /// has none.'
    fn greatest_charge(&self, charging: Charging, v: usize, t: i64) -> i64 {
        self.greatest(charging, v, t).map_or(0, |greatest| greatest.charge)
    }

    /// That charge, 'with the mode and candidate that gave it', the first of them; 'without rivals it names none'.
    pub fn greatest(&self, charging: Charging, v: usize, t: i64) -> Option<Greatest> {
        let transaction = &self.table.transactions[v];
        let mut greatest: Option<Greatest> = None;
        for mode in 0..transaction.modes {
            for c in 0..transaction.tasks.len() {
                if self.is_rival(v, c, mode) {
                    let charge = self.charge(charging, v, c, mode, t);
                    if greatest.is_none_or(|so_far| charge > so_far.charge) {
                        greatest = Some(Greatest { charge, mode, c });
                    }
                }
            }
        }
        greatest
    }

    /// All charges at t: those of u for the given candidate and mode, and the greatest of each other transaction.
    pub fn charges(&self, charging: Charging, c: usize, mode: usize, t: i64) -> i64 {
        let mut sum = self.charge(charging, self.u, c, mode, t);
        for v in 0..self.table.transactions.len() {
            if v != self.u {
                sum += self.greatest_charge(charging, v, t);
            }
        }
        sum
    }
}

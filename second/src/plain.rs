//! Request 7 of document 02: the plain jitter analysis of source document 003, for tables where each transaction has one
//! task and one mode, and its linear approximation of one task's request. Offsets play no part.

use crate::answer::NO_TASK;
use crate::image::Refusal;
use crate::interference::ceil_div;
use crate::table::{Table, Task, Transaction};

/// 'Some transaction has several tasks or modes.'
pub const SEVERAL: u32 = 31;
/// 'No completion up to H.'
pub const NO_COMPLETION: u32 = 32;
/// 'K is 0 or t above H.'
pub const NO_APPROXIMATION: u32 = 33;

/// These numbers have no place in the image.
fn refusal(number: u32) -> Refusal {
    Refusal { number, place: 0 }
}

/// The first transaction that has several tasks or modes.
pub fn first_with_several(table: &Table) -> Option<usize> {
    table.transactions.iter().position(|each| each.tasks.len() > 1 || each.modes > 1)
}

/// The number 31, if it is due.
pub fn checked(table: &Table) -> Result<(), Refusal> {
    first_with_several(table).map_or(Ok(()), |_| Err(refusal(SEVERAL)))
}

/// 'Where that document prints a floor, the ceiling is right': ceil((t + J)/T)·C.
pub fn request(period: i64, jitter: i64, time: i64, t: i64) -> i64 {
    ceil_div(t + jitter, period) * time
}

/// 'For a whole number k ≥ 1, exact up to t = (k − 1)·T − J and C + (t + J)·C/T beyond', in T-ths of a tick. (k − 1)·T − J
/// may be below 0, and then every t is beyond.
pub fn approximation(period: i64, jitter: i64, time: i64, k: i64, t: i64) -> i64 {
    if is_exact(period, jitter, k, t) {
        request(period, jitter, time, t) * period
    } else {
        time * period + (t + jitter) * time
    }
}

pub fn is_exact(period: i64, jitter: i64, k: i64, t: i64) -> bool {
    t + jitter <= (k - 1) * period
}

/// A task of such a table: task `number` is that of transaction `number`.
#[derive(Clone, Copy)]
pub struct Plain<'t> {
    table: &'t Table,
    number: usize,
}

impl<'t> Plain<'t> {
    /// 13 if there is no such task, then 31.
    pub fn of(table: &'t Table, number: usize) -> Result<Plain<'t>, Refusal> {
        if number >= table.numbered().len() {
            return Err(refusal(NO_TASK));
        }
        checked(table)?;
        Ok(Plain { table, number })
    }

    pub fn own(&self) -> &'t Transaction {
        &self.table.transactions[self.number]
    }

    pub fn task(&self) -> &'t Task {
        &self.own().tasks[0]
    }

    /// C.
    pub fn time(&self) -> i64 {
        self.task().times[0]
    }

    /// 'The other tasks of equal or higher priority.'
    pub fn others(&self) -> Vec<Plain<'t>> {
        let Plain { table, number: own } = *self;
        let all = (0..table.transactions.len()).map(|number| Plain { table, number });
        all.filter(|each| each.number != own && each.task().priority >= self.task().priority).collect()
    }

    /// What the task itself requests up to t.
    pub fn request(&self, t: i64) -> i64 {
        request(self.own().period, self.task().jitter, self.time(), t)
    }

    /// The last t up to which the request stays what it is at t: ceil((t + J)/T)·T − J.
    fn same_to(&self, t: i64) -> i64 {
        let Transaction { period, .. } = *self.own();
        ceil_div(t + self.task().jitter, period) * period - self.task().jitter
    }

    /// 'B + C + sum over the other tasks of equal or higher priority of ceil((t + J)/T)·C.'
    pub fn workload(&self, others: &[Plain], t: i64) -> i64 {
        self.task().blocking + self.time() + others.iter().map(|other| other.request(t)).sum::<i64>()
    }

    /// 'The least t ≥ 1' at which the workload is t, if it is no more than `most`: each t in turn. The workload is worked
    /// out again where some request has changed.
    pub fn least(&self, most: i64) -> Option<i64> {
        let others = self.others();
        let (mut workload, mut same_to) = (0, 0);
        for t in 1..=most {
            if t > same_to {
                workload = self.workload(&others, t);
                same_to = others.iter().map(|other| other.same_to(t)).min().unwrap_or(most);
            }
            if workload == t {
                return Some(t);
            }
        }
        None
    }

    pub fn completion(&self) -> Result<i64, Refusal> {
        self.least(Table::HORIZON).ok_or(refusal(NO_COMPLETION))
    }

    /// 'The response is t + J': it may pass H.
    pub fn response(&self) -> Result<i64, Refusal> {
        Ok(self.completion()? + self.task().jitter)
    }

    /// The approximation of the task's request at t, in T-ths of a tick. A whole number k is up to 32 bits long, and
    /// (k − 1)·T then up to 56.
    pub fn approximation(&self, k: u32, t: u32) -> Result<i64, Refusal> {
        let (k, t) = (k as i64, t as i64);
        if k == 0 || t > Table::HORIZON {
            return Err(refusal(NO_APPROXIMATION));
        }
        Ok(approximation(self.own().period, self.task().jitter, self.time(), k, t))
    }
}

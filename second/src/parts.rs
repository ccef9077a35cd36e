//! Who pushed a task: the greatest charge of a transaction with the mode and candidate that give it, and what a bound is
//! made of.

use crate::answer::NO_TASK;
use crate::bound::Bound;
use crate::image::Refusal;
use crate::interference::{phase, Charging, Fixed, Greatest};
use crate::table::Table;

/// What a transaction charges a task at some t.
#[derive(Clone, Copy, Debug, PartialEq, Eq)]
pub enum Charge {
    /// There is no such transaction.
    Missing,
    /// It is the task's own: its charge hangs on the candidate that is looked at.
    Own,
    /// No rival in any mode.
    Nobody,
    Greatest(Greatest),
}

impl Charge {
    pub fn of(fixed: &Fixed, charging: Charging, v: usize, t: i64) -> Charge {
        if v >= fixed.table.transactions.len() {
            Charge::Missing
        } else if v == fixed.u {
            Charge::Own
        } else {
            fixed.greatest(charging, v, t).map_or(Charge::Nobody, Charge::Greatest)
        }
    }

    pub fn ticks(&self) -> i64 {
        match self {
            Charge::Greatest(greatest) => greatest.charge,
            _ => 0,
        }
    }

    /// `missing`, `own`, `none`, or ticks, mode and the candidate's number in the whole table; v is the transaction.
    fn told(&self, table: &Table, v: usize) -> String {
        match self {
            Charge::Missing => "missing".into(),
            Charge::Own => "own".into(),
            Charge::Nobody => "none".into(),
            Charge::Greatest(Greatest { charge, mode, c }) => format!("{charge} {mode} {}", table.number(v, *c)),
        }
    }
}

/// The parts of the completion w of job p, under the mode and candidate that give the bound.
#[derive(Clone, Debug, PartialEq, Eq)]
pub struct Parts {
    /// w.
    pub completion: i64,
    /// F + (p − 1)·T, a signed number.
    pub arrival: i64,
    /// O.
    pub offset: i64,
    /// B.
    pub blocking: i64,
    /// (p − p0 + 1)·C.
    pub own_jobs: i64,
    /// The charge of a's rivals in u at w.
    pub own_rivals: i64,
    /// That of each transaction in order.
    pub charges: Vec<Charge>,
}

pub fn parts(fixed: &Fixed, charging: Charging, bound: Bound) -> Parts {
    let Bound { mode, c, job, first_job, completion, .. } = bound;
    let (own, a) = (fixed.own(), fixed.task());
    let transactions = 0..fixed.table.transactions.len();
    Parts {
        completion,
        arrival: phase(own.period, a, &own.tasks[c]) + (job - 1) * own.period,
        offset: a.offset,
        blocking: a.blocking,
        own_jobs: (job - first_job + 1) * a.times[mode],
        own_rivals: fixed.charge(charging, fixed.u, c, mode, completion),
        charges: transactions.map(|v| Charge::of(fixed, charging, v, completion)).collect(),
    }
}

impl Parts {
    /// B + own jobs + own rivals + the others = w, and w − arrival + O is the bound.
    pub fn check(&self, bound: Bound) {
        let others: i64 = self.charges.iter().map(Charge::ticks).sum();
        assert_eq!(self.blocking + self.own_jobs + self.own_rivals + others, self.completion, "the parts add up to w");
        assert_eq!(self.completion - self.arrival + self.offset, bound.response, "w gives the bound");
    }
}

/// The lines of task `number` after the cells: what its bound is made of, if it has one.
pub fn parts_told(table: &Table, number: usize, parts: Option<&Parts>) -> String {
    let Some(parts) = parts else { return format!("parts {number} none\n") };
    let Parts { completion, arrival, offset, blocking, own_jobs, own_rivals, charges } = parts;
    let mut text = format!("parts {number} {completion} {arrival} {offset} {blocking} {own_jobs} {own_rivals}\n");
    for (v, charge) in charges.iter().enumerate() {
        text += &format!("part {number} {v} {}\n", charge.told(table, v));
    }
    text
}

/// What transaction v charges the task of that number at t, and the line that says it.
pub fn charge_told(
    table: &Table,
    number: usize,
    v: usize,
    charging: Charging,
    t: u32,
) -> Result<(Charge, String), Refusal> {
    let &(u, a) = table.numbered().get(number).ok_or(Refusal { number: NO_TASK, place: 0 })?;
    let charge = Charge::of(&Fixed { table, u, a }, charging, v, t as i64);
    Ok((charge, format!("charge {}\n", charge.told(table, v))))
}

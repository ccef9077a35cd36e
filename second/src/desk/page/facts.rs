//! What a page has to say of an accepted table, from the definitions of document 01.

use super::names::Names;
use crate::answer::{all_cells, cells_and_parts, Cells, PROGRAM_BUDGET};
use crate::image::read;
use crate::interference::{ceil_div, held, later, phase, Charging, Fixed};
use crate::parts::Parts;
use crate::table::{Table, Task};

/// More jobs of a task than this are not drawn.
pub const MOST_JOBS: i64 = 64;

/// A job in a drawing: where it begins, and how many ticks of it are drawn.
#[derive(Clone, Copy, Debug, PartialEq, Eq)]
pub struct Job {
    pub at: i64,
    pub ticks: i64,
}

/// A task of a's transaction under the mode and candidate that give the bound: a itself, or a rival that charges something.
pub struct Lane {
    pub number: usize,
    pub is_a: bool,
    pub phase: i64,
    pub held: i64,
    pub ticks: i64,
    time: i64,
    period: i64,
    /// Jobs that are held back, and later ones, as far as they count for the completion.
    pub early_jobs: i64,
    pub later_jobs: i64,
}

impl Lane {
    /// 'Jobs held back to the instant', of which each counts whole, one behind the other.
    pub fn early(&self) -> Vec<Job> {
        (0..self.early_jobs).map(|n| Job { at: n * self.time, ticks: self.time }).collect()
    }

    /// Later jobs at phase + n·T, as far as they come by the completion.
    pub fn later(&self, completion: i64) -> Vec<Job> {
        let at = |n: i64| self.phase + n * self.period;
        (0..self.later_jobs).map(|n| Job { at: at(n), ticks: self.time.min(completion - at(n)) }).collect()
    }

    pub fn is_drawn(&self) -> bool {
        self.early_jobs + self.later_jobs <= MOST_JOBS
    }
}

/// A task with what was found of it.
pub struct Found<'t> {
    pub number: usize,
    pub task: &'t Task,
    pub cells: Cells,
    pub parts: Option<Parts>,
    pub lanes: Vec<Lane>,
}

impl Found<'_> {
    pub fn bound(&self) -> Option<i64> {
        self.parts.is_some().then_some(self.cells.bound as i64)
    }

    pub fn is_kept(&self) -> bool {
        self.cells.code == 0
    }

    /// 'Least to spare first': those without a bound come before all others, and of several alike the first.
    fn order(&self) -> (bool, i64, usize) {
        let spare = self.bound().map(|bound| self.task.deadline - bound);
        (spare.is_some(), spare.unwrap_or(0), self.number)
    }
}

fn lane(fixed: &Fixed, j: usize, cells: Cells, parts: &Parts) -> Option<Lane> {
    let (own, number, mode) = (fixed.own(), fixed.table.number(fixed.u, j), cells.mode as usize);
    let (task, is_a) = (&own.tasks[j], j == fixed.a);
    if !is_a && !fixed.is_rival(fixed.u, j, mode) {
        return None;
    }
    let (_, c) = fixed.table.numbered()[cells.candidate as usize];
    let (period, time, w) = (own.period, task.times[mode], parts.completion);
    let phase = phase(period, task, &own.tasks[c]);
    let held = held(period, task.jitter, phase);
    let jobs = cells.job as i64 + 1;
    let (ticks, early_jobs, later_jobs) = if is_a {
        // Jobs p0 to p, of which those up to 0 are held back.
        (parts.own_jobs, held.min(jobs), (jobs - held).max(0))
    } else {
        let charge = held * time + later(Charging::Imposed, period, time, phase, w);
        (charge, held, ceil_div(w - phase, period).max(0))
    };
    (is_a || ticks > 0).then_some(Lane { number, is_a, phase, held, ticks, time, period, early_jobs, later_jobs })
}

/// Every task of a table, in image order.
pub fn found(table: &Table) -> Vec<Found<'_>> {
    let (row, parts) = cells_and_parts(table, PROGRAM_BUDGET);
    let each = |(number, ((u, a), (cells, parts))): (usize, ((usize, usize), (Cells, Option<Parts>)))| {
        let fixed = Fixed { table, u, a };
        let tasks = 0..fixed.own().tasks.len();
        let lanes: Vec<Lane> =
            parts.iter().flat_map(|parts| tasks.clone().filter_map(|j| lane(&fixed, j, cells, parts))).collect();
        if let Some(parts) = &parts {
            let rivals = lanes.iter().filter(|lane| !lane.is_a).map(|lane| lane.ticks);
            assert_eq!(rivals.sum::<i64>(), parts.own_rivals, "the rivals of u add up to their charge");
        }
        Found { number, task: fixed.task(), cells, parts, lanes }
    };
    table.numbered().into_iter().zip(row.into_iter().zip(parts)).enumerate().map(each).collect()
}

/// How it stands with the table that a page is compared with.
pub enum Old {
    NotAsked,
    Refused,
    /// It has other transactions, or other tasks in them.
    Unlike,
    /// The bound of each task there.
    Bounds(Vec<Option<i64>>),
}

fn shape(table: &Table) -> Vec<usize> {
    table.transactions.iter().map(|transaction| transaction.tasks.len()).collect()
}

impl Old {
    pub fn of(image: Option<&[u8]>, table: &Table) -> Old {
        let Some(image) = image else { return Old::NotAsked };
        let Ok(old) = read(image) else { return Old::Refused };
        if shape(&old) != shape(table) {
            return Old::Unlike;
        }
        let bound = |cells: &Cells| matches!(cells.code, 0 | 20).then_some(cells.bound as i64);
        Old::Bounds(all_cells(&old, Charging::Imposed, PROGRAM_BUDGET).iter().map(bound).collect())
    }
}

/// All that the page of an accepted table is checked against.
pub struct Facts<'t> {
    pub table: &'t Table,
    pub found: Vec<Found<'t>>,
    pub old: Old,
    pub names: Names<'t>,
}

impl<'t> Facts<'t> {
    /// The tasks as they follow each other on the page.
    pub fn in_order(&self) -> Vec<&Found<'t>> {
        let mut order: Vec<&Found> = self.found.iter().collect();
        order.sort_by_key(|found| found.order());
        order
    }

    /// The bound of a task in the other table, if they are compared.
    pub fn old_bound(&self, number: usize) -> Option<Option<i64>> {
        match &self.old {
            Old::Bounds(bounds) => Some(bounds[number]),
            _ => None,
        }
    }
}

//! The row of cells in which a table is lent: five of the header, five of each transaction that there may be, fourteen of
//! each task.

use crate::draft::Kind;
use crate::table::{Table, Transaction};

const HEADER: usize = 5;
const HEAD: usize = 5;
const BODY: usize = 14;
/// Where a task's times start among its cells.
const TIMES: usize = 6;

const HEADS_END: usize = HEADER + Table::TRANSACTIONS * HEAD;
pub const CELLS: usize = HEADS_END + Table::TASKS * BODY;

/// What a writer looks at of a row: document 01's fields, which may hold any numbers, with the tasks in order.
#[derive(Clone, Debug, PartialEq, Eq)]
pub struct Lent {
    pub edition: u32,
    pub frame: u32,
    pub count: u32,
    pub heads: Vec<Head>,
    pub bodies: Vec<Body>,
}

/// What stands before the tasks of a transaction.
#[derive(Clone, Debug, PartialEq, Eq)]
pub struct Head {
    pub period: u32,
    pub modes: u32,
    pub count: u32,
}

/// A task, with a time for each mode that there may be.
#[derive(Clone, Debug, PartialEq, Eq)]
pub struct Body {
    pub offset: u32,
    pub jitter: u32,
    pub blocking: u32,
    pub deadline: u32,
    pub priority: u32,
    pub times: Vec<u32>,
}

impl Lent {
    pub fn of(cells: &[u32]) -> Lent {
        let head = |cells: &[u32]| Head { period: cells[0], modes: cells[1], count: cells[3] };
        let body = |cells: &[u32]| Body {
            offset: cells[0],
            jitter: cells[1],
            blocking: cells[2],
            deadline: cells[3],
            priority: cells[4],
            times: cells[TIMES..].to_vec(),
        };
        Lent {
            edition: cells[0],
            frame: cells[1],
            count: cells[2],
            heads: cells[HEADER..HEADS_END].chunks(HEAD).map(head).collect(),
            bodies: cells[HEADS_END..CELLS].chunks(BODY).map(body).collect(),
        }
    }
}

/// Every cell of the row of a table: also those that follow from others, and 0 in all that is spare or beyond its counts.
pub fn row_of(table: &Table) -> Vec<u32> {
    let mut cells = vec![0; CELLS];
    let mut put = |at: usize, numbers: &[i64]| {
        for (cell, &number) in cells[at..].iter_mut().zip(numbers) {
            *cell = u32::try_from(number).expect("a field of a table fits a cell");
        }
    };
    let mut number = 0;
    for (u, transaction) in table.transactions.iter().enumerate() {
        let Transaction { period, modes, tasks } = transaction;
        put(HEADER + u * HEAD, &[*period, *modes as i64, number as i64, tasks.len() as i64]);
        for task in tasks {
            let at = HEADS_END + number * BODY;
            put(at, &[task.offset, task.jitter, task.blocking, task.deadline, task.priority, u as i64]);
            put(at + TIMES, &task.times);
            number += 1;
        }
    }
    put(0, &[Table::EDITION, table.frame, table.transactions.len() as i64, number as i64]);
    cells
}

/// The cells that hold the fields of a table, in image order: what kind of field, and which cell.
pub fn fields(table: &Table) -> Vec<(Kind, usize)> {
    let mut fields = vec![(Kind::Edition, 0), (Kind::Frame, 1), (Kind::TransactionCount, 2)];
    let mut body = HEADS_END;
    for (u, transaction) in table.transactions.iter().enumerate() {
        let head = HEADER + u * HEAD;
        fields.extend([(Kind::Period, head), (Kind::ModeCount, head + 1), (Kind::TaskCount, head + 3)]);
        for _ in &transaction.tasks {
            let kinds = [Kind::Offset, Kind::Jitter, Kind::Blocking, Kind::Deadline, Kind::Priority];
            fields.extend(kinds.into_iter().zip(body..));
            fields.extend((0..transaction.modes).map(|mode| (Kind::Time, body + TIMES + mode)));
            body += BODY;
        }
    }
    fields
}

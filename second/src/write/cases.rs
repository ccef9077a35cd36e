//! Rows for a comparison of writers: good tables, tables with a fault or several, cells that nobody wrote, and anything in
//! the cells that a writer does not look at. Case `index` of a seed depends on nothing else.

use crate::draft::{self, Kind};
use crate::generate::damage::refused_number;
use crate::generate::deadline::put_too_soon;
use crate::generate::tables::{self, FORMER_TRANSACTIONS};
use crate::random::Random;
use crate::table::{Table, Transaction};
use crate::write::row::{fields, row_of, CELLS};
use crate::write::Case;

#[derive(Clone, Copy, Debug, PartialEq, Eq)]
enum Fault {
    TooLarge(Kind),
    /// A number that fits its field and breaks its rule.
    Refused(Kind),
    AnyEdition,
    /// A count within its range, but not this table's.
    OtherCount(Kind),
    NoTime,
    /// Every time 0 but one, which is too large: it is seen first.
    NoTimeButTooLarge,
    RandomFrom,
}

const FAULTS: &[Fault] = &[
    Fault::TooLarge(Kind::Edition),
    Fault::TooLarge(Kind::Frame),
    Fault::TooLarge(Kind::TransactionCount),
    Fault::TooLarge(Kind::Period),
    Fault::TooLarge(Kind::ModeCount),
    Fault::TooLarge(Kind::TaskCount),
    Fault::TooLarge(Kind::Offset),
    Fault::TooLarge(Kind::Jitter),
    Fault::TooLarge(Kind::Blocking),
    Fault::TooLarge(Kind::Deadline),
    Fault::TooLarge(Kind::Priority),
    Fault::TooLarge(Kind::Time),
    Fault::Refused(Kind::Edition),
    Fault::Refused(Kind::Frame),
    Fault::Refused(Kind::TransactionCount),
    Fault::Refused(Kind::Period),
    Fault::Refused(Kind::ModeCount),
    Fault::Refused(Kind::TaskCount),
    Fault::Refused(Kind::Deadline),
    Fault::AnyEdition,
    Fault::OtherCount(Kind::TransactionCount),
    Fault::OtherCount(Kind::ModeCount),
    Fault::OtherCount(Kind::TaskCount),
    Fault::NoTime,
    Fault::NoTimeButTooLarge,
    Fault::RandomFrom,
];

/// Those that come before a deadline of the same task that nobody could keep.
const FAULTS_OF_A_TASK: &[Fault] = &[
    Fault::TooLarge(Kind::Offset),
    Fault::TooLarge(Kind::Jitter),
    Fault::TooLarge(Kind::Blocking),
    Fault::TooLarge(Kind::Deadline),
    Fault::TooLarge(Kind::Priority),
    Fault::TooLarge(Kind::Time),
    Fault::Refused(Kind::Deadline),
    Fault::NoTime,
    Fault::NoTimeButTooLarge,
];

pub fn case(seed: u64, index: u64) -> Case {
    let random = &mut Random::of(seed, index);
    if random.percent(6) {
        let length = random.below(Table::LONGEST_IMAGE + 100);
        return Case { length, cells: wild(random) };
    }
    let kind = random.pick(tables::KINDS);
    let mut table = tables::table(random, kind);
    let is_crowded = random.percent(6);
    if is_crowded {
        table = crowded(random, &table);
    }
    let too_soon = random.percent(20).then(|| put_too_soon(random, &mut table));
    let fields = fields(&table);
    let mut cells = row_of(&table);
    let faults = match random.within(1, 100) {
        1..=40 => 0,
        41..=80 => 1,
        _ => random.within(2, 3),
    };
    for _ in 0..faults {
        let fault = random.pick(FAULTS);
        spoil(random, &mut cells, &fields, fault);
    }
    if let Some((v, j)) = too_soon.filter(|_| random.percent(30)) {
        let fault = random.pick(FAULTS_OF_A_TASK);
        spoil(random, &mut cells, fields_of_task(&table, &fields, v, j), fault);
    }
    if random.percent(60) {
        litter(random, &mut cells, &fields);
    }
    if is_crowded {
        one_too_many(random, &mut cells, &table);
    }
    Case { length: length(random, draft::image(&table).len()), cells }
}

/// How many bytes are lent for an image that needs so many.
fn length(random: &mut Random, needed: usize) -> usize {
    match random.within(1, 100) {
        1..=40 => needed,
        41..=55 => needed - 1,
        56..=60 => 0,
        61..=65 => random.below(needed),
        66..=85 => needed + random.within(1, 64) as usize,
        86..=95 => Table::LONGEST_IMAGE,
        _ => Table::LONGEST_IMAGE + random.within(1, 99) as usize,
    }
}

/// Numbers that are at hand where something may go wrong.
fn any(random: &mut Random) -> u32 {
    let some = random.next() as u32;
    random.pick(&[0, 1, 2, 63, 64, 128, 1 << 24, 1 << 31, u32::MAX, some, some, some])
}

/// Cells that no table was put into: any numbers, or small ones in a row that begins well.
fn wild(random: &mut Random) -> Vec<u32> {
    if random.percent(30) {
        return (0..CELLS).map(|_| any(random)).collect();
    }
    let most = random.within(1, 20);
    let mut cells: Vec<u32> = (0..CELLS).map(|_| random.within(0, most) as u32).collect();
    cells[0] = 1;
    cells[1] = random.pick(&[12, 60, 840, 720_720]);
    cells
}

fn spoil(random: &mut Random, cells: &mut [u32], fields: &[(Kind, usize)], fault: Fault) {
    match fault {
        Fault::TooLarge(kind) => {
            let cell = cell_of(random, fields, kind);
            cells[cell] = too_large(random, kind, cells[cell]);
        }
        Fault::Refused(kind) => {
            let cell = cell_of(random, fields, kind);
            cells[cell] = refused_number(random, kind, cells[1] as i64) as u32;
        }
        Fault::AnyEdition => cells[0] = random.within(0, 17) as u32,
        Fault::OtherCount(kind) => {
            let cell = cell_of(random, fields, kind);
            cells[cell] = count(random, kind) as u32;
        }
        Fault::NoTime => {
            clear_times(random, cells, fields);
        }
        Fault::NoTimeButTooLarge => {
            let times = clear_times(random, cells, fields);
            cells[random.pick(&times)] = too_large(random, Kind::Time, 0);
        }
        Fault::RandomFrom => {
            let from = random.below(CELLS);
            cells[from..].iter_mut().for_each(|cell| *cell = any(random));
        }
    }
}

/// A count within its range; of the transactions mostly one at the limit or at the former one.
fn count(random: &mut Random, kind: Kind) -> usize {
    let most = match kind {
        Kind::TransactionCount => Table::TRANSACTIONS,
        Kind::ModeCount => Transaction::MODES,
        _ => Transaction::TASKS,
    };
    let some = random.within(1, most as i64) as usize;
    match kind {
        Kind::TransactionCount => random.pick(&[some, FORMER_TRANSACTIONS, FORMER_TRANSACTIONS + 1, most - 1, most]),
        _ => some,
    }
}

/// Those of task j of transaction v.
fn fields_of_task<'f>(table: &Table, fields: &'f [(Kind, usize)], v: usize, j: usize) -> &'f [(Kind, usize)] {
    let mut offsets = (0..fields.len()).filter(|&index| fields[index].0 == Kind::Offset);
    let first = offsets.nth(table.number(v, j)).expect("an offset of each task");
    let times = fields[first..].iter().position(|field| field.0 == Kind::Time).expect("a mode");
    &fields[first..first + times + table.transactions[v].modes]
}

/// The cell of some field of that kind.
fn cell_of(random: &mut Random, fields: &[(Kind, usize)], kind: Kind) -> usize {
    let cells: Vec<usize> = fields.iter().filter(|field| field.0 == kind).map(|field| field.1).collect();
    random.pick(&cells)
}

/// A number too large for its field; cut to the field's width it may be the good one that was there.
fn too_large(random: &mut Random, kind: Kind, good: u32) -> u32 {
    let limit = 1u32 << kind.width();
    let some = random.next() as u32 | limit;
    let cut = good & (limit - 1);
    random.pick(&[limit, limit, limit + 1, limit + cut, limit + cut, 2 * limit + cut, 1 << 31, u32::MAX, some])
}

/// Every time of some task is 0; the cells of these times.
fn clear_times(random: &mut Random, cells: &mut [u32], fields: &[(Kind, usize)]) -> Vec<usize> {
    let priorities: Vec<usize> = (0..fields.len()).filter(|&index| fields[index].0 == Kind::Priority).collect();
    let first = random.pick(&priorities) + 1;
    let times = fields[first..].iter().take_while(|field| field.0 == Kind::Time);
    let times: Vec<usize> = times.map(|field| field.1).collect();
    for &time in &times {
        cells[time] = 0;
    }
    times
}

/// A table of as many tasks as there may be that has room for one more transaction.
fn crowded(random: &mut Random, table: &Table) -> Table {
    let mut crowded = Table { frame: table.frame, transactions: Vec::new() };
    let mut left = Table::TASKS;
    let most = random.pick(&[3, Transaction::TASKS]);
    while left > 0 {
        let mut some = table.transactions[random.below(table.transactions.len())].clone();
        // The rest has room in the transactions that are left.
        let others = Table::TRANSACTIONS - 2 - crowded.transactions.len();
        let few = left.saturating_sub(others * most).max(1);
        let count = random.within(few as i64, most as i64) as usize;
        some.tasks = vec![some.tasks[0].clone(); count.min(left)];
        left -= some.tasks.len();
        crowded.transactions.push(some);
    }
    crowded
}

/// The last transaction of such a table says one task more, or another transaction begins behind it, which need not be
/// the last.
fn one_too_many(random: &mut Random, cells: &mut [u32], table: &Table) {
    let (_, count) = *fields(table).iter().rfind(|field| field.0 == Kind::TaskCount).expect("a transaction");
    if random.percent(50) {
        cells[count] = table.transactions[table.transactions.len() - 1].tasks.len() as u32 + 1;
    } else {
        let transactions = table.transactions.len() + random.within(1, 2) as usize;
        cells[2] = transactions.min(Table::TRANSACTIONS) as u32;
        let next = count + 2;
        cells[next] = table.frame as u32;
        cells[next + 1] = 1;
        let some = random.within(1, Transaction::TASKS as i64) as u32;
        cells[next + 3] = random.pick(&[1, some]);
    }
}

/// Anything in the cells that a writer does not look at: what follows from others, what is spare, and what lies beyond the
/// counts.
fn litter(random: &mut Random, cells: &mut [u32], fields: &[(Kind, usize)]) {
    let chance = random.pick(&[5, 50, 100]);
    let mut is_field = [false; CELLS];
    for field in fields {
        is_field[field.1] = true;
    }
    for (cell, is_field) in cells.iter_mut().zip(is_field) {
        if !is_field && random.percent(chance) {
            *cell = any(random);
        }
    }
}

//! Good tables of many kinds. Each kind has something that an analysis could get wrong.

use crate::bound::frame_demand;
use crate::generate::deadline;
use crate::interference::{Charging, Fixed};
use crate::random::Random;
use crate::table::{Table, Task, Transaction};

pub const FIELD_24: i64 = (1 << 24) - 1;
pub const FIELD_26: i64 = (1 << 26) - 1;

/// The limits that a table had before request 4 of document 02: whoever still knows them answers otherwise beyond them.
pub const FORMER_TRANSACTIONS: usize = 32;
const FORMER_TASKS: usize = 64;

/// How large a field of ticks is, against the period of its transaction.
#[derive(Clone, Copy)]
pub enum Size {
    Zero,
    BelowPeriod,
    SomePeriods,
    Any,
}

impl Size {
    fn draw(self, random: &mut Random, period: i64) -> i64 {
        match self {
            Size::Zero => 0,
            Size::BelowPeriod => random.within(0, period - 1),
            Size::SomePeriods => random.within(0, (4 * period).min(FIELD_24)),
            Size::Any => {
                let some = random.within(0, FIELD_24);
                random.pick(&[0, 1, FIELD_24 - 1, FIELD_24, some])
            }
        }
    }
}

/// What the tables of one kind have in common. `load` is the percentage of the frame that all times together aim at.
#[derive(Clone, Copy)]
pub struct Shape {
    pub frames: &'static [i64],
    pub period: fn(&mut Random, i64) -> i64,
    pub transactions: (i64, i64),
    pub tasks: (i64, i64),
    pub modes: (i64, i64),
    pub zeros: i64,
    pub offset: Size,
    pub jitter: Size,
    pub blocking: Size,
    pub priorities: i64,
    pub load: (i64, i64),
}

pub const TINY_FRAMES: &[i64] = &[1, 2, 3, 4, 6, 8, 10, 12];
pub const SMALL_FRAMES: &[i64] = &[10, 16, 20, 24, 30, 36, 40, 48, 60, 72];
pub const MIDDLE_FRAMES: &[i64] = &[60, 120, 240, 360, 840, 1000, 1024, 2520];
pub const ROUND_FRAMES: &[i64] = &[12, 24, 30, 60, 84, 120, 180, 210, 420];
const WIDE_FRAMES: &[i64] = &[2520, 5040, 10_000, 27_720, 65_536, 100_800];
const LARGE_FRAMES: &[i64] = &[720_720, 1_000_000, 8_388_608, 14_414_400, 16_777_200, 16_777_215];

pub const PLAIN: Shape = Shape {
    frames: SMALL_FRAMES,
    period: divisor,
    transactions: (1, 4),
    tasks: (1, 3),
    modes: (1, 2),
    zeros: 20,
    offset: Size::BelowPeriod,
    jitter: Size::Zero,
    blocking: Size::Zero,
    priorities: 8,
    load: (20, 90),
};

/// The kinds of good tables, by the name that a reader would give them.
#[derive(Clone, Copy, Debug, PartialEq, Eq)]
pub enum TableKind {
    Tiny,
    Small,
    Middle,
    Large,
    JitterAbovePeriod,
    ModesWithZeros,
    EqualPriorities,
    OffsetAbovePeriod,
    Blocking,
    TimeAbovePeriod,
    ExactlyFull,
    JustOverloaded,
    AroundHorizon,
    ManyTransactions,
    ManyTasks,
    ManyModes,
    AtAllLimits,
    ExtremeFields,
    EqualTasks,
    EqualModes,
    EqualTransactions,
    NearlyFull,
    JustEnough,
}

pub const KINDS: &[TableKind] = &[
    TableKind::Tiny,
    TableKind::Small,
    TableKind::Middle,
    TableKind::Large,
    TableKind::JitterAbovePeriod,
    TableKind::ModesWithZeros,
    TableKind::EqualPriorities,
    TableKind::OffsetAbovePeriod,
    TableKind::Blocking,
    TableKind::TimeAbovePeriod,
    TableKind::ExactlyFull,
    TableKind::JustOverloaded,
    TableKind::AroundHorizon,
    TableKind::ManyTransactions,
    TableKind::ManyTasks,
    TableKind::ManyModes,
    TableKind::AtAllLimits,
    TableKind::ExtremeFields,
    TableKind::EqualTasks,
    TableKind::EqualModes,
    TableKind::EqualTransactions,
    TableKind::NearlyFull,
    TableKind::JustEnough,
];

pub fn table(random: &mut Random, kind: TableKind) -> Table {
    let shape = shape(random, kind);
    let mut table = shaped(random, &shape);
    match kind {
        TableKind::TimeAbovePeriod => long_time(random, &mut table),
        TableKind::ExactlyFull => fill(&mut table, 0),
        TableKind::JustOverloaded => fill(&mut table, 1),
        TableKind::AroundHorizon => reach_horizon(random, &mut table),
        TableKind::ManyTasks => at_an_edge(random, &mut table),
        TableKind::EqualTasks => equal_tasks(random, &mut table),
        TableKind::EqualModes => {
            equal_modes(random, &mut table);
            if random.percent(40) {
                equal_tasks(random, &mut table);
            }
        }
        TableKind::EqualTransactions => {
            if random.percent(40) {
                equal_tasks(random, &mut table);
            }
            if random.percent(40) {
                equal_modes(random, &mut table);
            }
            equal_transactions(random, &mut table);
        }
        TableKind::NearlyFull => nearly_fill(random, &mut table),
        TableKind::JustEnough => deadline::just_enough(random, &mut table),
        _ => (),
    }
    deadline::raise(&mut table);
    table
}

fn shape(random: &mut Random, kind: TableKind) -> Shape {
    match kind {
        TableKind::Tiny => Shape {
            frames: TINY_FRAMES,
            transactions: (1, 2),
            tasks: (1, 2),
            jitter: random.pick(&[Size::Zero, Size::BelowPeriod]),
            blocking: random.pick(&[Size::Zero, Size::BelowPeriod]),
            ..PLAIN
        },
        TableKind::Small | TableKind::TimeAbovePeriod => {
            Shape { jitter: Size::BelowPeriod, blocking: Size::BelowPeriod, ..PLAIN }
        }
        TableKind::Middle => Shape {
            frames: MIDDLE_FRAMES,
            transactions: (2, 6),
            tasks: (1, 5),
            modes: (1, 3),
            jitter: random.pick(&[Size::Zero, Size::BelowPeriod]),
            blocking: random.pick(&[Size::Zero, Size::BelowPeriod]),
            priorities: 12,
            ..PLAIN
        },
        TableKind::Large => Shape {
            frames: LARGE_FRAMES,
            transactions: (1, 6),
            tasks: (1, 4),
            jitter: random.pick(&[Size::Zero, Size::BelowPeriod, Size::SomePeriods]),
            blocking: random.pick(&[Size::Zero, Size::BelowPeriod]),
            priorities: 256,
            ..PLAIN
        },
        TableKind::JitterAbovePeriod => Shape { jitter: Size::SomePeriods, ..PLAIN },
        TableKind::ModesWithZeros => {
            Shape { modes: (2, 8), zeros: 60, jitter: random.pick(&[Size::Zero, Size::BelowPeriod]), ..PLAIN }
        }
        TableKind::EqualPriorities => Shape { priorities: 1, jitter: Size::BelowPeriod, ..PLAIN },
        TableKind::OffsetAbovePeriod => {
            Shape { offset: random.pick(&[Size::SomePeriods, Size::Any]), jitter: Size::BelowPeriod, ..PLAIN }
        }
        TableKind::Blocking => Shape { blocking: Size::SomePeriods, ..PLAIN },
        TableKind::ExactlyFull | TableKind::JustOverloaded => {
            Shape { frames: random.pick(&[SMALL_FRAMES, MIDDLE_FRAMES]), load: (30, 90), ..PLAIN }
        }
        TableKind::AroundHorizon => {
            Shape { frames: &[8_388_607, 16_777_214, 16_777_215], transactions: (1, 2), load: (10, 60), ..PLAIN }
        }
        TableKind::ManyTransactions => {
            let (most, former) = (Table::TRANSACTIONS as i64, FORMER_TRANSACTIONS as i64);
            let transactions = random.pick(&[(20, most), (former, former + 1), (most - 1, most)]);
            let tasks = random.pick(&[(1, 1), (1, 3)]);
            Shape { frames: WIDE_FRAMES, transactions, tasks, priorities: 40, ..PLAIN }
        }
        TableKind::ManyTasks => {
            Shape { frames: WIDE_FRAMES, transactions: (1, 8), tasks: (8, 16), zeros: 60, priorities: 128, ..PLAIN }
        }
        TableKind::ManyModes => Shape { frames: WIDE_FRAMES, modes: (8, 8), tasks: (1, 6), zeros: 70, ..PLAIN },
        TableKind::AtAllLimits => {
            // As many transactions as there may be, or as few as hold all the tasks.
            let (most, few) = (Table::TRANSACTIONS as i64, (Table::TASKS / Transaction::TASKS) as i64);
            let (count, tasks, zeros) = random.pick(&[(most, 3, 75), (few, Transaction::TASKS as i64, 93)]);
            let (transactions, tasks, modes) = ((count, count), (tasks, tasks), (8, 8));
            Shape { frames: WIDE_FRAMES, transactions, tasks, modes, zeros, priorities: 128, ..PLAIN }
        }
        TableKind::EqualTasks | TableKind::EqualModes | TableKind::EqualTransactions => Shape {
            frames: random.pick(&[TINY_FRAMES, SMALL_FRAMES]),
            modes: random.pick(&[(1, 2), (2, 4)]),
            zeros: 40,
            offset: random.pick(&[Size::Zero, Size::BelowPeriod]),
            jitter: random.pick(&[Size::Zero, Size::BelowPeriod, Size::SomePeriods]),
            priorities: random.pick(&[1, 3]),
            ..PLAIN
        },
        TableKind::NearlyFull => Shape {
            frames: ROUND_FRAMES,
            period: any_divisor,
            transactions: (1, 2),
            tasks: (1, 2),
            jitter: random.pick(&[Size::Zero, Size::Zero, Size::BelowPeriod]),
            load: (30, 70),
            ..PLAIN
        },
        TableKind::JustEnough => Shape {
            frames: random.pick(&[SMALL_FRAMES, LARGE_FRAMES]),
            modes: (1, 4),
            zeros: 40,
            offset: random.pick(&[Size::BelowPeriod, Size::SomePeriods, Size::Any]),
            jitter: random.pick(&[Size::Zero, Size::BelowPeriod]),
            ..PLAIN
        },
        TableKind::ExtremeFields => Shape {
            frames: random.pick(&[SMALL_FRAMES, LARGE_FRAMES]),
            offset: Size::Any,
            jitter: Size::Any,
            blocking: Size::Any,
            priorities: 256,
            ..PLAIN
        },
    }
}

/// A divisor at hand: the frame shared out a few times, or the frame itself.
fn divisor(random: &mut Random, frame: i64) -> i64 {
    shared_out(random, frame, (0, 3), &[2, 2, 3, 4, 5, 7])
}

/// The frame shared out so many times, where it can be.
pub fn shared_out(random: &mut Random, frame: i64, times: (i64, i64), shares: &[i64]) -> i64 {
    let mut period = frame;
    for _ in 0..random.within(times.0, times.1) {
        let share = random.pick(shares);
        if period % share == 0 {
            period /= share;
        }
    }
    period
}

/// Any divisor above 1: the periods of a table need not divide one another.
pub fn any_divisor(random: &mut Random, frame: i64) -> i64 {
    let divisors: Vec<i64> = (2..=frame).filter(|period| frame % period == 0).collect();
    random.pick(&divisors)
}

pub fn shaped(random: &mut Random, shape: &Shape) -> Table {
    let frame = random.pick(shape.frames);
    let count = random.within(shape.transactions.0, shape.transactions.1);
    let load = random.within(shape.load.0, shape.load.1);
    let mut left = Table::TASKS as i64;
    let mut transactions = Vec::new();
    for index in 0..count {
        let others = count - index - 1;
        let tasks = random.within(shape.tasks.0, shape.tasks.1).min(left - others).max(1);
        left -= tasks;
        transactions.push(transaction(random, shape, frame, tasks, load, count));
    }
    Table { frame, transactions }
}

/// One of `of` transactions that share the load.
fn transaction(random: &mut Random, shape: &Shape, frame: i64, count: i64, load: i64, of: i64) -> Transaction {
    let period = (shape.period)(random, frame);
    let modes = random.within(shape.modes.0, shape.modes.1) as usize;
    // Twice the mean, so that the sum of the tasks comes near the load.
    let longest = (2 * period * load / (100 * of * count)).clamp(1, FIELD_24);
    let tasks = (0..count).map(|_| task(random, shape, period, modes, longest)).collect();
    Transaction { period, modes, tasks }
}

fn task(random: &mut Random, shape: &Shape, period: i64, modes: usize, longest: i64) -> Task {
    let mut times: Vec<i64> = (0..modes).map(|_| random.within(1, longest)).collect();
    let runs_in = random.below(modes);
    for (mode, time) in times.iter_mut().enumerate() {
        if mode != runs_in && random.percent(shape.zeros) {
            *time = 0;
        }
    }
    let task = Task {
        offset: shape.offset.draw(random, period),
        jitter: shape.jitter.draw(random, period),
        blocking: shape.blocking.draw(random, period),
        deadline: FIELD_26,
        priority: random.within(0, shape.priorities - 1),
        times,
    };
    Task { deadline: deadline::in_reach(random, &task, period), ..task }
}

/// Some task in some mode runs longer than its period.
fn long_time(random: &mut Random, table: &mut Table) {
    let v = random.below(table.transactions.len());
    let transaction = &mut table.transactions[v];
    let j = random.below(transaction.tasks.len());
    let mode = random.below(transaction.modes);
    transaction.tasks[j].times[mode] = (transaction.period + random.within(0, 3)).min(FIELD_24);
}

/// A last task, least urgent and alone in a transaction of the frame's length, takes what the others leave over, and
/// `more` ticks.
fn fill(table: &mut Table, more: i64) {
    let task = Task { offset: 0, jitter: 0, blocking: 0, deadline: FIELD_26, priority: 0, times: vec![1] };
    table.transactions.push(Transaction { period: table.frame, modes: 1, tasks: vec![task] });
    let u = table.transactions.len() - 1;
    let others = frame_demand(&Fixed { table, u, a: 0 }) - 1;
    table.transactions[u].tasks[0].times[0] = (table.frame - others + more).clamp(1, FIELD_24);
}

/// A blocking time with which some task's busy length comes out at H, or a tick beside it.
fn reach_horizon(random: &mut Random, table: &mut Table) {
    let u = random.below(table.transactions.len());
    let a = random.below(table.transactions[u].tasks.len());
    let fixed = Fixed { table, u, a };
    let mode = (0..fixed.own().modes).find(|&mode| fixed.task().times[mode] > 0).expect("it runs in some mode");
    let own_jobs = (Table::HORIZON + fixed.own().period - 1) / fixed.own().period;
    let demand = own_jobs * fixed.task().times[mode] + fixed.charges(Charging::Released, a, mode, Table::HORIZON);
    let blocking = Table::HORIZON - demand + random.within(-1, 1);
    table.transactions[u].tasks[a].blocking = blocking.clamp(0, FIELD_24);
}

/// Mostly as many tasks as there may be, one less, or those at the former limit.
fn at_an_edge(random: &mut Random, table: &mut Table) {
    let drawn = table.numbered().len();
    let count = random.pick(&[drawn, FORMER_TASKS, FORMER_TASKS + 1, Table::TASKS - 1, Table::TASKS]);
    come_to(random, table, count);
}

/// So many tasks in all: the last ones are cut off, or some transactions come again, the last of which takes what is left.
/// Where there is no room for a transaction, some get another task.
pub fn come_to(random: &mut Random, table: &mut Table, count: usize) {
    let mut left = count;
    for transaction in &mut table.transactions {
        transaction.tasks.truncate(left);
        left -= transaction.tasks.len();
    }
    table.transactions.retain(|transaction| !transaction.tasks.is_empty());
    while left > 0 {
        let v = random.below(table.transactions.len());
        if table.transactions.len() < Table::TRANSACTIONS {
            let mut again = table.transactions[v].clone();
            again.tasks.truncate(left);
            left -= again.tasks.len();
            table.transactions.push(again);
        } else if table.transactions[v].tasks.len() < Transaction::TASKS {
            let again = table.transactions[v].tasks[0].clone();
            table.transactions[v].tasks.push(again);
            left -= 1;
        }
    }
}

/// Most tasks stand where an earlier one of their transaction does, some a period later.
fn equal_tasks(random: &mut Random, table: &mut Table) {
    for Transaction { period, tasks, .. } in &mut table.transactions {
        for j in 1..tasks.len() {
            if random.percent(70) {
                let like = tasks[random.below(j)].clone();
                let later = if random.percent(20) { *period } else { 0 };
                let priority = if random.percent(80) { like.priority } else { tasks[j].priority };
                tasks[j] = Task { offset: (like.offset + later).min(FIELD_24), priority, ..like };
            }
        }
    }
}

/// Most modes have the times of an earlier one, some with the times moved on by a task.
fn equal_modes(random: &mut Random, table: &mut Table) {
    for Transaction { modes, tasks, .. } in &mut table.transactions {
        for mode in 1..*modes {
            if random.percent(70) {
                let like = random.below(mode);
                let mut times: Vec<i64> = tasks.iter().map(|task| task.times[like]).collect();
                if random.percent(30) {
                    times.rotate_left(1);
                }
                for (task, time) in tasks.iter_mut().zip(times) {
                    task.times[mode] = time;
                }
            }
        }
        for task in tasks.iter_mut().filter(|task| task.times.iter().all(|time| *time == 0)) {
            task.times[0] = 1;
        }
    }
}

/// Most transactions are like an earlier one, some with their tasks or modes in reverse order.
fn equal_transactions(random: &mut Random, table: &mut Table) {
    for v in 1..table.transactions.len() {
        if random.percent(70) {
            let mut like = table.transactions[random.below(v)].clone();
            if random.percent(20) {
                like.tasks.reverse();
            }
            if random.percent(20) {
                like.tasks.iter_mut().for_each(|task| task.times.reverse());
            }
            table.transactions[v] = like;
        }
    }
}

/// One more task, least urgent, that leaves next to nothing of the major frame: its later jobs may be the late ones.
fn nearly_fill(random: &mut Random, table: &mut Table) {
    let shares: Vec<i64> = (2..=6).filter(|share| table.frame % share == 0).collect();
    let period = table.frame / random.pick(&shares);
    let blocking = random.pick(&[0, 0, 0, 1]);
    let task = Task { offset: 0, jitter: 0, blocking, deadline: 2 * period, priority: 0, times: vec![1] };
    table.transactions.push(Transaction { period, modes: 1, tasks: vec![task] });
    let u = table.transactions.len() - 1;
    let left = table.frame - frame_demand(&Fixed { table, u, a: 0 });
    let more = left / (table.frame / period) - random.within(0, 1);
    table.transactions[u].tasks[0].times[0] += more.clamp(0, FIELD_24 - 1);
}

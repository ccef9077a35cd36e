//! Cases for the plain analysis of request 7: tables where each transaction has one task and one mode, and such as have
//! not; a task, k and t.

use crate::draft;
use crate::generate::tables::{self, Shape, Size, TableKind, FIELD_24, FIELD_26, PLAIN};
use crate::generate::{damage, deadline};
use crate::image::read;
use crate::plain::Plain;
use crate::random::Random;
use crate::stream::{Asked, Question};
use crate::table::{Table, Task, Transaction};

/// A table, and the task in it whose response was aimed at.
#[derive(Clone, Debug, PartialEq, Eq)]
pub struct Aimed {
    pub table: Table,
    pub number: usize,
}

impl Aimed {
    pub fn plain(&self) -> Plain<'_> {
        Plain::of(&self.table, self.number).expect("a task of a table with one task and one mode in each transaction")
    }

    fn own(&mut self) -> &mut Transaction {
        &mut self.table.transactions[self.number]
    }

    fn task(&mut self) -> &mut Task {
        &mut self.own().tasks[0]
    }
}

/// The kinds of tables, by the name that a reader would give them.
#[derive(Clone, Copy, Debug, PartialEq, Eq)]
pub enum PlainKind {
    Tiny,
    Small,
    Middle,
    Large,
    Many,
    EqualPriorities,
    JitterAbovePeriod,
    /// The response is the period, or a tick or so beside it.
    AroundPeriod,
    /// The others take the whole frame, just so or nearly, or more.
    FullRivals,
    /// The others leave something of the frame, and the task wants more.
    OverloadedTogether,
    /// Next to nothing is left of the frame: jobs queue, and a later one may be the late one.
    NearlyFull,
    /// The completion is H, or a tick beside it.
    AroundHorizon,
    ExtremeFields,
    /// The workload takes more than 32 bits, and the lower 32 of it are a t.
    LongWorkload,
}

pub const KINDS: &[PlainKind] = &[
    PlainKind::Tiny,
    PlainKind::Small,
    PlainKind::Middle,
    PlainKind::Large,
    PlainKind::Many,
    PlainKind::EqualPriorities,
    PlainKind::JitterAbovePeriod,
    PlainKind::AroundPeriod,
    PlainKind::AroundPeriod,
    PlainKind::AroundPeriod,
    PlainKind::FullRivals,
    PlainKind::OverloadedTogether,
    PlainKind::OverloadedTogether,
    PlainKind::NearlyFull,
    PlainKind::NearlyFull,
    PlainKind::AroundHorizon,
    PlainKind::ExtremeFields,
    PlainKind::LongWorkload,
];

const LONG_FRAMES: &[i64] = &[27_720, 65_536, 100_800, 720_720, 1_000_000, 8_388_608, 16_777_200, 16_777_215];

fn shape(random: &mut Random, kind: PlainKind) -> Shape {
    let frames = random.pick(&[tables::SMALL_FRAMES, tables::MIDDLE_FRAMES, tables::ROUND_FRAMES]);
    let offset = random.pick(&[Size::Zero, Size::BelowPeriod, Size::SomePeriods]);
    let blocking = random.pick(&[Size::Zero, Size::Zero, Size::BelowPeriod, Size::SomePeriods]);
    let priorities = random.pick(&[1, 2, 8, 256]);
    let (tasks, modes, transactions) = ((1, 1), (1, 1), (1, 5));
    let one = Shape { frames, tasks, modes, transactions, offset, blocking, priorities, ..PLAIN };
    match kind {
        PlainKind::Tiny => Shape { frames: tables::TINY_FRAMES, transactions: (1, 3), ..one },
        PlainKind::Small | PlainKind::JitterAbovePeriod => one,
        PlainKind::Middle | PlainKind::OverloadedTogether => Shape { transactions: (2, 9), ..one },
        PlainKind::Large => Shape { frames: LONG_FRAMES, transactions: (1, 9), ..one },
        PlainKind::Many => {
            let most = Table::TRANSACTIONS as i64;
            Shape { frames: LONG_FRAMES, transactions: random.pick(&[(10, most), (most, most)]), ..one }
        }
        PlainKind::EqualPriorities => Shape { transactions: (2, 6), priorities: 1, ..one },
        PlainKind::AroundPeriod => {
            Shape { frames: random.pick(&[frames, tables::TINY_FRAMES, LONG_FRAMES]), load: (20, 100), ..one }
        }
        PlainKind::FullRivals => {
            let frames = random.pick(&[LONG_FRAMES, LONG_FRAMES, frames]);
            Shape { frames, transactions: (1, 3), load: (20, 80), ..one }
        }
        PlainKind::NearlyFull => {
            let (frames, period, priorities) = (tables::ROUND_FRAMES, tables::any_divisor, 8);
            Shape { frames, period, priorities, transactions: (1, 3), blocking: Size::Zero, load: (30, 70), ..one }
        }
        PlainKind::AroundHorizon => Shape { frames: LONG_FRAMES, transactions: (1, 4), load: (10, 90), ..one },
        PlainKind::ExtremeFields => {
            let frames = random.pick(&[LONG_FRAMES, LONG_FRAMES, frames]);
            Shape { frames, offset: Size::Any, blocking: Size::Any, load: (5, 120), ..one }
        }
        PlainKind::LongWorkload => Shape { transactions: (1, 1), blocking: Size::Zero, load: (1, 20), ..one },
    }
}

/// How the jitters of a table are drawn.
#[derive(Clone, Copy)]
enum Jitters {
    Zero,
    Short,
    /// None, below the period, at it or beside it, or several periods.
    Mixed,
    SomePeriods,
    Extreme,
}

impl Jitters {
    fn of(random: &mut Random, kind: PlainKind) -> Jitters {
        use Jitters::*;
        match kind {
            PlainKind::JitterAbovePeriod => SomePeriods,
            PlainKind::ExtremeFields => random.pick(&[Extreme, Mixed]),
            PlainKind::Many | PlainKind::NearlyFull => random.pick(&[Zero, Zero, Short]),
            _ => random.pick(&[Zero, Zero, Short, Mixed]),
        }
    }

    fn draw(self, random: &mut Random, period: i64) -> i64 {
        let some_periods = period * random.within(1, 4);
        let jitter = match (self, random.within(1, 10)) {
            (Jitters::Zero, _) => 0,
            (Jitters::Short, _) => random.within(0, period / 4),
            (Jitters::Extreme, 1..=5) => FIELD_24 - random.within(0, 1),
            (Jitters::SomePeriods, 1..=5) => some_periods + random.within(0, period),
            (_, 1..=3) => 0,
            (_, 4..=6) => random.within(0, period - 1),
            (_, 7) => period + random.within(-1, 1),
            (_, 8) => some_periods + random.within(-1, 1),
            _ => random.within(0, 3 * period),
        };
        jitter.clamp(0, FIELD_24)
    }
}

pub fn table(random: &mut Random, kind: PlainKind) -> Aimed {
    let shape = shape(random, kind);
    let mut table = tables::shaped(random, &shape);
    let jitters = Jitters::of(random, kind);
    for Transaction { period, tasks, .. } in &mut table.transactions {
        tasks[0].jitter = jitters.draw(random, *period);
    }
    let mut aimed = at_one_task(random, table);
    match kind {
        PlainKind::AroundPeriod => come_to_period(random, &mut aimed),
        PlainKind::FullRivals => fill_with_rivals(random, &mut aimed),
        PlainKind::OverloadedTogether => overload(random, &mut aimed),
        PlainKind::NearlyFull => nearly_fill(random, &mut aimed),
        PlainKind::AroundHorizon => reach_horizon(random, &mut aimed),
        PlainKind::LongWorkload => pass_32_bits(random, &mut aimed),
        _ => (),
    }
    deadline::raise(&mut aimed.table);
    aimed
}

/// Mostly at a least urgent one.
fn at_one_task(random: &mut Random, table: Table) -> Aimed {
    let urgency = |number: &usize| table.transactions[*number].tasks[0].priority;
    let all = 0..table.transactions.len();
    let least = all.clone().map(|number| urgency(&number)).min();
    let lowest: Vec<usize> = all.filter(|number| Some(urgency(number)) == least).collect();
    let any = random.below(table.transactions.len());
    let number = if random.percent(80) { random.pick(&lowest) } else { any };
    Aimed { table, number }
}

/// No more than this is searched while a case is made.
const SEARCHED: i64 = 100_000;

/// Jitter, blocking or time changes so that the response is the period, or a tick or so beside it, where it can be: the
/// jitter of the task itself plays no part in its completion.
fn come_to_period(random: &mut Random, aimed: &mut Aimed) {
    let aim = aimed.own().period + random.pick(&[0, 0, 0, -1, -1, 1, 1, 2]);
    for _ in 0..4 {
        let Some(completion) = aimed.plain().least(SEARCHED.max(aim)) else { return };
        let more = aim - completion - aimed.task().jitter;
        let task = aimed.task();
        if more == 0 {
            return;
        } else if task.jitter + more >= 0 && (more < 0 || random.percent(30)) {
            task.jitter = (task.jitter + more).min(FIELD_24);
        } else if random.percent(50) && task.blocking + more >= 0 {
            task.blocking = (task.blocking + more).min(FIELD_24);
        } else {
            // A rival that comes in between makes it too long: the next turn takes less.
            task.times[0] = (task.times[0] + more).clamp(1, FIELD_24);
        }
    }
    if let Some(completion) = aimed.plain().least(SEARCHED.max(aim)) {
        aimed.task().jitter = (aim - completion).clamp(0, FIELD_24);
    }
}

/// What the others that count ask for in a major frame.
pub fn rivals_demand(aimed: &Aimed) -> i64 {
    let demand = |other: &Plain| aimed.table.frame / other.own().period * other.time();
    aimed.plain().others().iter().map(demand).sum()
}

/// One more task, alone in a frame and as urgent as the one aimed at or more so, takes what the others leave over, or a
/// tick or so less or more.
fn fill_with_rivals(random: &mut Random, aimed: &mut Aimed) {
    let frame = aimed.table.frame;
    let (priority, jitter) = (random.within(aimed.task().priority, 255), Jitters::Mixed.draw(random, frame));
    let time = frame - rivals_demand(aimed) + random.pick(&[-2, -1, 0, 0, 0, 1, frame / 10]);
    let times = vec![time.clamp(1, FIELD_24)];
    let task = Task { offset: 0, jitter, blocking: 0, deadline: FIELD_26, priority, times };
    aimed.table.transactions.push(Transaction { period: frame, modes: 1, tasks: vec![task] });
}

/// The task wants a little more than the others leave over, or than its period.
fn overload(random: &mut Random, aimed: &mut Aimed) {
    let frame = aimed.table.frame;
    let period = aimed.own().period;
    let left = (frame - rivals_demand(aimed)) / (frame / period);
    let most = random.pick(&[1, 2, period.max(2)]);
    let time = left.max(0) + random.within(0, most);
    aimed.task().times[0] = time.clamp(1, FIELD_24);
}

/// The task gets a share of the frame as its period, and takes what the others leave over in each, or a tick less.
fn nearly_fill(random: &mut Random, aimed: &mut Aimed) {
    let frame = aimed.table.frame;
    let shares: Vec<i64> = (2..=6).filter(|share| frame % share == 0).collect();
    aimed.own().period = frame / random.pick(&shares);
    let left = (frame - rivals_demand(aimed)) / (frame / aimed.own().period);
    aimed.task().times[0] = (left - random.within(0, 1)).clamp(1, FIELD_24);
}

/// Blocking with which the workload at H is H, or a tick beside it.
fn reach_horizon(random: &mut Random, aimed: &mut Aimed) {
    let at = Table::HORIZON + random.pick(&[-1, 0, 0, 1, 1]);
    let without = {
        let plain = aimed.plain();
        plain.workload(&plain.others(), at) - plain.task().blocking
    };
    aimed.task().blocking = (at - without).clamp(0, FIELD_24);
}

/// One more task, at least as urgent, has 256 or so jobs held back that together take 2^32 ticks or a little less; blocking
/// makes up for what is missing.
fn pass_32_bits(random: &mut Random, aimed: &mut Aimed) {
    let (frame, time) = (aimed.table.frame, FIELD_24 - random.within(0, 3));
    let jobs = random.pick(&[256, 257, 512]);
    let (priority, jitter) = (random.within(aimed.task().priority, 255), (jobs - 1) * frame);
    let deadline = FIELD_26;
    let task = Task { offset: 0, jitter, blocking: 0, deadline, priority, times: vec![time] };
    aimed.table.transactions.push(Transaction { period: frame, modes: 1, tasks: vec![task] });
    // In the first frame it has as many jobs; less than a frame is left beyond whole words.
    let missing = (-jobs * time).rem_euclid(1 << 32);
    let left = random.within(0, frame - 1);
    let blocking = missing + left - aimed.task().times[0];
    aimed.task().blocking = blocking.clamp(0, FIELD_24);
}

/// About how many steps and requests a search takes at most, if it is not over soon.
fn cost(plain: &Plain) -> i64 {
    let others = plain.others();
    let searched = if plain.least(SEARCHED).is_some() { SEARCHED } else { Table::HORIZON };
    let changes: i64 = others.iter().map(|other| searched / other.own().period + 1).sum();
    searched + 4 * changes.min(searched) * others.len() as i64
}

/// Whether the responses of all tasks take long: more than some tenths of a second.
pub fn is_dear(table: &Table) -> bool {
    let all = (0..table.transactions.len()).map(|number| Plain::of(table, number));
    all.map(|plain| plain.map_or(0, |plain| cost(&plain))).sum::<i64>() > 20 * Table::HORIZON
}

/// Some transaction gets another task, another mode or both.
fn put_several(random: &mut Random, table: &mut Table) {
    let count = table.transactions.len();
    let any = random.below(count);
    let Transaction { modes, tasks, .. } = &mut table.transactions[random.pick(&[0, count - 1, any])];
    let (more_tasks, more_modes) = random.pick(&[(1, 0), (0, 1), (1, 1), (15, 0), (0, 7), (15, 7)]);
    *modes += more_modes;
    let with_time = random.percent(50);
    for task in tasks.iter_mut() {
        task.times.resize(*modes, if with_time { 1 } else { 0 });
    }
    tasks.resize(1 + more_tasks, tasks[0].clone());
}

fn drawn(random: &mut Random) -> Aimed {
    loop {
        let kind = random.pick(KINDS);
        let aimed = table(random, kind);
        // Of the tables that take long few are needed.
        let cost = cost(&aimed.plain());
        let is_kept = match cost / Table::HORIZON {
            0 => true,
            1..=3 => random.percent(40),
            4..=40 => random.percent(5),
            _ => false,
        };
        if is_kept {
            return aimed;
        }
    }
}

/// The image, and the task that was aimed at.
fn drawn_image(random: &mut Random) -> (Vec<u8>, usize) {
    let Aimed { mut table, number } = drawn(random);
    let image = match random.within(1, 100) {
        1..=12 => {
            let damage = random.pick(damage::DAMAGES);
            damage::damaged(random, &table, damage)
        }
        13..=18 => {
            put_several(random, &mut table);
            draft::image(&table)
        }
        19 | 20 => {
            let kind = random.pick(&[TableKind::Small, TableKind::ModesWithZeros, TableKind::EqualTasks]);
            draft::image(&tables::table(random, kind))
        }
        _ => draft::image(&table),
    };
    (image, number)
}

/// The image of a case alone.
pub fn image(seed: u64, index: u64) -> Vec<u8> {
    drawn_image(&mut Random::of(seed, index)).0
}

pub fn asked(seed: u64, index: u64) -> Asked {
    let random = &mut Random::of(seed, index);
    let (image, aimed) = drawn_image(random);
    let any = random.next() as u8;
    let Ok(table) = read(&image) else {
        let question = Question::Plain { task: any, k: random.next() as u32, t: random.next() as u32 };
        return Asked { question, image };
    };
    let task = match random.within(1, 100) {
        1..=4 => random.pick(&[table.numbered().len() as u8, u8::MAX, any]),
        5..=15 => random.below(table.numbered().len()) as u8,
        _ => aimed as u8,
    };
    let (k, t) = match Plain::of(&table, task as usize) {
        Ok(plain) => point(random, &plain),
        Err(_) => (random.next() as u32, random.next() as u32),
    };
    Asked { question: Question::Plain { task, k, t }, image }
}

/// k and t: mostly t is where the request changes, where the horizon is or anywhere, and k on either side of what makes it
/// exact there, or far beyond, also where (k − 1)·T is just past 32 bits; else k is small, and t is where the approximation
/// begins to be linear.
fn point(random: &mut Random, plain: &Plain) -> (u32, u32) {
    let (period, jitter) = (plain.own().period, plain.task().jitter);
    let field = |number: i64| number.clamp(0, u32::MAX as i64) as u32;
    if random.percent(40) {
        let few = (Table::HORIZON + jitter) / period + 2;
        let most = random.pick(&[3, 8, few.max(2)]);
        let k = random.within(1, most);
        return (k as u32, field((k - 1) * period - jitter + random.within(-1, 1)));
    }
    let any = random.within(0, Table::HORIZON);
    let t = match random.within(1, 12) {
        1 | 2 => 0,
        3 | 4 => random.within(1, 4),
        5 => Table::HORIZON - random.within(0, 1),
        6 => Table::HORIZON + random.within(0, 1),
        7 => random.pick(&[u32::MAX as i64, 1 << 31, 1 << 25]),
        8 => any,
        9 => random.within(0, (4 * period).min(Table::HORIZON)),
        10 => any / period * period - jitter % period,
        _ => period * random.within(1, 5) - jitter % period + random.within(-1, 1),
    };
    let t = field(t);
    let around = (t as i64 + jitter) / period + 1;
    let past_32_bits = ((1 << 32) * random.within(1, 4) + period - 1) / period + 1;
    let k = match random.within(1, 13) {
        1 => 0,
        2 | 3 => 1,
        4 | 5 => random.within(2, 5),
        6 => random.pick(&[u32::MAX as i64, u32::MAX as i64 - 1, 1 << 31]),
        7 => random.next() as u32 as i64,
        8 => past_32_bits,
        _ => around + random.within(-1, 1),
    };
    (field(k), t)
}

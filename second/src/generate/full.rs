//! Cases at full load: what a task and its rivals ask for in a major frame is the frame itself, to the tick. A chain
//! for L that comes to no end then goes in cycles of whole frames up to the horizon. Whoever counts whole cycles at
//! once may err where they begin late, where horizon or budget cuts one, and where something looks like a cycle and is
//! none.

use super::{around, cells_within, charges_in_evaluation, Case};
use crate::answer::PROGRAM_BUDGET;
use crate::bound::{frame_demand, watched, Step};
use crate::draft;
use crate::generate::deadline;
use crate::generate::tables::{self, Shape, Size, FIELD_24, FIELD_26, PLAIN};
use crate::interference::{Charging, Fixed};
use crate::random::Random;
use crate::table::{Table, Task, Transaction};

/// A table, and the task in it whose load was aimed at: task a of transaction u.
#[derive(Clone, Debug, PartialEq, Eq)]
pub struct Full {
    pub table: Table,
    pub u: usize,
    pub a: usize,
}

impl Full {
    pub fn fixed(&self) -> Fixed<'_> {
        Fixed { table: &self.table, u: self.u, a: self.a }
    }
}

/// The kinds of full tables, by the name that a reader would give them.
#[derive(Clone, Copy, Debug, PartialEq, Eq)]
pub enum FullKind {
    Alone,
    Several,
    Modes,
    /// Another transaction charges more in a lighter mode for long.
    LateMode,
    /// The task runs in a lighter mode too.
    LighterOwnMode,
    LargeFrame,
    /// A cycle takes many evaluations.
    ShortPeriods,
    /// A few frames make up the horizon, just so or nearly.
    FewFrames,
}

pub const KINDS: &[FullKind] = &[
    FullKind::Alone,
    FullKind::Several,
    FullKind::Modes,
    FullKind::LateMode,
    FullKind::LateMode,
    FullKind::LighterOwnMode,
    FullKind::LargeFrame,
    FullKind::ShortPeriods,
    FullKind::FewFrames,
];

const LARGE_FRAMES: &[i64] = &[27_720, 65_535, 65_536, 100_800, 262_144, 720_720, 1_000_000, 1_048_575, 1_048_576];
const DIVISIBLE_FRAMES: &[i64] = &[5040, 27_720, 55_440, 110_880, 360_360, 720_720];
/// Near a half, a third, a quarter and so on of H; of those that divide H the last cycle ends at H.
const SHARES_OF_HORIZON: &[i64] =
    &[8_388_607, 8_388_608, 5_592_404, 5_592_405, 5_592_406, 4_194_303, 4_194_304, 3_355_443, 2_396_745, 1_118_481];

fn shape(random: &mut Random, kind: FullKind) -> Shape {
    let frames = random.pick(&[tables::TINY_FRAMES, tables::SMALL_FRAMES, tables::MIDDLE_FRAMES]);
    let jitter = random.pick(&[Size::Zero, Size::Zero, Size::BelowPeriod, Size::SomePeriods]);
    let offset = random.pick(&[Size::Zero, Size::BelowPeriod, Size::BelowPeriod, Size::SomePeriods]);
    let priorities = random.pick(&[1, 2, 8, 256]);
    let plain = Shape { frames, jitter, offset, priorities, modes: (1, 1), load: (20, 80), ..PLAIN };
    // Where a mode is lighter by a tick, it shows the later the longer the period is.
    let slow = random.pick(&[tables::SMALL_FRAMES, tables::MIDDLE_FRAMES, tables::MIDDLE_FRAMES]);
    match kind {
        FullKind::Alone => Shape { transactions: (1, 1), tasks: random.pick(&[(1, 1), (1, 4)]), ..plain },
        FullKind::Several => {
            let several = Shape { transactions: (2, 6), ..plain };
            let round = Shape { frames: tables::ROUND_FRAMES, period: tables::any_divisor, ..several };
            random.pick(&[several, round])
        }
        FullKind::Modes => Shape { modes: (1, 4), zeros: 30, ..plain },
        FullKind::LateMode => Shape { frames: slow, transactions: (2, 3), tasks: (1, 2), modes: (1, 2), ..plain },
        FullKind::LighterOwnMode => Shape { frames: slow, transactions: (1, 3), modes: (1, 2), ..plain },
        FullKind::LargeFrame => Shape { frames: LARGE_FRAMES, transactions: (1, 6), modes: (1, 2), ..plain },
        FullKind::ShortPeriods => {
            Shape { frames: DIVISIBLE_FRAMES, period: short_period, transactions: (2, 4), tasks: (1, 2), ..plain }
        }
        FullKind::FewFrames => Shape { frames: SHARES_OF_HORIZON, modes: (1, 2), ..plain },
    }
}

/// A small share of the frame; the periods need not divide one another.
fn short_period(random: &mut Random, frame: i64) -> i64 {
    tables::shared_out(random, frame, (4, 7), &[2, 2, 3, 4, 5, 7, 11])
}

/// A table of that kind, mostly full to the tick, else a little below. None if the times drawn leave no way to that.
pub fn table(random: &mut Random, kind: FullKind) -> Option<Full> {
    let shape = shape(random, kind);
    let shaped = tables::shaped(random, &shape);
    let mut full = aimed(random, shaped);
    let frame = full.table.frame;
    full.table.transactions[full.u].tasks[full.a].blocking = blocking(random, frame);
    let jobs = frame / full.table.transactions[full.u].period;
    let short = if random.percent(85) { 0 } else { random.pick(&[1, jobs, 2 * jobs, frame / 100]) };
    fill(random, &mut full, frame - short)?;
    let u = full.u;
    let others: Vec<usize> = (0..full.table.transactions.len()).filter(|&v| v != u).collect();
    match kind {
        FullKind::LateMode => {
            let v = random.pick(&others);
            add_lighter_mode(random, &mut full, v)?;
        }
        FullKind::LighterOwnMode => add_lighter_mode(random, &mut full, u)?,
        FullKind::LargeFrame | FullKind::ShortPeriods | FullKind::FewFrames if random.percent(50) => {
            reach_horizon(random, &mut full)
        }
        _ => (),
    }
    deadline::raise(&mut full.table);
    Some(full)
}

/// Mostly a least urgent task is aimed at; else the less urgent ones are overloaded.
fn aimed(random: &mut Random, table: Table) -> Full {
    let numbered = table.numbered();
    let least = table.transactions.iter().flat_map(|v| &v.tasks).map(|task| task.priority).min();
    let is_least = |&(v, j): &(usize, usize)| Some(table.transactions[v].tasks[j].priority) == least;
    let lowest: Vec<(usize, usize)> = numbered.iter().copied().filter(is_least).collect();
    let (u, a) = if random.percent(80) { random.pick(&lowest) } else { random.pick(&numbered) };
    Full { table, u, a }
}

/// From nothing to a few frames. What H leaves over of whole frames brings the chain of a task alone to H itself.
fn blocking(random: &mut Random, frame: i64) -> i64 {
    let blocking = match random.within(1, 10) {
        1 | 2 => 0,
        3 => random.within(1, 4),
        4 => random.within(0, frame / 100),
        5 => random.within(0, frame - 1),
        6 => frame,
        7 => Table::HORIZON % frame + random.within(0, 2) * frame + random.within(-1, 1),
        8 => random.within(0, 1000),
        _ => random.within(0, 4 * frame),
    };
    blocking.clamp(0, FIELD_24)
}

/// The tasks of transaction v that count in a mode: rivals and, in u, the task itself. In u none do in modes where it
/// does not run.
fn counting(fixed: &Fixed, v: usize, mode: usize) -> Vec<usize> {
    if v == fixed.u && fixed.task().times[mode] == 0 {
        return vec![];
    }
    let counts = |&j: &usize| (v, j) == (fixed.u, fixed.a) || fixed.is_rival(v, j, mode);
    (0..fixed.table.transactions[v].tasks.len()).filter(counts).collect()
}

/// The mode of transaction v with the greatest sum, and that sum; None if nobody counts in any.
fn heaviest(fixed: &Fixed, v: usize) -> Option<(usize, i64)> {
    let transaction = &fixed.table.transactions[v];
    let sum = |mode: usize| counting(fixed, v, mode).into_iter().map(|j| transaction.tasks[j].times[mode]).sum();
    let sums = (0..transaction.modes).map(|mode| (mode, sum(mode)));
    sums.max_by_key(|(_, sum)| *sum).filter(|(_, sum)| *sum > 0)
}

/// Times of heaviest modes grow until the demand of a and its rivals in a major frame is this one.
fn fill(random: &mut Random, full: &mut Full, demand: i64) -> Option<()> {
    loop {
        let fixed = full.fixed();
        let left = demand - frame_demand(&fixed);
        if left == 0 {
            return Some(());
        }
        let transactions = &full.table.transactions;
        let jobs = |v: usize| full.table.frame / transactions[v].period;
        let can_grow = (0..transactions.len()).filter(|&v| jobs(v) <= left);
        let growing: Vec<(usize, usize)> = can_grow.filter_map(|v| Some((v, heaviest(&fixed, v)?.0))).collect();
        if growing.is_empty() {
            return None;
        }
        let (v, mode) = random.pick(&growing);
        let j = random.pick(&counting(&fixed, v, mode));
        let most = left / jobs(v);
        let more = if random.percent(50) { most } else { random.within(1, most) };
        full.table.transactions[v].tasks[j].times[mode] += more;
    }
}

/// One more mode of transaction v, mostly a tick or so lighter than the heaviest, in which a further rival runs that is
/// held back for long: it charges more until the heaviest mode has caught up.
fn add_lighter_mode(random: &mut Random, full: &mut Full, v: usize) -> Option<()> {
    let (_, sum) = heaviest(&full.fixed(), v)?;
    let (is_own, a, urgency) = (v == full.u, full.a, full.fixed().task().priority);
    let Transaction { period, modes, tasks } = &mut full.table.transactions[v];
    // The further rival needs a tick, and in its own transaction the task another.
    let least = 1 + is_own as i64;
    if sum <= least || tasks.len() == Transaction::TASKS || *modes == Transaction::MODES {
        return None;
    }
    let any = random.within(1, sum - least);
    let lighter = random.pick(&[0, 1, 1, 1, 1, 2, any]).min(sum - least);

    let mode = random.below(*modes + 1);
    let mut left = sum - lighter;
    let own_time = if is_own { random.within(1, left - 1) } else { 0 };
    left -= own_time;
    for (j, task) in tasks.iter_mut().enumerate() {
        let is_a = is_own && j == a;
        let is_shared = !is_a && task.priority >= urgency && random.percent(50);
        let share = if is_shared { random.within(0, left - 1) } else { 0 };
        left -= share;
        task.times.insert(mode, if is_a { own_time } else { share });
    }
    *modes += 1;
    let mut times = vec![0; *modes];
    times[mode] = left;
    // The heaviest mode gains `lighter` in each period on what is held back: in half the horizon it catches up.
    let most = Table::HORIZON / 2 / *period * lighter.max(1) / left;
    // In the task's own transaction nobody catches up, and each job held back is one more to look at.
    let held = random.within(0, most) >> if is_own { random.within(6, 16) } else { random.within(0, 6) };
    let jitter = (held * *period + random.within(0, *period - 1)).min(FIELD_24);
    let offset = random.within(0, *period - 1);
    let priority = random.within(urgency, 255);
    tasks.push(Task { offset, jitter, blocking: 0, deadline: FIELD_26, priority, times });
    Some(())
}

/// Some more or less blocking, with which the last point up to H may be H itself, or the first past it a tick past.
fn reach_horizon(random: &mut Random, full: &mut Full) {
    const EVALUATIONS: u32 = 5000;
    let mut passing = None;
    watched(&full.fixed(), Charging::Imposed, EVALUATIONS, &mut |step| match step {
        Step::Evaluation { at, value } if value > Table::HORIZON => passing = Some((at, value)),
        _ => (),
    });
    if let Some((at, value)) = passing {
        let more = random.pick(&[Table::HORIZON - at, Table::HORIZON + 1 - value]);
        let blocking = &mut full.table.transactions[full.u].tasks[full.a].blocking;
        *blocking = (*blocking + more).clamp(0, FIELD_24);
    }
}

/// About this many charges are worked out at most for a case: some milliseconds, for a few some hundredths of a second.
const CHARGES_IN_CASE: usize = 1_000_000;
const CHARGES_IN_DEAR_CASE: usize = 10_000_000;

pub fn case(seed: u64, index: u64) -> Case {
    let random = &mut Random::of(seed, index);
    let kind = random.pick(KINDS);
    loop {
        let drawn = table(random, kind).and_then(|full| Some((budget(random, &full)?, full)));
        if let Some((budget, full)) = drawn {
            return Case { budget, image: draft::image(&full.table) };
        }
    }
}

/// A budget: mostly around what some task needs, and that is mostly the one aimed at; else below it, or plenty. Most
/// tables are left out that are too dear to find that out, and the others of them get what can be spent.
fn budget(random: &mut Random, full: &Full) -> Option<u32> {
    let charges = if random.percent(5) { CHARGES_IN_DEAR_CASE } else { CHARGES_IN_CASE };
    let most = (charges / charges_in_evaluation(&full.table)) as u32;
    let Some(row) = cells_within(&full.table, most) else {
        let tasks = full.table.numbered().len() as i64;
        return random.percent(10).then(|| random.within(0, most as i64 / tasks) as u32);
    };
    let aimed = full.table.number(full.u, full.a);
    let dearest = (0..row.len()).max_by_key(|&number| row[number].evaluations).expect("a task");
    let any = random.below(row.len());
    let needed = row[random.pick(&[aimed, aimed, dearest, any])].evaluations.max(1);
    Some(match random.within(1, 100) {
        1..=55 => around(random, needed),
        56..=70 => {
            let below = needed as i64 >> random.within(0, needed.ilog2() as i64);
            random.within(0, below) as u32
        }
        _ => random.pick(&[u32::MAX, u32::MAX - 1, 1 << 31, PROGRAM_BUDGET]),
    })
}

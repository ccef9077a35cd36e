//! Cases for a comparison: a budget and an image. Case `index` of a seed depends on nothing else.

pub mod crowded;
pub mod damage;
pub mod deadline;
pub mod full;
pub mod plain;
pub mod tables;
pub mod who;

use crate::answer::{all_cells, cells, Cells, PROGRAM_BUDGET};
use crate::draft;
use crate::image::read;
use crate::interference::{Charging, Fixed};
use crate::random::Random;
use crate::stream::{Asked, Question};
use crate::table::{Table, Transaction};

#[derive(Clone, Debug, PartialEq, Eq)]
pub struct Case {
    pub budget: u32,
    pub image: Vec<u8>,
}

impl Case {
    /// The case that asks for cells.
    pub fn asked(self) -> Asked {
        Asked { question: Question::Cells { budget: self.budget }, image: self.image }
    }
}

pub fn case(seed: u64, index: u64) -> Case {
    let random = &mut Random::of(seed, index);
    let image = drawn_image(random);
    let budget = match read(&image) {
        Ok(table) => budget(random, &table),
        Err(_) => random.next() as u32,
    };
    Case { budget, image }
}

/// The image of a case alone.
pub fn image(seed: u64, index: u64) -> Vec<u8> {
    drawn_image(&mut Random::of(seed, index))
}

fn drawn_image(random: &mut Random) -> Vec<u8> {
    let kind = kind(random);
    let table = tables::table(random, kind);
    if random.percent(35) {
        let damage = random.pick(damage::DAMAGES);
        damage::damaged(random, &table, damage)
    } else {
        draft::image(&table)
    }
}

/// The dear kinds come less often.
fn kind(random: &mut Random) -> tables::TableKind {
    use tables::TableKind::*;
    let kind = random.pick(tables::KINDS);
    let is_replaced = match kind {
        ManyTransactions | ManyModes => random.percent(60),
        ManyTasks => random.percent(90),
        AtAllLimits => random.percent(94),
        _ => false,
    };
    if is_replaced {
        random.pick(&[Small, Middle, JitterAbovePeriod, ModesWithZeros, EqualPriorities])
    } else {
        kind
    }
}

/// The charges that one evaluation sums for the least urgent task.
fn charges_in_evaluation(table: &Table) -> usize {
    let running = |v: &Transaction, mode: usize| v.tasks.iter().filter(|task| task.times[mode] > 0).count();
    let each = |v: &Transaction| (0..v.modes).map(|mode| running(v, mode).pow(2)).sum::<usize>();
    table.transactions.iter().map(each).sum()
}

/// About this many charges are worked out at most for a case in which tasks come to no end: some milliseconds.
const CHARGES_IN_CASE: usize = 300_000;
/// Few tasks that come to an end take more evaluations than this in a table where each is dear.
const EVALUATIONS: usize = 200;

/// A budget: in most cases what every task needs that comes to an end, or a little more; else nothing, little, anything,
/// around what some task needs, or plenty.
fn budget(random: &mut Random, table: &Table) -> u32 {
    let tasks = table.numbered().len();
    let most = (CHARGES_IN_CASE / (charges_in_evaluation(table) * tasks)).max(EVALUATIONS) as u32;
    let row = all_cells(table, Charging::Imposed, most);
    let has_ended = |cells: &&Cells| cells.code != 23;
    let needed = row.iter().filter(has_ended).map(|cells| cells.evaluations).max().unwrap_or(0);
    match random.within(1, 100) {
        1..=4 => random.pick(&[0, 0, 1, 2]),
        5..=8 => random.within(0, 12) as u32,
        9..=15 => random.within(0, most as i64) as u32,
        16..=24 => {
            let some = random.pick(&row).evaluations;
            around(random, some)
        }
        25..=60 => around(random, needed),
        61..=90 => random.within(needed as i64, 2 * needed as i64) as u32,
        _ if row.iter().all(|cells| has_ended(&cells)) => {
            random.pick(&[u32::MAX, u32::MAX - 1, 1 << 31, PROGRAM_BUDGET])
        }
        _ => most,
    }
}

fn around(random: &mut Random, needed: u32) -> u32 {
    (needed + random.below(3) as u32).saturating_sub(1)
}

/// About this many charges are worked out at most for a table that does not take long: some tenths of a second.
const CHARGES_IN_TABLE: usize = 20_000_000;
/// But so many evaluations for each task are few, or the largest tables would all be left out.
const EVALUATIONS_IN_TABLE: usize = 1000;

/// Whether a table takes long under the program's budget: its tasks have not all come to an end after so many charges. The
/// budget itself is far too much to spend on a table that is one of many.
pub fn is_dear(table: &Table) -> bool {
    let tasks = table.numbered().len();
    let most = (CHARGES_IN_TABLE / charges_in_evaluation(table)).max(EVALUATIONS_IN_TABLE * tasks);
    cells_within(table, most as u32).is_none()
}

/// The cells of every task, if all of them together come to an end within so many evaluations.
fn cells_within(table: &Table, evaluations: u32) -> Option<Vec<Cells>> {
    let mut left = evaluations;
    let each = |(u, a)| {
        let cells = cells(&Fixed { table, u, a }, Charging::Imposed, left);
        left -= cells.evaluations;
        (cells.code != 23).then_some(cells)
    };
    table.numbered().into_iter().map(each).collect()
}

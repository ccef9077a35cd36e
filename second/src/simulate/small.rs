//! Random small tables, many runs of each.

use crate::answer::all_cells;
use crate::interference::Charging;
use crate::random::Random;
use crate::simulate::plan::{Size, Start};
use crate::simulate::{any_chooser, play_once, violation, Draw, STYLES};
use crate::table::{Table, Task, Transaction};

#[derive(Default, Debug)]
pub struct Counts {
    pub tables: u64,
    pub runs: u64,
    pub jobs: u64,
    pub violations: u64,
    /// The first violation in words, with its run.
    pub first_violation: String,
    /// Tasks with a bound in a table that was played, and those of them whose bound some job took exactly.
    pub bounded: u64,
    pub attained: u64,
}

impl Counts {
    /// Whether no bound was passed, and what is to be said of the runs.
    pub fn told(&self, seed: u64) -> (bool, String) {
        let Counts { tables, runs, jobs, violations, first_violation, bounded, attained } = self;
        let text = format!(
            "{first_violation}seed {seed}\ntables {tables}\nruns {runs}\njobs {jobs}\nviolations {violations}\n\
             bounded tasks {bounded}\nbounds attained exactly {attained}\n"
        );
        (*violations == 0, text)
    }
}

pub struct Settings {
    pub runs: u64,
    pub seed: u64,
    pub wide: bool,
}

const RUNS_OF_A_TABLE: u64 = 100;
const BUDGET: u32 = 20_000;
/// Runs are no longer than this, in ticks after the instant 0.
const LONGEST: i64 = 300;
/// More than the jobs before the instant 0 can be in so small a table.
const JOBS_BEFORE: i64 = 1000;

/// Tables are drawn until the runs are made, or until a table has a violation, of which the first is told. `watch` gets
/// the number of runs so far.
pub fn simulate(settings: &Settings, watch: &mut dyn FnMut(u64)) -> Counts {
    let mut counts = Counts::default();
    let mut index = 0;
    while counts.runs < settings.runs && counts.violations == 0 {
        let random = &mut Random::of(settings.seed, index);
        let table = table(random);
        let runs = RUNS_OF_A_TABLE.min(settings.runs - counts.runs);
        play_table(random, &table, runs, settings.wide, &mut counts);
        index += 1;
        watch(counts.runs);
    }
    counts
}

fn play_table(random: &mut Random, table: &Table, runs: u64, wide: bool, counts: &mut Counts) {
    let row = all_cells(table, Charging::Imposed, BUDGET);
    let bounded = row.iter().filter(|cells| cells.bound > 0).count();
    if bounded == 0 {
        return;
    }
    counts.tables += 1;
    counts.bounded += bounded as u64;
    let mut attained = vec![false; row.len()];
    let greatest = row.iter().map(|cells| cells.bound as i64).max().unwrap_or(0);
    let size = Size { length: (greatest + 2 * table.frame).min(LONGEST), jobs_before: JOBS_BEFORE };
    for _ in 0..runs {
        let style = random.pick(&STYLES);
        let a = random.below(row.len());
        let chooser = any_chooser(random, a);
        let starts = table.transactions.iter().map(|transaction| Start::any(random, transaction, style)).collect();
        let (run, responses) = play_once(random, table, &Draw { starts, style, chooser, size, wide });
        counts.runs += 1;
        for response in responses.iter().filter(|response| row[response.task].bound > 0) {
            let bound = row[response.task].bound as i64;
            counts.jobs += response.is_finished as u64;
            attained[response.task] |= response.is_finished && response.ticks() == bound;
            if response.ticks() > bound {
                counts.violations += 1;
                if counts.violations == 1 {
                    counts.first_violation = violation(table, &run, response, bound);
                }
            }
        }
    }
    counts.attained += attained.into_iter().filter(|&was| was).count() as u64;
}

/// A small table of a few tasks, with something of everything.
pub fn table(random: &mut Random) -> Table {
    let frame = random.pick(&[4, 6, 8, 10, 12, 16, 20, 24]);
    let periods: Vec<i64> = (2..=frame).filter(|period| frame % period == 0).collect();
    let most_modes = random.within(1, 3);
    let load = random.within(2, 5);
    let transactions = (0..random.within(1, 3)).map(|_| {
        let period = random.pick(&periods);
        let modes = random.within(1, most_modes) as usize;
        let tasks = (0..random.within(1, 3)).map(|_| task(random, period, modes, load)).collect();
        Transaction { period, modes, tasks }
    });
    Table { frame, transactions: transactions.collect() }
}

fn task(random: &mut Random, period: i64, modes: usize, load: i64) -> Task {
    let longest = (period / load).max(1);
    let mut times: Vec<i64> = (0..modes).map(|_| random.within(1, longest)).collect();
    let runs_in = random.below(modes);
    for (mode, time) in times.iter_mut().enumerate() {
        if mode != runs_in && random.percent(25) {
            *time = 0;
        }
    }
    let offset = if random.percent(80) { random.within(0, period - 1) } else { random.within(0, 3 * period) };
    let jitter = match random.within(0, 3) {
        0 => random.within(0, period),
        1 => random.within(0, 3 * period),
        _ => 0,
    };
    let blocking = if random.percent(40) { random.within(1, 3) } else { 0 };
    Task { offset, jitter, blocking, deadline: 1000, priority: random.within(0, 4), times }
}

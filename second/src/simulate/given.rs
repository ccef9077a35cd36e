//! One given table, its own runs: the longest response of each task beside its bound.

use crate::answer::{cells_of, Cells};
use crate::bound::{analyse, Outcome};
use crate::interference::{Charging, Fixed};
use crate::parts::{parts, Charge};
use crate::random::Random;
use crate::simulate::plan::{Size, Start, Style};
use crate::simulate::play::{tasks, Chooser};
use crate::simulate::{any_chooser, play_once, violation, Draw, STYLES};
use crate::table::Table;
use std::fmt::Write;

/// What the analysis says of a task.
pub struct Analysed {
    pub cells: Cells,
    /// How each transaction starts where the greatest response comes from; none where that does not matter, or where
    /// there is no bound.
    pub starts: Vec<Option<Start>>,
}

/// The analysis of every task in image order. `watch` gets the number of tasks so far.
pub fn analysed(table: &Table, budget: u32, watch: &mut dyn FnMut(u64)) -> Vec<Analysed> {
    let mut row = Vec::new();
    for (u, a) in table.numbered() {
        row.push(analysed_task(&Fixed { table, u, a }, budget));
        watch(row.len() as u64);
    }
    row
}

fn analysed_task(fixed: &Fixed, budget: u32) -> Analysed {
    let verdict = analyse(fixed, Charging::Imposed, budget);
    let mut starts = vec![None; fixed.table.transactions.len()];
    if let Outcome::Bounded(bound) = verdict.outcome {
        let start = |mode, c| Some(Start { mode, candidate: Some(c) });
        for (v, charge) in parts(fixed, Charging::Imposed, bound).charges.iter().enumerate() {
            starts[v] = match charge {
                Charge::Own => start(bound.mode, bound.c),
                Charge::Missing | Charge::Nobody => None,
                Charge::Greatest(greatest) => start(greatest.mode, greatest.c),
            };
        }
    }
    Analysed { cells: cells_of(fixed, verdict), starts }
}

/// Jobs in a run, about: some milliseconds.
const JOBS_OF_A_RUN: i64 = 20_000;
/// Jobs in all runs where their number is not given, about: a second or two.
const JOBS_IN_ALL: i64 = 1_000_000;
const MOST_RUNS: i64 = 10_000;

/// How long the runs of a table are, and how many of them make sense.
#[derive(Clone, Copy, Debug)]
pub struct Extent {
    pub size: Size,
    pub runs: u64,
}

/// A run lasts as long as the greatest bound and two major frames, where that is not too many jobs. Each task has some
/// runs against it.
pub fn extent(table: &Table, row: &[Analysed]) -> Extent {
    let greatest = row.iter().map(|task| task.cells.bound as i64).max().unwrap_or(0);
    let in_frame: i64 = table.transactions.iter().map(|v| v.tasks.len() as i64 * (table.frame / v.period)).sum();
    let longest = (JOBS_OF_A_RUN * table.frame / in_frame).max(1);
    let length = (greatest + 2 * table.frame).min(longest);
    let jobs = in_frame * length / table.frame + 1;
    let runs = (JOBS_IN_ALL / jobs).min(MOST_RUNS).max(4 * row.len() as i64) as u64;
    Extent { size: Size { length, jobs_before: JOBS_OF_A_RUN / table.transactions.len() as i64 }, runs }
}

pub struct Settings {
    pub size: Size,
    pub runs: u64,
    pub seed: u64,
    pub wide: bool,
}

/// A response that was seen, or what it is at least if the job was not finished at the end of the run.
#[derive(Clone, Copy, Debug, PartialEq, Eq, PartialOrd, Ord)]
pub struct Ticks {
    pub ticks: i64,
    pub is_finished: bool,
}

/// What the runs showed.
#[derive(Default)]
pub struct Seen {
    /// For each task the longest response.
    pub longest: Vec<Option<Ticks>>,
    /// Finished ones.
    pub runs: u64,
    pub jobs: u64,
    /// In words, with its run.
    pub violation: Option<String>,
}

/// Plays runs against each task in turn, up to the first violation. Run `index` of a seed depends on nothing else.
/// `watch` gets the number of runs so far.
pub fn simulate(table: &Table, row: &[Analysed], settings: &Settings, watch: &mut dyn FnMut(u64)) -> Seen {
    let mut seen = Seen { longest: vec![None; row.len()], ..Seen::default() };
    while seen.runs < settings.runs && seen.violation.is_none() {
        let random = &mut Random::of(settings.seed, seen.runs);
        let draw = draw(random, table, row, settings, seen.runs);
        let (run, responses) = play_once(random, table, &draw);
        for response in &responses {
            let bound = row[response.task].cells.bound as i64;
            seen.jobs += response.is_finished as u64;
            let longest = &mut seen.longest[response.task];
            *longest = (*longest).max(Some(Ticks { ticks: response.ticks(), is_finished: response.is_finished }));
            if bound > 0 && response.ticks() > bound && seen.violation.is_none() {
                let text = violation(table, &run, response, bound);
                seen.violation = Some(format!("seed {} run {}\n{text}", settings.seed, seen.runs));
            }
        }
        seen.runs += 1;
        watch(seen.runs);
    }
    seen
}

/// The first run against a task is the one that its bound comes from; the others have something at random.
fn draw(random: &mut Random, table: &Table, row: &[Analysed], settings: &Settings, index: u64) -> Draw {
    let a = (index % row.len() as u64) as usize;
    let is_first = index < row.len() as u64;
    let style = if is_first { Style::Critical } else { random.pick(&STYLES) };
    let chooser = if is_first { Chooser::Against(a) } else { any_chooser(random, a) };
    let is_worst = is_first || (style != Style::Random && random.percent(60));
    let each = table.transactions.iter().zip(&row[a].starts);
    let start = |(transaction, worst): (_, &Option<Start>)| {
        let any = Start::any(random, transaction, style);
        worst.filter(|_| is_worst).unwrap_or(any)
    };
    Draw { starts: each.map(start).collect(), style, chooser, size: settings.size, wide: settings.wide }
}

/// Whether no bound was passed, and what is to be said of the runs.
pub fn told(table: &Table, row: &[Analysed], seen: &Seen, seed: u64) -> (bool, String) {
    let mut text = String::from("task code  deadline     bound   longest\n");
    let mut bounded = 0;
    let mut attained = 0;
    for (index, task) in tasks(table).into_iter().enumerate() {
        let cells = row[index].cells;
        let exactly = Ticks { ticks: cells.bound as i64, is_finished: true };
        bounded += (cells.bound > 0) as u64;
        attained += (seen.longest[index] == Some(exactly)) as u64;
        text += &line(index, task.deadline, cells, seen.longest[index]);
    }
    let _ = writeln!(text, "seed {seed}\nruns {}\njobs {}", seen.runs, seen.jobs);
    let _ = writeln!(text, "violations {}", seen.violation.is_some() as u64);
    let _ = writeln!(text, "bounded tasks {bounded}\nbounds attained exactly {attained}");
    text += seen.violation.as_deref().unwrap_or("");
    (seen.violation.is_none(), text)
}

fn line(task: usize, deadline: i64, cells: Cells, longest: Option<Ticks>) -> String {
    let bound = if cells.bound > 0 { cells.bound.to_string() } else { "none".into() };
    let told = match longest {
        None => "none".into(),
        Some(Ticks { ticks, is_finished: true }) => ticks.to_string(),
        Some(Ticks { ticks, is_finished: false }) => format!(">={ticks}"),
    };
    let late = if longest.is_some_and(|longest| longest.ticks > deadline) { " late" } else { "" };
    format!("{task:>4} {:>4} {deadline:>9} {bound:>9} {told:>9}{late}\n", cells.code)
}

//! What a caller gets: cells, the host's number, the listing, one line for a case.

use crate::bound::{analyse, Bound, Outcome, Verdict};
use crate::image::{read, Refusal};
use crate::interference::{Charging, Fixed};
use crate::parts::{charge_told, parts, parts_told, Charge, Parts};
use crate::plain::Plain;
use crate::stream::{Asked, Question};
use crate::table::Table;
use std::fmt::{self, Display, Write};

/// The six cells of a task: 'code, bound, evaluations, mode, candidate's task number, job number minus p0'.
#[derive(Clone, Copy, Debug, Default, PartialEq, Eq)]
pub struct Cells {
    pub code: u32,
    pub bound: u32,
    pub evaluations: u32,
    pub mode: u32,
    pub candidate: u32,
    pub job: u32,
}

impl Display for Cells {
    fn fmt(&self, out: &mut fmt::Formatter) -> fmt::Result {
        let Cells { code, bound, evaluations, mode, candidate, job } = self;
        write!(out, "{code} {bound} {evaluations} {mode} {candidate} {job}")
    }
}

/// '1,000,000 evaluations stop some honest long tables. The program shall use 100,000,000.'
pub const PROGRAM_BUDGET: u32 = 100_000_000;

/// 'No task of that number.'
pub const NO_TASK: u32 = 13;

/// 'Codes: 0 bounded and bound ≤ D; 20 bounded, bound > D; 21 overload; 22 past the horizon; 23 budget spent. For 21 to
/// 23 the bound cell is 0', and so are the last three, 'without a bound'.
pub fn cells(fixed: &Fixed, charging: Charging, budget: u32) -> Cells {
    cells_of(fixed, analyse(fixed, charging, budget))
}

pub fn cells_of(fixed: &Fixed, verdict: Verdict) -> Cells {
    let evaluations = verdict.evaluations;
    let without = |code: u32| Cells { code, evaluations, ..Cells::default() };
    match verdict.outcome {
        Outcome::Bounded(Bound { response, mode, c, job, first_job, .. }) => Cells {
            code: if response <= fixed.task().deadline { 0 } else { 20 },
            bound: u32::try_from(response).expect("a bound is at least 1 and fits a cell"),
            evaluations,
            mode: mode as u32,
            candidate: fixed.table.number(fixed.u, c) as u32,
            job: u32::try_from(job - first_job).expect("jobs count from p0 and fit a cell"),
        },
        Outcome::Overload => without(21),
        Outcome::PastHorizon => without(22),
        Outcome::BudgetSpent => without(23),
    }
}

/// The cells of every task in image order; the budget 'holds for each task afresh'.
pub fn all_cells(table: &Table, charging: Charging, budget: u32) -> Vec<Cells> {
    let each = table.numbered().into_iter();
    each.map(|(u, a)| cells(&Fixed { table, u, a }, charging, budget)).collect()
}

/// The answer to an image.
pub fn answer(image: &[u8], budget: u32) -> Result<Vec<Cells>, Refusal> {
    Ok(all_cells(&read(image)?, Charging::Imposed, budget))
}

/// The host 'gets code × 2^32 + bound; for 1 to 11 and 13 it gets that number × 2^32 + its place', and so for 14.
pub fn host(image: &[u8], task: u32, budget: u32) -> u64 {
    let pair = |upper: u32, lower: u32| ((upper as u64) << 32) + lower as u64;
    let table = match read(image) {
        Err(refusal) => return pair(refusal.number, refusal.place),
        Ok(table) => table,
    };
    match table.numbered().get(task as usize) {
        None => pair(NO_TASK, 0),
        Some(&(u, a)) => {
            let cells = cells(&Fixed { table: &table, u, a }, Charging::Imposed, budget);
            pair(cells.code, cells.bound)
        }
    }
}

pub fn refused(refusal: Refusal) -> String {
    format!("refused {} {}\n", refusal.number, refusal.place)
}

/// The whole output of the program for an image.
pub fn listing(image: &[u8], charging: Charging) -> String {
    let table = match read(image) {
        Err(refusal) => return refused(refusal),
        Ok(table) => table,
    };
    let mut text = String::from("task code bound evaluations mode candidate job\n");
    for (number, cells) in all_cells(&table, charging, PROGRAM_BUDGET).iter().enumerate() {
        writeln!(text, "{number} {cells}").unwrap();
    }
    text
}

/// The answer to a case of the stream.
pub enum Answer {
    Cells(Result<Vec<Cells>, Refusal>),
    Charge(Result<Charge, Refusal>),
    Plain(PlainAnswer),
}

/// Response and approximation of a task, each with its refusal. Both refuse the table and the task alike.
pub struct PlainAnswer {
    pub response: Result<i64, Refusal>,
    pub approximation: Result<i64, Refusal>,
}

/// The answer to the image of a table, of one of its tasks.
pub fn plain(image: &[u8], task: usize, k: u32, t: u32) -> PlainAnswer {
    let table = read(image);
    let plain = table.as_ref().map_err(|refusal| *refusal).and_then(|table| Plain::of(table, task));
    PlainAnswer {
        response: plain.and_then(|plain| plain.response()),
        approximation: plain.and_then(|plain| plain.approximation(k, t)),
    }
}

/// That answer, and its lines.
pub fn answered(asked: &Asked) -> (Answer, String) {
    match asked.question {
        Question::Cells { budget } => {
            let answer = answer(&asked.image, budget);
            let line = line(&answer);
            (Answer::Cells(answer), line)
        }
        Question::Parts { budget } => {
            let (answer, parts) = match with_parts(&asked.image, budget) {
                Err(refusal) => (Err(refusal), String::new()),
                Ok((row, parts)) => (Ok(row), parts),
            };
            let text = line(&answer) + &parts;
            (Answer::Cells(answer), text)
        }
        Question::Charge { task, transaction, charging, t } => {
            let charge = |table: Table| charge_told(&table, task as usize, transaction as usize, charging, t);
            match read(&asked.image).and_then(charge) {
                Err(refusal) => (Answer::Charge(Err(refusal)), refused(refusal)),
                Ok((charge, line)) => (Answer::Charge(Ok(charge)), line),
            }
        }
        Question::Plain { task, k, t } => {
            let answer = plain(&asked.image, task as usize, k, t);
            let line = |name: &str, value: Result<i64, Refusal>| match value {
                Err(refusal) => refused(refusal),
                Ok(value) => format!("{name} {value}\n"),
            };
            let text = line("plain", answer.response) + &line("approximate", answer.approximation);
            (Answer::Plain(answer), text)
        }
    }
}

/// The cells of every task in image order, and the lines that say what the bounds are made of.
fn with_parts(image: &[u8], budget: u32) -> Result<(Vec<Cells>, String), Refusal> {
    let table = read(image)?;
    let (row, parts) = cells_and_parts(&table, budget);
    let lines = parts.iter().enumerate().map(|(number, parts)| parts_told(&table, number, parts.as_ref()));
    Ok((row, lines.collect()))
}

/// The cells of every task in image order, and what its bound is made of.
pub fn cells_and_parts(table: &Table, budget: u32) -> (Vec<Cells>, Vec<Option<Parts>>) {
    let each = |(u, a)| {
        let fixed = Fixed { table, u, a };
        let verdict = analyse(&fixed, Charging::Imposed, budget);
        let parts = match verdict.outcome {
            Outcome::Bounded(bound) => Some(parts(&fixed, Charging::Imposed, bound)),
            _ => None,
        };
        (cells_of(&fixed, verdict), parts)
    };
    table.numbered().into_iter().map(each).unzip()
}

/// One line for a case: `refused N P`, or `accepted` and the cells of each task.
pub fn line(answer: &Result<Vec<Cells>, Refusal>) -> String {
    let row = match answer {
        Err(refusal) => return refused(*refusal),
        Ok(row) => row,
    };
    let mut text = String::from("accepted");
    for cells in row {
        write!(text, " {cells}").unwrap();
    }
    text.push('\n');
    text
}

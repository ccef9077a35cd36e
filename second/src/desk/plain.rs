//! The plain responses of request 7 beside the bounds of document 01, task by task: as the program `plain` lists them, and
//! in words.

use crate::answer::{Cells, PROGRAM_BUDGET};
use crate::desk::words::number;
use crate::plain::{first_with_several, Plain, NO_COMPLETION};
use crate::table::{Table, Transaction};
use std::cmp::Ordering;

/// How the bound of a task stands to its plain response plus offset.
#[derive(Clone, Copy, Debug, PartialEq, Eq)]
pub enum Beside {
    Agree,
    Above,
    /// There is no bound, or no response.
    Incomparable,
}

/// A task with what both analyses found of it.
pub struct Judged {
    pub number: usize,
    pub period: i64,
    pub offset: i64,
    /// None is the number 32.
    pub response: Option<i64>,
    pub code: u32,
    pub bound: Option<i64>,
}

impl Judged {
    fn of(table: &Table, number: usize, cells: &Cells) -> Judged {
        let plain = Plain::of(table, number).expect("a task of a table with one task and one mode in each transaction");
        let judged = Judged {
            number,
            period: plain.own().period,
            offset: plain.task().offset,
            response: plain.response().ok(),
            code: cells.code,
            bound: matches!(cells.code, 0 | 20).then_some(cells.bound as i64),
        };
        judged.check();
        judged
    }

    /// 'Whenever this response is at most the task's period, the bound of document 01 is this response plus the offset, if
    /// the budget lasts.' And a bound is never below it: without a response there is no bound.
    fn check(&self) {
        let Judged { number, period, offset, response, code, bound } = *self;
        if let Some(bound) = bound {
            let response = response.expect("where there is no response there is no bound");
            assert!(bound >= response + offset, "task {number}: a bound is never below response + offset");
        }
        if let Some(response) = response.filter(|response| *response <= period) {
            let is_as_proved = code == 23 || bound == Some(response + offset);
            assert!(is_as_proved, "task {number}: a response up to the period plus the offset is the bound");
        }
    }

    /// How far the bound is above response + offset.
    fn above(&self) -> Option<i64> {
        Some(self.bound? - (self.response? + self.offset))
    }

    pub fn beside(&self) -> Beside {
        match self.above().map(|above| above.cmp(&0)) {
            Some(Ordering::Equal) => Beside::Agree,
            Some(_) => Beside::Above,
            None => Beside::Incomparable,
        }
    }

    /// What is counted of it.
    pub fn sort(&self) -> &'static str {
        match (self.response, self.beside()) {
            (None, _) => "no response",
            (_, Beside::Agree) if self.is_above_period() => "bound is response + offset, above the period",
            (_, Beside::Agree) => "bound is response + offset, up to the period",
            (_, Beside::Above) => "bound is above response + offset",
            (_, Beside::Incomparable) => "response without a bound",
        }
    }

    fn is_above_period(&self) -> bool {
        self.response.is_some_and(|response| response > self.period)
    }

    /// `number code bound` and `0 response`, or the refusal and its place.
    fn listed(&self) -> String {
        let Judged { number, code, .. } = self;
        let bound = self.bound.unwrap_or(0);
        let (refusal, value) = self.response.map_or((NO_COMPLETION, 0), |response| (0, response));
        format!("{number} {code} {bound} {refusal} {value}\n")
    }

    fn words(&self) -> String {
        let horizon = number(Table::HORIZON);
        let alone = "; the response is above the period, and is that of one job alone";
        match (self.response, self.above(), self.code) {
            (None, _, _) => format!("no response: no completion up to the horizon of {horizon} ticks"),
            (_, Some(_), _) if !self.is_above_period() => "agree: the bound is response + offset".into(),
            (_, Some(0), _) => "agree, though the response is above the period".into(),
            (_, Some(above), _) => format!(
                "{} above response + offset: the response is above the period, so jobs may queue, and it is that of the \
                 first alone",
                number(above)
            ),
            (_, _, 21) => {
                format!("no bound: it and the tasks that can delay it may want more than the major frame holds{alone}")
            }
            (_, _, 22) => {
                format!("no bound: no busy time up to the horizon of {horizon} ticks was found to end{alone}")
            }
            (_, _, 23) => format!("not decided: {} evaluations were not enough", number(PROGRAM_BUDGET as i64)),
            (_, _, code) => format!("a code that is not known here: {code}"),
        }
    }

    fn line(&self) -> String {
        let ticks = |ticks: Option<i64>| ticks.map_or("-".into(), number);
        let columns = [Some(self.period), Some(self.offset), self.response, self.bound].map(ticks);
        format!("{}  {}\n", aligned(&self.number.to_string(), &columns), self.words())
    }
}

/// Task, and period, offset, response and bound.
fn aligned(task: &str, columns: &[String; 4]) -> String {
    let columns: String = columns.iter().map(|column| format!("{column:>11}")).collect();
    format!("{task:>4}{columns}")
}

/// Every task of a table that has one task and one mode in each transaction, with its cells.
pub fn judged(table: &Table, row: &[Cells]) -> Vec<Judged> {
    row.iter().enumerate().map(|(number, cells)| Judged::of(table, number, cells)).collect()
}

pub fn listed(all: &[Judged]) -> String {
    let lines: String = all.iter().map(Judged::listed).collect();
    String::from("task code bound number response\n") + &lines
}

fn last_line(all: &[Judged]) -> String {
    let count = |beside: Beside| all.iter().filter(|judged| judged.beside() == beside).count();
    let tasks = format!("{} {}", all.len(), if all.len() == 1 { "task" } else { "tasks" });
    if count(Beside::Agree) == all.len() {
        return format!("{tasks}: all agree\n");
    }
    let sorts = [(Beside::Agree, "agree"), (Beside::Above, "above"), (Beside::Incomparable, "not to compare")];
    let counted = sorts.map(|(beside, name)| (count(beside), name)).into_iter().filter(|(count, _)| *count > 0);
    let counted: Vec<String> = counted.map(|(count, name)| format!("{count} {name}")).collect();
    format!("{tasks}: {}\n", counted.join(", "))
}

pub fn explained(all: &[Judged]) -> String {
    let names = ["period", "offset", "response", "bound"].map(String::from);
    let lines: String = all.iter().map(Judged::line).collect();
    aligned("task", &names) + "\n" + &lines + &last_line(all)
}

/// The number 31 in words, if it is due.
pub fn several(table: &Table) -> Option<String> {
    let v = first_with_several(table)?;
    let Transaction { tasks, modes, .. } = &table.transactions[v];
    let (tasks, why) = (tasks.len(), "has several tasks or modes");
    Some(format!("table refused (31): transaction {v} {why} (tasks {tasks}, modes {modes})\n"))
}

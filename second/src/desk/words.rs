//! The words of `explain` for an accepted image: a line for each task, under it what its bound is made of, and a last line
//! for the table.

use crate::answer::{Cells, PROGRAM_BUDGET};
use crate::interference::Greatest;
use crate::parts::{Charge, Parts};
use crate::table::{Table, Task};

/// Of which tasks: only of those that are not shown to be in time, and what the bounds of all are made of.
#[derive(Clone, Copy, Debug, Default)]
pub struct Asked {
    pub only_open: bool,
    pub all: bool,
}

/// A task with what was found of it.
struct Judged<'t> {
    number: usize,
    transaction: usize,
    period: i64,
    task: &'t Task,
    cells: Cells,
    parts: Option<&'t Parts>,
}

impl Judged<'_> {
    fn is_in_time(&self) -> bool {
        self.cells.code == 0
    }

    fn bound(&self) -> Option<i64> {
        matches!(self.cells.code, 0 | 20).then_some(self.cells.bound as i64)
    }

    /// How far the bound is above the deadline; a task without a bound is farther than any other.
    fn above(&self) -> i64 {
        self.bound().map_or(i64::MAX, |bound| bound - self.task.deadline)
    }

    fn to_spare(&self) -> i64 {
        -self.above()
    }

    fn words(&self) -> String {
        match self.cells.code {
            0 => format!("in time, {} to spare", number(self.to_spare())),
            20 => format!("not shown to be in time, {} above", number(self.above())),
            21 => "no bound: it and the tasks that can delay it may want more than the major frame holds".into(),
            22 => "no bound: no busy time up to the horizon of 16,777,215 ticks was found to end".into(),
            23 => format!("not decided: {} evaluations were not enough", number(PROGRAM_BUDGET as i64)),
            code => format!("a code that is not known here: {code}"),
        }
    }

    fn line(&self) -> String {
        let columns = [
            self.number.to_string(),
            self.transaction.to_string(),
            number(self.period),
            number(self.task.priority),
            self.bound().map_or("-".into(), number),
            number(self.task.deadline),
        ];
        format!("{}  {}\n", aligned(&columns), self.words())
    }

    /// What the bound is made of: the parts of the completion, those of 0 left out, and when the job arrived.
    fn made_of(&self, table: &Table) -> String {
        let Some(parts) = self.parts else { return String::new() };
        let Cells { mode, candidate, job, bound, .. } = self.cells;
        let completion = number(parts.completion);
        let mut text = format!(
            "      completes {completion} after the critical instant; task {candidate} sets it in mode {mode}:\n"
        );
        let mut part = |ticks: i64, of: &str| text += &format!("{:>41}  {of}\n", number(ticks));
        if parts.blocking > 0 {
            part(parts.blocking, "blocking");
        }
        part(parts.own_jobs, &format!("its own jobs ({})", number(job as i64 + 1)));
        if parts.own_rivals > 0 {
            part(parts.own_rivals, "other tasks of its transaction");
        }
        for (v, charge) in parts.charges.iter().enumerate() {
            if let &Charge::Greatest(Greatest { charge, mode, c }) = charge {
                let candidate = table.number(v, c);
                part(charge, &format!("transaction {v}, most when task {candidate} sets it in mode {mode}"));
            }
        }
        let (offset, bound) = (number(parts.offset), number(bound as i64));
        let far = number(parts.arrival.abs());
        let (side, sign) = if parts.arrival < 0 { ("before", "+") } else { ("after", "-") };
        text + &format!(
            "      arrived {far} {side} that instant, offset {offset}: {completion} {sign} {far} + {offset} = {bound}\n"
        )
    }

    /// Why it is not shown to be in time, in a word or two.
    fn why_open(&self) -> String {
        match self.cells.code {
            20 => format!("{} above", number(self.above())),
            23 => "not decided".into(),
            _ => "no bound".into(),
        }
    }
}

/// With a comma before each three digits: 16,777,215.
pub fn number(number: i64) -> String {
    let digits = number.to_string();
    let threes = digits.as_bytes().rchunks(3).rev().map(String::from_utf8_lossy);
    threes.collect::<Vec<_>>().join(",")
}

/// Task, transaction, period, priority, bound and deadline.
fn aligned(columns: &[String; 6]) -> String {
    let [task, transaction, period, priority, bound, deadline] = columns;
    format!("{task:>4} {transaction:>5} {period:>10} {priority:>8} {bound:>10} {deadline:>10}")
}

fn last_line(all: &[Judged]) -> String {
    let (in_time, open): (Vec<_>, Vec<_>) = all.iter().partition(|judged| judged.is_in_time());
    let mut text = format!("{} {}: ", all.len(), if all.len() == 1 { "task" } else { "tasks" });
    // Of several that are equal the first counts, here and below.
    match open.iter().rev().max_by_key(|judged| judged.above()) {
        None => text += "all in time",
        Some(worst) => {
            let which = if open.len() == 1 { "task" } else { "worst task" };
            let (number, why) = (worst.number, worst.why_open());
            text += &format!("{} in time, {} not shown to be ({which} {number}, {why})", in_time.len(), open.len());
        }
    }
    if let Some(least) = in_time.iter().min_by_key(|judged| judged.to_spare()) {
        text += &format!("; least to spare {} (task {})", number(least.to_spare()), least.number);
    }
    text + "\n"
}

/// With `only_open` the tasks that are not shown to be in time, and the header only above such a line.
pub fn words(table: &Table, row: &[Cells], parts: &[Option<Parts>], asked: Asked) -> String {
    let judged = |(number, (v, j)): (usize, (usize, usize))| {
        let (own, cells, parts) = (&table.transactions[v], row[number], parts[number].as_ref());
        Judged { number, transaction: v, period: own.period, task: &own.tasks[j], cells, parts }
    };
    let all: Vec<Judged> = table.numbered().into_iter().enumerate().map(judged).collect();
    let told = |judged: &Judged| {
        let made_of = if asked.all || !judged.is_in_time() { judged.made_of(table) } else { String::new() };
        judged.line() + &made_of
    };
    let lines: String = all.iter().filter(|judged| !asked.only_open || !judged.is_in_time()).map(told).collect();
    let names = ["task", "trans", "period", "priority", "bound", "deadline"].map(String::from);
    let header = if lines.is_empty() { String::new() } else { aligned(&names) + "\n" };
    header + &lines + &last_line(&all)
}

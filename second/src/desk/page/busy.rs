//! What opens under a task with a bound: the parts as a table, how the bound follows, and the busy time with the jobs of
//! the task's transaction.

use super::bars;
use super::facts::{Facts, Found, Job, Lane};
use super::markup::Element;
use super::same;
use crate::desk::words::number;
use crate::interference::Greatest;
use crate::parts::{Charge, Parts};

/// What stands in each cell of a part of a table, row by row.
fn cells(part: &Element) -> Vec<Vec<String>> {
    let row = |row: &Element| row.children.iter().map(|cell| cell.inner.trim_end_matches('\n').to_string()).collect();
    part.named("tr").map(row).collect()
}

fn row(cells: &[&str]) -> Vec<String> {
    cells.iter().map(|cell| cell.to_string()).collect()
}

/// Blocking, its own jobs, the other tasks of its transaction and each other transaction, as far as they take any ticks.
fn parts_wanted(facts: &Facts, found: &Found, parts: &Parts) -> Vec<Vec<String>> {
    let (mode, candidate) = (found.cells.mode.to_string(), facts.names.task(found.cells.candidate as usize));
    let jobs = format!("its own jobs ({})", number(found.cells.job as i64 + 1));
    let mut rows = Vec::new();
    if parts.blocking > 0 {
        rows.push(row(&["blocking", "", "", &number(parts.blocking)]));
    }
    rows.push(row(&[&jobs, &mode, &candidate, &number(parts.own_jobs)]));
    if parts.own_rivals > 0 {
        rows.push(row(&["other tasks of its transaction", &mode, "the same", &number(parts.own_rivals)]));
    }
    for (v, charge) in parts.charges.iter().enumerate() {
        if let &Charge::Greatest(Greatest { charge, mode, c }) = charge {
            if charge > 0 {
                let candidate = facts.names.task(facts.table.number(v, c));
                rows.push(row(&[&format!("transaction {v}"), &mode.to_string(), &candidate, &number(charge)]));
            }
        }
    }
    rows
}

fn check_parts(table: &Element, facts: &Facts, found: &Found, parts: &Parts) -> Result<(), String> {
    let names = ["what it waits for", "mode", "critical instant set by", "ticks"];
    same("the head of the parts", cells(table.only("thead")?), vec![row(&names)])?;
    same("the parts", cells(table.only("tbody")?), parts_wanted(facts, found, parts))?;
    let last = row(&["completion", "", "", &number(parts.completion)]);
    same("the completion", cells(table.only("tfoot")?), vec![last])
}

/// How far from the instant the job arrived, on which side, and the bound that follows.
fn sentence(parts: &Parts, bound: i64) -> String {
    let far = number(parts.arrival.abs());
    let (arrived, sign) = match parts.arrival < 0 {
        true => (format!("{far} before the critical instant and was held back"), "+"),
        false => (format!("{far} after the critical instant"), "&#8722;"),
    };
    let [offset, completion, bound] = [parts.offset, parts.completion, bound].map(number);
    format!(
        "The job arrived {arrived}; its offset is {offset}. The bound is completion &#8722; arrival + offset: {completion} \
         {sign} {far} + {offset} = {bound}."
    )
}

fn rectangles(drawing: &Element, class: &str) -> Result<Vec<Job>, String> {
    let rectangles = drawing.named("rect").filter(|rect| rect.class() == class);
    rectangles.map(|rect| Ok(Job { at: rect.number("x")?, ticks: rect.number("width")? })).collect()
}

/// The jobs of one task: those held back as such, the others each with a mark at its arrival.
fn check_jobs(cell: &Element, lane: &Lane, completion: i64) -> Result<(), String> {
    if !lane.is_drawn() {
        return same("jobs", cell.inner.trim_end_matches('\n'), "too many jobs to draw");
    }
    let drawing = cell.only("svg").map_err(|_| format!("'{}' where few jobs are to be drawn", cell.inner))?;
    same("the box of the jobs", drawing.attribute("viewBox"), Some(&*format!("0 0 {completion} 20")))?;
    let (early, later) = (lane.early(), lane.later(completion));
    let marks: Vec<String> = later.iter().map(|job| format!("M{} 9V21", job.at)).collect();
    let found: Vec<&str> = drawing.named("path").filter_map(|path| path.attribute("d")).collect();
    same("the arrivals of later jobs", found, marks.iter().map(String::as_str).collect())?;
    let all = early.len() + later.len() + marks.len();
    same("the jobs held back", rectangles(drawing, "w")?, early)?;
    same("the later jobs", rectangles(drawing, if lane.is_a { "o" } else { "r" })?, later)?;
    same("what the jobs are drawn of", drawing.children.len(), all)
}

fn check_lane(line: &Element, facts: &Facts, lane: &Lane, completion: i64) -> Result<(), String> {
    let [name, phase, held, ticks, jobs] = &line.children[..] else { return Err("a line without five cells".into()) };
    same("a task of the transaction", name.inner, &facts.names.task(lane.number))?;
    let found = [phase, held, ticks].map(|cell| cell.inner.to_string());
    let wanted = [lane.phase, lane.held, lane.ticks].map(number);
    same(&format!("phase, jobs held back and ticks of task {}", lane.number), found, wanted)?;
    check_jobs(jobs, lane, completion).map_err(|fault| format!("task {} in it: {fault}", lane.number))
}

fn check_busy(table: &Element, facts: &Facts, found: &Found, parts: &Parts) -> Result<(), String> {
    let completion = number(parts.completion);
    let last = format!("ticks 0 to {completion} from the critical instant on");
    let names = ["busy time", "phase", "held back", "charges", &last];
    same("the head of the busy time", cells(table.only("thead")?), vec![row(&names)])?;
    let lines: Vec<&Element> = table.only("tbody")?.named("tr").collect();
    same("lines of the busy time", lines.len(), found.lanes.len() + 1)?;
    let [name, phase, held, ticks, drawing] = &lines[0].children[..] else {
        return Err("a line without five cells".into());
    };
    same(
        "the line of all parts",
        [name, phase, held, ticks].map(|cell| cell.inner),
        ["all parts", "", "", &completion],
    )?;
    bars::check_parts(drawing.only("svg")?, parts)?;
    lines[1..].iter().zip(&found.lanes).try_for_each(|(line, lane)| check_lane(line, facts, lane, parts.completion))
}

/// What opens under a task, and what was seen of its jobs.
pub fn check(more: &Element, facts: &Facts, found: &Found) -> Result<Vec<&'static str>, String> {
    let (Some(parts), Some(bound)) = (&found.parts, found.bound()) else { return Err("parts without a bound".into()) };
    let [table, arrived, busy] = &more.children[..] else { return Err("not two tables and a sentence".into()) };
    check_parts(table, facts, found, parts)?;
    same("the sentence on the arrival", arrived.inner, &sentence(parts, bound))?;
    check_busy(busy, facts, found, parts)?;
    let seen = [
        found.lanes.iter().any(|lane| !lane.is_drawn()).then_some("with too many jobs to draw"),
        found.lanes.iter().any(|lane| lane.is_drawn() && lane.early_jobs > 0).then_some("with jobs drawn as held back"),
        found.lanes.iter().any(|lane| !lane.is_a).then_some("with rivals in the transaction"),
    ];
    Ok(seen.into_iter().flatten().collect())
}

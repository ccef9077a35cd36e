//! The tasks of a page, least to spare first: a line each, and what opens under it.

use super::bars::{self, Axis};
use super::busy;
use super::facts::{Facts, Found};
use super::markup::Element;
use super::{same, KEY};
use crate::answer::PROGRAM_BUDGET;
use crate::desk::words::number;
use crate::table::Table;

/// What follows of a task's code.
fn meaning(found: &Found) -> String {
    let (bound, deadline) = (found.cells.bound as i64, found.task.deadline);
    match found.cells.code {
        0 => format!("{} to spare", number(deadline - bound)),
        20 => {
            let hidden = "<span class='h'>, not shown to be in time</span>";
            format!("&#9650; {} above{hidden}", number(bound - deadline))
        }
        23 => "&#9650; not decided".into(),
        _ => "&#9650; no bound".into(),
    }
}

fn why(code: u32) -> String {
    match code {
        21 => "it and the tasks that can delay it may want more than the major frame holds".into(),
        22 => format!("no busy time up to the horizon of {} ticks was found to end", number(Table::HORIZON)),
        23 => format!("{} evaluations were not enough", number(PROGRAM_BUDGET as i64)),
        code => format!("a code that is not known here: {code}"),
    }
}

/// What became of a bound since the other table.
fn change(bound: Option<i64>, old: Option<i64>) -> String {
    let told = match (bound, old) {
        (Some(bound), Some(old)) if bound > old => {
            format!("was {}, <b>&#9650; {} more</b>", number(old), number(bound - old))
        }
        (Some(bound), Some(old)) if bound < old => {
            format!("was {}, <b>&#9660; {} less</b>", number(old), number(old - bound))
        }
        (Some(_), None) => "<b>had no bound</b>".into(),
        (None, Some(old)) => format!("<b>the bound was {}</b>", number(old)),
        (None, None) => "had none either".into(),
        _ => "as before".into(),
    };
    format!("<span class='c'>{told}</span>")
}

/// A number without the word that only those hear who do not see its column.
fn seen<'p>(column: &Element<'p>) -> &'p str {
    column.inner.rsplit("</span>").next().unwrap_or("")
}

/// Task, bound, deadline and what is to spare.
fn check_columns(line: &Element, facts: &Facts, found: &Found) -> Result<(), String> {
    let columns: Vec<&Element> = line.named("span").take(4).collect();
    let [name, bound, deadline, spare] = columns[..] else { return Err("a line without four columns".into()) };
    same("the name", (name.class(), name.inner), ("n", &*facts.names.task(found.number)))?;
    let wanted = found.bound().map_or("&#8211;".into(), number);
    same("the bound", (bound.class(), seen(bound)), ("v", &*wanted))?;
    same("the deadline", (deadline.class(), seen(deadline)), ("v", &*number(found.task.deadline)))?;
    let old = facts.old_bound(found.number).map(|old| change(found.bound(), old));
    same("what is to spare", (spare.class(), spare.inner), ("s", &*(meaning(found) + &old.unwrap_or_default())))
}

/// One task, and what was seen of it.
fn check_task(place: &Element, axis: &Axis, facts: &Facts, found: &Found) -> Result<Vec<&'static str>, String> {
    if found.parts.is_none() {
        let line = place.only("div")?;
        same("the class of a task without a bound", line.class(), "task none row")?;
        check_columns(line, facts, found)?;
        let why_not: Vec<&str> = line.named("span").skip(4).map(|span| span.inner).collect();
        same("why there is no bound", why_not, vec![&*why(found.cells.code)])?;
        same("what a task without a bound has", line.children.len(), 5)?;
        return Ok(Vec::new());
    }
    let details = place.only("details")?;
    let wanted = if found.is_kept() { ("task", None) } else { ("task open", Some("")) };
    same("whether it is open", (details.class(), details.attribute("open")), wanted)?;
    let summary = details.only("summary")?;
    check_columns(summary, facts, found)?;
    let mut all = bars::check(summary.only("svg")?, axis, found, facts.old_bound(found.number))?;
    all.extend(busy::check(details.only("div")?, facts, found)?);
    Ok(all)
}

/// All tasks in their order, and what was seen of each.
pub fn check(article: &Element, facts: &Facts) -> Result<Vec<&'static str>, String> {
    let head = article.named("div").find(|div| div.class() == "row head").ok_or("no line of names above the tasks")?;
    let axis = Axis::of(head, facts)?;
    let places: Vec<&Element> = article.named("div").filter(|div| div.attribute("id").is_some()).collect();
    let order = facts.in_order();
    let found: Vec<&str> = places.iter().filter_map(|place| place.attribute("id")).collect();
    let wanted: Vec<String> = order.iter().map(|found| format!("a{KEY}t{}", found.number)).collect();
    same("the order of the tasks", found, wanted.iter().map(String::as_str).collect())?;
    let mut seen = Vec::new();
    for (place, found) in places.iter().zip(order) {
        let checked = check_task(place, &axis, facts, found);
        seen.extend(checked.map_err(|fault| format!("task {}: {fault}", found.number))?);
    }
    Ok(seen)
}

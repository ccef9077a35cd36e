//! The bars: bound against deadline, all on one axis of ticks from the event on.

use super::facts::{Facts, Found};
use super::markup::Element;
use super::same;
use crate::desk::words::number;
use crate::parts::{Charge, Parts};

/// The axis of a page: it begins `shift` ticks before the event and is `span` long; `labels` are times with a label.
#[derive(Debug)]
pub struct Axis {
    pub shift: i64,
    pub span: i64,
    labels: Vec<i64>,
}

/// A rectangle by its class, its place and its width.
type Piece<'p> = (&'p str, i64, i64);

/// Time and place of a label, and the length of the axis.
fn label(span: &Element) -> Result<(i64, i64, i64), String> {
    let fault = || format!("a label of the axis has the style {:?} and says '{}'", span.attribute("style"), span.inner);
    let style = span.attribute("style").and_then(|style| style.strip_prefix("left:calc(100%*"));
    let (at, length) = style.and_then(|style| style.strip_suffix(')')?.split_once('/')).ok_or_else(fault)?;
    let read = |text: &str| text.parse::<i64>().map_err(|_| fault());
    let time = read(&span.inner.replace(',', ""))?;
    same("a label", span.inner, &number(time))?;
    Ok((time, read(at)?, read(length)?))
}

impl Axis {
    pub fn of(head: &Element, facts: &Facts) -> Result<Axis, String> {
        let axis = head.named("span").find(|span| span.class() == "axis w5").ok_or("no axis")?;
        let labels = axis.children.iter().map(label).collect::<Result<Vec<_>, _>>()?;
        let &(first, shift, span) = labels.first().ok_or("an axis without labels")?;
        same("the first label", first, 0)?;
        let step = labels.get(1).map_or(span + 1, |(time, _, _)| *time);
        for (i, &each) in (0..).zip(&labels) {
            same("a label of the axis, time, place and length", each, (i * step, i * step + shift, span))?;
        }
        if step < 1 || labels.len() as i64 * step + shift <= span {
            return Err(format!("the labels of the axis do not reach to its end, {span}: {labels:?}"));
        }
        let axis = Axis { shift, span, labels: labels.iter().map(|(time, _, _)| *time).collect() };
        axis.holds(facts)?;
        Ok(axis)
    }

    /// From the earliest critical instant, or the event, to the last bound.
    fn holds(&self, facts: &Facts) -> Result<(), String> {
        let Axis { shift, span, labels } = self;
        let made = || facts.found.iter().filter_map(|found| found.parts.as_ref().zip(found.bound()));
        let before = made().map(|(parts, bound)| parts.completion - bound).max().unwrap_or(0);
        let last = made().map(|(_, bound)| bound).max().unwrap_or(1);
        let are_on_it = labels.iter().all(|time| shift + time <= *span);
        if *shift < before.max(0) || *span < shift + last || !are_on_it || *span < 1 {
            return Err(format!("{self:?} does not hold {before} ticks before the event, or not {last} behind it"));
        }
        Ok(())
    }
}

/// The parts of a completion, one behind the other from a place on, those of 0 left out.
fn pieces_of(parts: &Parts, from: i64) -> Vec<Piece<'static>> {
    let charges = parts.charges.iter().map(|charge| ("x", Charge::ticks(charge)));
    let own = [("b", parts.blocking), ("o", parts.own_jobs), ("r", parts.own_rivals)];
    let mut at = from;
    let mut pieces = Vec::new();
    for (class, ticks) in own.into_iter().chain(charges).filter(|(_, ticks)| *ticks > 0) {
        pieces.push((class, at, ticks));
        at += ticks;
    }
    assert_eq!(at, from + parts.completion, "the parts reach from the critical instant to the completion");
    pieces
}

fn rectangles<'p>(drawing: &Element<'p>, classes: &[&str]) -> Result<Vec<Piece<'p>>, String> {
    let rectangles = drawing.named("rect").filter(|rect| classes.contains(&rect.class()));
    rectangles.map(|rect| Ok((rect.class(), rect.number("x")?, rect.number("width")?))).collect()
}

/// The drawing of all parts, in the busy time of a task.
pub fn check_parts(drawing: &Element, parts: &Parts) -> Result<(), String> {
    same("the box of all parts", drawing.attribute("viewBox"), Some(&*format!("0 0 {} 20", parts.completion)))?;
    let wanted = pieces_of(parts, 0);
    same("the pieces of all parts", drawing.children.len(), wanted.len())?;
    same("all parts", rectangles(drawing, &["b", "o", "r", "x"])?, wanted)
}

fn paths<'p>(drawing: &Element<'p>, class: &str) -> Vec<&'p str> {
    drawing.named("path").filter(|path| path.class() == class).filter_map(|path| path.attribute("d")).collect()
}

/// The mark of a deadline, or an arrow to the end of the axis, and whether it is that.
fn check_deadline(drawing: &Element, axis: &Axis, deadline: i64) -> Result<bool, String> {
    let marks = paths(drawing, "d");
    let at = deadline + axis.shift;
    if at <= axis.span {
        same("the deadline", marks, vec![&*format!("M{at} -2V22")])?;
        return Ok(false);
    }
    let near = marks.first().and_then(|mark| mark.strip_prefix('M')?.split(' ').next()?.parse::<i64>().ok());
    // An arrow without a width would be read as a deadline at the end of the axis.
    let near = near.filter(|near| (0..axis.span).contains(near));
    let near = near.ok_or(format!("no arrow to the end of the axis, {}, but {marks:?}", axis.span))?;
    same("the arrow", marks, vec![&*format!("M{near} 3L{} 10L{near} 17", axis.span)])?;
    Ok(true)
}

/// A bar, and what was seen of it.
pub fn check(
    drawing: &Element,
    axis: &Axis,
    found: &Found,
    old: Option<Option<i64>>,
) -> Result<Vec<&'static str>, String> {
    let (Some(parts), Some(bound)) = (&found.parts, found.bound()) else { return Err("a bar without a bound".into()) };
    let (shift, deadline) = (axis.shift, found.task.deadline);
    same("the box of a bar", drawing.attribute("viewBox"), Some(&*format!("0 0 {} 20", axis.span)))?;
    let grid: String = axis.labels.iter().map(|time| format!("M{} 0V20", time + shift)).collect();
    same("the lines of the axis", paths(drawing, "g"), vec![&*grid])?;

    let pieces = pieces_of(parts, bound - parts.completion + shift);
    same("the parts of a bar", rectangles(drawing, &["b", "o", "r", "x"])?, pieces.clone())?;
    let is_held_back = parts.arrival < 0;
    let held_back: Vec<Piece> =
        is_held_back.then_some(("w", parts.offset + shift, -parts.arrival)).into_iter().collect();
    same("the time held back", rectangles(drawing, &["w"])?, held_back.clone())?;
    let above: Vec<Piece> =
        (bound > deadline).then_some(("l", deadline + shift, bound - deadline)).into_iter().collect();
    same("the frame above the deadline", rectangles(drawing, &["l"])?, above.clone())?;
    let is_beyond = check_deadline(drawing, axis, deadline)?;

    let old_mark: Vec<String> = old.flatten().iter().map(|old| format!("M{} -2V22", old + shift)).collect();
    same("the bound in the other table", paths(drawing, "p"), old_mark.iter().map(String::as_str).collect())?;
    if let Some(old) = old.flatten().filter(|old| old + shift > axis.span) {
        return Err(format!("the bound {old} in the other table is marked beyond the end of the axis, {}", axis.span));
    }
    let all = pieces.len() + held_back.len() + above.len() + old_mark.len() + 2;
    same("what a bar is drawn of", drawing.children.len(), all)?;
    let seen = [
        is_held_back.then_some("with time held back"),
        is_beyond.then_some("with a deadline beyond the axis"),
        (parts.completion > bound).then_some("with a critical instant before the event"),
        (!old_mark.is_empty()).then_some("with the mark of another bound"),
    ];
    Ok(seen.into_iter().flatten().collect())
}

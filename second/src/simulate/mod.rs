//! Legal runs against the bounds: of random small tables, or of one given table.

pub mod given;
pub mod legal;
pub mod plan;
pub mod play;
pub mod small;

use crate::compare::hex;
use crate::draft;
use crate::random::Random;
use crate::table::Table;
use legal::Response;
use plan::{Size, Start, Style};
use play::{Chooser, Run};
use std::fmt::Write;

/// What a run is drawn from.
struct Draw {
    starts: Vec<Start>,
    style: Style,
    chooser: Chooser,
    size: Size,
    wide: bool,
}

const STYLES: [Style; 4] = [Style::Random, Style::Critical, Style::Critical, Style::NearlyCritical];

/// One against the task, in most cases.
fn any_chooser(random: &mut Random, a: usize) -> Chooser {
    random.pick(&[Chooser::Random, Chooser::Against(a), Chooser::Against(a), Chooser::LateAgainst(a)])
}

/// Plays a run, and looks it over again from its record.
fn play_once(random: &mut Random, table: &Table, draw: &Draw) -> (Run, Vec<Response>) {
    let plan = plan::plan(random, table, &draw.starts, draw.style, draw.size);
    let run = play::play(random, table, plan, draw.chooser, draw.wide);
    let responses = legal::responses(table, &run, draw.wide).expect("a played run is legal");
    (run, responses)
}

/// A violation in words, with its run up to then.
fn violation(table: &Table, run: &Run, response: &Response, bound: i64) -> String {
    let Response { task, event, until, .. } = response;
    let least = if response.is_finished { "" } else { "at least " };
    let ticks = response.ticks();
    let mut text =
        format!("violation: task {task} took {least}{ticks} from its event at {event}, its bound is {bound}\n");
    let plan = &run.plan;
    let _ = writeln!(text, "image {}", hex(&draft::image(table)));
    let _ =
        writeln!(text, "modes {:?}, first events {:?}; jobs as (event, ready, need)", plan.modes, plan.first_events);
    for (number, row) in plan.jobs.iter().enumerate() {
        let came = row.iter().take_while(|job| job.ready < *until);
        let jobs: Vec<String> = came.map(|job| format!(" ({}, {}, {})", job.event, job.ready, job.need)).collect();
        let _ = writeln!(text, "task {number}:{}", jobs.concat());
    }
    let mut tick = run.start;
    for piece in &run.pieces {
        let who = piece.who.map_or("idle".into(), |task| format!("task {task}"));
        if tick < *until {
            let _ = writeln!(text, "from {tick} to {}: {who}", tick + piece.ticks);
        }
        tick += piece.ticks;
    }
    text
}

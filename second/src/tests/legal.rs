//! The check of a recorded run finds what is not legal in it.

use super::*;
use crate::random::Random;
use crate::simulate::legal::responses;
use crate::simulate::plan::{plan, Job, Size, Start, Style};
use crate::simulate::play::{play, tasks, Chooser, Piece, Run};
use crate::simulate::small;

fn critical_run(table: &Table, length: i64, chooser: Chooser, seed: u64, wide: bool) -> Run {
    let random = &mut Random::of(seed, 1);
    let any = |transaction| Start::any(random, transaction, Style::Critical);
    let starts: Vec<Start> = table.transactions.iter().map(any).collect();
    let plan = plan(random, table, &starts, Style::Critical, Size { length, jobs_before: 100 });
    play(random, table, plan, chooser, wide)
}

/// A run of S in which everything that can come at the instant 0 does.
fn run_of_s(table: &Table) -> Run {
    critical_run(table, 40, Chooser::Against(2), 1, false)
}

fn fault(table: &Table, run: &Run) -> Option<String> {
    responses(table, run, false).err()
}

/// The run of S with one thing changed is not legal.
fn is_fault(change: impl Fn(&mut Run)) -> bool {
    let table = s();
    let mut run = run_of_s(&table);
    assert_eq!(fault(&table, &run), None);
    change(&mut run);
    fault(&table, &run).is_some()
}

fn pieces(parts: &[(Option<usize>, i64)]) -> Vec<Piece> {
    parts.iter().map(|&(who, ticks)| Piece { who, ticks }).collect()
}

#[test]
fn idling_while_work_is_pending_is_seen() {
    assert!(is_fault(|run| {
        let at = run.pieces.iter().position(|piece| piece.who == Some(0)).unwrap();
        run.pieces.insert(at, Piece { who: None, ticks: 1 });
        run.pieces.last_mut().unwrap().ticks -= 1;
    }));
}

#[test]
fn a_less_urgent_job_first_is_seen() {
    let table = Table { frame: 20, transactions: vec![transaction(20, vec![task(0, &[2], 9), task(0, &[2], 1)])] };
    let mut run = critical_run(&table, 20, Chooser::Against(1), 1, false);
    assert_eq!(fault(&table, &run), None);
    assert_eq!(run.pieces, pieces(&[(Some(0), 2), (Some(1), 2), (None, 16)]));
    run.pieces[..2].reverse();
    assert!(fault(&table, &run).is_some());
    // One tick of blocking allows one such tick, not two.
    let mut blocked = table.clone();
    blocked.transactions[0].tasks[0].blocking = 1;
    assert!(fault(&blocked, &run).is_some());
    run.pieces = pieces(&[(Some(1), 1), (Some(0), 2), (Some(1), 1), (None, 16)]);
    assert_eq!(fault(&blocked, &run), None);
    assert!(fault(&table, &run).is_some());
}

#[test]
fn service_before_readiness_or_without_a_job_is_seen() {
    assert!(is_fault(|run| run.plan.jobs[0][0].ready += 1));
    assert!(is_fault(|run| {
        let idle = run.pieces.iter().position(|piece| piece.who.is_none()).unwrap();
        run.pieces[idle].who = Some(2);
    }));
}

#[test]
fn a_record_that_leaves_ticks_out_is_seen() {
    assert!(is_fault(|run| run.start += 1));
    assert!(is_fault(|run| run.pieces.truncate(run.pieces.len() - 1)));
    assert!(is_fault(|run| run.pieces.push(Piece { who: None, ticks: 0 })));
}

#[test]
fn a_job_that_is_left_out_or_comes_in_addition_is_seen() {
    assert!(is_fault(|run| {
        // It is neither in the plan nor served.
        run.plan.jobs[2].truncate(1);
        run.pieces.iter_mut().rfind(|piece| piece.who == Some(2)).unwrap().who = None;
    }));
    assert!(is_fault(|run| {
        let last = run.plan.jobs[2].last().unwrap().clone();
        run.plan.jobs[2].push(Job { event: last.event + 20, ready: last.ready + 20, ..last });
    }));
}

#[test]
fn events_readiness_and_needs_that_cannot_be_are_seen() {
    assert!(is_fault(|run| run.plan.first_events[0] += 1));
    assert!(is_fault(|run| run.plan.jobs[1][0].event += 1));
    assert!(is_fault(|run| run.plan.jobs[1][0].ready -= 1));
    assert!(is_fault(|run| run.plan.jobs[0][0].need = 0));
    assert!(is_fault(|run| run.plan.jobs[0][0].need = 3));
}

/// The rules of service and of holding once more, on every single tick.
fn is_legal_by_tick(table: &Table, run: &Run, wide: bool) -> bool {
    let tasks = tasks(table);
    let mut left = run.plan.jobs.clone();
    let most = |left: &[Vec<Job>], tick: i64| {
        let pending = (0..tasks.len()).filter(|&j| left[j].first().is_some_and(|job| job.ready <= tick));
        pending.map(|j| tasks[j].priority).max().unwrap_or(-1)
    };
    let mut taken = vec![0; tasks.len()];
    let ticks = run.pieces.iter().flat_map(|piece| vec![piece.who; piece.ticks as usize]);
    for (tick, who) in (run.start..).zip(ticks) {
        let pending = most(&left, tick);
        for (a, task) in tasks.iter().enumerate() {
            if pending < task.priority {
                taken[a] = 0;
            } else if who.is_none_or(|j| tasks[j].priority < task.priority) {
                taken[a] += 1;
            }
        }
        if let Some(j) = who {
            match left[j].first_mut() {
                Some(job) if job.ready <= tick => job.need -= 1,
                _ => return false,
            }
            left[j].retain(|job| job.need > 0);
        }
        if tasks.iter().zip(&taken).any(|(task, taken)| *taken > task.blocking) {
            return false;
        }
        if wide {
            let pending = most(&left, tick);
            (0..tasks.len()).filter(|&a| pending < tasks[a].priority).for_each(|a| taken[a] = 0);
        }
    }
    true
}

/// Runs by the letter and wide ones, and what comes of them when two pieces change places or one changes hands.
#[test]
fn a_record_is_judged_by_its_pieces_as_tick_by_tick() {
    let mut judged = [[0; 2]; 2];
    for seed in 0..3000 {
        let random = &mut Random::of(5, seed);
        let table = small::table(random);
        let count = table.numbered().len();
        let some = random.below(count);
        let chooser = random.pick(&[Chooser::Random, Chooser::LateAgainst(some)]);
        let mut run = critical_run(&table, 60, chooser, seed, random.percent(50));
        if run.pieces.is_empty() {
            // No task runs in the modes drawn.
            continue;
        }
        if random.percent(60) {
            let at = random.below(run.pieces.len());
            let with = random.below(run.pieces.len());
            run.pieces.swap(at, with);
        }
        if random.percent(30) {
            let at = random.below(run.pieces.len());
            run.pieces[at].who = random.pick(&[None, Some(some)]);
        }
        for wide in [false, true] {
            let is_legal = is_legal_by_tick(&table, &run, wide);
            assert_eq!(responses(&table, &run, wide).is_ok(), is_legal, "seed {seed}");
            judged[wide as usize][is_legal as usize] += 1;
        }
    }
    assert!(judged.iter().flatten().all(|&count| count > 500), "{judged:?}");
    assert!(judged[1][1] > judged[0][1] + 100, "more runs are legal in the wide sense: {judged:?}");
}

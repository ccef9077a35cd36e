//! Cases at full load: they are full to the tick, and they come to the edges where whole cycles of a chain for L, if
//! they are counted at once, could be miscounted.

use super::*;
use crate::draft;
use crate::generate::full::{case, table, Full, KINDS};
use crate::generate::Case;
use crate::image::read;
use crate::random::Random;
use std::collections::{BTreeMap, BTreeSet, HashMap};

/// The sum of a and its rivals in a mode of transaction v; whoever has no time in it adds nothing.
fn sum(fixed: &Fixed, v: usize, mode: usize) -> i64 {
    let counts = |task: &&Task| task.priority >= fixed.task().priority;
    fixed.table.transactions[v].tasks.iter().filter(counts).map(|task| task.times[mode]).sum()
}

/// The modes of transaction v that count: of u only those where a runs.
fn modes(fixed: &Fixed, v: usize) -> Vec<usize> {
    let counts = |&mode: &usize| v != fixed.u || fixed.task().times[mode] > 0;
    (0..fixed.table.transactions[v].modes).filter(counts).collect()
}

fn greatest_sum(fixed: &Fixed, v: usize) -> i64 {
    modes(fixed, v).into_iter().map(|mode| sum(fixed, v, mode)).max().expect("a runs in some mode")
}

/// The ticks that the major frame has beyond the demand of a and its rivals.
fn spare(fixed: &Fixed) -> i64 {
    let Table { frame, transactions } = fixed.table;
    let demand = |(v, each): (usize, &Transaction)| frame / each.period * greatest_sum(fixed, v);
    frame - transactions.iter().enumerate().map(demand).sum::<i64>()
}

fn is_overloaded(fixed: &Fixed) -> bool {
    cells(fixed, Charging::Imposed, 0).code == 21
}

/// Of every kind, and some a little below. Of those that are full a tick more in the heaviest mode is an overload.
#[test]
fn tables_are_full_to_the_tick() {
    for &kind in KINDS {
        let (mut full, mut below) = (0, 0);
        for index in 0..1000 {
            let Some(Full { table, u, a }) = table(&mut Random::of(14, index), kind) else { continue };
            assert_eq!(read(&draft::image(&table)).as_ref(), Ok(&table));
            let fixed = Fixed { table: &table, u, a };
            assert!(!is_overloaded(&fixed));
            let spare = spare(&fixed);
            let a_little = (2 * table.frame / table.transactions[u].period).max(table.frame / 100);
            assert!((0..=a_little).contains(&spare), "{kind:?} {table:?}");
            below += (spare > 0) as u32;
            full += (spare == 0) as u32;
            let heaviest = modes(&fixed, u).into_iter().max_by_key(|&mode| sum(&fixed, u, mode)).expect("a runs");
            let mut more = table.clone();
            more.transactions[u].tasks[a].times[heaviest] += 1;
            assert!(spare > 0 || is_overloaded(&Fixed { table: &more, u, a }));
        }
        assert!(full > 150 && below > 10, "{kind:?} {full} {below}");
    }
}

/// The points of each chain for L in a walk, from 1 on, with its mode.
fn chains(fixed: &Fixed, budget: u32) -> Vec<(usize, Vec<i64>)> {
    let mut chains: Vec<(usize, Vec<i64>)> = Vec::new();
    let mut is_busy_length = false;
    watched(fixed, Charging::Imposed, budget, &mut |step| match step {
        Step::Candidate { mode, .. } => {
            chains.push((mode, vec![1]));
            is_busy_length = true;
        }
        Step::Evaluation { value, .. } if is_busy_length => chains.last_mut().expect("a candidate").1.push(value),
        Step::Evaluation { .. } | Step::Response { .. } => (),
        Step::BusyLength(_) => is_busy_length = false,
    });
    chains
}

/// Where a chain returns to: each two points that are whole frames apart, with none between that is so from the later.
fn returns(points: &[i64], frame: i64) -> Vec<(usize, usize)> {
    let mut last = HashMap::new();
    let each = |(to, point): (usize, &i64)| last.insert(point % frame, to).map(|from| (from, to));
    points.iter().enumerate().filter_map(each).filter(|&(from, to)| points[from] < points[to]).collect()
}

/// The points from..to come again, later by as many ticks as those two are apart, as far as the chain goes.
fn is_cycle(points: &[i64], (from, to): (usize, usize)) -> bool {
    let later = points[to] - points[from];
    points[from..].iter().zip(&points[to..]).all(|(point, again)| point + later == *again)
}

/// How often each thing was seen.
type Seen = BTreeMap<&'static str, u32>;

fn see(seen: &mut Seen, name: &'static str, is_so: bool) {
    *seen.entry(name).or_insert(0) += is_so as u32;
}

fn see_table(seen: &mut Seen, table: &Table) {
    let Table { frame, transactions } = table;
    let tasks: Vec<&Task> = transactions.iter().flat_map(|each| &each.tasks).collect();
    let periods: BTreeSet<i64> = transactions.iter().map(|each| each.period).collect();
    see(seen, "frame to 12", *frame <= 12);
    see(seen, "frame to some thousands", (13..=5000).contains(frame));
    see(seen, "frame near 2^20", (1 << 18..=1 << 20).contains(frame));
    see(seen, "few frames to H", *frame > Table::HORIZON / 16);
    see(seen, "several periods", periods.len() > 2);
    see(seen, "several modes", transactions.iter().any(|each| each.modes > 1));
    see(seen, "equal priorities", tasks.windows(2).any(|two| two[0].priority == two[1].priority));
    let far = |each: &Transaction| each.tasks.iter().any(|task| task.jitter > 2 * each.period);
    see(seen, "jitter of periods", transactions.iter().any(far));
}

fn see_budget(seen: &mut Seen, fixed: &Fixed, budget: u32) {
    let Cells { code, evaluations, .. } = cells(fixed, Charging::Imposed, budget);
    let of_more = || cells(fixed, Charging::Imposed, budget.saturating_add(1));
    see(seen, "bounded", code == 0 || code == 20);
    see(seen, "22", code == 22);
    see(seen, "23", code == 23);
    see(seen, "22 after many", code == 22 && evaluations > 5000);
    see(seen, "bounded after many", code < 22 && evaluations > 5000);
    see(seen, "just enough for 22", code == 22 && budget == evaluations);
    see(seen, "just enough for a bound", code < 22 && budget == evaluations);
    see(seen, "one more than enough", code < 23 && budget == evaluations + 1);
    see(seen, "one too few", code == 23 && of_more().code != 23);
    see(seen, "one too few of many", code == 23 && budget > 5000 && of_more().code != 23);
}

fn see_chain(seen: &mut Seen, frame: i64, points: &[i64]) {
    let [.., before, last] = points[..] else { return };
    see(seen, "H itself", before == Table::HORIZON);
    see(seen, "a tick past H", last == Table::HORIZON + 1);
    let returns = returns(points, frame);
    let Some(&first) = returns.first() else { return };
    see(seen, "a return that is no cycle", !is_cycle(points, first));
    let ends_alike = |&&(from, to): &&(usize, usize)| {
        let again = points.get(2 * to - from);
        again.is_some_and(|again| again - points[to] == points[to] - points[from])
    };
    let early = returns.iter().take(100);
    see(seen, "three points alike, and no cycle", early.filter(ends_alike).any(|&two| !is_cycle(points, two)));
    let Some(&cycle) = returns.iter().find(|&&two| is_cycle(points, two)) else { return };
    let (from, to) = cycle;
    let is_long = points.len() > to + 2 * (to - from);
    see(seen, "cycles", is_long);
    see(seen, "cycles that begin late", is_long && from > 100);
    see(seen, "cycles of several evaluations", is_long && to - from > 1);
    see(seen, "cycles of many evaluations", is_long && to - from > 20);
    see(seen, "cycles of several frames", is_long && points[to] - points[from] > frame);
}

/// Each of them once in 100 cases, and most of them far more often. Most tables are full to the tick, and one in ten of
/// the tasks that are so is decided after thousands of evaluations.
#[test]
fn answers_and_budgets_and_chains_come_to_every_edge() {
    const CASES: u32 = 200;
    let mut seen = Seen::new();
    for index in 0..CASES {
        let Case { budget, image } = case(15, index as u64);
        let table = read(&image).expect("a good table");
        see_table(&mut seen, &table);
        let is_full = |&(u, a): &(usize, usize)| spare(&Fixed { table: &table, u, a }) == 0;
        see(&mut seen, "full table", table.numbered().iter().any(is_full));
        for (u, a) in table.numbered() {
            let fixed = Fixed { table: &table, u, a };
            see(&mut seen, "21", is_overloaded(&fixed));
            see(&mut seen, "a little below", spare(&fixed) == 1);
            see(&mut seen, "full task", is_full(&(u, a)));
            if !is_full(&(u, a)) {
                continue;
            }
            see(&mut seen, "no blocking", fixed.task().blocking == 0);
            see(&mut seen, "blocking of frames", fixed.task().blocking > table.frame);
            see_budget(&mut seen, &fixed, budget);
            let chains = chains(&fixed, budget.min(1_000_000));
            see(&mut seen, "several candidates", chains.windows(2).any(|two| two[0].0 == two[1].0));
            for (mode, points) in chains {
                let is_lighter = sum(&fixed, u, mode) < greatest_sum(&fixed, u);
                see(&mut seen, "own mode lighter", is_lighter);
                see(&mut seen, "own mode lighter, long", is_lighter && points.len() > 100);
                see_chain(&mut seen, table.frame, &points);
            }
        }
    }
    // What nobody ever looked for is not there with a 0.
    assert_eq!(seen.len(), 36, "{seen:?}");
    assert!(seen.values().all(|&count| 100 * count > CASES), "{seen:?}");
    assert!(4 * seen["full table"] > 3 * CASES, "{seen:?}");
    assert!(10 * (seen["22 after many"] + seen["bounded after many"]) > seen["full task"], "{seen:?}");
}

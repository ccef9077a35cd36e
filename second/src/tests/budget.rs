//! Request 6 of document 02: the program's budget, and 'a greater budget must never alter a task's line unless that line was
//! 23'.

use super::*;
use crate::answer::listing;
use crate::desk::Text;
use crate::draft;
use crate::generate::{case, Case};
use crate::image::read;
use crate::random::Random;
use std::collections::BTreeMap;

/// Document 01's case of 1,677,722 evaluations, and the same as a listing and in words.
#[test]
fn what_a_million_evaluations_stopped_is_decided() {
    let table = alone(Task { blocking: 1, ..task(0, &[10], 0) });
    assert_eq!(triple(&lower(&table), Charging::Imposed, 1_000_000), (23, 0, 1_000_000));
    let image = draft::image(&table);
    let listing = listing(&image, Charging::Imposed);
    assert_eq!(listing.lines().nth(1), Some("0 22 0 1677722 0 0 0"));
    assert!(Text::Words.told(&image, &[]).text.contains("  no bound: no busy time up to the horizon "));
}

/// In ascending order: nothing, something, around what is needed, or was spent and not enough, and the given one.
fn budgets(random: &mut Random, needed: u32, given: u32) -> Vec<u32> {
    let some = random.within(0, needed as i64) as u32;
    let mut budgets = vec![0, some, needed.saturating_sub(1), needed, needed + 1, given];
    budgets.sort();
    budgets
}

/// The cells of a task under one budget, and under another that is no smaller.
fn compare(budget: u32, cells: Cells, greater: u32, then: Cells) {
    if cells.code != 23 {
        assert!(cells.evaluations <= budget);
        assert_eq!(then, cells);
    } else {
        assert_eq!(cells, Cells { code: 23, evaluations: budget, ..Cells::default() });
        assert_ne!(then.code, 21);
        assert!(greater == budget || then.evaluations > budget);
    }
}

/// Each two budgets of each task: every code comes and stays, and 23 becomes each of the others but 21.
#[test]
fn a_greater_budget_alters_a_line_only_if_it_was_23() {
    let mut seen = BTreeMap::new();
    for index in 0..500 {
        let Case { budget: given, image } = case(12, index);
        let Ok(table) = read(&image) else { continue };
        let random = &mut Random::of(13, index);
        for (u, a) in table.numbered() {
            let under = |budget: u32| cells(&Fixed { table: &table, u, a }, Charging::Imposed, budget);
            let budgets = budgets(random, under(given).evaluations, given);
            let row: Vec<(u32, Cells)> = budgets.into_iter().map(|budget| (budget, under(budget))).collect();
            for (i, &(budget, cells)) in row.iter().enumerate() {
                for &(greater, then) in &row[i..] {
                    compare(budget, cells, greater, then);
                    *seen.entry((cells.code, then.code)).or_insert(0) += 1;
                }
            }
        }
    }
    let pairs: Vec<(u32, u32)> = seen.keys().copied().collect();
    let expected = [(0, 0), (20, 20), (21, 21), (22, 22), (23, 0), (23, 20), (23, 22), (23, 23)];
    assert_eq!(pairs, expected);
    assert!(seen.values().all(|&count| count > 200), "{seen:?}");
}

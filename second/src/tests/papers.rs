//! Figures of the source documents.

use super::*;

/// Source 001, its last example, and the chain that its Table 2 prints.
#[test]
fn eight_tasks_of_period_50() {
    let pairs = [(2, 1), (5, 9), (5, 19), (7, 23), (1, 34), (8, 35), (5, 47), (1, 48)];
    let tasks = pairs.iter().map(|&(time, offset)| task(offset, &[time], 9)).collect();
    let table = above_lower(10_000, 50, tasks, 8);
    assert_eq!(triple(&lower(&table), Charging::Imposed, PLENTY), (0, 37, 15));

    let steps = steps(&lower(&table));
    let busy_end = steps.iter().position(|step| matches!(step, Step::BusyLength(_))).unwrap();
    let mut chain = Vec::new();
    for step in &steps[busy_end..] {
        if let Step::Evaluation { at, value } = step {
            if chain.is_empty() {
                chain.push(*at);
            }
            chain.push(*value);
        }
    }
    assert_eq!(chain, [8, 17, 23, 28, 29, 31, 33, 36, 37, 37]);
}

/// Source 004: with its two modes, and with the greatest time of each task in one.
#[test]
fn two_modes_of_period_20() {
    let bound_of = |first: &[i64], second: &[i64]| {
        let table = above_lower(10_000, 20, vec![task(1, first, 9), task(10, second, 9)], 6);
        bound(&lower(&table), Charging::Imposed)
    };
    assert_eq!(bound_of(&[8, 5], &[3, 7]), 18);
    assert_eq!(bound_of(&[8], &[7]), 29);
}

/// Source 000, section 4.
#[test]
fn two_offsets_of_period_20() {
    let table = above_lower(10_000, 20, vec![task(0, &[2], 9), task(4, &[4], 9)], 2);
    assert_eq!(bound(&lower(&table), Charging::Imposed), 6);
    assert_eq!(bound(&lower(&table), Charging::Released), 8);
}

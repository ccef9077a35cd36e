//! Runs of one given table.

use super::*;
use crate::random::Random;
use crate::simulate::given::{analysed, extent, simulate, told, Analysed, Seen, Settings, Ticks};
use crate::simulate::small;

fn row(table: &Table) -> Vec<Analysed> {
    analysed(table, 20_000, &mut |_| ())
}

fn seen(table: &Table, row: &[Analysed], runs: u64, wide: bool) -> Seen {
    let settings = Settings { size: extent(table, row).size, runs, seed: 1, wide };
    simulate(table, row, &settings, &mut |_| ())
}

fn finished(ticks: i64) -> Option<Ticks> {
    Some(Ticks { ticks, is_finished: true })
}

#[test]
fn the_longest_responses_of_s_are_its_bounds() {
    let (table, row) = (s(), row(&s()));
    let seen = seen(&table, &row, 30, false);
    assert_eq!(seen.longest, [2, 7, 5].map(finished));
    let (is_well, text) = told(&table, &row, &seen, 1);
    assert!(is_well);
    let lines: Vec<&str> = text.lines().collect();
    let expected = [
        "task code  deadline     bound   longest",
        "   0    0        10         2         2",
        "   1    0        10         7         7",
        "   2   20         4         5         5 late",
    ];
    assert_eq!(lines[..4], expected);
    assert!(lines.contains(&"runs 30") && lines.contains(&"bounds attained exactly 3"), "{text}");
}

#[test]
fn a_response_above_a_bound_is_told_with_its_run() {
    let (table, mut row) = (s(), row(&s()));
    row[2].cells.bound = 4;
    let seen = seen(&table, &row, 30, false);
    let (is_well, text) = told(&table, &row, &seen, 1);
    assert!(!is_well);
    assert_eq!(seen.runs, 2, "the run that shows it is the last: {text}");
    for part in [
        "violations 1\n",
        "seed 1 run 1\nviolation: task 2 took 5 from its event at 0, its bound is 4\n",
        "modes [0, 0], first events [-4, 0];",
        "\ntask 0: (-4, -4, 1)\ntask 1: (-4, 0, 3)\ntask 2: (0, 0, 2)\n",
        "\nfrom -4 to -3: task 0\nfrom -3 to 0: idle\nfrom 0 to 3: task 1\nfrom 3 to 5: task 2\n",
    ] {
        assert!(text.contains(part), "{part}{text}");
    }
}

/// The first job ends at 11, and the second waits when the run ends at 20.
#[test]
fn a_task_without_a_bound_is_played_and_has_none() {
    let table = alone(Task { deadline: 11, ..task(0, &[11], 5) });
    let row = row(&table);
    let (is_well, text) = told(&table, &row, &seen(&table, &row, 1, false), 1);
    assert!(is_well);
    assert_eq!(text.lines().nth(1), Some("   0   21        11      none        11"));
}

/// It is ready with its event, and the other takes all of the 20 ticks that are played.
#[test]
fn a_job_that_does_not_finish_takes_at_least_the_run() {
    let starved = Task { deadline: 20, ..task(0, &[1], 1) };
    let table = Table { frame: 10, transactions: vec![transaction(10, vec![task(0, &[11], 5), starved])] };
    let row = row(&table);
    let (_, text) = told(&table, &row, &seen(&table, &row, 1, false), 1);
    assert_eq!(text.lines().nth(2), Some("   1   21        20      none      >=21 late"));
}

/// Each number of ticks of S times 100,000.
#[test]
fn a_table_of_long_periods_is_played_as_one_of_short_ones() {
    let times = 100_000;
    let mut table = s();
    table.frame *= times;
    for transaction in &mut table.transactions {
        transaction.period *= times;
        for task in &mut transaction.tasks {
            task.offset *= times;
            task.times[0] *= times;
            task.deadline *= times;
        }
    }
    let row = row(&table);
    assert_eq!(seen(&table, &row, 30, false).longest, [2, 7, 5].map(|bound| finished(bound * times)));
}

/// Six transactions, in each of which one task of four is long: one start in 4096 is the worst for the task below.
#[test]
fn the_first_run_against_a_task_is_the_one_that_its_bound_comes_from() {
    let long_last = |time: i64| {
        let times = [(0, 1), (250, 1), (500, 1), (750, time)];
        transaction(1000, times.map(|(offset, time)| task(offset, &[time], 9)).to_vec())
    };
    let mut transactions: Vec<Transaction> = (10..16).map(long_last).collect();
    transactions.push(transaction(1000, vec![task(0, &[1], 1)]));
    let table = Table { frame: 1000, transactions };
    let row = row(&table);
    assert_eq!(row[24].cells.bound, 10 + 11 + 12 + 13 + 14 + 15 + 1);
    assert_eq!(seen(&table, &row, 25, false).longest[24], finished(76));
}

/// Of each table only as many runs are played as it has tasks.
#[test]
fn most_bounds_of_small_tables_are_attained_in_the_first_runs_and_none_is_passed() {
    let (mut bounded, mut attained) = (0, 0);
    for index in 0..300 {
        let table = small::table(&mut Random::of(8, index));
        let row = row(&table);
        let seen = seen(&table, &row, row.len() as u64, index % 2 == 0);
        assert_eq!(seen.violation, None);
        let each = row.iter().zip(&seen.longest);
        bounded += row.iter().filter(|task| task.cells.bound > 0).count();
        attained += each.filter(|(task, longest)| **longest == finished(task.cells.bound as i64)).count();
    }
    assert!(10 * attained > 7 * bounded, "{attained} of {bounded}");
}

#[test]
fn no_table_has_too_many_jobs_to_be_played() {
    let frame = Table::HORIZON;
    let quick = Table { frame, transactions: vec![transaction(1, vec![task(0, &[1], 9)])] };
    // Every job is held back for millions of periods.
    let held =
        Table { frame: 10, transactions: vec![transaction(10, vec![Task { jitter: frame, ..task(0, &[1], 9) }])] };
    let late = Task { deadline: frame + 1, ..task(frame, &[1], 8) };
    let late = Table { frame: 10, transactions: vec![transaction(10, vec![task(0, &[1], 9), late])] };
    for table in [quick, held, late] {
        let row = row(&table);
        let extent = extent(&table, &row);
        assert!(extent.runs >= 4 * row.len() as u64);
        let seen = seen(&table, &row, 4, false);
        assert!(seen.jobs <= 4 * 25_000, "{} jobs", seen.jobs);
    }
}

//! Who gave a bound or a charge: the first of equal ones, and the parts that add up.

use super::*;
use crate::answer::{answered, listing};
use crate::bound::{analyse, Bound, Outcome};
use crate::draft;
use crate::generate::{case, Case};
use crate::image::read;
use crate::parts::{parts, Charge};
use crate::stream::{Asked, Question};

fn told(table: &Table, question: Question) -> String {
    answered(&Asked { question, image: draft::image(table) }).1
}

fn charge(table: &Table, (task, transaction): (u8, u8), charging: Charging, t: u32) -> String {
    told(table, Question::Charge { task, transaction, charging, t })
}

/// A task's line of the listing.
fn line(table: &Table, number: usize) -> String {
    listing(&draft::image(table), Charging::Imposed).lines().nth(1 + number).unwrap().into()
}

/// At 5 both candidates of transaction 0 charge 3; the first is named.
#[test]
fn the_parts_of_s() {
    let expected = "accepted 0 2 3 0 0 0 0 7 5 0 1 0 20 5 6 0 2 0\n\
                    parts 0 2 0 0 0 2 0\npart 0 0 own\npart 0 1 none\n\
                    parts 1 3 0 4 0 3 0\npart 1 0 own\npart 1 1 none\n\
                    parts 2 5 0 0 0 2 0\npart 2 0 3 0 0\npart 2 1 own\n";
    assert_eq!(told(&s(), Question::Parts { budget: PLENTY }), expected);
    let spent = "accepted 23 0 2 0 0 0 23 0 2 0 0 0 23 0 2 0 0 0\nparts 0 none\nparts 1 none\nparts 2 none\n";
    assert_eq!(told(&s(), Question::Parts { budget: 2 }), spent);
    let cut = Asked { question: Question::Parts { budget: 9 }, image: draft::image(&s())[..4].to_vec() };
    assert_eq!(answered(&cut).1, "refused 1 28\n");
}

/// Job −1 arrives at 8 − 2·10, 12 ticks before the instant.
#[test]
fn an_arrival_is_signed() {
    let table = alone(Task { jitter: 12, deadline: 20, ..task(0, &[2], 0) });
    let expected = "accepted 0 14 4 0 0 0\nparts 0 2 -12 0 0 2 0\npart 0 0 own\n";
    assert_eq!(told(&table, Question::Parts { budget: 9 }), expected);
}

#[test]
fn charges_of_s() {
    use Charging::{Imposed, Released};
    let cases = [
        ((2, 0), Imposed, 0, "charge 0 0 0\n"),
        ((2, 0), Imposed, 3, "charge 3 0 1\n"),
        ((2, 0), Imposed, 5, "charge 3 0 0\n"),
        ((2, 0), Released, 5, "charge 5 0 0\n"),
        ((2, 0), Released, 4, "charge 3 0 1\n"),
        ((0, 1), Imposed, 5, "charge none\n"),
        ((2, 1), Imposed, 5, "charge own\n"),
        ((2, 2), Imposed, 5, "charge missing\n"),
        ((2, 255), Imposed, 5, "charge missing\n"),
        ((3, 0), Imposed, 5, "refused 13 0\n"),
        ((3, 2), Released, 5, "refused 13 0\n"),
    ];
    for (pair, charging, t, expected) in cases {
        assert_eq!(charge(&s(), pair, charging, t), expected, "{pair:?} at {t}");
    }
}

/// Period 1 and the longest times: 2^32 − 1 jobs of each task.
#[test]
fn a_charge_may_need_64_bits() {
    let long = |jitter| Task { jitter, deadline: Table::HORIZON, ..task(0, &[Table::HORIZON], 9) };
    let others = transaction(1, vec![long(0), long(Table::HORIZON)]);
    let table = Table { frame: 1, transactions: vec![transaction(1, vec![task(0, &[1], 1)]), others] };
    let jobs = 2 * (u32::MAX as i64) + Table::HORIZON;
    let expected = format!("charge {} 0 1\n", jobs * Table::HORIZON);
    assert_eq!(charge(&table, (0, 1), Charging::Imposed, u32::MAX), expected);
}

/// With rivals in some mode the first of them is named, even for no ticks at all; without any, nobody is.
#[test]
fn nobody_goes_by_rivals() {
    let others = vec![task(0, &[0, 0, 3], 1), task(0, &[0, 2, 0], 9), task(0, &[2, 0, 2], 0)];
    let table =
        Table { frame: 20, transactions: vec![transaction(20, others), transaction(20, vec![task(0, &[1], 5)])] };
    assert_eq!(charge(&table, (3, 0), Charging::Imposed, 0), "charge 0 1 1\n");
    let mut lower = table.clone();
    lower.transactions[0].tasks[1].priority = 4;
    assert_eq!(charge(&lower, (3, 0), Charging::Imposed, 0), "charge none\n");
}

/// Three tasks alike in two modes alike: all candidates and modes give the same, and the first of them is not always
/// the task itself.
#[test]
fn of_equal_candidates_and_modes_the_first_counts() {
    let table = Table { frame: 20, transactions: vec![transaction(20, vec![task(0, &[2, 2], 9); 3])] };
    assert_eq!([0, 1, 2].map(|number| line(&table, number)), ["0 0 6 24 0 0 0", "1 0 6 24 0 0 0", "2 0 6 24 0 0 0"]);
}

#[test]
fn a_later_job_may_give_the_bound() {
    let first = transaction(70, vec![task(0, &[26], 9)]);
    let table = Table { frame: 700, transactions: vec![first, transaction(100, vec![task(0, &[62], 1)])] };
    let responses: Vec<i64> = walked(&lower(&table), PLENTY).into_iter().map(|each| each.0).collect();
    assert_eq!(responses, [114, 102, 116, 104, 118, 106, 94]);
    let Cells { bound, mode, candidate, job, .. } = cells(&lower(&table), Charging::Imposed, PLENTY);
    assert_eq!((bound, mode, candidate, job), (118, 0, 1, 4));
}

/// Response, mode, candidate and job of each response of the walk, in its order.
fn walked(fixed: &Fixed, budget: u32) -> Vec<(i64, usize, usize, i64)> {
    let (mut now, mut all) = ((0, 0), Vec::new());
    watched(fixed, Charging::Imposed, budget, &mut |step| match step {
        Step::Candidate { c, mode } => now = (mode, c),
        Step::Response { job, response, .. } => all.push((response, now.0, now.1, job)),
        _ => (),
    });
    all
}

/// Every (mode, candidate) of transaction v in order, with its charge at t.
fn charged(fixed: &Fixed, v: usize, t: i64) -> Vec<(i64, usize, usize)> {
    let Transaction { modes, tasks, .. } = &fixed.table.transactions[v];
    let turns = (0..*modes).flat_map(|mode| (0..tasks.len()).map(move |c| (mode, c)));
    let rivals = turns.filter(|&(mode, c)| fixed.is_rival(v, c, mode));
    rivals.map(|(mode, c)| (fixed.charge(Charging::Imposed, v, c, mode, t), mode, c)).collect()
}

/// What is named is the first of the greatest, and others that give as much come often: by mode, by candidate and by job of
/// a bound, and in the charge of another transaction.
#[test]
fn the_first_of_the_greatest_is_named_and_ties_come_often() {
    let (mut modes, mut candidates, mut jobs, mut later_jobs, mut charges) = (0, 0, 0, 0, 0);
    for index in 0..2000 {
        let Case { budget, image } = case(1, index);
        let Ok(table) = read(&image) else { continue };
        for (u, a) in table.numbered() {
            let fixed = Fixed { table: &table, u, a };
            let Outcome::Bounded(bound) = analyse(&fixed, Charging::Imposed, budget).outcome else { continue };
            let Bound { response, mode, c, job, first_job, completion } = bound;
            let mut all = walked(&fixed, budget);
            assert!(all.iter().all(|each| each.0 <= response));
            all.retain(|each| each.0 == response);
            assert_eq!(all[0], (response, mode, c, job));
            modes += all.iter().any(|each| each.1 != mode) as u32;
            candidates += all.iter().any(|each| each.1 == mode && each.2 != c) as u32;
            jobs += all.iter().any(|each| (each.1, each.2) == (mode, c) && each.3 != job) as u32;
            later_jobs += (job > first_job) as u32;
            for (v, charge) in parts(&fixed, Charging::Imposed, bound).charges.into_iter().enumerate() {
                let mut all = charged(&fixed, v, completion);
                match charge {
                    Charge::Own => assert_eq!(v, u),
                    Charge::Nobody => assert!(all.is_empty()),
                    Charge::Greatest(greatest) => {
                        assert!(all.iter().all(|each| each.0 <= greatest.charge));
                        all.retain(|each| each.0 == greatest.charge);
                        assert_eq!(all[0], (greatest.charge, greatest.mode, greatest.c));
                        charges += (all.len() > 1) as u32;
                    }
                    Charge::Missing => panic!("every transaction is there"),
                }
            }
        }
    }
    let seen = (modes, candidates, jobs, later_jobs, charges);
    assert!(modes > 500 && candidates > 300 && jobs > 10 && later_jobs > 30 && charges > 1000, "{seen:?}");
}

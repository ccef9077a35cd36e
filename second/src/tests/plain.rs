//! Request 7 of document 02: the plain jitter analysis, its approximation, and what is promised of both.

use super::*;
use crate::answer::{plain, PROGRAM_BUDGET};
use crate::draft;
use crate::generate::plain::{table, Aimed, PlainKind, KINDS};
use crate::image::Refusal;
use crate::plain::{approximation, request, Plain};
use crate::random::Random;
use std::collections::BTreeMap;

fn response(table: &Table, number: usize) -> Result<i64, u32> {
    Plain::of(table, number).and_then(|plain| plain.response()).map_err(|refusal| refusal.number)
}

fn code_and_bound(table: &Table, number: usize) -> (u32, u32) {
    let Cells { code, bound, .. } = cells(&Fixed { table, u: number, a: 0 }, Charging::Imposed, PLENTY);
    (code, bound)
}

#[test]
fn approximations_by_hand() {
    assert_eq!(approximation(10, 1, 3, 1, 0), 33);
    assert_eq!([0, 17, 18, 27, 28].map(|t| approximation(10, 3, 4, 3, t)), [40, 80, 124, 160, 164]);
    // Of k the first k − 1 periods are exact, and the edge is among them.
    assert_eq!([1, 2, 3].map(|k| approximation(10, 0, 4, k, 10)), [80, 40, 40]);
    assert_eq!([1, 2, 3].map(|k| approximation(10, 0, 4, k, 11)), [84, 84, 80]);
    // With nothing requested yet the factor still holds: C·T + 0 would not.
    assert_eq!([1, 2].map(|k| approximation(10, 0, 4, k, 0)), [0, 0]);
}

/// 'Never below the exact request, never more than C above, and never above (1 + 1/k) of it', in T-ths of a tick. An excess
/// of exactly C and the factor itself are reached.
#[test]
fn approximations_keep_their_promises() {
    let random = &mut Random::of(70, 0);
    let (mut exact, mut excess, mut factor) = (0, 0, 0);
    for _ in 0..300_000 {
        let most = random.pick(&[4, 20, 1000, Table::HORIZON]);
        let (period, time) = (random.within(1, most), random.within(1, most));
        let jitter = random.within(0, 3 * most).min(Table::HORIZON);
        let t = random.within(0, 5 * most).min(Table::HORIZON);
        let around = ((t + jitter) / period + random.within(0, 2)).max(1);
        let any = random.within(1, u32::MAX as i64);
        let few = random.within(1, 5);
        let k = random.pick(&[around, around, few, any, u32::MAX as i64]);
        let value = approximation(period, jitter, time, k, t);
        let request = request(period, jitter, time, t) * period;
        assert!(request <= value && value - request <= time * period);
        let (value, request, k) = (value as i128, request as i128, k as i128);
        assert!(value * k <= request * (k + 1), "T {period} J {jitter} C {time} k {k} t {t}");
        exact += (value == request) as u32;
        excess += (value - request == (time * period) as i128) as u32;
        factor += (value > request && value * k == request * (k + 1)) as u32;
    }
    assert!(exact > 50_000 && excess > 1000 && factor > 1000, "{exact} {excess} {factor}");
}

/// The literal search: each t, and at each the whole sum, task by task in image order.
fn literal(table: &Table, number: usize, most: i64) -> Option<i64> {
    let own = &table.transactions[number].tasks[0];
    (1..=most).find(|&t| {
        let mut workload = own.blocking + own.times[0];
        for (other, Transaction { period, tasks, .. }) in table.transactions.iter().enumerate() {
            if other != number && tasks[0].priority >= own.priority {
                let mut jobs = (t + tasks[0].jitter) / period;
                if (t + tasks[0].jitter) % period > 0 {
                    jobs += 1;
                }
                workload += jobs * tasks[0].times[0];
            }
        }
        workload == t
    })
}

#[test]
fn the_search_is_the_literal_one() {
    const MOST: i64 = 3000;
    let mut found = 0;
    for index in 0..200 {
        for &kind in KINDS {
            let Aimed { table, number } = table(&mut Random::of(71, index), kind);
            let least = Plain::of(&table, number).unwrap().least(MOST);
            assert_eq!(least, literal(&table, number, MOST), "{table:?}");
            found += least.is_some() as u32;
        }
    }
    assert!(found > 1000, "{found}");
}

#[test]
fn responses_by_hand() {
    // Blocking, a higher task whose jitter brings a second job in time, one as urgent, and one below.
    let table = Table {
        frame: 60,
        transactions: vec![one(10, 8, 0, 2, 9), one(60, 0, 0, 5, 5), one(30, 4, 3, 4, 5), one(60, 0, 0, 9, 1)],
    };
    // 3 + 4 + 5 and two jobs of the first, up to t = 12; then a third.
    assert_eq!(response(&table, 2), Ok(18 + 4));
    assert_eq!(response(&table, 0), Ok(2 + 8));
    // At an edge: t + J = T exactly is one job, and a tick later there are two.
    let edge = |time: i64| Table { frame: 20, transactions: vec![one(10, 3, 0, 2, 9), one(20, 0, 0, time, 1)] };
    assert_eq!([5, 6].map(|time| response(&edge(time), 1)), [Ok(7), Ok(10)]);
    // A floor would take 4 for this task alone in the first period of another.
    let floor = Table { frame: 10, transactions: vec![one(10, 0, 0, 3, 9), one(10, 0, 0, 4, 1)] };
    assert_eq!(response(&floor, 1), Ok(7));
}

/// 'Whenever this response is at most the task's period': a tick above it each of these differs, by 21, by 22, and by a second
/// job that is later than the first.
#[test]
fn a_tick_above_the_period_anything_may_be() {
    let alone = |blocking: i64, time: i64| Table { frame: 10, transactions: vec![one(10, 0, blocking, time, 1)] };
    let both = |table: &Table, number: usize| (response(table, number), code_and_bound(table, number));
    assert_eq!(both(&alone(0, 10), 0), (Ok(10), (0, 10)));
    assert_eq!(both(&alone(0, 11), 0), (Ok(11), (21, 0)));
    assert_eq!(both(&alone(1, 10), 0), (Ok(11), (22, 0)));
    let queue = Table { frame: 12, transactions: vec![one(6, 0, 0, 3, 9), one(4, 0, 0, 2, 1)] };
    assert_eq!(both(&queue, 1), (Ok(5), (0, 6)));
}

#[test]
fn the_horizon_is_among_the_completions_and_the_response_may_pass_it() {
    let alone = |jitter: i64, blocking: i64, time: i64| Table {
        frame: Table::HORIZON,
        transactions: vec![one(Table::HORIZON, jitter, blocking, time, 1)],
    };
    let most = Table::HORIZON;
    assert_eq!(response(&alone(0, 0, most), 0), Ok(most));
    assert_eq!(response(&alone(most, 0, most), 0), Ok(2 * most));
    assert_eq!(response(&alone(0, 1, most), 0), Err(32));
    assert_eq!(response(&alone(0, most, most), 0), Err(32));
    // The others take the whole frame: nothing is left, however little it is.
    let full = Table { frame: 10, transactions: vec![one(10, 0, 0, 10, 9), one(10, 0, 0, 1, 1)] };
    assert_eq!(response(&full, 1), Err(32));
}

/// Both answers as pairs of number and place, or as values.
fn both(image: &[u8], task: usize, k: u32, t: u32) -> [Result<i64, (u32, u32)>; 2] {
    let answer = plain(image, task, k, t);
    [answer.response, answer.approximation].map(|each| each.map_err(|Refusal { number, place }| (number, place)))
}

#[test]
fn refusals_in_their_order() {
    let several = draft::image(&s());
    let good = draft::image(&Table { frame: 10, transactions: vec![one(10, 1, 0, 3, 5), one(10, 0, 0, 11, 9)] });
    let mut cut = good.clone();
    cut.pop();
    let (horizon, beyond) = (Table::HORIZON as u32, Table::HORIZON as u32 + 1);
    // 1 before 13 before 31 before 32 and 33: each has the later faults too.
    assert_eq!(both(&[], 9, 0, beyond), [Err((1, 0)); 2]);
    assert_eq!(both(&cut, 9, 0, beyond)[0].map_err(|(number, _)| number), Err(1));
    assert_eq!(both(&cut, 9, 0, beyond)[0], both(&cut, 0, 1, 0)[1]);
    assert_eq!(both(&several, 3, 0, beyond), [Err((13, 0)); 2]);
    assert_eq!(both(&several, 2, 0, beyond), [Err((31, 0)); 2]);
    assert_eq!(both(&good, 2, 0, beyond), [Err((13, 0)); 2]);
    assert_eq!(both(&good, 0, 0, 0), [Err((32, 0)), Err((33, 0))]);
    assert_eq!(both(&good, 0, 1, beyond), [Err((32, 0)), Err((33, 0))]);
    assert_eq!(both(&good, 0, 1, u32::MAX), [Err((32, 0)), Err((33, 0))]);
    // One of the two may be refused alone; t may be 0, and H.
    assert_eq!(both(&good, 0, 1, 0), [Err((32, 0)), Ok(33)]);
    assert_eq!(both(&good, 1, 0, 0), [Ok(11), Err((33, 0))]);
    assert_eq!(both(&good, 0, 1, horizon), [Err((32, 0)), Ok(30 + 3 * (Table::HORIZON + 1))]);
    // (k − 1)·T takes 56 bits, and then all is exact.
    let long = draft::image(&Table { frame: Table::HORIZON, transactions: vec![one(Table::HORIZON, 0, 0, 7, 5)] });
    assert_eq!(both(&long, 0, u32::MAX, horizon), [Ok(7), Ok(7 * Table::HORIZON)]);
    let many = draft::image(&Table { frame: 256, transactions: vec![one(256, 0, 0, 7, 5)] });
    assert_eq!(both(&many, 0, (1 << 24) + 1, 1), [Ok(7), Ok(7 * 256)]);
}

#[test]
fn offsets_play_no_part() {
    for index in 0..300 {
        let random = &mut Random::of(72, index);
        let Aimed { mut table, number } = table(random, PlainKind::Small);
        let before = Plain::of(&table, number).unwrap().least(5000);
        for transaction in &mut table.transactions {
            transaction.tasks[0].offset = random.within(0, 3 * transaction.period);
        }
        assert_eq!(Plain::of(&table, number).unwrap().least(5000), before);
    }
}

/// What is promised of response and bound. The response is searched up to H if there is a bound, else up to the period. True
/// if it is at most the period. Then one job is looked at, and both chains are of ticks up to its completion: a budget of two
/// periods lasts, and so does the program's.
fn promised(table: &Table, number: usize, budget: u32) -> bool {
    let Transaction { period, tasks, .. } = &table.transactions[number];
    let (offset, jitter) = (tasks[0].offset, tasks[0].jitter);
    let Cells { code, bound, evaluations, .. } = cells(&Fixed { table, u: number, a: 0 }, Charging::Imposed, budget);
    let bound = matches!(code, 0 | 20).then_some(bound as i64);
    let most = if bound.is_some() { Table::HORIZON } else { *period };
    let response = Plain::of(table, number).unwrap().least(most).map(|t| t + jitter);
    if let Some(bound) = bound {
        assert!(response.is_some_and(|response| bound >= response + offset), "task {number} of {table:?}");
    }
    let is_up_to_period = response.is_some_and(|response| response <= *period);
    if is_up_to_period && code != 23 {
        assert_eq!(bound, response.map(|response| response + offset), "task {number} of {table:?}");
    }
    if is_up_to_period {
        assert!(evaluations as i64 <= 2 * period && (code != 23 || (budget as i64) < 2 * period));
        assert!(2 * period < PROGRAM_BUDGET as i64);
    }
    is_up_to_period
}

/// Every table of two tasks with a frame of 12 and small numbers, some offsets aside.
#[test]
fn the_bound_is_response_and_offset_on_all_small_tables() {
    let (mut up_to_period, mut all) = (0, 0);
    let each = |count: i64| 0..count;
    for (period, other_period) in [4, 6, 12].into_iter().flat_map(|period| [4, 6, 12].map(|other| (period, other))) {
        for (jitter, other_jitter) in each(36).map(|index| (index % 6, index / 6)) {
            for (time, other_time) in each(18).map(|index| (1 + index % 6, 1 + index / 6)) {
                for (blocking, offset, other_offset) in [(0, 0, 0), (0, 3, 2), (1, 0, 1), (1, 15, 0), (2, 2, 3)] {
                    let own = one(period, jitter, blocking, time, 1);
                    let other = one(other_period, other_jitter, 0, other_time, 1);
                    let mut table = Table { frame: 12, transactions: vec![own, other] };
                    table.transactions[0].tasks[0].offset = offset;
                    table.transactions[1].tasks[0].offset = other_offset;
                    up_to_period += promised(&table, 0, 500) as u32;
                    all += 1;
                }
            }
        }
    }
    assert!(up_to_period > 5000, "{up_to_period} of {all}");
}

/// Of each kind that stays small; some with a budget that does not last.
#[test]
fn the_bound_is_response_and_offset_on_random_tables() {
    use PlainKind::*;
    let mut up_to_period = BTreeMap::new();
    for kind in [Tiny, Small, Middle, EqualPriorities, JitterAbovePeriod, AroundPeriod, OverloadedTogether, NearlyFull]
    {
        for index in 0..600 {
            let random = &mut Random::of(73, index);
            let Aimed { table, .. } = table(random, kind);
            let budget = random.pick(&[3000, 3000, 20, 5]);
            for number in 0..table.transactions.len() {
                let is_up_to_period = promised(&table, number, budget);
                *up_to_period.entry(format!("{kind:?}")).or_insert(0) += is_up_to_period as u32;
            }
        }
    }
    assert!(up_to_period.values().all(|&count| count > 30), "{up_to_period:?}");
}

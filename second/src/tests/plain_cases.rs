//! Cases for the plain analysis: their stream, and that every situation comes in which an answer could be wrong.

use super::*;
use crate::answer::answered;
use crate::draft;
use crate::generate::plain::{asked, rivals_demand, table, Aimed, KINDS};
use crate::image::read;
use crate::plain::{approximation, is_exact, Plain};
use crate::random::Random;
use crate::stream::{self, Asked, Question};
use std::cmp::Ordering;
use std::collections::BTreeMap;

/// The generator's questions, encoded and read back.
#[test]
fn a_stream_of_plain_cases_is_read_as_it_was_written() {
    let cases: Vec<Asked> = (0..50).map(|index| asked(74, index)).collect();
    let bytes: Vec<u8> = cases.iter().flat_map(stream::encoded).collect();
    let mut input = &bytes[..];
    for case in &cases {
        assert_eq!(stream::next(&mut input).unwrap().as_ref(), Some(case));
    }
    assert_eq!(stream::next(&mut input).unwrap(), None);
    let image = draft::image(&Table { frame: 10, transactions: vec![one(10, 1, 0, 3, 5)] });
    let case = Asked { question: Question::Plain { task: 0, k: 0x01020304, t: 5 }, image: image.clone() };
    let head = [0, 0, 0, 5, 0xC0, image.len() as u8, 0, 1, 2, 3, 4];
    assert_eq!(stream::encoded(&case), [&head[..], &image].concat());
    assert_eq!(answered(&case).1, "plain 4\napproximate 30\n");
    let refused = Asked { question: Question::Plain { task: 1, k: 0, t: 5 }, image };
    assert_eq!(answered(&refused).1, "refused 13 0\nrefused 13 0\n");
}

/// The situations that an answer could get wrong come, each of them often.
#[test]
fn every_situation_comes_in_the_cases() {
    let mut seen: BTreeMap<String, u32> = BTreeMap::new();
    let mut see = |name: &str| *seen.entry(name.into()).or_default() += 1;
    for index in 0..4000 {
        let Asked { question, image } = asked(75, index);
        let Question::Plain { task, k, t } = question else { panic!("a plain question") };
        let (k, t) = (k as i64, t as i64);
        let table = match read(&image) {
            Err(refusal) => {
                see(&format!("refused {}", refusal.number));
                continue;
            }
            Ok(table) => table,
        };
        let plain = match Plain::of(&table, task as usize) {
            Err(refusal) => {
                see(&format!("refused {}", refusal.number));
                continue;
            }
            Ok(plain) => plain,
        };
        let (period, jitter, frame) = (plain.own().period, plain.task().jitter, table.frame);
        let by = |what: &str, order: Ordering| format!("{what} {order:?}");
        see(&by("jitter and period", jitter.cmp(&period)));
        see(if jitter == 0 { "no jitter" } else { "jitter" });
        see(if plain.task().blocking == 0 { "no blocking" } else { "blocking" });
        see(if plain.others().is_empty() { "alone" } else { "others" });
        let is_equal = |other: &Plain| other.task().priority == plain.task().priority;
        see(if plain.others().iter().any(is_equal) { "equal priority" } else { "no equal priority" });
        let rivals = rivals_demand(&Aimed { table: table.clone(), number: task as usize });
        see(&by("rivals and frame", rivals.cmp(&frame)));
        if rivals < frame {
            see(&by("together and frame", (rivals + frame / period * plain.time()).cmp(&frame)));
        }
        if let Some(completion) = plain.least(20_000) {
            let response = completion + jitter;
            see(&by("response and period", response.cmp(&period)));
            if (response - period).abs() == 1 {
                see(&by("response a tick beside period", response.cmp(&period)));
            }
        }
        let past = |at: i64| plain.workload(&plain.others(), at) == at;
        for (at, name) in [(Table::HORIZON, "meets H"), (Table::HORIZON + 1, "meets H + 1")] {
            if past(at) && literal_from(&plain, at) {
                see(name);
            }
        }
        see(if k == 0 {
            "k 0"
        } else if k == 1 {
            "k 1"
        } else if k > 1 << 30 {
            "k huge"
        } else {
            "k"
        });
        let edge = (k - 1) * period - jitter;
        let name = match t - Table::HORIZON {
            _ if t == 0 => "t 0",
            0 => "t H",
            1 => "t H + 1",
            2.. => "t huge",
            _ => "t",
        };
        see(name);
        let low = |number: i64| number & u32::MAX as i64;
        if low(plain.workload(&plain.others(), 1)) < plain.workload(&plain.others(), 1) {
            see("workload above 32 bits");
        }
        if k > 0 && t <= Table::HORIZON {
            if approximation(period, jitter, plain.time(), k, t) > u32::MAX as i64 {
                see("approximation above 32 bits");
            }
            if low((k - 1) * period) < t + jitter && is_exact(period, jitter, k, t) {
                see("exact, but not by 32 bits of the edge");
            }
            let beside = t - edge;
            if beside.abs() <= 1 {
                see(&format!("edge {beside}"));
            }
            see(if is_exact(period, jitter, k, t) { "exact" } else { "linear" });
            see(&format!("k and (t + J)/T + 1 {:?}", k.cmp(&((t + jitter) / period + 1))));
        }
    }
    for (name, count) in &seen {
        let is_rare = name.starts_with("refused") || name.starts_with("meets H");
        let least = if is_rare { 5 } else { 20 };
        assert!(*count >= least, "{name}: {seen:?}");
    }
    assert_eq!(seen.len(), 58, "{seen:?}");
}

/// No t from 1 on meets the workload before this one: the steps of a search that jumps as far as the workload says.
fn literal_from(plain: &Plain, at: i64) -> bool {
    let others = plain.others();
    let mut t = 1;
    while t < at {
        let workload = plain.workload(&others, t);
        if workload <= t {
            return false;
        }
        t = workload;
    }
    t == at
}

#[test]
fn tables_of_each_kind_are_read_as_they_were_written() {
    for &kind in KINDS {
        for index in 0..200 {
            let Aimed { table, .. } = table(&mut Random::of(76, index), kind);
            assert_eq!(read(&draft::image(&table)).as_ref(), Ok(&table), "{kind:?}");
        }
    }
}

//! What must hold of every generated case.

use super::*;
use crate::answer::{all_cells, answer, host};
use crate::desk::place::{field_at, value_of, Name};
use crate::draft::{self, Kind};
use crate::generate::damage::{crowded, damaged, Damage};
use crate::generate::tables::{table, TableKind, FIELD_24, FIELD_26, KINDS};
use crate::generate::who::asked;
use crate::generate::{case, image, Case};
use crate::image::{read, Refusal};
use crate::random::Random;
use crate::simulate::small::{self, simulate, Settings};
use crate::stream::{self, Asked};
use std::collections::{BTreeMap, BTreeSet};

#[test]
fn good_tables_are_read_back() {
    for index in 0..50 {
        for &kind in KINDS {
            let table = table(&mut Random::of(7, index), kind);
            assert_eq!(read(&draft::image(&table)), Ok(table));
        }
        let table = small::table(&mut Random::of(7, index));
        assert_eq!(read(&draft::image(&table)), Ok(table));
    }
}

/// At the limits, one below them, and on both sides of the limits before request 4 of document 02.
#[test]
fn large_tables_come_to_the_limits() {
    let (mut transactions, mut tasks) = (BTreeSet::new(), BTreeSet::new());
    for index in 0..60 {
        for kind in [TableKind::ManyTransactions, TableKind::ManyTasks, TableKind::AtAllLimits] {
            let table = table(&mut Random::of(8, index), kind);
            transactions.insert(table.transactions.len());
            tasks.insert(table.numbered().len());
        }
    }
    assert!(transactions.is_superset(&[32, 33, 62, 63].into()), "{transactions:?}");
    assert!(tasks.is_superset(&[64, 65, 127, 128].into()), "{tasks:?}");
}

/// One too many or more, in the last transaction or before it; also among 63 of them.
#[test]
fn tasks_are_too_many_in_every_way() {
    let mut seen = BTreeSet::new();
    for index in 0..60 {
        let table = crowded(&mut Random::of(9, index));
        let sum = |v: usize| table.number(v, table.transactions[v].tasks.len());
        let v = (0..table.transactions.len()).find(|&v| sum(v) > 128).expect("too many");
        assert_eq!(read(&draft::image(&table)).map_err(|refusal| refusal.number), Err(7));
        seen.insert((sum(v) == 129, v == table.transactions.len() - 1, table.transactions.len() == 63));
    }
    let ways = [false, true].map(|by_one| [false, true].map(|last| [false, true].map(|most| (by_one, last, most))));
    assert!(seen.is_superset(&ways.into_iter().flatten().flatten().collect()), "{seen:?}");
}

/// The task whose deadline stands at a place, and whether it is the last of the table.
fn task_at(image: &[u8], place: usize) -> (Task, bool) {
    let deadline = field_at(image, place).expect("a field");
    let value = |kind, mode| value_of(image, Name { kind, mode, ..deadline });
    let modes = value_of(image, Name { kind: Kind::ModeCount, task: 0, ..deadline }) as usize;
    let times: Vec<i64> = (0..modes).map(|mode| value(Kind::Time, mode)).collect();
    let end = place + Kind::Deadline.width() + Kind::Priority.width() + modes * Kind::Time.width();
    let task = Task { deadline: value(Kind::Deadline, 0), ..task(value(Kind::Offset, 0), &times, 0) };
    (task, field_at(image, end).is_none())
}

/// Each way of standing at the edge in one of 400 images: as much as somebody could just keep, and too little.
#[test]
fn deadlines_come_to_the_edge() {
    let mut seen = BTreeMap::new();
    let mut see = |name: &'static str, is_so: bool| *seen.entry(name).or_insert(0) += is_so as u32;
    for index in 0..4000 {
        let image = image(10, index);
        let is_far = |task: &Task| task.least_deadline() > FIELD_24;
        let is_longer_elsewhere = |task: &Task| task.times[0] < task.greatest_time();
        match read(&image) {
            Ok(table) => {
                let tasks: Vec<Task> = table.transactions.into_iter().flat_map(|each| each.tasks).collect();
                let just = |task: &&Task| task.deadline == task.least_deadline();
                see("just enough", tasks.iter().any(|task| just(&task)));
                see("just enough, far", tasks.iter().filter(just).any(is_far));
                see("just enough, longer in another mode", tasks.iter().filter(just).any(is_longer_elsewhere));
                see("as far as the fields go", tasks.iter().any(|task| task.least_deadline() == 2 * FIELD_24));
                see("sum 2^24", tasks.iter().any(|task| task.least_deadline() == FIELD_24 + 1));
                see("end of the field", tasks.iter().any(|task| task.deadline == FIELD_26));
            }
            Err(Refusal { number: 14, place }) => {
                let (task, is_last) = task_at(&image, place as usize);
                let Task { offset, deadline, ref times, .. } = task;
                see("a tick short", deadline == task.least_deadline() - 1);
                see("a tick short, far", deadline == task.least_deadline() - 1 && is_far(&task));
                see("below the offset", deadline < offset);
                see("enough for the offset", deadline == offset);
                see("enough for mode 0", deadline >= offset + times[0]);
                see("enough if cut to 24 bits", deadline >= task.least_deadline() % (1 << 24));
                see("the first task", place == 139);
                see("the last task", is_last);
                see("in between", place > 139 && !is_last);
            }
            Err(_) => (),
        }
    }
    assert!(seen.values().all(|count| 400 * count > 4000), "{seen:?}");
}

/// Which of two faults counts where one is a deadline that nobody could keep.
#[test]
fn such_deadlines_come_with_every_other_fault() {
    let numbers = |damage: Damage| -> BTreeSet<u32> {
        let number = |index| {
            let random = &mut Random::of(11, index);
            let table = table(random, TableKind::Small);
            read(&damaged(random, &table, damage)).expect_err("refused").number
        };
        (0..300).map(number).collect()
    };
    assert_eq!(numbers(Damage::TooSoon), [14].into());
    assert_eq!(numbers(Damage::TooSoonTwice), [14].into());
    assert_eq!(numbers(Damage::TooSoonAndCut), [1, 14].into());
    assert_eq!(numbers(Damage::TooSoonAndNoTime), [9].into());
    assert_eq!(numbers(Damage::TooSoonAndBadField), [5, 6, 7, 8, 9, 14].into());
    assert_eq!(numbers(Damage::TooSoonAndBadEnd), [14].into());
}

/// Each refusal in one of 200 images, each code in one of 80 tasks, and no more spent budgets than one in five. Refusal 14
/// comes in one of 20 images, and code 20 in one of ten tasks. Some chains are long, and some budgets end in one, else an
/// error behind its first evaluations would not show.
#[test]
fn every_answer_comes_often() {
    let (mut refused, mut codes, mut longest) = (BTreeMap::new(), BTreeMap::new(), BTreeMap::new());
    for index in 0..2000 {
        let Case { budget, image } = case(1, index);
        match answer(&image, budget) {
            Err(refusal) => *refused.entry(refusal.number).or_insert(0) += 1,
            Ok(row) => {
                for cells in row {
                    *codes.entry(cells.code).or_insert(0) += 1;
                    let longest = longest.entry(cells.code).or_insert(0);
                    *longest = cells.evaluations.max(*longest);
                }
            }
        }
    }
    let tasks: i32 = codes.values().sum();
    assert!((1..=11).all(|number| refused.get(&number).is_some_and(|count| 200 * count > 2000)), "{refused:?}");
    assert!(20 * refused[&14] > 2000 && 10 * codes[&20] > tasks, "{refused:?} {codes:?}");
    assert!(
        [0, 20, 21, 22, 23].iter().all(|code| codes.get(code).is_some_and(|count| 80 * count > tasks)),
        "{codes:?}"
    );
    assert!(5 * codes[&23] < tasks, "{codes:?}");
    assert!(longest[&0] > 1000 && longest[&20] > 1000 && longest[&23] > 30_000, "{longest:?}");
}

#[test]
fn the_host_is_told_the_same_as_the_cells() {
    for index in 0..300 {
        let Case { budget, image } = case(2, index);
        match answer(&image, budget) {
            Err(refusal) => assert_eq!(host(&image, 0, budget), ((refusal.number as u64) << 32) + refusal.place as u64),
            Ok(row) => {
                for (number, cells) in row.iter().enumerate() {
                    let expected = ((cells.code as u64) << 32) + cells.bound as u64;
                    assert_eq!(host(&image, number as u32, budget), expected);
                }
                assert_eq!(host(&image, row.len() as u32, budget), 13 << 32);
            }
        }
    }
}

/// A job charged whole is charged no less than one charged as far as it is imposed.
#[test]
fn the_whole_job_bound_is_no_smaller() {
    for index in 0..500 {
        let Case { budget, image } = case(3, index);
        let Ok(table) = read(&image) else { continue };
        let bounds = all_cells(&table, Charging::Imposed, budget);
        let whole = all_cells(&table, Charging::Released, budget);
        for (bound, whole) in bounds.iter().zip(&whole) {
            if bound.bound > 0 && whole.bound > 0 {
                assert!(bound.bound <= whole.bound);
            }
        }
    }
}

#[test]
fn a_stream_is_read_as_it_was_written() {
    let cases: Vec<Asked> = (0..200).map(|index| asked(4, index)).collect();
    let bytes: Vec<u8> = cases.iter().flat_map(stream::encoded).collect();
    let mut input = &bytes[..];
    for case in &cases {
        assert_eq!(stream::next(&mut input).unwrap().as_ref(), Some(case));
    }
    assert_eq!(stream::next(&mut input).unwrap(), None);
    // Cut in the head, in the three bytes of a charge, and of a kind that is not.
    assert!(stream::next(&mut &bytes[..3]).is_err());
    assert!(stream::next(&mut &[0, 0, 0, 0, 0x80, 0, 1, 1][..]).is_err());
    assert!(stream::next(&mut &[0, 0, 0, 0, 0xC0, 0][..]).is_err());
}

#[test]
fn legal_runs_keep_the_bounds() {
    for wide in [false, true] {
        let counts = simulate(&Settings { runs: 2000, seed: 1, wide }, &mut |_| ());
        assert_eq!(counts.violations, 0);
        assert!(2 * counts.attained > counts.bounded, "the runs are hard on the bounds: {counts:?}");
    }
}

//! Writing tables: images and refusals that were worked out by hand, and that what is written reads back.

use super::*;
use crate::compare::hex;
use crate::draft;
use crate::image::{read, Refusal};
use crate::write::row::{row_of, Body, Head, Lent, CELLS};
use crate::write::writer::{image, write};
use crate::write::{cases, stream};
use std::collections::BTreeSet;

/// Cells of S: transaction 1, the tasks 0 to 2, and where a task's times start. Before the tasks are 5 + 63·5 cells.
const SECOND_HEAD: usize = 10;
const TASKS: [usize; 3] = [320, 334, 348];
const TIMES: usize = 6;

fn written(cells: &[u32]) -> Result<Vec<u8>, (u32, u32)> {
    image(&Lent::of(cells)).map_err(|Refusal { number, place }| (number, place))
}

/// What becomes of S when these cells hold these numbers.
fn refused(changes: &[(usize, u32)]) -> (u32, u32) {
    let mut cells = row_of(&s());
    for &(cell, number) in changes {
        cells[cell] = number;
    }
    written(&cells).expect_err("refused")
}

#[test]
fn the_last_image_of_document_01() {
    let mut cells = vec![0; CELLS];
    cells[..3].copy_from_slice(&[1, 10, 1]);
    cells[5..9].copy_from_slice(&[10, 1, 0, 1]);
    cells[TASKS[0]..][..7].copy_from_slice(&[0, 0, 0, 10, 5, 0, 3]);
    let bytes = [&[0x10, 0, 0, 0xA0, 0x40, 0, 2, 0x84, 0x20][..], &[0; 11], &[0x50, 0x28, 0, 0, 0x18]].concat();
    assert_eq!(written(&cells), Ok(bytes));
}

#[test]
fn s_has_62_bytes() {
    let expected = "10000140800005044000000000000000000000005048000010000020000000000000000014100000060000\
                    28210000000000000000000000010040000080";
    let bytes = written(&row_of(&s())).unwrap();
    assert_eq!((bytes.len(), hex(&bytes)), (62, expected.into()));
}

#[test]
fn each_number_has_its_cell() {
    let cells = row_of(&s());
    assert_eq!(CELLS, 2112);
    assert_eq!(cells[..5], [1, 20, 2, 3, 0]);
    assert_eq!(cells[5..15], [20, 1, 0, 2, 0, 20, 1, 2, 1, 0]);
    assert_eq!(cells[15..320], [0; 305]);
    assert_eq!(cells[320..334], [0, 0, 0, 10, 9, 0, 2, 0, 0, 0, 0, 0, 0, 0]);
    assert_eq!(cells[334..348], [4, 0, 0, 10, 8, 0, 3, 0, 0, 0, 0, 0, 0, 0]);
    assert_eq!(cells[348..362], [0, 0, 0, 4, 1, 1, 2, 0, 0, 0, 0, 0, 0, 0]);
    assert_eq!(cells[362..], [0; 2112 - 362]);
}

#[test]
fn a_number_too_large_is_29_at_its_field() {
    for (cell, width, place) in [
        (0, 4, 0),
        (1, 24, 4),
        (2, 6, 28),
        (5, 24, 34),
        (6, 4, 58),
        (8, 5, 62),
        (TASKS[0], 24, 67),
        (TASKS[0] + 1, 24, 91),
        (TASKS[0] + 2, 24, 115),
        (TASKS[0] + 3, 26, 139),
        (TASKS[0] + 4, 8, 165),
        (TASKS[0] + TIMES, 24, 173),
        (TASKS[1], 24, 197),
        (SECOND_HEAD, 24, 327),
        (SECOND_HEAD + 1, 4, 351),
        (SECOND_HEAD + 3, 5, 355),
        (TASKS[2] + 3, 26, 432),
        (TASKS[2] + TIMES, 24, 466),
    ] {
        for number in [1 << width, (1 << width) + row_of(&s())[cell], 1 << 31, u32::MAX] {
            assert_eq!(refused(&[(cell, number)]), (29, place), "cell {cell}: {number}");
        }
        // The greatest number that fits is no 29.
        let mut cells = row_of(&s());
        cells[cell] = (1 << width) - 1;
        assert_ne!(written(&cells).err().map(|refusal| refusal.0), Some(29), "cell {cell}");
    }
}

#[test]
fn the_readers_numbers_at_their_fields() {
    for edition in [0, 2, 3, 15] {
        assert_eq!(refused(&[(0, edition)]), (2, 0));
    }
    assert_eq!(refused(&[(0, 16)]), (29, 0));
    assert_eq!(refused(&[(1, 0)]), (3, 4));
    assert_eq!(refused(&[(2, 0)]), (4, 28));
    // Up to 63 the count is good: transaction 2 has period 0.
    for count in [3, 32, 33, 62, 63] {
        assert_eq!(refused(&[(2, count)]), (5, 490));
    }
    for count in [64, 65, 66, 96, 127, 128, 1 << 31, u32::MAX] {
        assert_eq!(refused(&[(2, count)]), (29, 28));
    }
    for period in [0, 3, 40] {
        assert_eq!(refused(&[(SECOND_HEAD, period)]), (5, 327));
    }
    for modes in [0, 9, 15] {
        assert_eq!(refused(&[(SECOND_HEAD + 1, modes)]), (6, 351));
    }
    assert_eq!(refused(&[(SECOND_HEAD + 1, 16)]), (29, 351));
    for count in [0, 17, 31] {
        assert_eq!(refused(&[(SECOND_HEAD + 3, count)]), (7, 355));
    }
    assert_eq!(refused(&[(SECOND_HEAD + 3, 32)]), (29, 355));
    assert_eq!(refused(&[(TASKS[1] + 3, 0)]), (8, 269));
    assert_eq!(refused(&[(TASKS[1] + TIMES, 0)]), (9, 303));
    for deadline in [1, 3, 4, 6] {
        assert_eq!(refused(&[(TASKS[1] + 3, deadline)]), (14, 269));
    }
    for (offset, time) in [(0xFFFFFF, 1), (1, 0xFFFFFF), (0xFFFFFF, 0xFFFFFF)] {
        for deadline in [1, 0xFFFFFF, offset + time - 1] {
            let changes = [(TASKS[2], offset), (TASKS[2] + 3, deadline), (TASKS[2] + TIMES, time)];
            assert_eq!(refused(&changes), (14, 432), "{offset} {time} {deadline}");
        }
    }
}

/// Task 1 of S has offset 4 and time 3; the second mode of its transaction has a longer time for it.
#[test]
fn a_deadline_that_is_just_enough_is_written() {
    let mut cells = row_of(&s());
    cells[TASKS[1] + 3] = 7;
    assert!(written(&cells).is_ok());
    cells[6] = 2;
    cells[TASKS[1] + TIMES + 1] = 5;
    // What is beyond the modes is no time of the task.
    cells[TASKS[1] + TIMES + 2] = 6;
    for deadline in [7, 8] {
        cells[TASKS[1] + 3] = deadline;
        assert_eq!(written(&cells), Err((14, 67 + 154 + 72)));
    }
    cells[TASKS[1] + 3] = 9;
    assert!(written(&cells).is_ok());
}

/// Beside 14 of task 1: a number too large in each of its fields, a fault before it, or behind it.
#[test]
fn faults_before_14_and_behind_it() {
    let with = |cell: usize, number: u32| refused(&[(TASKS[1] + 3, 3), (cell, number)]);
    for (cell, place) in [(0, 197), (1, 221), (2, 245), (4, 295), (TIMES, 303)] {
        assert_eq!(with(TASKS[1] + cell, 1 << 24), (29, place));
    }
    assert_eq!(with(TASKS[1] + 3, 1 << 26), (29, 269));
    assert_eq!(with(TASKS[1] + 3, 0), (8, 269));
    assert_eq!(with(TASKS[1] + TIMES, 0), (9, 303));
    assert_eq!(with(TASKS[0] + 3, 1), (14, 139));
    assert_eq!(with(5, 15), (5, 34));
    for (cell, number) in [(SECOND_HEAD, 15), (SECOND_HEAD, 1 << 24), (TASKS[2], 1 << 24), (TASKS[2] + 3, 1)] {
        assert_eq!(with(cell, number), (14, 269));
    }
}

#[test]
fn the_tasks_in_all_count_at_the_field_that_passes_128() {
    let sixteen = transaction(20, vec![task(0, &[1], 1); 16]);
    let mut cells = row_of(&Table { frame: 20, transactions: vec![sixteen; 8] });
    // 34 + 8·33 + 128·130 bits.
    assert_eq!(written(&cells).map(|bytes| bytes.len()), Ok(16_938usize.div_ceil(8)));
    cells[45..49].copy_from_slice(&[20, 1, 0, 1]);
    // The last transaction, or one before it.
    for transactions in [9, 10, 63] {
        cells[2] = transactions;
        cells[48] = 1;
        assert_eq!(written(&cells), Err((7, 16_938 + 28)));
        cells[48] = 32;
        assert_eq!(written(&cells), Err((29, 16_938 + 28)));
    }
    // 127 tasks in eight transactions, and one or two in the ninth: the body that was the last of the eighth comes there.
    cells[2] = 9;
    cells[43] = 15;
    cells[48] = 1;
    assert_eq!(written(&cells).map(|bytes| bytes.len()), Ok((16_938usize + 33).div_ceil(8)));
    cells[48] = 2;
    assert_eq!(written(&cells), Err((7, 16_938 - 130 + 28)));
}

/// Two modes in the first transaction: its tasks have 154 bits each.
#[test]
fn a_time_too_large_comes_before_no_time() {
    let first_time = 67 + 106;
    for (times, expected) in [
        ([0, 1 << 24], (29, first_time + 24)),
        ([1 << 24, 0], (29, first_time)),
        ([0, 0], (9, first_time)),
        // What is beyond the modes is no time of the task.
        ([0, 1], (5, 67 + 2 * 154)),
        ([1, 0], (5, 67 + 2 * 154)),
    ] {
        let (one, two) = (TASKS[0] + TIMES, TASKS[1] + TIMES);
        let changes =
            [(6, 2), (one, times[0]), (one + 1, times[1]), (one + 2, 7), (two, 0), (two + 1, 1), (SECOND_HEAD, 7)];
        assert_eq!(refused(&changes), expected, "{times:?}");
    }
}

#[test]
fn the_first_fault_counts() {
    assert_eq!(refused(&[(TASKS[0], 1 << 24), (TASKS[0] + 3, 0), (1, 0)]), (3, 4));
    assert_eq!(refused(&[(TASKS[0], 1 << 24), (TASKS[0] + 3, 0)]), (29, 67));
    assert_eq!(refused(&[(TASKS[0] + 4, 256), (TASKS[0] + 3, 0)]), (8, 139));
    assert_eq!(refused(&[(TASKS[0] + 4, 256), (TASKS[0] + TIMES, 0)]), (29, 165));
    assert_eq!(refused(&[(0, 2), (1, 1 << 24)]), (2, 0));
}

#[test]
fn no_other_cell_is_looked_at() {
    let good = row_of(&s());
    let mut cells = vec![u32::MAX; CELLS];
    let heads = [0..3, 5..7, 8..9, 10..12, 13..14];
    let bodies = TASKS.map(|task| [task..task + 5, task + TIMES..task + TIMES + 1]);
    for range in heads.into_iter().chain(bodies.into_iter().flatten()) {
        cells[range.clone()].copy_from_slice(&good[range]);
    }
    assert_eq!(written(&cells), written(&good));
}

#[test]
fn a_refused_write_leaves_the_buffer_and_the_bytes_beyond_an_image_stay() {
    let image = draft::image(&s());
    let good = Lent::of(&row_of(&s()));
    for length in [0, 1, 61] {
        let mut buffer = vec![0xA5; length];
        assert_eq!(write(&good, &mut buffer), Err(Refusal { number: 30, place: 0 }));
        assert_eq!(buffer, vec![0xA5; length]);
    }
    for more in [0, 1, 40] {
        let mut buffer = vec![0xA5; 62 + more];
        assert_eq!(write(&good, &mut buffer), Ok(62));
        assert_eq!(buffer, [&image[..], &vec![0xA5; more]].concat());
    }
    // A fault comes before a buffer too short.
    let mut too_soon = good.clone();
    too_soon.bodies[2].deadline = 1;
    for (faulty, number, place) in [(Lent { frame: 0, ..good }, 3, 4), (too_soon, 14, 432)] {
        for length in [0, 61, 62] {
            let mut buffer = vec![0xA5; length];
            assert_eq!(write(&faulty, &mut buffer), Err(Refusal { number, place }));
            assert_eq!(buffer, vec![0xA5; length]);
        }
    }
}

#[test]
fn the_longest_table_has_5033_bytes_of_which_the_last_holds_one_bit() {
    let most = Task { offset: 0xFFFFFF, deadline: 0x3FFFFFF, priority: 255, ..task(0, &[0xFFFFFF; 8], 1) };
    let table = longest(most);
    let bytes = written(&row_of(&table)).unwrap();
    assert_eq!((bytes.len(), bytes[5032]), (5033, 0x80));
    assert_eq!(read(&bytes), Ok(table));
}

#[test]
fn a_row_in_a_stream_comes_out_as_it_went_in() {
    let rows: Vec<_> = (0..4).map(|index| cases::case(5, index)).collect();
    let bytes: Vec<u8> = rows.iter().flat_map(stream::encoded).collect();
    let mut input = &bytes[..];
    for row in rows {
        assert_eq!(stream::next(&mut input).unwrap(), Some(row));
    }
    assert_eq!(stream::next(&mut input).unwrap(), None);
    assert!(stream::next(&mut &bytes[..100]).is_err());
}

/// Transactions and tasks at the limits and one beyond, and on both sides of the limits before request 4.
#[test]
fn random_rows_come_to_the_limits() {
    let (mut counts, mut tasks, mut sums) = (BTreeSet::new(), BTreeSet::new(), BTreeSet::new());
    for index in 0..2000 {
        let lent = Lent::of(&cases::case(6, index).cells);
        counts.insert(lent.count);
        let so_far = |sum: &mut u32, head: &Head| {
            *sum = sum.saturating_add(head.count);
            Some(*sum)
        };
        match image(&lent) {
            Ok(bytes) => _ = tasks.insert(read(&bytes).expect("what is written is good").numbered().len()),
            Err(Refusal { number: 7, .. }) => sums.extend(lent.heads.iter().scan(0, so_far).find(|&sum| sum > 128)),
            Err(_) => (),
        }
    }
    assert!(counts.is_superset(&[0, 32, 33, 62, 63, 64, 65, 1 << 31].into()), "{counts:?}");
    assert!(tasks.is_superset(&[64, 65, 127, 128].into()), "{tasks:?}");
    assert!(sums.is_superset(&[129, 130].into()), "{sums:?}");
}

/// What is written is what the reader takes for the same table; and every refusal of the writer is met.
#[test]
fn random_rows_meet_every_answer_and_read_back() {
    let mut numbers = BTreeSet::new();
    for index in 0..1000 {
        let case = cases::case(3, index);
        let lent = Lent::of(&case.cells);
        let Ok(bytes) = image(&lent) else {
            numbers.insert(image(&lent).unwrap_err().number);
            continue;
        };
        let table = read(&bytes).expect("what is written is good");
        assert_eq!(draft::image(&table), bytes);
        assert_eq!(image(&Lent::of(&row_of(&table))), Ok(bytes));
        numbers.insert(write(&lent, &mut vec![0; case.length]).map_or_else(|refusal| refusal.number, |_| 0));
    }
    assert_eq!(numbers, [0, 2, 3, 4, 5, 6, 7, 8, 9, 14, 29, 30].into());
}

/// What else is wrong with rows that have a deadline that nobody could keep: behind it, and before it in the same task.
#[test]
fn random_rows_have_other_faults_beside_14() {
    let (mut behind, mut before) = (BTreeSet::new(), BTreeSet::new());
    for index in 0..4000 {
        let case = cases::case(7, index);
        let lent = Lent::of(&case.cells);
        let with = |change: fn(&mut Body)| {
            let mut lent = lent.clone();
            lent.bodies.iter_mut().for_each(change);
            lent
        };
        match image(&lent) {
            Err(Refusal { number: 14, .. }) => {
                let kept = with(|body| body.deadline = 0x3FFFFFF);
                behind.insert(write(&kept, &mut vec![0; case.length]).map_or_else(|refusal| refusal.number, |_| 0));
            }
            Err(Refusal { number: number @ (9 | 29), place }) => {
                let repaired = with(|body| {
                    body.offset &= 0xFFFFFF;
                    body.jitter &= 0xFFFFFF;
                    body.blocking &= 0xFFFFFF;
                    body.deadline &= 0x3FFFFFF;
                    body.priority &= 0xFF;
                    body.times.iter_mut().for_each(|time| *time = (*time & 0xFFFFFF).max(1));
                });
                if let Err(Refusal { number: 14, place: deadline }) = image(&repaired) {
                    before.insert((number, place as i64 - deadline as i64));
                }
            }
            _ => (),
        }
    }
    assert!(behind.is_superset(&[0, 5, 6, 7, 9, 29, 30].into()), "{behind:?}");
    // Offset, jitter, blocking, deadline, priority and first time, by their distance from the deadline.
    let fields = [-72, -48, -24, 0, 26, 34].map(|distance| (29, distance));
    assert!(before.is_superset(&fields.into()) && before.contains(&(9, 34)), "{before:?}");
}

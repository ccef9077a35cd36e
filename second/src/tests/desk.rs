//! What the technician reads: the words of a task, of a table and of a refusal, and the table as text.

use super::*;
use crate::answer::cells_and_parts;
use crate::desk::place::{field_at, value_of, Name};
use crate::desk::words::{number, words, Asked};
use crate::desk::Text;
use crate::draft::{fields, image, pack, place, Kind};
use crate::generate::{self, is_dear};
use crate::image::read;
use std::collections::BTreeSet;

const HEADER: &str = "task trans     period priority      bound   deadline\n";

fn told(text: Text, image: &[u8], words: &[&str]) -> String {
    text.told(image, words).text
}

#[test]
fn s_in_words() {
    let late = "   2     1         20        1          5          4  not shown to be in time, 1 above
      completes 5 after the critical instant; task 2 sets it in mode 0:
                                        2  its own jobs (1)
                                        3  transaction 0, most when task 0 sets it in mode 0
      arrived 0 after that instant, offset 0: 5 - 0 + 0 = 5\n";
    let last = "3 tasks: 2 in time, 1 not shown to be (task 2, 1 above); least to spare 3 (task 1)\n";
    let in_time = "   0     0         20        9          2         10  in time, 8 to spare\n   \
                      1     0         20        8          7         10  in time, 3 to spare\n";
    assert_eq!(told(Text::Words, &image(&s()), &[]), [HEADER, in_time, late, last].concat());
    assert_eq!(told(Text::Words, &image(&s()), &["open"]), [HEADER, late, last].concat());
    assert_eq!(told(Text::Words, &image(&s()), &["open", "all"]), [HEADER, late, last].concat());
    let in_time = "   0     0         20        9          2         10  in time, 8 to spare
      completes 2 after the critical instant; task 0 sets it in mode 0:
                                        2  its own jobs (1)
      arrived 0 after that instant, offset 0: 2 - 0 + 0 = 2
   1     0         20        8          7         10  in time, 3 to spare
      completes 3 after the critical instant; task 1 sets it in mode 0:
                                        3  its own jobs (1)
      arrived 0 after that instant, offset 4: 3 - 0 + 4 = 7\n";
    assert_eq!(told(Text::Words, &image(&s()), &["all"]), [HEADER, in_time, late, last].concat());
}

/// Blocking, a later job, another candidate, and an arrival after the instant: sample `pushed` with blocking.
#[test]
fn every_part_has_its_words() {
    let low = Task { blocking: 1000, deadline: 24, ..task(10, &[4], 1) };
    let own = transaction(12, vec![task(7, &[2], 9), low]);
    let table = Table { frame: 84, transactions: vec![own, transaction(21, vec![task(0, &[10], 5)])] };
    let text = "   1     0         12        1      2,831         24  not shown to be in time, 2,807 above
      completes 2,848 after the critical instant; task 0 sets it in mode 0:
                                    1,000  blocking
                                       12  its own jobs (3)
                                      476  other tasks of its transaction
                                    1,360  transaction 1, most when task 2 sets it in mode 0
      arrived 27 after that instant, offset 10: 2,848 - 27 + 10 = 2,831
3 tasks: 2 in time, 1 not shown to be (task 1, 2,807 above); least to spare 988 (task 2)\n";
    assert_eq!(told(Text::Words, &image(&table), &["open"]), [HEADER, text].concat());
}

/// Document 01's task of jitter 12: it completes at 2, arrived at −12, and has the bound 14.
#[test]
fn a_job_held_back_arrived_before_the_instant() {
    let table = alone_in_frame(vec![Task { jitter: 12, deadline: 13, ..task(0, &[2], 1) }]);
    let text = "   0     0         10        1         14         13  not shown to be in time, 1 above
      completes 2 after the critical instant; task 0 sets it in mode 0:
                                        2  its own jobs (1)
      arrived 12 before that instant, offset 0: 2 + 12 + 0 = 14
1 task: 0 in time, 1 not shown to be (task 0, 1 above)\n";
    assert_eq!(told(Text::Words, &image(&table), &[]), [HEADER, text].concat());
}

#[test]
fn s_as_text() {
    let text = "frame 20\ntrans 20 1\ntask 0 0 0 10 9 2\ntask 4 0 0 10 8 3\ntrans 20 1\ntask 0 0 0 4 1 2\n";
    assert_eq!(told(Text::Show, &image(&s()), &[]), text);
    let aligned = told(Text::Show, &image(&s()), &["aligned"]);
    let lines: Vec<&str> = aligned.lines().collect();
    assert_eq!(lines[0], "frame        20");
    assert_eq!(lines[1], "trans        20         1");
    assert_eq!(lines[3], "task          4         0         0        10         8         3");
    // But for the blanks it is the same text.
    let single: Vec<String> = lines.iter().map(|line| line.split_whitespace().collect::<Vec<_>>().join(" ")).collect();
    assert_eq!(single.join("\n") + "\n", text);
}

/// A task for each mode, so that none delays another.
fn all_codes() -> Table {
    let only = |mode: usize, time: i64| (0..5).map(|other| if other == mode { time } else { 0 }).collect::<Vec<i64>>();
    let tasks = vec![
        Task { deadline: 10, ..task(0, &only(0, 2), 5) },
        Task { blocking: 1, deadline: 5, ..task(0, &only(1, 5), 4) },
        Task { deadline: 1000, ..task(0, &only(2, 11), 3) },
        Task { blocking: Table::HORIZON, ..task(0, &only(3, 10), 2) },
        Task { blocking: 1, deadline: 67_108_863, ..task(0, &only(4, 10), 1) },
    ];
    alone_in_frame(tasks)
}

fn alone_in_frame(tasks: Vec<Task>) -> Table {
    Table { frame: 10, transactions: vec![transaction(10, tasks)] }
}

#[test]
fn each_code_has_its_words() {
    let open = "   1     0         10        4          6          5  not shown to be in time, 1 above
      completes 6 after the critical instant; task 1 sets it in mode 1:
                                        1  blocking
                                        5  its own jobs (1)
      arrived 0 after that instant, offset 0: 6 - 0 + 0 = 6
   2     0         10        3          -      1,000  no bound: it and the tasks that can delay it may want more than \
the major frame holds
   3     0         10        2          -      1,000  no bound: no busy time up to the horizon of 16,777,215 ticks was \
found to end
   4     0         10        1          - 67,108,863  not decided: 100,000,000 evaluations were not enough
5 tasks: 1 in time, 4 not shown to be (worst task 2, no bound); least to spare 8 (task 0)
";
    let in_time = "   0     0         10        5          2         10  in time, 8 to spare\n";
    // The last task spends a thousand evaluations as it would a hundred million.
    let (row, parts) = cells_and_parts(&all_codes(), 1000);
    let told_when = |only_open: bool| words(&all_codes(), &row, &parts, Asked { only_open, all: false });
    assert_eq!(told_when(false), [HEADER, in_time, open].concat());
    assert_eq!(told_when(true), [HEADER, open].concat());
    let text =
        "frame 10\ntrans 10 5\ntask 0 0 0 10 5 2 0 0 0 0\ntask 0 0 1 5 4 0 5 0 0 0\ntask 0 0 0 1000 3 0 0 11 0 0\n\
                task 0 0 16777215 1000 2 0 0 0 10 0\ntask 0 0 1 67108863 1 0 0 0 0 10\n";
    assert_eq!(told(Text::Show, &image(&all_codes()), &[]), text);
}

/// The last line for tasks with deadline 10 and these codes and bounds.
fn last_line(row: &[(u32, u32)]) -> String {
    let table = alone_in_frame(vec![Task { deadline: 10, ..task(0, &[1], 1) }; row.len()]);
    let row: Vec<Cells> = row.iter().map(|&(code, bound)| Cells { code, bound, ..Cells::default() }).collect();
    let without_parts = vec![None; row.len()];
    words(&table, &row, &without_parts, Asked::default()).lines().last().unwrap().into()
}

#[test]
fn the_last_line_names_the_worst_and_the_least_to_spare() {
    assert_eq!(last_line(&[(0, 10)]), "1 task: all in time; least to spare 0 (task 0)");
    assert_eq!(last_line(&[(0, 2), (0, 7), (0, 7)]), "3 tasks: all in time; least to spare 3 (task 1)");
    assert_eq!(last_line(&[(20, 1234)]), "1 task: 0 in time, 1 not shown to be (task 0, 1,224 above)");
    assert_eq!(last_line(&[(21, 0)]), "1 task: 0 in time, 1 not shown to be (task 0, no bound)");
    assert_eq!(
        last_line(&[(0, 1), (23, 0)]),
        "2 tasks: 1 in time, 1 not shown to be (task 1, not decided); least to spare 9 (task 0)"
    );
    assert_eq!(
        last_line(&[(20, 11), (20, 14), (20, 14)]),
        "3 tasks: 0 in time, 3 not shown to be (worst task 1, 4 above)"
    );
    assert_eq!(
        last_line(&[(20, 5000), (23, 0), (21, 0), (0, 9)]),
        "4 tasks: 1 in time, 3 not shown to be (worst task 1, not decided); least to spare 1 (task 3)"
    );
    assert_eq!(
        last_line(&[(20, 11), (22, 0), (23, 0)]),
        "3 tasks: 0 in time, 3 not shown to be (worst task 1, no bound)"
    );
}

#[test]
fn a_code_that_is_not_known_is_said_so() {
    let row = [Cells { code: 24, bound: 7, ..Cells::default() }];
    let words = words(&alone(task(0, &[1], 1)), &row, &[None], Asked { only_open: true, all: true });
    let line = "   0     0         10        1          -      1,000  a code that is not known here: 24\n";
    assert_eq!(words, [HEADER, line, "1 task: 0 in time, 1 not shown to be (task 0, no bound)\n"].concat());
}

#[test]
fn without_an_open_task_there_is_no_header() {
    let table = alone(task(0, &[3], 5));
    assert_eq!(told(Text::Words, &image(&table), &["open"]), "1 task: all in time; least to spare 997 (task 0)\n");
}

#[test]
fn a_comma_before_each_three_digits() {
    let cases =
        [(0, "0"), (999, "999"), (1000, "1,000"), (65_536, "65,536"), (100_000, "100,000"), (1 << 24, "16,777,216")];
    for (value, text) in cases {
        assert_eq!(number(value), text);
    }
}

/// S with a value in some field of a kind, and the words of its refusal.
fn refused_words(kind: Kind, which: usize, value: i64) -> String {
    let mut fields = fields(&s());
    fields.iter_mut().filter(|field| field.kind == kind).nth(which).unwrap().value = value;
    told(Text::Words, &pack(&fields), &[])
}

#[test]
fn each_refusal_has_its_words_and_its_field() {
    let good = image(&s());
    let padded = [&good[..61], &[good[61] | 1]].concat();
    let crowded = Table { frame: 20, transactions: vec![transaction(20, vec![task(0, &[1], 1); 13]); 10] };
    let cases = [
        (told(Text::Words, &[], &[]), "(1): it ends inside a field, at byte 0, bit 0: edition"),
        (
            told(Text::Words, &good[..30], &[]),
            "(1): it ends inside a field, at byte 27, bit 5: jitter of task 1, transaction 0",
        ),
        (refused_words(Kind::Edition, 0, 15), "(2): edition is not 1, at byte 0, bit 0: edition"),
        (refused_words(Kind::Frame, 0, 0), "(3): the major frame is 0, at byte 0, bit 4: major frame"),
        (
            refused_words(Kind::TransactionCount, 0, 0),
            "(4): not 1 to 63 transactions, at byte 3, bit 4: number of transactions",
        ),
        (
            refused_words(Kind::Period, 1, 15),
            "(5): a period that is 0 or does not divide the major frame, at byte 40, bit 7: period of transaction 1",
        ),
        (
            refused_words(Kind::ModeCount, 1, 9),
            "(6): not 1 to 8 modes, at byte 43, bit 7: number of modes of transaction 1",
        ),
        (
            refused_words(Kind::TaskCount, 0, 17),
            "(7): not 1 to 16 tasks in a transaction, or more than 128 in all, at byte 7, bit 6: number of tasks of \
             transaction 0",
        ),
        (
            told(Text::Words, &image(&crowded), &[]),
            "(7): not 1 to 16 tasks in a transaction, or more than 128 in all, at byte 1946, bit 1: number of tasks of \
             transaction 9",
        ),
        (
            refused_words(Kind::Deadline, 0, 0),
            "(8): a deadline of 0, at byte 17, bit 3: deadline of task 0, transaction 0",
        ),
        (
            refused_words(Kind::Time, 2, 0),
            "(9): a task with time 0 in every mode, at byte 58, bit 2: execution time of task 2 in mode 0, transaction 1",
        ),
        (told(Text::Words, &padded, &[]), "(10): a padding bit is 1, at byte 61, bit 2: padding"),
        (
            told(Text::Words, &[good, vec![10]].concat(), &[]),
            "(11): bytes follow the table, at byte 62, bit 0: the first byte behind the table",
        ),
        (
            refused_words(Kind::Deadline, 1, 6),
            "(14): a deadline of 6, below offset 4 plus greatest time 3, at byte 33, bit 5: deadline of task 1, \
             transaction 0",
        ),
        (
            refused_words(Kind::Time, 2, 16_777_215),
            "(14): a deadline of 4, below offset 0 plus greatest time 16,777,215, at byte 54, bit 0: deadline of task 2, \
             transaction 1",
        ),
    ];
    for (words, expected) in cases {
        assert_eq!(words, format!("image refused {expected}\n"));
    }
}

/// All of its three numbers with commas, the greatest time in the middle of three modes, and nothing behind that task.
#[test]
fn the_words_of_14_have_the_numbers_of_the_task() {
    let short = Task { deadline: 1_234_567, ..task(1_000_000, &[0, 234_568, 234_567], 9) };
    let table = Table {
        frame: 20,
        transactions: vec![transaction(20, vec![task(7, &[9, 8], 1)]), transaction(20, vec![short.clone(), short])],
    };
    let expected = "image refused (14): a deadline of 1,234,567, below offset 1,000,000 plus greatest time 234,568, \
                    at byte 40, bit 6: deadline of task 1, transaction 1\n";
    let image = image(&table);
    assert_eq!(told(Text::Words, &image, &[]), expected);
    // That task ends 67 + 154 + 33 + 178 = 8·54 bits in.
    assert_eq!(told(Text::Show, &image[..54], &[]), expected);
}

/// Two transactions with two modes in one of them: every field by its name, and every bit in its field.
#[test]
fn each_bit_is_in_a_field_that_has_a_name() {
    let table = above_lower(20, 20, vec![task(0, &[4, 1], 9), task(4, &[0, 2], 9)], 1);
    let fields = fields(&table);
    let image = pack(&fields);
    let mut names = Vec::new();
    for (index, field) in fields.iter().enumerate() {
        let (from, to) = (place(&fields, index), place(&fields, index + 1));
        let name = field_at(&image, from).unwrap();
        assert_eq!(name.kind, field.kind);
        assert!((from..to).all(|at| field_at(&image, at) == Some(name)));
        assert_eq!(value_of(&image, name), field.value);
        names.push(name.to_string());
    }
    assert_eq!(field_at(&image, place(&fields, fields.len())), None);
    let of_task = |place: &str, modes: usize| {
        let (task, transaction) = place.split_once(", ").unwrap();
        let fields = ["offset", "jitter", "blocking", "deadline", "priority"].map(|name| format!("{name} of {place}"));
        let times = (0..modes).map(move |mode| format!("execution time of {task} in mode {mode}, {transaction}"));
        fields.into_iter().chain(times).collect::<Vec<String>>()
    };
    let of_transaction = |transaction: usize| {
        ["period", "number of modes", "number of tasks"]
            .map(|name| format!("{name} of transaction {transaction}"))
            .to_vec()
    };
    let expected = [
        ["edition", "major frame", "number of transactions"].map(String::from).to_vec(),
        of_transaction(0),
        of_task("task 0, transaction 0", 2),
        of_task("task 1, transaction 0", 2),
        of_transaction(1),
        of_task("task 2, transaction 1", 1),
    ];
    assert_eq!(names, expected.concat());
    let last = Name { kind: Kind::Time, transaction: 1, task: 2, mode: 0 };
    assert_eq!(field_at(&image, place(&fields, fields.len()) - 1), Some(last));
}

/// Of each generated image both texts can be told, and a refusal is at the start of the field that it names.
#[test]
fn each_generated_refusal_is_at_the_start_of_its_field() {
    let mut kinds = BTreeSet::new();
    for index in 0..2000 {
        let image = generate::image(5, index);
        let Err(refusal) = read(&image) else { continue };
        let place = refusal.place as usize;
        let field = field_at(&image, place);
        assert_eq!(field.is_none(), matches!(refusal.number, 10 | 11), "case {index}");
        assert!(place == 0 || field.is_none() || field_at(&image, place - 1) != field, "case {index}");
        assert_eq!(told(Text::Words, &image, &["open"]), told(Text::Show, &image, &[]));
        kinds.extend(field.map(|name| format!("{:?}", name.kind)));
    }
    assert_eq!(kinds.len(), 12, "{kinds:?}");
}

/// Those that are left out of a comparison are few, and some that take millions of evaluations are left in.
#[test]
fn few_images_are_dear() {
    assert!(!is_dear(&all_codes()) && !is_dear(&s()));
    // One evaluation for each of 16,777,214 jobs.
    let many_jobs = Task { jitter: Table::HORIZON - 1, ..task(0, &[1, 1], 1) };
    assert!(is_dear(&Table { frame: 2, transactions: vec![transaction(2, vec![many_jobs])] }));
    let tables: Vec<Table> = (0..300).filter_map(|index| read(&generate::image(1, index)).ok()).collect();
    let dear = tables.iter().filter(|table| is_dear(table)).count();
    assert!(dear > 0 && 10 * dear < tables.len(), "{dear}");
}

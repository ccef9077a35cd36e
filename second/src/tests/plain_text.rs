//! The plain responses beside the bounds, as the program `plain` prints them.

use super::*;
use crate::desk::plain::{explained, judged, several, Judged};
use crate::desk::Text;
use crate::draft;
use crate::generate::plain::image;
use crate::image::{read, Refusal};
use crate::plain::Plain;
use std::collections::BTreeMap;

fn told(table: &Table, words: &[&str]) -> String {
    Text::Plain.told(&draft::image(table), words).text
}

const HEADER: &str = "task     period     offset   response      bound\n";

#[test]
fn each_task_is_listed_with_both() {
    let mut table =
        Table { frame: 12, transactions: vec![one(6, 0, 0, 3, 9), one(4, 0, 0, 2, 1), one(12, 0, 0, 1, 0)] };
    table.transactions[0].tasks[0].offset = 1234;
    let listed = "task code bound number response\n0 0 1237 0 3\n1 0 6 0 5\n2 21 0 32 0\n";
    assert_eq!(told(&table, &[]), listed);
    let words = "   0          6      1,234          3      1,237  agree: the bound is response + offset
   1          4          0          5          6  1 above response + offset: the response is above the period, so jobs \
may queue, and it is that of the first alone
   2         12          0          -          -  no response: no completion up to the horizon of 16,777,215 ticks
3 tasks: 1 agree, 1 above, 1 not to compare\n";
    assert_eq!(told(&table, &["explain"]), [HEADER, words].concat());
}

#[test]
fn a_table_where_all_agree() {
    let one_task = Table { frame: 10, transactions: vec![one(10, 0, 0, 10, 1)] };
    let line = "   0         10          0         10         10  agree: the bound is response + offset\n";
    assert_eq!(told(&one_task, &["explain"]), [HEADER, line, "1 task: all agree\n"].concat());
    let above = Table { frame: 10, transactions: vec![one(10, 7, 0, 5, 1), one(10, 0, 0, 2, 2)] };
    let lines = "   0         10          0         14         14  agree, though the response is above the period
   1         10          0          2          2  agree: the bound is response + offset
2 tasks: all agree\n";
    assert_eq!(told(&above, &["explain"]), [HEADER, lines].concat());
}

/// Without bounds, and one that spends the budget: as if a hundred million had been spent.
#[test]
fn tasks_without_a_bound_in_words() {
    let table = Table { frame: 10, transactions: vec![one(10, 0, 0, 11, 1)] };
    let words =
        "   0         10          0         11          -  no bound: it and the tasks that can delay it may want more \
than the major frame holds; the response is above the period, and is that of one job alone
1 task: 1 not to compare\n";
    assert_eq!(told(&table, &["explain"]), [HEADER, words].concat());
    let table = Table { frame: 10, transactions: vec![one(10, 0, 1, 10, 1)] };
    let words =
        "   0         10          0         11          -  no bound: no busy time up to the horizon of 16,777,215 \
ticks was found to end; the response is above the period, and is that of one job alone
1 task: 1 not to compare\n";
    assert_eq!(told(&table, &["explain"]), [HEADER, words].concat());
    let spent = Judged { number: 127, period: 1000, offset: 16_777_215, response: Some(1001), code: 23, bound: None };
    let words = " 127      1,000 16,777,215      1,001          -  not decided: 100,000,000 evaluations were not enough
1 task: 1 not to compare\n";
    assert_eq!(explained(&[spent]), [HEADER, words].concat());
}

/// Several modes alone are enough, and a task that does not run in all of them; where a transaction has them plays no part.
#[test]
fn several_modes_or_tasks_are_refused_wherever_they_are() {
    let plain = vec![one(10, 0, 0, 1, 5); 3];
    for v in 0..3 {
        for tasks in [vec![task(0, &[1, 0], 5)], vec![task(0, &[1], 5); 2], vec![task(0, &[1, 1], 5); 3]] {
            let mut transactions = plain.clone();
            let told = (tasks.len(), tasks[0].times.len());
            transactions[v] = transaction(10, tasks);
            // A further one behind is not the first.
            transactions.push(transaction(10, vec![task(0, &[1, 2], 5); 4]));
            let table = Table { frame: 10, transactions };
            assert!((0..3).all(|number| Plain::of(&table, number).is_err_and(|refusal| refusal.number == 31)));
            let words = format!(
                "table refused (31): transaction {v} has several tasks or modes (tasks {}, modes {})\n",
                told.0, told.1
            );
            assert_eq!(several(&table), Some(words.clone()));
            let image = draft::image(&table);
            assert_eq!(Text::Plain.told(&image, &["explain"]).text, words);
            assert_eq!(Text::Plain.told(&image, &[]).text, "refused 31 0\n");
        }
    }
}

/// A refusal of the image is told as the other programs tell it.
#[test]
fn a_refused_image_is_told_as_elsewhere() {
    let mut refusals = BTreeMap::new();
    for index in 0..400 {
        let image = image(77, index);
        let Err(Refusal { number, place }) = read(&image) else { continue };
        assert_eq!(Text::Plain.told(&image, &[]).text, format!("refused {number} {place}\n"));
        assert_eq!(Text::Plain.told(&image, &["explain"]).text, Text::Words.told(&image, &[]).text);
        *refusals.entry(number).or_insert(0) += 1;
    }
    assert!(refusals.len() > 9, "{refusals:?}");
}

/// A budget that does not last leaves the response as it is.
#[test]
fn the_response_asks_for_no_budget() {
    let table = Table { frame: 10, transactions: vec![one(10, 0, 0, 3, 5), one(10, 0, 0, 4, 1)] };
    let row: Vec<Cells> = (0..2).map(|u| cells(&Fixed { table: &table, u, a: 0 }, Charging::Imposed, 0)).collect();
    let all = judged(&table, &row);
    assert_eq!(
        all.iter().map(|judged| (judged.code, judged.response)).collect::<Vec<_>>(),
        [(23, Some(3)), (23, Some(7))]
    );
}

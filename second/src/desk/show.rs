//! The table as text: `frame N`, for each transaction `trans T M`, and for each of its tasks `task O J B D P C..`.

use crate::table::{Table, Task, Transaction};

fn line(first: &str, numbers: &[i64], is_aligned: bool) -> String {
    let width = if is_aligned { 9 } else { 0 };
    let numbers: String = numbers.iter().map(|number| format!(" {number:>width$}")).collect();
    let room = if is_aligned { 5 } else { 0 };
    format!("{first:<room$}{numbers}\n")
}

pub fn show(table: &Table, is_aligned: bool) -> String {
    let mut text = line("frame", &[table.frame], is_aligned);
    for Transaction { period, modes, tasks } in &table.transactions {
        text += &line("trans", &[*period, *modes as i64], is_aligned);
        for Task { offset, jitter, blocking, deadline, priority, times } in tasks {
            let numbers = [&[*offset, *jitter, *blocking, *deadline, *priority], &times[..]].concat();
            text += &line("task", &numbers, is_aligned);
        }
    }
    text
}

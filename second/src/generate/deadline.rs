//! Deadlines on both sides of the least that somebody could keep, which is offset plus greatest time.

use crate::generate::tables::{FIELD_24, FIELD_26};
use crate::random::Random;
use crate::table::{Table, Task};

/// A deadline that somebody could keep: just so, with some ticks or periods to spare, or at the end of its field.
pub fn in_reach(random: &mut Random, task: &Task, period: i64) -> i64 {
    let least = task.least_deadline();
    let deadline = match random.within(0, 7) {
        0 | 1 => least + random.within(0, 1),
        2 | 3 => least + random.within(0, period),
        4 | 5 => FIELD_26 - random.within(0, 1),
        _ => least + random.within(0, 8 * period),
    };
    deadline.min(FIELD_26)
}

/// Deadlines that were drawn before offsets and times had their last values come into reach.
pub fn raise(table: &mut Table) {
    for task in tasks(table) {
        task.deadline = task.deadline.max(task.least_deadline());
    }
}

/// Every deadline is the least, and some of these come far.
pub fn just_enough(random: &mut Random, table: &mut Table) {
    for task in tasks(table) {
        if random.percent(20) {
            come_far(random, task);
        }
        task.deadline = task.least_deadline();
    }
}

fn tasks(table: &mut Table) -> impl Iterator<Item = &mut Task> {
    table.transactions.iter_mut().flat_map(|transaction| &mut transaction.tasks)
}

/// Offset plus greatest time is 2^24 or a tick beside it, or as much as the fields hold.
fn come_far(random: &mut Random, task: &mut Task) {
    if random.percent(30) {
        let mode = random.below(task.times.len());
        task.times[mode] = FIELD_24 - random.within(0, 1);
        task.offset = FIELD_24;
    } else {
        task.offset = (FIELD_24 + random.within(0, 2) - task.greatest_time()).min(FIELD_24);
    }
}

/// Some task of the table gets a deadline that nobody could keep: which one, as transaction and task within it. Often it is
/// at an end of its transaction, and that at an end of the table.
pub fn put_too_soon(random: &mut Random, table: &mut Table) -> (usize, usize) {
    let v = near_an_end(random, table.transactions.len());
    let j = near_an_end(random, table.transactions[v].tasks.len());
    let task = &mut table.transactions[v].tasks[j];
    if random.percent(20) {
        come_far(random, task);
    }
    // Below 1 there is only 0, which is another fault.
    if task.least_deadline() == 1 {
        task.offset = 1;
    }
    task.deadline = too_soon(random, task);
    (v, j)
}

/// An index below `count`, mostly the first or the last.
fn near_an_end(random: &mut Random, count: usize) -> usize {
    let any = random.below(count);
    random.pick(&[0, count - 1, any])
}

/// A tick short, or enough for one who leaves out the offset or the time, takes the time of another mode, or cuts the sum
/// to 24 bits.
fn too_soon(random: &mut Random, task: &Task) -> i64 {
    let Task { offset, ref times, .. } = *task;
    let least = task.least_deadline();
    let any = random.within(1, least - 1);
    let other_mode = offset + random.pick(times);
    let mut deadlines =
        vec![least - 1, least - 1, offset, offset - 1, least - offset, other_mode, least % (1 << 24), any];
    deadlines.retain(|deadline| (1..least).contains(deadline));
    random.pick(&deadlines)
}

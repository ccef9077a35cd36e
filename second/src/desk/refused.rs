//! A refusal in words.

use crate::desk::place::{field_at, value_of, Name};
use crate::desk::words;
use crate::draft::Kind;
use crate::image::Refusal;

fn reason(number: u32) -> &'static str {
    match number {
        1 => "it ends inside a field",
        2 => "edition is not 1",
        3 => "the major frame is 0",
        4 => "not 1 to 63 transactions",
        5 => "a period that is 0 or does not divide the major frame",
        6 => "not 1 to 8 modes",
        7 => "not 1 to 16 tasks in a transaction, or more than 128 in all",
        8 => "a deadline of 0",
        9 => "a task with time 0 in every mode",
        10 => "a padding bit is 1",
        11 => "bytes follow the table",
        _ => unreachable!("an image is refused with 1 to 11, or with 14, whose reason has numbers"),
    }
}

/// The reason of 14, with the numbers of the task.
fn nobody_could_keep(image: &[u8], deadline: Name) -> String {
    let modes = Name { kind: Kind::ModeCount, task: 0, ..deadline };
    let times = (0..value_of(image, modes) as usize).map(|mode| Name { kind: Kind::Time, mode, ..deadline });
    let greatest_time = times.map(|time| value_of(image, time)).max().expect("a mode");
    let offset = value_of(image, Name { kind: Kind::Offset, ..deadline });
    let [deadline, offset, greatest_time] = [value_of(image, deadline), offset, greatest_time].map(words::number);
    format!("a deadline of {deadline}, below offset {offset} plus greatest time {greatest_time}")
}

/// Number, reason, and the place as byte, bit (0 is the most significant) and field.
pub fn refused(image: &[u8], Refusal { number, place }: Refusal) -> String {
    let name = field_at(image, place as usize);
    let field = match name {
        Some(name) => name.to_string(),
        None if number == 10 => "padding".into(),
        None => "the first byte behind the table".into(),
    };
    let reason = match name {
        Some(deadline) if number == 14 => nobody_could_keep(image, deadline),
        _ => reason(number).into(),
    };
    format!("image refused ({number}): {reason}, at byte {}, bit {}: {field}\n", place / 8, place % 8)
}

//! Reading an image: any bytes to a table, or the first fault with its place.

use crate::table::{Table, Task, Transaction};

/// A number of 'Numbers a caller may get', 1 to 11, or 14 of request 5 of document 02, and the bit position that goes with
/// it.
#[derive(Clone, Copy, Debug, PartialEq, Eq)]
pub struct Refusal {
    pub number: u32,
    pub place: u32,
}

/// 'A bit reader that holds the image and its place.'
struct Bits<'a> {
    image: &'a [u8],
    at: usize,
}

/// A complete field: its value, and the bit position where it starts.
struct Field {
    value: i64,
    start: usize,
}

fn refuse<T>(number: u32, place: usize) -> Result<T, Refusal> {
    let place = place as u32;
    Err(Refusal { number, place })
}

impl Field {
    /// The value, if the field passes its check.
    fn checked(self, good: bool, number: u32) -> Result<i64, Refusal> {
        if good {
            Ok(self.value)
        } else {
            refuse(number, self.start)
        }
    }
}

impl Bits<'_> {
    fn end(&self) -> usize {
        8 * self.image.len()
    }

    fn bit(&self, at: usize) -> i64 {
        ((self.image[at / 8] >> (7 - at % 8)) & 1) as i64
    }

    /// 'Fields are packed most significant bit first.' Number 1 if the image ends inside the field; a field of which
    /// no bit is left counts as that too.
    fn field(&mut self, width: usize) -> Result<Field, Refusal> {
        let start = self.at;
        if start + width > self.end() {
            return refuse(1, start);
        }
        let mut value = 0;
        for at in start..start + width {
            value = 2 * value + self.bit(at);
        }
        self.at = start + width;
        Ok(Field { value, start })
    }

    fn value(&mut self, width: usize) -> Result<i64, Refusal> {
        Ok(self.field(width)?.value)
    }
}

/// The table of an image, or the first fault, front to back.
pub fn read(image: &[u8]) -> Result<Table, Refusal> {
    let mut bits = Bits { image, at: 0 };
    let edition = bits.field(4)?;
    let is_known = edition.value == Table::EDITION;
    edition.checked(is_known, 2)?;
    let frame = bits.field(24)?;
    let is_positive = frame.value != 0;
    let frame = frame.checked(is_positive, 3)?;
    let count = bits.field(6)?;
    let in_range = (1..=Table::TRANSACTIONS as i64).contains(&count.value);
    let count = count.checked(in_range, 4)?;

    let mut transactions = Vec::new();
    let mut tasks_so_far = 0;
    for _ in 0..count {
        let transaction = transaction(&mut bits, frame, tasks_so_far)?;
        tasks_so_far += transaction.tasks.len();
        transactions.push(transaction);
    }
    ending(&bits)?;
    Ok(Table { frame, transactions })
}

fn transaction(bits: &mut Bits, frame: i64, tasks_so_far: usize) -> Result<Transaction, Refusal> {
    let period = bits.field(24)?;
    let divides = period.value != 0 && frame % period.value == 0;
    let period = period.checked(divides, 5)?;
    let modes = bits.field(4)?;
    let in_range = (1..=Transaction::MODES as i64).contains(&modes.value);
    let modes = modes.checked(in_range, 6)? as usize;
    let count = bits.field(5)?;
    // 'The sum so far' includes the present transaction's count.
    let in_range =
        (1..=Transaction::TASKS as i64).contains(&count.value) && tasks_so_far + count.value as usize <= Table::TASKS;
    let count = count.checked(in_range, 7)?;
    let mut tasks = Vec::new();
    for _ in 0..count {
        tasks.push(task(bits, modes)?);
    }
    Ok(Transaction { period, modes, tasks })
}

fn task(bits: &mut Bits, modes: usize) -> Result<Task, Refusal> {
    let offset = bits.value(24)?;
    let jitter = bits.value(24)?;
    let blocking = bits.value(24)?;
    let deadline_place = bits.at;
    let deadline = bits.field(26)?;
    let is_positive = deadline.value != 0;
    let deadline = deadline.checked(is_positive, 8)?;
    let priority = bits.value(8)?;
    let first_time = bits.at;
    let mut times = Vec::new();
    for _ in 0..modes {
        times.push(bits.value(24)?);
    }
    // 'After its last time', at 'its first time'.
    if times.iter().all(|&time| time == 0) {
        return refuse(9, first_time);
    }
    let task = Task { offset, jitter, blocking, deadline, priority, times };
    // 'Checked for each task after 9', 'at the place of the deadline field'.
    if task.deadline < task.least_deadline() {
        return refuse(14, deadline_place);
    }
    Ok(task)
}

/// 'Zero bits to the end of the byte', and no byte after it.
fn ending(bits: &Bits) -> Result<(), Refusal> {
    let byte_end = bits.at.div_ceil(8) * 8;
    if (bits.at..byte_end).any(|at| bits.bit(at) == 1) {
        return refuse(10, bits.at);
    }
    if byte_end < bits.end() {
        return refuse(11, byte_end);
    }
    Ok(())
}

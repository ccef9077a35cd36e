//! Writing an image: any numbers to bytes, or the first fault with the place that its field would have had.

use crate::image::Refusal;
use crate::table::{Table, Transaction};
use crate::write::row::{Body, Head, Lent};

/// 'A number too large for its field.'
const TOO_LARGE: u32 = 29;
/// 'Lent buffer too short, place 0.'
const TOO_SHORT: u32 = 30;

fn refuse<T>(number: u32, place: usize) -> Result<T, Refusal> {
    Err(Refusal { number, place: place as u32 })
}

/// The bits of an image so far.
#[derive(Default)]
struct Bits {
    bits: Vec<bool>,
}

impl Bits {
    /// 'Packed most significant bit first, with no gaps.'
    fn field(&mut self, value: u32, width: u32) -> Result<(), Refusal> {
        if value >= 1 << width {
            return refuse(TOO_LARGE, self.bits.len());
        }
        self.bits.extend((0..width).rev().map(|bit| value >> bit & 1 == 1));
        Ok(())
    }

    /// A field with a rule: that its number is too large is 'checked before a field's other rules'.
    fn ruled(&mut self, value: u32, width: u32, is_good: bool, number: u32) -> Result<(), Refusal> {
        let place = self.bits.len();
        self.field(value, width)?;
        if is_good {
            Ok(())
        } else {
            refuse(number, place)
        }
    }

    /// The bytes, with 'zero bits to the end of the byte'.
    fn bytes(mut self) -> Vec<u8> {
        self.bits.resize(self.bits.len().next_multiple_of(8), false);
        self.bits.chunks(8).map(|bits| bits.iter().fold(0, |byte, &bit| 2 * byte + bit as u8)).collect()
    }
}

/// The image of a table, or its first fault, field by field as the reader goes.
pub fn image(table: &Lent) -> Result<Vec<u8>, Refusal> {
    let mut bits = Bits::default();
    let Lent { edition, frame, count, .. } = *table;
    bits.ruled(edition, 4, edition as i64 == Table::EDITION, 2)?;
    bits.ruled(frame, 24, frame != 0, 3)?;
    bits.ruled(count, 6, (1..=Table::TRANSACTIONS).contains(&(count as usize)), 4)?;
    let mut bodies = table.bodies.as_slice();
    for head in &table.heads[..count as usize] {
        let Head { period, modes, count } = *head;
        bits.ruled(period, 24, period != 0 && frame % period == 0, 5)?;
        bits.ruled(modes, 4, (1..=Transaction::MODES).contains(&(modes as usize)), 6)?;
        // There are as many bodies left as the table may still have tasks.
        let count = count as usize;
        let in_range = (1..=Transaction::TASKS).contains(&count) && count <= bodies.len();
        bits.ruled(head.count, 5, in_range, 7)?;
        let (own, others) = bodies.split_at(count);
        for body in own {
            task(&mut bits, body, modes as usize)?;
        }
        bodies = others;
    }
    Ok(bits.bytes())
}

fn task(bits: &mut Bits, body: &Body, modes: usize) -> Result<(), Refusal> {
    bits.field(body.offset, 24)?;
    bits.field(body.jitter, 24)?;
    bits.field(body.blocking, 24)?;
    let deadline_place = bits.bits.len();
    bits.ruled(body.deadline, 26, body.deadline != 0, 8)?;
    bits.field(body.priority, 8)?;
    let first_time = bits.bits.len();
    for &time in &body.times[..modes] {
        bits.field(time, 24)?;
    }
    let greatest_time = *body.times[..modes].iter().max().expect("a mode");
    // 'After its last time', at 'its first time'.
    if greatest_time == 0 {
        return refuse(9, first_time);
    }
    // 'The writer follows': number 14, after 9.
    if body.deadline < body.offset + greatest_time {
        return refuse(14, deadline_place);
    }
    Ok(())
}

/// The length of the image, which then stands at the buffer's start. A refusal leaves the buffer untouched.
pub fn write(table: &Lent, buffer: &mut [u8]) -> Result<usize, Refusal> {
    let image = image(table)?;
    if buffer.len() < image.len() {
        return refuse(TOO_SHORT, 0);
    }
    buffer[..image.len()].copy_from_slice(&image);
    Ok(image.len())
}

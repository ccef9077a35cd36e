//! Damaged images: each refusal at its place, two faults at once, and bytes that nobody wrote.

use crate::draft::{fields, pack, place, Field, Kind};
use crate::generate::deadline::put_too_soon;
use crate::generate::tables::{self, TableKind};
use crate::random::Random;
use crate::table::{Table, Transaction};

#[derive(Clone, Copy, Debug, PartialEq, Eq)]
pub enum Damage {
    Empty,
    CutInField,
    CutByte,
    BadField(Kind),
    OtherCount,
    TooManyTasks,
    NoTime,
    /// A deadline that nobody could keep, or two; and such a one with another fault, of which either may be the first.
    TooSoon,
    TooSoonTwice,
    TooSoonAndCut,
    TooSoonAndNoTime,
    TooSoonAndBadField,
    TooSoonAndBadEnd,
    Padding,
    BytesFollow,
    TwoFaults,
    FlippedBits,
    RandomBytes,
    HeadThenRandom,
}

pub const DAMAGES: &[Damage] = &[
    Damage::Empty,
    Damage::CutInField,
    Damage::CutByte,
    Damage::BadField(Kind::Edition),
    Damage::BadField(Kind::Frame),
    Damage::BadField(Kind::TransactionCount),
    Damage::BadField(Kind::Period),
    Damage::BadField(Kind::ModeCount),
    Damage::BadField(Kind::TaskCount),
    Damage::BadField(Kind::Deadline),
    Damage::OtherCount,
    Damage::TooManyTasks,
    Damage::NoTime,
    Damage::TooSoon,
    Damage::TooSoonTwice,
    Damage::TooSoonAndCut,
    Damage::TooSoonAndNoTime,
    Damage::TooSoonAndBadField,
    Damage::TooSoonAndBadEnd,
    Damage::Padding,
    Damage::BytesFollow,
    Damage::TwoFaults,
    Damage::FlippedBits,
    Damage::RandomBytes,
    Damage::HeadThenRandom,
];

/// The image of a good table after some damage. Flipped bits may leave it good.
pub fn damaged(random: &mut Random, table: &Table, damage: Damage) -> Vec<u8> {
    let mut fields = fields(table);
    match damage {
        Damage::Empty => Vec::new(),
        Damage::CutInField => cut_in_field(random, &fields),
        Damage::CutByte => {
            let mut image = pack(&fields);
            image.truncate(random.below(image.len()));
            image
        }
        Damage::BadField(kind) => {
            spoil(random, &mut fields, kind, table.frame);
            pack(&fields)
        }
        Damage::OtherCount => {
            fields[2].value = other_count(random, table) as i64;
            pack(&fields)
        }
        Damage::TooManyTasks => crate::draft::image(&crowded(random)),
        Damage::NoTime => {
            clear_times(random, &mut fields);
            pack(&fields)
        }
        Damage::TooSoon => pack(&TooSoon::put(random, table).fields),
        Damage::TooSoonTwice => {
            let mut table = table.clone();
            put_too_soon(random, &mut table);
            pack(&TooSoon::put(random, &table).fields)
        }
        Damage::TooSoonAndCut => TooSoon::put(random, table).cut(random),
        Damage::TooSoonAndNoTime => TooSoon::put(random, table).without_time(random),
        Damage::TooSoonAndBadField => TooSoon::put(random, table).with_bad_field(random, table.frame),
        Damage::TooSoonAndBadEnd => {
            let fields = TooSoon::put(random, table).fields;
            let end = random.pick(&[padding, bytes_follow]);
            end(random, &fields)
        }
        Damage::Padding => padding(random, &fields),
        Damage::BytesFollow => bytes_follow(random, &fields),
        Damage::TwoFaults => two_faults(random, fields, table.frame),
        Damage::FlippedBits => {
            let mut image = pack(&fields);
            for _ in 0..random.within(1, 4) {
                let at = random.below(8 * image.len());
                image[at / 8] ^= 128 >> (at % 8);
            }
            image
        }
        Damage::RandomBytes => (0..random.within(1, 80)).map(|_| random.next() as u8).collect(),
        Damage::HeadThenRandom => {
            let mut image = pack(&fields);
            let from = random.below(image.len());
            image[from..].iter_mut().for_each(|byte| *byte = random.next() as u8);
            image
        }
    }
}

/// The fields of a table in which some task has a deadline that nobody could keep.
struct TooSoon {
    fields: Vec<Field>,
    /// Where that task begins and ends among them.
    first: usize,
    end: usize,
}

impl TooSoon {
    fn put(random: &mut Random, table: &Table) -> TooSoon {
        let mut table = table.clone();
        let (v, j) = put_too_soon(random, &mut table);
        let fields = fields(&table);
        let first = places(&fields, Kind::Offset)[table.number(v, j)];
        let times = fields[first..].iter().position(|field| field.kind == Kind::Time).expect("a mode");
        TooSoon { fields, first, end: first + times + table.transactions[v].modes }
    }

    /// Cut in its last time, which counts before the deadline does, right behind it, or further on.
    fn cut(self, random: &mut Random) -> Vec<u8> {
        let mut image = pack(&self.fields);
        let whole = place(&self.fields, self.end).div_ceil(8);
        let later = random.within(whole as i64, image.len() as i64) as usize;
        image.truncate(random.pick(&[whole - 2, whole - 1, whole, later]));
        image
    }

    /// No time in any mode: the deadline is below the offset alone.
    fn without_time(mut self, random: &mut Random) -> Vec<u8> {
        let task = &mut self.fields[self.first..self.end];
        clear_times(random, task);
        for field in task {
            match field.kind {
                Kind::Offset => field.value = random.within(2, tables::FIELD_24),
                Kind::Deadline => field.value = 1,
                _ => (),
            }
        }
        pack(&self.fields)
    }

    /// Another field is bad, or another task has no time: mostly behind that task, if there is anything.
    fn with_bad_field(mut self, random: &mut Random, frame: i64) -> Vec<u8> {
        let from = if random.percent(80) { self.end } else { 0 };
        let others = &mut self.fields[from..];
        if random.percent(20) {
            clear_times(random, others);
        } else {
            let kind = random.pick(&[Kind::Period, Kind::ModeCount, Kind::TaskCount, Kind::Deadline]);
            spoil(random, others, kind, frame);
        }
        pack(&self.fields)
    }
}

fn bytes_follow(random: &mut Random, fields: &[Field]) -> Vec<u8> {
    let mut image = pack(fields);
    let count = random.pick(&[1, 1, 2, 3, Table::LONGEST_IMAGE + 79]);
    image.extend((0..count).map(|_| if random.percent(50) { 0 } else { random.next() as u8 }));
    image
}

fn cut_in_field(random: &mut Random, fields: &[Field]) -> Vec<u8> {
    let index = random.below(fields.len());
    let start = place(fields, index);
    let bits = start + random.below(fields[index].kind.width());
    let mut image = pack(fields);
    image.truncate(bits / 8);
    image
}

/// Where the fields of a kind stand.
fn places(fields: &[Field], kind: Kind) -> Vec<usize> {
    (0..fields.len()).filter(|&index| fields[index].kind == kind).collect()
}

/// Some field of that kind, if there is one, takes a value that its check refuses.
fn spoil(random: &mut Random, fields: &mut [Field], kind: Kind, frame: i64) {
    let places = places(fields, kind);
    if !places.is_empty() {
        let index = random.pick(&places);
        fields[index].value = refused_number(random, kind, frame);
    }
}

/// A number that fits a field of that kind and that its check refuses.
pub fn refused_number(random: &mut Random, kind: Kind, frame: i64) -> i64 {
    match kind {
        Kind::Edition => random.pick(&[0, 2, 3, 4, 8, 9, 14, 15]),
        Kind::Frame | Kind::Deadline => 0,
        // No other is refused: 6 bits hold no count above the limit.
        Kind::TransactionCount => 0,
        Kind::Period => random.pick(&[0, frame - 1, frame + 1, 2 * frame, frame / 2 + 1]) % (1 << 24),
        Kind::ModeCount => random.pick(&[0, 9, 10, 15]),
        Kind::TaskCount => random.pick(&[0, 17, 18, 31]),
        _ => unreachable!("no value of this field is refused by itself"),
    }
}

/// A number of transactions that there may be, but not this table's: the image goes on, or is at its end.
fn other_count(random: &mut Random, table: &Table) -> usize {
    let (own, former) = (table.transactions.len(), tables::FORMER_TRANSACTIONS);
    let mut counts = vec![own - 1, own + 1, former, former + 1, Table::TRANSACTIONS];
    counts.retain(|&count| count != own && (1..=Table::TRANSACTIONS).contains(&count));
    random.pick(&counts)
}

/// More tasks than there may be, none of the counts above 16: one too many, or some, and sometimes a transaction behind
/// the one where they are too many.
pub fn crowded(random: &mut Random) -> Table {
    let kind = random.pick(&[TableKind::ManyTasks, TableKind::ManyTransactions]);
    let mut table = tables::table(random, kind);
    let some = random.within(1, Transaction::TASKS as i64) as usize;
    let more = random.pick(&[1, 1, some]);
    tables::come_to(random, &mut table, Table::TASKS + more);
    if table.transactions.len() < Table::TRANSACTIONS && random.percent(50) {
        let behind = table.transactions[random.below(table.transactions.len())].clone();
        table.transactions.push(behind);
    }
    table
}

/// Every time of some task, if there is one, is 0.
fn clear_times(random: &mut Random, fields: &mut [Field]) {
    let priorities = places(fields, Kind::Priority);
    if !priorities.is_empty() {
        let first = random.pick(&priorities) + 1;
        for field in fields[first..].iter_mut().take_while(|field| field.kind == Kind::Time) {
            field.value = 0;
        }
    }
}

/// A padding bit 1, if there is padding, and sometimes a byte after it.
fn padding(random: &mut Random, fields: &[Field]) -> Vec<u8> {
    let mut image = pack(fields);
    let end = place(fields, fields.len());
    let bits = 8 * image.len() - end;
    if bits > 0 {
        let at = end + random.below(bits);
        image[at / 8] |= 128 >> (at % 8);
    }
    if random.percent(30) {
        image.push(random.next() as u8);
    }
    image
}

fn two_faults(random: &mut Random, mut fields: Vec<Field>, frame: i64) -> Vec<u8> {
    let kinds = [
        Kind::Edition,
        Kind::Frame,
        Kind::TransactionCount,
        Kind::Period,
        Kind::ModeCount,
        Kind::TaskCount,
        Kind::Deadline,
    ];
    let kind = random.pick(&kinds);
    spoil(random, &mut fields, kind, frame);
    if random.percent(50) {
        clear_times(random, &mut fields);
    }
    match random.within(0, 3) {
        0 => cut_in_field(random, &fields),
        1 => padding(random, &fields),
        _ => {
            let kind = random.pick(&kinds);
            spoil(random, &mut fields, kind, frame);
            pack(&fields)
        }
    }
}

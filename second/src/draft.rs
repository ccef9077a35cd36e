//! Writing images, for samples of good and damaged ones: a list of fields that may hold any values, packed.

use crate::table::{Table, Task, Transaction};

#[derive(Clone, Copy, Debug, PartialEq, Eq)]
pub enum Kind {
    Edition,
    Frame,
    TransactionCount,
    Period,
    ModeCount,
    TaskCount,
    Offset,
    Jitter,
    Blocking,
    Deadline,
    Priority,
    Time,
}

impl Kind {
    pub fn width(self) -> usize {
        match self {
            Kind::Edition | Kind::ModeCount => 4,
            Kind::TaskCount => 5,
            Kind::TransactionCount => 6,
            Kind::Priority => 8,
            Kind::Deadline => 26,
            Kind::Frame | Kind::Period | Kind::Offset | Kind::Jitter | Kind::Blocking | Kind::Time => 24,
        }
    }
}

#[derive(Clone, Copy, Debug, PartialEq, Eq)]
pub struct Field {
    pub kind: Kind,
    pub value: i64,
}

/// The fields of a table in image order.
pub fn fields(table: &Table) -> Vec<Field> {
    let mut fields = Vec::new();
    let mut put = |kind, value| fields.push(Field { kind, value });
    put(Kind::Edition, Table::EDITION);
    put(Kind::Frame, table.frame);
    put(Kind::TransactionCount, table.transactions.len() as i64);
    for Transaction { period, modes, tasks } in &table.transactions {
        put(Kind::Period, *period);
        put(Kind::ModeCount, *modes as i64);
        put(Kind::TaskCount, tasks.len() as i64);
        for Task { offset, jitter, blocking, deadline, priority, times } in tasks {
            put(Kind::Offset, *offset);
            put(Kind::Jitter, *jitter);
            put(Kind::Blocking, *blocking);
            put(Kind::Deadline, *deadline);
            put(Kind::Priority, *priority);
            for time in times {
                put(Kind::Time, *time);
            }
        }
    }
    fields
}

/// The bit position where field `index` starts.
pub fn place(fields: &[Field], index: usize) -> usize {
    fields[..index].iter().map(|field| field.kind.width()).sum()
}

/// The image of the fields, most significant bit first, with zero bits to the end of the byte.
pub fn pack(fields: &[Field]) -> Vec<u8> {
    let mut image = vec![0u8; place(fields, fields.len()).div_ceil(8)];
    let mut at = 0;
    for field in fields {
        let width = field.kind.width();
        assert!(field.value >> width == 0, "the value fits its field");
        for bit in (0..width).rev() {
            image[at / 8] |= (((field.value >> bit) & 1) as u8) << (7 - at % 8);
            at += 1;
        }
    }
    image
}

pub fn image(table: &Table) -> Vec<u8> {
    pack(&fields(table))
}

//! Which field of an image stands at a bit position, and what stands in a field. Nothing is checked: the layout of 'The
//! table image' is walked with the counts that the image says.

use crate::draft::Kind;
use std::fmt::{self, Display};
use std::ops::ControlFlow::{self, Break, Continue};
use std::ops::Range;

/// A field by its kind and by what it belongs to, as far as its kind belongs to that. The task is numbered in the whole
/// table.
#[derive(Clone, Copy, Debug, PartialEq, Eq)]
pub struct Name {
    pub kind: Kind,
    pub transaction: usize,
    pub task: usize,
    pub mode: usize,
}

impl Display for Name {
    fn fmt(&self, out: &mut fmt::Formatter) -> fmt::Result {
        let Name { kind, transaction, task, mode } = self;
        let mut of_task = |name: &str| write!(out, "{name} of task {task}, transaction {transaction}");
        match kind {
            Kind::Offset => of_task("offset"),
            Kind::Jitter => of_task("jitter"),
            Kind::Blocking => of_task("blocking"),
            Kind::Deadline => of_task("deadline"),
            Kind::Priority => of_task("priority"),
            Kind::Edition => write!(out, "edition"),
            Kind::Frame => write!(out, "major frame"),
            Kind::TransactionCount => write!(out, "number of transactions"),
            Kind::Period => write!(out, "period of transaction {transaction}"),
            Kind::ModeCount => write!(out, "number of modes of transaction {transaction}"),
            Kind::TaskCount => write!(out, "number of tasks of transaction {transaction}"),
            Kind::Time => write!(out, "execution time of task {task} in mode {mode}, transaction {transaction}"),
        }
    }
}

/// A walk over the fields; the next one starts at `at`.
struct Walk<'a, E: Fn(Name, usize) -> bool> {
    image: &'a [u8],
    at: usize,
    /// Whether it ends in a field, by the field's name and the bit position behind it.
    ends_in: E,
}

impl<E: Fn(Name, usize) -> bool> Walk<'_, E> {
    /// The place of a refusal stands before any field that the image has no bits for, or at the first of them.
    fn bit(&self, at: usize) -> usize {
        ((self.image[at / 8] >> (7 - at % 8)) & 1) as usize
    }

    fn value(&self, bits: Range<usize>) -> usize {
        bits.fold(0, |value, at| 2 * value + self.bit(at))
    }

    /// Passes a field and says its value, unless the walk ends in it.
    fn pass(&mut self, name: Name) -> ControlFlow<Name, usize> {
        let start = self.at;
        self.at += name.kind.width();
        if (self.ends_in)(name, self.at) {
            return Break(name);
        }
        Continue(self.value(start..self.at))
    }

    fn table(&mut self) -> ControlFlow<Name> {
        let of = |kind| Name { kind, transaction: 0, task: 0, mode: 0 };
        self.pass(of(Kind::Edition))?;
        self.pass(of(Kind::Frame))?;
        let transactions = self.pass(of(Kind::TransactionCount))?;
        let mut first_task = 0;
        for transaction in 0..transactions {
            first_task += self.transaction(transaction, first_task)?;
        }
        Continue(())
    }

    /// Passes a transaction and says how many tasks it has.
    fn transaction(&mut self, transaction: usize, first_task: usize) -> ControlFlow<Name, usize> {
        let of = |kind| Name { kind, transaction, task: 0, mode: 0 };
        self.pass(of(Kind::Period))?;
        let modes = self.pass(of(Kind::ModeCount))?;
        let tasks = self.pass(of(Kind::TaskCount))?;
        for task in first_task..first_task + tasks {
            for kind in [Kind::Offset, Kind::Jitter, Kind::Blocking, Kind::Deadline, Kind::Priority] {
                self.pass(Name { kind, transaction, task, mode: 0 })?;
            }
            for mode in 0..modes {
                self.pass(Name { kind: Kind::Time, transaction, task, mode })?;
            }
        }
        Continue(tasks)
    }
}

/// The field that holds a bit position, or none behind the table.
pub fn field_at(image: &[u8], place: usize) -> Option<Name> {
    match (Walk { image, at: 0, ends_in: |_, end| place < end }).table() {
        Break(name) => Some(name),
        Continue(()) => None,
    }
}

/// The value of a field that the image has.
pub fn value_of(image: &[u8], name: Name) -> i64 {
    let mut walk = Walk { image, at: 0, ends_in: |each, _| each == name };
    assert_eq!(walk.table(), Break(name), "the image has the field");
    walk.value(walk.at - name.kind.width()..walk.at) as i64
}

//! What is compared of the writer, and how often each answer came.

use crate::compare::Compared;
use crate::write::{cases, stream, Case};
use std::collections::BTreeMap;
use std::fmt::{self, Display};

#[derive(Default)]
pub struct Counts {
    refused: BTreeMap<u32, u64>,
    written: u64,
    bytes: usize,
}

impl Compared for Counts {
    type Case = Case;

    fn case(seed: u64, index: u64) -> Case {
        cases::case(seed, index)
    }

    fn encoded(case: &Case) -> Vec<u8> {
        stream::encoded(case)
    }

    fn answered(&mut self, case: &Case) -> String {
        let (written, line) = stream::answered(case);
        match written {
            Err(refusal) => *self.refused.entry(refusal.number).or_default() += 1,
            Ok(length) => {
                self.written += 1;
                self.bytes += length;
            }
        }
        line
    }

    fn told(case: &Case) -> String {
        let cells: Vec<String> = case.cells.iter().map(u32::to_string).collect();
        format!("buffer {}\ncells {}", case.length, cells.join(" "))
    }
}

impl Display for Counts {
    fn fmt(&self, out: &mut fmt::Formatter) -> fmt::Result {
        for (number, count) in &self.refused {
            writeln!(out, "refused {number}: {count} tables")?;
        }
        writeln!(out, "written: {} tables, {} bytes", self.written, self.bytes)
    }
}

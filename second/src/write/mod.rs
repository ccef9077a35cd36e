//! Writing tables: request 1 of document 02, over the row of cells in which a table is lent, and the stream of rows for a
//! comparison.

pub mod cases;
pub mod compare;
pub mod row;
pub mod stream;
pub mod writer;

/// A row of cells, any numbers, and how many bytes are lent to write its image into.
#[derive(Clone, Debug, PartialEq, Eq)]
pub struct Case {
    pub length: usize,
    pub cells: Vec<u32>,
}

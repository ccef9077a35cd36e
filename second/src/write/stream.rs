//! The stream of rows: the length of the lent buffer and the cells of a row, 4 bytes each with the most significant
//! first, and so on to the end of input. The answer to a row is one line: the writer's number and value, the buffer in
//! hexadecimal, then the reader's number and place for what was written (for the whole buffer if nothing was), and the
//! cells that it fills.

use crate::compare::hex;
use crate::image::{read, Refusal};
use crate::write::row::{row_of, Lent, CELLS};
use crate::write::writer::write;
use crate::write::Case;
use std::fmt::Write;
use std::io::{self, Read};

/// Buffer and cells hold a pattern before the calls, and so do this many bytes and cells behind them, which are shown
/// too: nobody may touch them.
const BEHIND: usize = 16;

fn pattern(count: usize) -> Vec<u32> {
    (0..count as u32).map(|at| 37 * at + 11).collect()
}

pub fn encoded(case: &Case) -> Vec<u8> {
    let length = u32::try_from(case.length).expect("a buffer in a stream has a 32-bit length");
    [length].iter().chain(&case.cells).flat_map(|number| number.to_be_bytes()).collect()
}

/// The next case, or none at the end of input. A stream that ends inside a case is an error.
pub fn next(input: &mut impl Read) -> io::Result<Option<Case>> {
    let mut bytes = Vec::new();
    input.by_ref().take(4 * (1 + CELLS as u64)).read_to_end(&mut bytes)?;
    if bytes.is_empty() {
        return Ok(None);
    }
    if bytes.len() < 4 * (1 + CELLS) {
        return Err(io::Error::new(io::ErrorKind::UnexpectedEof, "the stream ends inside a case"));
    }
    let number = |bytes: &[u8]| u32::from_be_bytes(bytes.try_into().expect("four bytes"));
    let mut numbers = bytes.chunks(4).map(number);
    let length = numbers.next().expect("a length") as usize;
    Ok(Some(Case { length, cells: numbers.collect() }))
}

/// What the writer says of a case, and the whole line.
pub fn answered(case: &Case) -> (Result<usize, Refusal>, String) {
    let mut buffer: Vec<u8> = pattern(case.length + BEHIND).into_iter().map(|number| number as u8).collect();
    let written = write(&Lent::of(&case.cells), &mut buffer[..case.length]);
    let read_back = read(&buffer[..written.unwrap_or(case.length)]);
    let mut cells = pattern(CELLS + BEHIND);
    if let Ok(table) = &read_back {
        cells[..CELLS].copy_from_slice(&row_of(table));
    }
    let pair = |answer: Result<usize, Refusal>| match answer {
        Ok(value) => format!("0 {value}"),
        Err(Refusal { number, place }) => format!("{number} {place}"),
    };
    let mut line = format!("{} {} {}", pair(written), hex(&buffer), pair(read_back.map(|_| 0)));
    for cell in cells {
        write!(line, " {cell}").unwrap();
    }
    line.push('\n');
    (written, line)
}

//! The stream of cases: a number (4 bytes, most significant first), kind and length of the image (2 bytes: the kind is in
//! the two highest bits), for a charge the task, the transaction and the way of charging (a byte each), for the plain
//! analysis the task (a byte) and k (4 bytes), the image, and so on to the end of input. The number is the budget; for a
//! charge and for the plain analysis it is t.

use crate::interference::Charging;
use std::fmt::{self, Display};
use std::io::{self, Read};

/// What is asked of an image.
#[derive(Clone, Copy, Debug, PartialEq, Eq)]
pub enum Question {
    /// The cells of every task.
    Cells { budget: u32 },
    /// The same, and what every bound is made of.
    Parts { budget: u32 },
    /// What a transaction charges a task at t.
    Charge { task: u8, transaction: u8, charging: Charging, t: u32 },
    /// The plain response of a task, and the approximation of its request at t.
    Plain { task: u8, k: u32, t: u32 },
}

impl Display for Question {
    fn fmt(&self, out: &mut fmt::Formatter) -> fmt::Result {
        match self {
            Question::Cells { budget } => write!(out, "budget {budget}"),
            Question::Parts { budget } => write!(out, "parts, budget {budget}"),
            Question::Charge { task, transaction, charging, t } => {
                let charging = if *charging == Charging::Imposed { "imposed" } else { "released" };
                write!(out, "task {task} transaction {transaction} {charging} at {t}")
            }
            Question::Plain { task, k, t } => write!(out, "task {task} plain, k {k} at {t}"),
        }
    }
}

#[derive(Clone, Debug, PartialEq, Eq)]
pub struct Asked {
    pub question: Question,
    pub image: Vec<u8>,
}

const PARTS: u16 = 1 << 14;
const CHARGE: u16 = 1 << 15;
const PLAIN: u16 = CHARGE | PARTS;
const LENGTH: u16 = PARTS - 1;

pub fn encoded(asked: &Asked) -> Vec<u8> {
    let (number, kind, more) = match asked.question {
        Question::Cells { budget } => (budget, 0, vec![]),
        Question::Parts { budget } => (budget, PARTS, vec![]),
        Question::Charge { task, transaction, charging, t } => {
            (t, CHARGE, vec![task, transaction, (charging == Charging::Released) as u8])
        }
        Question::Plain { task, k, t } => (t, PLAIN, [&[task][..], &k.to_be_bytes()].concat()),
    };
    let length = u16::try_from(asked.image.len()).ok().filter(|length| *length <= LENGTH);
    let length = length.expect("an image in a stream has a 14-bit length");
    [&number.to_be_bytes()[..], &(kind | length).to_be_bytes(), &more, &asked.image].concat()
}

/// So many bytes. A stream that ends inside a case is an error.
fn bytes(input: &mut impl Read, count: u16) -> io::Result<Vec<u8>> {
    let mut bytes = Vec::new();
    input.by_ref().take(count as u64).read_to_end(&mut bytes)?;
    if bytes.len() < count as usize {
        return Err(io::Error::new(io::ErrorKind::UnexpectedEof, "the stream ends inside a case"));
    }
    Ok(bytes)
}

/// The next case, or none at the end of input.
pub fn next(input: &mut impl Read) -> io::Result<Option<Asked>> {
    let mut first = Vec::new();
    input.by_ref().take(1).read_to_end(&mut first)?;
    let [b0] = first[..] else { return Ok(None) };
    let [b1, b2, b3, l0, l1] = bytes(input, 5)?[..] else { unreachable!("five bytes") };
    let (number, kind_and_length) = (u32::from_be_bytes([b0, b1, b2, b3]), u16::from_be_bytes([l0, l1]));
    let question = match kind_and_length & !LENGTH {
        0 => Question::Cells { budget: number },
        PARTS => Question::Parts { budget: number },
        CHARGE => {
            let [task, transaction, whole] = bytes(input, 3)?[..] else { unreachable!("three bytes") };
            let charging = if whole == 0 { Charging::Imposed } else { Charging::Released };
            Question::Charge { task, transaction, charging, t: number }
        }
        PLAIN => {
            let [task, k0, k1, k2, k3] = bytes(input, 5)?[..] else { unreachable!("five bytes") };
            Question::Plain { task, k: u32::from_be_bytes([k0, k1, k2, k3]), t: number }
        }
        _ => unreachable!("two bits"),
    };
    Ok(Some(Asked { question, image: bytes(input, kind_and_length & LENGTH)? }))
}

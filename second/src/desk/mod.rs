//! What the technician reads at the desk: the words of `explain`, the text of `show` and the responses of `plain`, for an
//! accepted image and for a refused one.

pub mod compare;
pub mod page;
pub mod place;
pub mod plain;
pub mod refused;
pub mod show;
pub mod words;

use crate::answer::{self, all_cells, cells_and_parts, Cells, PROGRAM_BUDGET};
use crate::generate;
use crate::image::{read, Refusal};
use crate::interference::Charging;
use crate::plain::checked;
use crate::table::Table;
use plain::Judged;

#[derive(Clone, Copy, Debug, PartialEq, Eq)]
pub enum Text {
    Words,
    Show,
    Plain,
}

/// A text, and what was found of the image on the way to it: `Show` wants no cells, and only `Plain` the other analysis.
pub struct Told {
    pub text: String,
    pub answer: Result<Vec<Cells>, Refusal>,
    pub plain: Vec<Judged>,
}

impl Text {
    pub fn name(self) -> &'static str {
        match self {
            Text::Words => "words",
            Text::Show => "text",
            Text::Plain => "plain responses",
        }
    }

    /// The words that ask for another form of the text: only tasks that are not shown to be in time, and of every bound
    /// what it is made of; aligned numbers; or words.
    pub fn words(self) -> &'static [&'static str] {
        match self {
            Text::Words => &["open", "all"],
            Text::Show => &["aligned"],
            Text::Plain => &["explain"],
        }
    }

    pub fn told(self, image: &[u8], words: &[&str]) -> Told {
        let table = match read(image) {
            Err(refusal) => {
                let is_told_by_number = self == Text::Plain && !words.contains(&"explain");
                let text = if is_told_by_number { answer::refused(refusal) } else { refused::refused(image, refusal) };
                return Told { text, answer: Err(refusal), plain: Vec::new() };
            }
            Ok(table) => table,
        };
        match self {
            Text::Words => {
                let (row, parts) = cells_and_parts(&table, PROGRAM_BUDGET);
                let asked = words::Asked { only_open: words.contains(&"open"), all: words.contains(&"all") };
                Told { text: words::words(&table, &row, &parts, asked), answer: Ok(row), plain: Vec::new() }
            }
            Text::Show => {
                let text = show::show(&table, words.contains(&"aligned"));
                Told { text, answer: Ok(Vec::new()), plain: Vec::new() }
            }
            Text::Plain => plain_told(&table, words.contains(&"explain")),
        }
    }

    /// The image of a case.
    fn image(self, seed: u64, index: u64) -> Vec<u8> {
        match self {
            Text::Words | Text::Show => generate::image(seed, index),
            Text::Plain => generate::plain::image(seed, index),
        }
    }

    /// Whether it takes long to tell this text of an image.
    fn is_dear(self, image: &[u8]) -> bool {
        let Ok(table) = read(image) else { return false };
        match self {
            Text::Words => generate::is_dear(&table),
            Text::Show => false,
            Text::Plain => checked(&table).is_ok() && (generate::plain::is_dear(&table) || generate::is_dear(&table)),
        }
    }
}

fn plain_told(table: &Table, is_explained: bool) -> Told {
    if let Err(refusal) = checked(table) {
        let words = plain::several(table).filter(|_| is_explained);
        let text = words.unwrap_or_else(|| answer::refused(refusal));
        return Told { text, answer: Err(refusal), plain: Vec::new() };
    }
    let row = all_cells(table, Charging::Imposed, PROGRAM_BUDGET);
    let judged = plain::judged(table, &row);
    let text = if is_explained { plain::explained(&judged) } else { plain::listed(&judged) };
    Told { text, answer: Ok(row), plain: judged }
}

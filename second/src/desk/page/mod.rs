//! The page that the program `report` writes of an image: read back, and each number and sentence of it compared with what
//! follows from the documents. Its looks are not compared, nor the sentences that are the same on every page.

mod bars;
mod busy;
pub mod compare;
mod facts;
mod markup;
mod names;
mod refused;
mod sha256;
mod tasks;
mod top;
mod whole;

#[cfg(test)]
mod tests;

use crate::answer::Cells;
use crate::image::{read, Refusal};
use facts::{found, Facts, Old};
use names::Names;
use std::fmt::Debug;

/// The number that tells tables of one page apart.
const KEY: u32 = 1;

/// What a page is asked for with: an image and its name, names for its tasks, and an image to compare with and its name.
pub struct Asked {
    pub image: Vec<u8>,
    pub name: Vec<u8>,
    pub names: Option<Vec<u8>>,
    pub old: Option<(Vec<u8>, Vec<u8>)>,
}

/// What was seen on a page that is right.
pub struct Seen {
    pub answer: Result<Vec<Cells>, Refusal>,
    pub of_image: Vec<&'static str>,
    pub of_tasks: Vec<&'static str>,
}

fn same<T: PartialEq + Debug>(what: &str, found: T, wanted: T) -> Result<(), String> {
    if found == wanted {
        return Ok(());
    }
    Err(format!("{what}\nsecond  {wanted:?}\nprogram {found:?}"))
}

fn sort_of(asked: &Asked, old: &Old) -> Vec<&'static str> {
    let compared = match old {
        Old::NotAsked => None,
        Old::Refused => Some("compared with a refused image"),
        Old::Unlike => Some("compared with a table of another shape"),
        Old::Bounds(_) => Some("compared with a table of the same shape"),
    };
    compared.into_iter().chain(asked.names.as_ref().map(|_| "with names")).collect()
}

/// What is seen on a page, or the first difference.
pub fn checked(page: &[u8], asked: &Asked) -> Result<Seen, String> {
    let root = whole::whole(page)?;
    let article = root.only("body")?.only("article")?;
    same("the article", article.attribute("id"), Some(&*format!("a{KEY}")))?;
    let table = read(&asked.image);
    top::check_image(&root, article, &asked.name, &asked.image, table.as_ref().ok())?;
    let table = match &table {
        Ok(table) => table,
        Err(refusal) => {
            refused::check(article, &asked.image, *refusal)?;
            return Ok(Seen { answer: Err(*refusal), of_image: Vec::new(), of_tasks: Vec::new() });
        }
    };
    let old = asked.old.as_ref().map(|(image, name)| (&image[..], &name[..]));
    let facts = Facts {
        table,
        found: found(table),
        old: Old::of(old.map(|(image, _)| image), table),
        names: Names::of(asked.names.as_deref().unwrap_or(b"")),
    };
    top::check(article, &facts, old)?;
    let of_tasks = tasks::check(article, &facts)?;
    let answer = Ok(facts.found.iter().map(|found| found.cells).collect());
    Ok(Seen { answer, of_image: sort_of(asked, &facts.old), of_tasks })
}

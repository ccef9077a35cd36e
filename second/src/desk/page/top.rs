//! What stands above the tasks: the name, the verdict, the table in figures, and what became of another table's bounds.

use super::facts::{Facts, Old};
use super::markup::Element;
use super::names::shown;
use super::sha256::sum;
use super::{same, KEY};
use crate::answer::PROGRAM_BUDGET;
use crate::desk::words::number;
use crate::table::Table;

/// 'The longest image becomes 5,033 bytes.'
const LONGEST: usize = 5033;

/// Each name of a list with what it says.
fn listed<'p>(list: &Element<'p>) -> Vec<(&'p str, &'p str)> {
    let pairs = list.children.chunks(2).filter(|pair| pair.len() == 2 && pair[0].name == "dt" && pair[1].name == "dd");
    pairs.map(|pair| (pair[0].inner, pair[1].inner.trim_end_matches('\n'))).collect()
}

fn check_list(what: &str, list: &Element, wanted: &[(&str, String)]) -> Result<(), String> {
    let wanted: Vec<(&str, &str)> = wanted.iter().map(|(name, said)| (*name, said.as_str())).collect();
    same(what, listed(list), wanted)?;
    same(what, list.children.len(), 2 * listed(list).len())
}

/// Of more bytes than any table has the rest is not read.
fn is_cut(image: &[u8]) -> bool {
    image.len() > LONGEST
}

fn sum_told(image: &[u8]) -> String {
    if is_cut(image) {
        return "not known: not all of its bytes were read".into();
    }
    format!("<span class='sum'>{}</span>", sum(image))
}

fn bytes_told(image: &[u8]) -> String {
    if is_cut(image) {
        return format!("more than {}, which no table has", number(LONGEST as i64));
    }
    number(image.len() as i64)
}

/// The name in the head and above all; the image in figures, and the table if it is one.
pub fn check_image(
    root: &Element,
    article: &Element,
    name: &[u8],
    image: &[u8],
    table: Option<&Table>,
) -> Result<(), String> {
    same("the title", root.only("head")?.only("title")?.inner, &shown(name))?;
    same("the heading", article.only("h1")?.inner, &shown(name))?;
    let mut wanted = vec![("bytes", bytes_told(image)), ("SHA-256", sum_told(image))];
    if let Some(table) = table {
        wanted.extend([
            ("edition", Table::EDITION.to_string()),
            ("major frame", format!("{} ticks", number(table.frame))),
            ("transactions", table.transactions.len().to_string()),
            ("tasks", table.numbered().len().to_string()),
            ("budget", format!("{} evaluations a task", number(PROGRAM_BUDGET as i64))),
        ]);
    }
    check_list("the image in figures", article.named("dl").next().ok_or("no list of the image")?, &wanted)
}

/// Whether every task keeps its deadline, and which are not shown to, each a link to its line.
fn check_verdict(article: &Element, facts: &Facts) -> Result<(), String> {
    let open: Vec<usize> = facts.found.iter().filter(|found| !found.is_kept()).map(|found| found.number).collect();
    let links: Vec<String> =
        open.iter().map(|&each| format!("<a href='#a{KEY}t{each}'>{}</a>", facts.names.task(each))).collect();
    let wanted = if open.is_empty() {
        vec![("verdict", "Every task keeps its deadline.".to_string())]
    } else {
        let begins = "&#9650; Not every task is shown to keep its deadline; not shown are";
        vec![("verdict open", format!("{begins} {} of {}: {}.", open.len(), facts.found.len(), links.join(", ")))]
    };
    let verdicts = article.named("p").filter(|p| p.class().starts_with("verdict"));
    same("the verdict", verdicts.map(|p| (p.class(), p.inner.to_string())).collect(), wanted)
}

/// How many tasks have the same bound as in the other table, a greater one, a lesser one, one in one of the two alone, and none in both.
fn compared(facts: &Facts, bounds: &[Option<i64>]) -> String {
    let pairs = || facts.found.iter().map(|found| found.bound()).zip(bounds.iter().copied());
    let both = || pairs().filter_map(|(now, old)| now.zip(old));
    let same = both().filter(|(now, old)| now == old).count();
    let more = both().filter(|(now, old)| now > old).count();
    let less = both().filter(|(now, old)| now < old).count();
    let one = pairs().filter(|(now, old)| now.is_some() != old.is_some()).count();
    let none = pairs().filter(|(now, old)| now.is_none() && old.is_none()).count();
    format!(
        "Bounds as there: {same}; greater: {more}; lesser: {less}; in one of the two tables alone: {one}; in neither: {none}. \
         A dashed mark is the bound there."
    )
}

fn check_against(article: &Element, facts: &Facts, old_image: &[u8], old_name: &[u8]) -> Result<(), String> {
    let at = article.children.iter().position(|child| child.inner.starts_with("Against ") && child.name == "h2");
    let wanted = match &facts.old {
        Old::NotAsked => return same("a heading of another table", at, None),
        Old::Refused => "That table is refused: nothing is compared.".into(),
        Old::Unlike => "That table has another shape, so tasks of one number need not be the same task: nothing is \
                        compared."
            .into(),
        Old::Bounds(bounds) => compared(facts, bounds),
    };
    let Some([heading, list, sentence]) = at.and_then(|at| article.children.get(at..at + 3)) else {
        return Err("nothing is said of the other table".into());
    };
    same("the heading of the other table", heading.inner, &format!("Against {}", shown(old_name)))?;
    check_list("the other table", list, &[("SHA-256", sum_told(old_image))])?;
    same("what is compared", sentence.inner, &wanted)
}

/// The sentences on the tasks; with another table also its image and its name.
pub fn check(article: &Element, facts: &Facts, old: Option<(&[u8], &[u8])>) -> Result<(), String> {
    check_verdict(article, facts)?;
    let (old_image, old_name) = old.unwrap_or((b"", b""));
    check_against(article, facts, old_image, old_name)
}

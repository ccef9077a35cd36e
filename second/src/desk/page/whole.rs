//! What is asked of a page as a whole.

use super::markup::{read, Element};
use std::collections::BTreeSet;

/// The tree of a page that is UTF-8 without control characters, whose ids are all different, whose links lead to one of
/// them, and that takes nothing from outside.
pub fn whole(page: &[u8]) -> Result<Element<'_>, String> {
    let page = std::str::from_utf8(page).map_err(|error| format!("the page is no UTF-8: {error}"))?;
    if let Some(control) = page.chars().find(|c| c.is_control() && *c != '\n') {
        return Err(format!("a control character {control:?} in the page"));
    }
    let root = read(page)?;
    let all = root.all();
    let mut ids = BTreeSet::new();
    for id in all.iter().filter_map(|element| element.attribute("id")) {
        if id.is_empty() || !ids.insert(id) {
            return Err(format!("the id '{id}' is empty, or there twice"));
        }
    }
    for href in all.iter().filter_map(|element| element.attribute("href")) {
        if !href.strip_prefix('#').is_some_and(|id| ids.contains(id)) {
            return Err(format!("'{href}' leads nowhere on the page"));
        }
    }
    let styles = all.iter().filter(|element| element.name == "style").map(|element| element.inner);
    for style in styles.chain(all.iter().filter_map(|element| element.attribute("style"))) {
        if let Some(word) = ["http", "url(", "@import", "src", "<"].iter().find(|word| style.contains(*word)) {
            return Err(format!("a style has '{word}'"));
        }
    }
    Ok(root)
}

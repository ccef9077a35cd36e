//! The page of a refused image: the refusal in words, and the bytes around its place with the bit marked.

use super::markup::Element;
use super::same;
use crate::desk::refused::refused;
use crate::image::Refusal;

/// How many bytes stand around the one of the place on each side.
const BESIDE: usize = 8;

fn marked(text: &str, is_marked: bool) -> String {
    if is_marked {
        format!("<mark>{text}</mark>")
    } else {
        text.into()
    }
}

/// The bytes around the place, and 'end of the image' where it lies behind the last.
fn around(image: &[u8], at: usize) -> String {
    let from = at.saturating_sub(BESIDE);
    let shown = (from..image.len().min(from + 2 * BESIDE + 1)).map(|i| marked(&format!("{:02x}", image[i]), i == at));
    let end = (image.len() <= at).then(|| marked("end of the image", true));
    let all: String = shown.chain(end).map(|byte| format!(" {byte}")).collect();
    format!("From byte {from} on: <span class='hex'>{all}</span>")
}

fn bits(byte: u8, at: usize, bit: usize) -> String {
    let bits: String = (0..8).map(|i| marked(if byte << i & 0x80 == 0 { "0" } else { "1" }, i == bit)).collect();
    format!("Byte {at}, bit by bit, the most significant first: <span class='bits'>{bits}</span>")
}

pub fn check(article: &Element, image: &[u8], refusal: Refusal) -> Result<(), String> {
    let (byte, bit) = (refusal.place as usize / 8, refusal.place as usize % 8);
    let verdict = "&#9650; The table is refused: nothing is known of its tasks.";
    let mut wanted = vec![verdict.to_string(), refused(image, refusal), around(image, byte)];
    wanted.extend(image.get(byte).map(|&value| bits(value, byte, bit)));
    let paragraphs: Vec<String> = article.named("p").map(|p| p.inner.to_string()).collect();
    same("the paragraphs of a refusal", paragraphs, wanted)?;
    let others: Vec<&str> = article.children.iter().map(|child| child.name).filter(|name| *name != "p").collect();
    same("what else the page of a refusal has", others, vec!["h1", "dl"])
}

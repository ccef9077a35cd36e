//! Names for tables and tasks, any bytes, and how a page shows them.

use crate::random::Random;

/// As many bytes of the names of tasks are taken.
pub const TAKEN: usize = 16_384;

const UNKNOWN: &str = "&#65533;";

fn escaped(c: char) -> String {
    match c {
        '&' => "&amp;".into(),
        '<' => "&lt;".into(),
        '>' => "&gt;".into(),
        '"' => "&quot;".into(),
        '\'' => "&#39;".into(),
        c if c.is_control() => UNKNOWN.into(),
        c => c.into(),
    }
}

/// The character that begins a text, if it is UTF-8.
fn first(text: &[u8]) -> Option<char> {
    let whole = (1..=text.len().min(4)).find_map(|n| std::str::from_utf8(&text[..n]).ok());
    whole.and_then(|whole| whole.chars().next())
}

/// Markup, each control character and each byte that is no UTF-8 are shown by a reference, all else as it is.
pub fn shown(name: &[u8]) -> String {
    let mut text = String::new();
    let mut rest = name;
    while !rest.is_empty() {
        let c = first(rest);
        text += &c.map_or(UNKNOWN.into(), escaped);
        rest = &rest[c.map_or(1, char::len_utf8)..];
    }
    text
}

/// The names of tasks, a line each.
pub struct Names<'n> {
    lines: Vec<&'n [u8]>,
}

impl Names<'_> {
    pub fn of(names: &[u8]) -> Names<'_> {
        Names { lines: names[..names.len().min(TAKEN)].split(|byte| *byte == b'\n').collect() }
    }

    /// A task by its number, and by its name if it has one.
    pub fn task(&self, number: usize) -> String {
        match self.lines.get(number) {
            Some(name) if !name.is_empty() => format!("task {number} <bdi>{}</bdi>", shown(name)),
            _ => format!("task {number}"),
        }
    }
}

/// What names are made of: plain words, markup, other scripts, control characters, and bytes that are no UTF-8: alone, cut
/// short, longer than need be, half of a pair, above the last character.
const PIECES: &[&[u8]] = &[
    b"pump",
    b" ",
    b"brake control 2",
    b"&",
    b"<",
    b">",
    b"\"",
    b"'",
    b"&amp;",
    b"&#39;",
    b"<script>alert(1)</script>",
    b"</bdi></span></details>",
    b"<!--",
    b"]]>",
    b"' onclick='x",
    b"http://x.example/?a=b&c",
    b"src=",
    b"url(",
    b"\x01",
    b"\t",
    b"\r",
    b"\x1b[31m",
    b"\x7f",
    "é".as_bytes(),
    "ß漢字".as_bytes(),
    "𝄞".as_bytes(),
    "שלום".as_bytes(),
    "\u{202e}".as_bytes(),
    "\u{a0}".as_bytes(),
    "\u{80}".as_bytes(),
    "\u{9f}".as_bytes(),
    "\u{7ff}\u{800}\u{d7ff}\u{e000}\u{fffd}\u{ffff}\u{10000}\u{10ffff}".as_bytes(),
    b"\x80",
    b"\xbf\xbf",
    b"\xc0\x80",
    b"\xc1\xbf",
    b"\xc2",
    b"\xe0\x9f\xbf",
    b"\xe2\x82",
    b"\xed\xa0\x80",
    b"\xf0\x8f\xbf\xbf",
    b"\xf0\x9f\x98",
    b"\xf4\x90\x80\x80",
    b"\xf5\x80\x80\x80",
    b"\xfe\xff",
];

/// A name without a line feed, and without 0, which ends a word of a command.
pub fn name(random: &mut Random) -> Vec<u8> {
    let pieces = match random.within(1, 40) {
        1..=6 => 0,
        7..=38 => random.within(1, 6),
        _ => random.within(20, 60),
    };
    (0..pieces).flat_map(|_| random.pick(PIECES).to_vec()).collect()
}

/// Names for so many tasks: for each, for fewer or for more, with a line feed behind the last or without; sometimes more
/// than are taken.
pub fn names(random: &mut Random, tasks: usize) -> Vec<u8> {
    let lines = match random.below(6) {
        0 => random.below(tasks + 1),
        1 => tasks + random.below(200),
        _ => tasks,
    };
    let mut text = vec![name(random); lines.min(1)];
    for _ in 1..lines {
        let is_long = random.percent(1);
        text.push(if is_long { b"long &<\xff".repeat(1 + random.below(3000)) } else { name(random) });
    }
    let mut text = text.join(&b'\n');
    if random.percent(15) {
        text.push(0);
    }
    if random.percent(60) {
        text.push(b'\n');
    }
    text
}

//! A page as a tree of elements. Only what the pages need is known: their elements and attributes, quoted values, the end
//! tags that may be left out, and the character references that stand for markup. Anything else is a fault, so a page that
//! is read here holds no script and nothing from outside.

/// An element, and all that stands between its tags, as it stands there.
#[derive(Debug)]
pub struct Element<'p> {
    pub name: &'p str,
    attributes: Vec<(&'p str, &'p str)>,
    pub children: Vec<Element<'p>>,
    pub inner: &'p str,
}

const ELEMENTS: &[&str] = &[
    "html", "head", "meta", "title", "style", "body", "header", "article", "h1", "h2", "p", "a", "b", "bdi", "mark",
    "span", "div", "dl", "dt", "dd", "ul", "li", "details", "summary", "table", "caption", "thead", "tbody", "tfoot",
    "tr", "th", "td", "svg", "rect", "path",
];

const ATTRIBUTES: &[&str] = &[
    "lang",
    "charset",
    "name",
    "content",
    "id",
    "class",
    "href",
    "style",
    "scope",
    "open",
    "aria-hidden",
    "viewBox",
    "preserveAspectRatio",
    "x",
    "y",
    "width",
    "height",
    "d",
];

/// Where an element has to stand, if not anywhere.
fn parents(name: &str) -> Option<&'static [&'static str]> {
    match name {
        "td" | "th" => Some(&["tr"]),
        "tr" => Some(&["thead", "tbody", "tfoot"]),
        "thead" | "tbody" | "tfoot" | "caption" => Some(&["table"]),
        "dt" | "dd" => Some(&["dl"]),
        "li" => Some(&["ul"]),
        "summary" => Some(&["details"]),
        "rect" | "path" => Some(&["svg"]),
        "title" | "style" | "meta" => Some(&["head"]),
        "head" | "body" => Some(&["html"]),
        _ => None,
    }
}

/// Those that may go without an end tag.
const UNENDED: &[&str] = &["td", "th", "tr", "thead", "tbody", "tfoot", "dt", "dd", "li"];

/// Which of those end where one of that name begins.
fn ended_by(name: &str) -> &'static [&'static str] {
    match name {
        "td" | "th" => &["td", "th"],
        "tr" => &["td", "th", "tr"],
        "thead" | "tbody" | "tfoot" => &["td", "th", "tr", "thead", "tbody", "tfoot"],
        "dt" | "dd" => &["dt", "dd"],
        "li" => &["li"],
        _ => &[],
    }
}

impl<'p> Element<'p> {
    pub fn attribute(&self, name: &str) -> Option<&'p str> {
        self.attributes.iter().find(|(each, _)| *each == name).map(|(_, value)| *value)
    }

    pub fn class(&self) -> &'p str {
        self.attribute("class").unwrap_or("")
    }

    /// The value of an attribute that is a number.
    pub fn number(&self, name: &str) -> Result<i64, String> {
        let value = self.attribute(name).unwrap_or("");
        value.parse().map_err(|_| format!("the {name} of a {} is '{value}'", self.name))
    }

    /// Its children of that name.
    pub fn named<'e>(&'e self, name: &'e str) -> impl Iterator<Item = &'e Element<'p>> {
        self.children.iter().filter(move |child| child.name == name)
    }

    /// Its only child of that name.
    pub fn only(&self, name: &str) -> Result<&Element<'p>, String> {
        let mut found = self.children.iter().filter(|child| child.name == name);
        match (found.next(), found.next()) {
            (Some(child), None) => Ok(child),
            (None, _) => Err(format!("a {} of class '{}' has no {name}", self.name, self.class())),
            _ => Err(format!("a {} of class '{}' has more than one {name}", self.name, self.class())),
        }
    }

    /// Itself and all below it, in the order of the page.
    pub fn all(&self) -> Vec<&Element<'p>> {
        let mut all = vec![self];
        self.children.iter().for_each(|child| all.extend(child.all()));
        all
    }
}

struct Open<'p> {
    element: Element<'p>,
    begins: usize,
}

struct Reader<'p> {
    page: &'p str,
    at: usize,
    open: Vec<Open<'p>>,
    root: Option<Element<'p>>,
}

impl<'p> Reader<'p> {
    fn rest(&self) -> &'p str {
        &self.page[self.at..]
    }

    fn takes(&mut self, text: &str) -> bool {
        let is_there = self.rest().starts_with(text);
        self.at += if is_there { text.len() } else { 0 };
        is_there
    }

    fn fault<T>(&self, what: &str) -> Result<T, String> {
        let line = 1 + self.page[..self.at].matches('\n').count();
        Err(format!("{what} in line {line} of the page, before '{}'", self.rest().chars().take(60).collect::<String>()))
    }

    /// Up to a character that is none of a name.
    fn word(&mut self) -> &'p str {
        let rest = self.rest();
        let end = rest.find(|c: char| !c.is_ascii_alphanumeric() && c != '-').unwrap_or(rest.len());
        self.at += end;
        &rest[..end]
    }

    fn is_open(&self, names: &[&str]) -> bool {
        self.open.last().is_some_and(|open| names.contains(&open.element.name))
    }

    /// Ends the last element that is open; its text ends at `end`.
    fn close(&mut self, end: usize) {
        let Some(Open { mut element, begins }) = self.open.pop() else { return };
        element.inner = &self.page[begins..end];
        match self.open.last_mut() {
            Some(outer) => outer.element.children.push(element),
            None => self.root = Some(element),
        }
    }

    fn text(&mut self) -> Result<(), String> {
        let rest = self.rest();
        let text = &rest[..rest.find('<').unwrap_or(rest.len())];
        if self.open.is_empty() && !text.trim().is_empty() {
            return self.fault("text outside of every element");
        }
        for (at, _) in text.match_indices('&') {
            if !is_reference(&text[at..]) {
                self.at += at;
                return self.fault("an & that begins no reference");
            }
        }
        self.at += text.len();
        Ok(())
    }

    fn end_tag(&mut self, begins: usize) -> Result<(), String> {
        let name = self.word();
        if !self.takes(">") {
            return self.fault("an end tag that does not end");
        }
        while !self.is_open(&[name]) && self.is_open(UNENDED) {
            self.close(begins);
        }
        if !self.is_open(&[name]) {
            return self.fault(&format!("an end of {name} where that is not open"));
        }
        self.close(begins);
        Ok(())
    }

    fn attribute(&mut self) -> Result<(&'p str, &'p str), String> {
        let name = self.word();
        if !ATTRIBUTES.contains(&name) {
            return self.fault(&format!("an attribute '{name}'"));
        }
        if !self.takes("=") {
            return Ok((name, ""));
        }
        let rest = self.rest();
        let Some(value) = rest.strip_prefix('\'').and_then(|rest| rest.split_once('\'')).map(|(value, _)| value) else {
            return self.fault("a value without quotes");
        };
        self.at += value.len() + 2;
        Ok((name, value))
    }

    fn start_tag(&mut self, begins: usize) -> Result<(), String> {
        let name = self.word();
        if !ELEMENTS.contains(&name) {
            return self.fault(&format!("an element '{name}'"));
        }
        while self.is_open(ended_by(name)) {
            self.close(begins);
        }
        if parents(name).is_some_and(|parents| !self.is_open(parents)) || (self.root.is_some() && self.open.is_empty())
        {
            return self.fault(&format!("a {name} in the wrong place"));
        }
        let mut attributes: Vec<(&str, &str)> = Vec::new();
        while self.takes(" ") {
            let next = self.attribute()?;
            if attributes.iter().any(|(name, _)| *name == next.0) {
                return self.fault("an attribute twice");
            }
            attributes.push(next);
        }
        let is_ended = self.takes("/");
        if is_ended && !self.open.iter().any(|open| open.element.name == "svg") {
            return self.fault("a tag that ends itself outside of a drawing");
        }
        if !self.takes(">") {
            return self.fault("a tag that does not end");
        }
        let element = Element { name, attributes, children: Vec::new(), inner: "" };
        self.open.push(Open { element, begins: self.at });
        if is_ended || name == "meta" {
            self.close(self.at);
        } else if name == "style" {
            let Some(end) = self.rest().find("</style") else { return self.fault("a style without an end") };
            self.at += end;
        }
        Ok(())
    }
}

/// What stands for markup, or a character by its number.
fn is_reference(text: &str) -> bool {
    let Some(name) = text.strip_prefix('&').and_then(|text| text.split_once(';')).map(|(name, _)| name) else {
        return false;
    };
    let is_number = |name: &str| !name.is_empty() && name.bytes().all(|byte| byte.is_ascii_digit());
    ["amp", "lt", "gt", "quot"].contains(&name) || name.strip_prefix('#').is_some_and(is_number)
}

/// The element `html` of a page.
pub fn read(page: &str) -> Result<Element<'_>, String> {
    let mut reader = Reader { page, at: 0, open: Vec::new(), root: None };
    if !reader.takes("<!DOCTYPE html>") {
        return reader.fault("not <!DOCTYPE html>");
    }
    while !reader.rest().is_empty() {
        reader.text()?;
        let begins = reader.at;
        if reader.takes("</") {
            reader.end_tag(begins)?;
        } else if reader.takes("<") {
            reader.start_tag(begins)?;
        }
    }
    match reader.root {
        Some(root) if reader.open.is_empty() && root.name == "html" => Ok(root),
        _ => Err("the page is not one html element that ends".into()),
    }
}

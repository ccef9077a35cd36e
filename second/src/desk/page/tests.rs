//! Pages that are right, and such as differ in one place.

use super::facts::{found, Job};
use super::markup::read as markup;
use super::names::{shown, Names, TAKEN};
use super::sha256::sum;
use super::whole::whole;
use super::{checked, Asked};
use crate::draft::image;
use crate::table::{Table, Task, Transaction};

/// The page of `table(4)` compared with `table(3)`, without its style and the sentences that every page has.
const EXAMPLE: &str = include_str!("example.html");

fn task(offset: i64, time: i64, deadline: i64, priority: i64) -> Task {
    Task { offset, jitter: 0, blocking: 0, deadline, priority, times: vec![time] }
}

fn transaction(period: i64, tasks: Vec<Task>) -> Transaction {
    Transaction { period, modes: 1, tasks }
}

/// A task in time whose jobs are held back, one that is late by its rivals and blocking, one in time, and an overload.
fn table(time: i64) -> Table {
    let held_back = Task { jitter: 13, ..task(7, 2, 1000, 9) };
    let late = Task { blocking: 3, ..task(10, time, 24, 1) };
    let transactions = vec![
        transaction(12, vec![held_back, late]),
        transaction(21, vec![task(0, 10, 1000, 5)]),
        transaction(84, vec![task(0, 84, 1000, 0)]),
    ];
    Table { frame: 84, transactions }
}

fn example() -> Asked {
    Asked {
        image: image(&table(4)),
        name: b"now's".to_vec(),
        names: Some(b"a&b\n\nlow\xff\n".to_vec()),
        old: Some((image(&table(3)), b"old".to_vec())),
    }
}

fn fault(page: &str, asked: &Asked) -> String {
    checked(page.as_bytes(), asked).err().unwrap_or_default()
}

#[test]
fn the_example_is_right() {
    let seen = checked(EXAMPLE.as_bytes(), &example()).map_err(|fault| panic!("{fault}")).unwrap();
    let codes: Vec<u32> = seen.answer.unwrap().iter().map(|cells| cells.code).collect();
    assert_eq!(codes, [0, 20, 0, 21]);
    assert_eq!(seen.of_image, ["compared with a table of the same shape", "with names"]);
    assert!(
        seen.of_tasks.contains(&"with time held back") && seen.of_tasks.contains(&"with a deadline beyond the axis")
    );
}

/// But for those that say how high a rectangle stands, how tall it is, and the place of an arrow's wings.
#[test]
fn every_figure_of_the_example_counts() {
    let asked = example();
    let body = EXAMPLE.find("<h1>").unwrap();
    let looks = |at: usize| {
        let before = EXAMPLE[..at].trim_end_matches(|c: char| c.is_ascii_digit());
        let is_wing = EXAMPLE[..at + 1].rfind("d='").is_some_and(|from| EXAMPLE[from..].starts_with("d='M42 3"));
        [" y='", "height='", "class='w"].iter().any(|end| before.ends_with(end))
            || before.ends_with("axis w")
            || is_wing
    };
    let mut tried = 0;
    for (at, digit) in EXAMPLE.bytes().enumerate().skip(body).filter(|(_, byte)| byte.is_ascii_digit()) {
        let mut page = EXAMPLE.as_bytes().to_vec();
        page[at] = if digit == b'9' { b'8' } else { digit + 1 };
        if !looks(at) {
            tried += 1;
            assert!(checked(&page, &asked).is_err(), "byte {at}: {}", &EXAMPLE[at - 40..at + 20]);
        }
    }
    assert!(tried > 500, "{tried}");
}

#[test]
fn every_tag_of_the_example_counts() {
    let asked = example();
    for (at, _) in EXAMPLE.match_indices('<') {
        let end = at + EXAMPLE[at..].find('>').unwrap() + 1;
        if !EXAMPLE[at..].starts_with("<meta") {
            let page = [&EXAMPLE[..at], &EXAMPLE[end..]].concat();
            assert!(checked(page.as_bytes(), &asked).is_err(), "{}", &EXAMPLE[at..end]);
        }
    }
}

#[test]
fn what_is_asked_for_counts() {
    let without = |change: fn(&mut Asked)| {
        let mut asked = example();
        change(&mut asked);
        fault(EXAMPLE, &asked)
    };
    assert!(without(|asked| asked.names = None).starts_with("task 1: the parts"));
    assert!(without(|asked| asked.old = None).starts_with("a heading of another table"));
    assert!(without(|asked| asked.name = b"nows".to_vec()).starts_with("the title"));
    assert!(without(|asked| asked.image = image(&table(3))).starts_with("the image in figures"));
    assert!(without(|asked| asked.old.as_mut().unwrap().0 = Vec::new()).starts_with("the other table"));
}

#[test]
fn order_and_openness_count() {
    let (from, to) = (EXAMPLE.find("<div id='a1t0'").unwrap(), EXAMPLE.find("<div id='a1t2'").unwrap());
    let end = EXAMPLE.find("</article>").unwrap();
    let swapped = [&EXAMPLE[..from], &EXAMPLE[to..end], &EXAMPLE[from..to], &EXAMPLE[end..]].concat();
    assert!(fault(&swapped, &example()).starts_with("the order of the tasks"));
    assert!(
        fault(&EXAMPLE.replace("task open' open", "task open'"), &example()).starts_with("task 1: whether it is open")
    );
}

fn of_refused(image: &[u8], paragraphs: &str) -> String {
    let verdict = "<p class='verdict open'>&#9650; The table is refused: nothing is known of its tasks.</p>";
    format!(
        "<!DOCTYPE html>\n<html lang='en'><head><title>x</title></head><body><article id='a1'><h1>x</h1>\n<dl>\n<dt>bytes<dd>\
         {}\n<dt>SHA-256<dd><span class='sum'>{}</span>\n</dl>\n{verdict}\n{paragraphs}</article></body></html>\n",
        image.len(),
        sum(image)
    )
}

#[test]
fn refusals_show_their_place() {
    let asked = |image: &[u8]| Asked { image: image.to_vec(), name: b"x".to_vec(), names: None, old: None };
    let inside =
        "<p>image refused (1): it ends inside a field, at byte 0, bit 4: major frame\n</p>\n<p>From byte 0 on: <span \
                  class='hex'> <mark>10</mark></span></p>\n<p>Byte 0, bit by bit, the most significant first: <span \
                  class='bits'>0001<mark>0</mark>000</span></p>\n";
    assert_eq!(fault(&of_refused(&[0x10], inside), &asked(&[0x10])), "");
    for (from, to) in
        [("bit 4", "bit 3"), ("<mark>10</mark>", "10"), ("0001<mark>0</mark>000", "00010<mark>0</mark>00")]
    {
        assert!(
            fault(&of_refused(&[0x10], &inside.replace(from, to)), &asked(&[0x10])).contains("a refusal"),
            "{from}"
        );
    }
    let behind =
        "<p>image refused (1): it ends inside a field, at byte 0, bit 0: edition\n</p>\n<p>From byte 0 on: <span \
                  class='hex'> <mark>end of the image</mark></span></p>\n";
    assert_eq!(fault(&of_refused(&[], behind), &asked(&[])), "");
}

fn page(body: &str) -> String {
    format!("<!DOCTYPE html><html><body>{body}</body></html>")
}

#[test]
fn end_tags_that_may_be_left_out() {
    let page = page(
        "<table><thead><tr><th>a<th>b<tbody><tr><td>1<td>2\n<tr><td>3<td><b>4</b><tfoot><tr><td>5</table>\
         <dl><dt>x<dd>y<dt>z<dd></dl><ul><li>p<li>q</ul>",
    );
    let root = markup(&page).unwrap();
    let body = root.only("body").unwrap();
    let rows: Vec<Vec<&str>> = body
        .all()
        .iter()
        .filter(|element| element.name == "tr")
        .map(|row| row.children.iter().map(|cell| cell.inner).collect())
        .collect();
    assert_eq!(rows, [vec!["a", "b"], vec!["1", "2\n"], vec!["3", "<b>4</b>"], vec!["5"]]);
    let list: Vec<&str> = body.only("dl").unwrap().children.iter().map(|child| child.inner).collect();
    assert_eq!(list, ["x", "y", "z", ""]);
    assert_eq!(body.only("ul").unwrap().children.len(), 2);
}

#[test]
fn pages_that_are_no_pages() {
    let faulty = [
        ("<p>a", "an end of body"),
        ("<p>a</div>", "an end of div"),
        ("<span><b></span></b>", "an end of span"),
        ("<td>a", "a td in the wrong place"),
        ("<li>a", "a li in the wrong place"),
        ("<script>1</script>", "an element 'script'"),
        ("<img src='x'>", "an element 'img'"),
        ("<p onclick='x'>a</p>", "an attribute 'onclick'"),
        ("<p src='x'>a</p>", "an attribute 'src'"),
        ("<p class=x>a</p>", "a value without quotes"),
        ("<p class='x' class='y'>a</p>", "an attribute twice"),
        ("<p/>", "a tag that ends itself"),
        ("a & b", "an & that begins no reference"),
        ("a &copy; b", "an & that begins no reference"),
        ("<!-- a -->", "an element ''"),
        ("a < b", "an element ''"),
        ("<p id='a'></p><p id='a'></p>", "the id 'a'"),
        ("<a href='#b'>a</a>", "'#b' leads nowhere"),
        ("<a href='http://x'>a</a>", "'http://x' leads nowhere"),
        ("<p style='background:url(x)'>a</p>", "a style has 'url('"),
        ("a\u{85}", "a control character"),
        ("a\tb", "a control character"),
    ];
    for (body, wanted) in faulty {
        let fault = whole(page(body).as_bytes()).map(|_| ()).expect_err(body);
        assert!(fault.contains(wanted), "{body}: {fault}");
    }
    assert!(whole(page("a &amp; b &#39;&lt;").as_bytes()).is_ok());
    assert!(whole(b"<html></html>").is_err() && whole(b"<!DOCTYPE html><p></p>").is_err() && whole(b"\xff").is_err());
    assert!(whole(b"<!DOCTYPE html><html></html><html></html>").is_err());
}

#[test]
fn names_as_they_are_shown() {
    let shown_as: [(&[u8], &str); 9] = [
        (b"a<b>&\"'c", "a&lt;b&gt;&amp;&quot;&#39;c"),
        ("é漢𝄞\u{a0}".as_bytes(), "é漢𝄞\u{a0}"),
        (b"\t\x1b\x7f", "&#65533;&#65533;&#65533;"),
        ("\u{80}\u{9f}".as_bytes(), "&#65533;&#65533;"),
        (b"\xe2\x82a", "&#65533;&#65533;a"),
        (b"\xc0\x80", "&#65533;&#65533;"),
        (b"\xed\xa0\x80", "&#65533;&#65533;&#65533;"),
        (b"\xf4\x90\x80\x80", "&#65533;&#65533;&#65533;&#65533;"),
        (b"&amp;", "&amp;amp;"),
    ];
    for (name, wanted) in shown_as {
        assert_eq!(shown(name), wanted);
    }
    let names = Names::of(b"one\n\nthree");
    let told = [0, 1, 2, 3].map(|number| names.task(number));
    assert_eq!(told, ["task 0 <bdi>one</bdi>", "task 1", "task 2 <bdi>three</bdi>", "task 3"]);
    assert_eq!(Names::of(&vec![b'x'; TAKEN + 1]).task(0).len(), "task 0 <bdi></bdi>".len() + TAKEN);
}

/// Document 01's task of jitter 12: phase 8, jobs −1 and 0 are held back, and the first of them gives the bound.
#[test]
fn jobs_by_hand() {
    let alone = Task { jitter: 12, ..task(0, 2, 20, 1) };
    let table = Table { frame: 10, transactions: vec![transaction(10, vec![alone])] };
    let [ref lane] = found(&table)[0].lanes[..] else { panic!("one task") };
    assert_eq!((lane.phase, lane.held, lane.ticks), (8, 2, 2));
    assert_eq!((lane.early(), lane.later(2)), (vec![Job { at: 0, ticks: 2 }], vec![]));

    // Task 0 of the example below the late one: two jobs held back, and those at 11 and 23 before 35.
    let table = self::table(4);
    let lanes = &found(&table)[1].lanes;
    assert_eq!(lanes[0].early(), [Job { at: 0, ticks: 2 }, Job { at: 2, ticks: 2 }]);
    assert_eq!(lanes[0].later(35), [Job { at: 11, ticks: 2 }, Job { at: 23, ticks: 2 }]);
}

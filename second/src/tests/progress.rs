//! The line that shows how far a command is.

use crate::progress::Progress;
use std::time::Duration;

fn shown(every: Duration, show: impl Fn(&mut Progress<&mut Vec<u8>>)) -> String {
    let mut bytes = Vec::new();
    let mut progress = Progress::on(Some(&mut bytes), every);
    show(&mut progress);
    drop(progress);
    String::from_utf8(bytes).unwrap()
}

#[test]
fn the_line_is_written_over_and_gone_at_the_end() {
    let text = shown(Duration::ZERO, |progress| {
        progress.show("tasks", 9, 10);
        progress.show("runs", 1, 2);
    });
    assert_eq!(text, "\rtasks 9 of 10\rruns 1 of 2  \r             \r");
}

#[test]
fn a_short_command_shows_no_line() {
    assert_eq!(shown(Duration::from_secs(60), |progress| progress.show("runs", 1, 2)), "");
}

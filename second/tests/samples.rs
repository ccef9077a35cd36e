//! The samples and the stored cases: what they list, and that their first three cells are those of document 01, as they were
//! before document 02's second request gave a task three more, its fourth raised the limits, its fifth the deadlines that
//! nobody could keep, and its sixth the program's budget.

use std::fs::{read, read_dir, read_to_string, write, File};
use std::path::{Path, PathBuf};
use std::process::{Command, Stdio};

fn top() -> PathBuf {
    Path::new(env!("CARGO_MANIFEST_DIR")).join("..")
}

fn printed(command: &str, input: &Path) -> String {
    let input = Stdio::from(File::open(input).unwrap());
    let output = Command::new(env!("CARGO_BIN_EXE_second")).arg(command).stdin(input).output().unwrap();
    String::from_utf8(output.stdout).unwrap()
}

/// The names of the samples, in order.
fn samples() -> Vec<String> {
    let files = read_dir(top().join("samples")).unwrap().map(|file| file.unwrap().file_name().into_string().unwrap());
    let mut names: Vec<String> = files.filter_map(|file| file.strip_suffix(".table").map(String::from)).collect();
    names.sort();
    names
}

/// FNV-1a, 64 bits.
fn digest(text: &str) -> u64 {
    text.bytes().fold(0xCBF2_9CE4_8422_2325, |hash, byte| (hash ^ byte as u64).wrapping_mul(0x100_0000_01B3))
}

fn image(name: &str) -> PathBuf {
    top().join(format!("samples/{name}.table"))
}

fn expected(name: &str) -> String {
    read_to_string(top().join(format!("samples/{name}.expected"))).unwrap()
}

#[test]
fn every_sample_lists_as_expected() {
    for name in samples() {
        assert_eq!(printed("list", &image(&name)), expected(&name), "{name}");
    }
}

/// A sample without plain responses is refused, as in its listing or else with 31.
#[test]
fn every_sample_has_its_plain_responses() {
    let mut with_responses = 0;
    for name in samples() {
        let file = top().join(format!("samples/{name}.plain"));
        with_responses += file.exists() as u32;
        let text = match expected(&name) {
            refused if refused.starts_with("refused") => refused,
            _ => read_to_string(file).unwrap_or("refused 31 0\n".into()),
        };
        assert_eq!(printed("plain", &image(&name)), text, "{name}");
    }
    assert_eq!(with_responses, 13);
}

/// The lines of every sample under a budget, task by task, as they stand behind the task's number in its listing; none of a
/// refused image.
fn lines_under(budget: u32) -> Vec<Vec<String>> {
    let mut stream = Vec::new();
    for name in samples() {
        let image = read(image(&name)).unwrap();
        stream.extend([&budget.to_be_bytes()[..], &(image.len() as u16).to_be_bytes(), &image].concat());
    }
    let file = Path::new(env!("CARGO_TARGET_TMPDIR")).join("samples.stream");
    write(&file, stream).unwrap();
    let tasks = |line: &str| -> Vec<String> {
        let cells: Vec<&str> = line.strip_prefix("accepted ").map_or(Vec::new(), |cells| cells.split(' ').collect());
        cells.chunks(6).map(|task| task.join(" ")).collect()
    };
    printed("answer", &file).lines().map(tasks).collect()
}

/// 'A greater budget must never alter a task's line unless that line was 23', beside the budget of before the sixth request.
#[test]
fn only_what_was_23_lists_otherwise_than_under_the_former_budget() {
    let mut altered = Vec::new();
    let former = lines_under(1_000_000);
    assert_eq!(former.len(), samples().len());
    for (name, former) in samples().iter().zip(former) {
        let listing = expected(name);
        let lines: Vec<&str> = listing.lines().skip(1).collect();
        assert_eq!(lines.len(), former.len(), "{name}");
        for (task, (line, former)) in lines.iter().zip(former).enumerate() {
            if **line != format!("{task} {former}") {
                assert_eq!(former, "23 0 1000000 0 0 0", "{name}, task {task}");
                altered.push(format!("{name}: {line}"));
            }
        }
    }
    let expected = [
        "backlog: 1 0 12168 1481487 0 1 23",
        "not-decided: 0 23 0 100000000 0 0 0",
        "past-horizon: 0 22 0 1677722 0 0 0",
        "past-horizon-together: 1 22 0 1677722 0 0 0",
    ];
    assert_eq!(altered, expected);
}

#[test]
fn the_stored_cases_are_answered_as_stored() {
    let file = |name: &str| top().join(format!("crates/many/{name}"));
    assert_eq!(digest(&printed("answer", &file("stdin"))), digest(&read_to_string(file("stdout")).unwrap()));
}

/// The samples that came with the second request.
const SECOND: [&str; 3] = ["fifth-job", "pushed", "ties"];
/// And those that came with the fourth, or were made anew for it.
const FOURTH: [&str; 5] = ["cockpit", "longest", "most-tasks", "most-transactions", "refused-07-tasks-in-all"];
/// And those that came with the fifth.
const FIFTH: [&str; 4] =
    ["just-enough", "refused-14-below-offset", "refused-14-longest-mode", "refused-14-one-tick-short"];
/// And those that came with the sixth, or had 23 before it.
const SIXTH: [&str; 4] = ["backlog", "not-decided", "past-horizon", "past-horizon-together"];
/// And those that came with the seventh.
const SEVENTH: [&str; 4] = ["plain-full", "plain-held-back", "plain-horizon", "plain-offsets"];

/// Cases that were stored before the fourth request, and how many tasks a table had at most.
const STORED: usize = 3000;
const TASKS: usize = 64;

/// The digests are those of the texts before the second request: all listings in order of their names, and the stored lines
/// of what was accepted. In these 20 counts as 0, since for the fifth request deadlines that nobody could keep were raised to
/// offset plus greatest time: of 1854 bounds above their deadlines these are left.
#[test]
fn the_first_three_cells_are_what_they_were() {
    let mut listings = String::new();
    let is_new = |name: &&String| [&SECOND[..], &FOURTH, &FIFTH, &SIXTH, &SEVENTH].concat().contains(&name.as_str());
    for name in samples().iter().filter(|name| !is_new(name)) {
        for line in expected(name).lines() {
            listings += &line.split(' ').take(4).collect::<Vec<_>>().join(" ");
            listings.push('\n');
        }
    }
    assert_eq!(digest(&listings), 0xF95F_712A_9039_7CA8);

    let (mut lines, mut late) = (String::new(), 0);
    for line in printed("answer", &top().join("crates/many/stdin")).lines().take(STORED) {
        let Some(cells) = line.strip_prefix("accepted ") else { continue };
        let cells: Vec<&str> = cells.split(' ').collect();
        if cells.len() <= 6 * TASKS {
            lines += "accepted";
            for task in cells.chunks(6) {
                let is_late = task[0] == "20";
                late += is_late as u32;
                let code = if is_late { "0" } else { task[0] };
                lines += &format!(" {code} {} {}", task[1], task[2]);
            }
            lines.push('\n');
        }
    }
    assert_eq!(digest(&lines), 0x9A6B_01C4_BC04_F3B3);
    assert_eq!(late, 1803);
}

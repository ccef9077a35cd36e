//! What the program is to those who start it: where it writes, how it ends, and what it does when nobody listens.

use std::fs::File;
use std::io::{Read, Write};
use std::process::{Command, Output, Stdio};

fn second(words: &[&str]) -> Command {
    let mut command = Command::new(env!("CARGO_BIN_EXE_second"));
    command.args(words).stdin(Stdio::null());
    command
}

fn output(words: &[&str]) -> Output {
    second(words).output().unwrap()
}

fn text(bytes: &[u8]) -> &str {
    std::str::from_utf8(bytes).unwrap()
}

#[test]
fn help_is_on_standard_output() {
    for words in [&["help"][..], &["--help"], &["-h"], &["compare", "--help"], &["simulate", "--help", "--wide"]] {
        let output = output(words);
        assert_eq!(output.status.code(), Some(0), "{words:?}");
        assert!(text(&output.stdout).contains("second simulate"), "{words:?}");
        assert!(output.stderr.is_empty(), "{words:?}");
    }
}

#[test]
fn what_cannot_be_carried_out_is_told_with_status_3() {
    let cases = [
        (&[][..], "a command is missing"),
        (&["lst"], "there is no command lst"),
        (&["list", "more"], "what is more?"),
        (&["host", "0"], "BUDGET needs a number"),
        (&["generate", "--cases", "1"], "--seed is missing"),
        (&["generate", "--cases", "many", "--seed", "1"], "--cases needs a number"),
        (&["generate", "--cases", "1", "--seed", "1", "--who", "--full"], "what is --full?"),
        (&["generate", "--cases", "1", "--seed", "1", "--plain", "--full"], "what is --plain?"),
        (&["compare", "--cases", "1", "--seed", "1"], "--program is missing"),
        (&["compare", "--cases", "1", "--seed", "1", "--program", "/no/program"], "/no/program: "),
        (&["write", "--cases", "1", "--seed", "1"], "--program is missing"),
        (&["write", "--cases", "1", "--seed", "1", "--program", "/no/program"], "/no/program: "),
        (&["words", "--aligned"], "what is --aligned?"),
        (&["show", "--open"], "what is --open?"),
        (&["plain", "--open"], "what is --open?"),
        (&["words", "--cases", "1", "--seed", "1"], "--program is missing"),
        (&["plain", "--cases", "1", "--seed", "1"], "--program is missing"),
        (&["plain", "--explain", "--cases", "1", "--seed", "1", "--program", "true"], "what is --explain?"),
        (&["show", "--cases", "1", "--program", "true"], "--seed is missing"),
        (&["words", "--open", "--cases", "1", "--seed", "1", "--program", "true"], "what is --open?"),
        (&["show", "--cases", "1", "--seed", "1", "--program", "/no/program"], "/no/program: "),
        (&["page", "--cases", "1", "--seed", "1"], "--program is missing"),
        (&["page"], "--program is missing"),
        (&["page", "--cases", "1", "--seed", "1", "--program", "/no/program"], "/no/program: "),
        (&["simulate", "/no/file"], "/no/file: "),
        (&["simulate", "/"], "/: "),
        (&["simulate", "--seed", "1"], "--runs is missing"),
        (&["simulate", "--runs", "1", "--seed", "1", "--budget", "9"], "--budget goes with a FILE"),
        (&["simulate", "--narrow"], "what is --narrow?"),
    ];
    for (words, told) in cases {
        let output = output(words);
        assert_eq!(output.status.code(), Some(3), "{words:?}");
        assert!(text(&output.stderr).starts_with(&format!("second: {told}")), "{words:?}: {output:?}");
        assert!(output.stdout.is_empty(), "{words:?}");
    }
}

/// Far more is to be written than a pipe holds, and the reader leaves early or before the first byte.
#[test]
fn a_closed_pipe_ends_it_without_a_word() {
    for read in [0, 100] {
        let mut command = second(&["generate", "--cases", "1000000000", "--seed", "1"]);
        let mut child = command.stdout(Stdio::piped()).stderr(Stdio::piped()).spawn().unwrap();
        let mut reader = child.stdout.take().unwrap();
        reader.read_exact(&mut vec![0; read]).unwrap();
        drop(reader);
        let output = child.wait_with_output().unwrap();
        assert_eq!(text(&output.stderr), "");
        assert_eq!(output.status.code(), Some(3));
    }
}

#[test]
fn output_that_cannot_be_written_is_told_with_status_3() {
    let Ok(full) = File::options().write(true).open("/dev/full") else { return };
    for words in
        [&["help"][..], &["generate", "--cases", "9", "--seed", "1"], &["list"], &["words"], &["show"], &["plain"]]
    {
        let output = second(words).stdout(full.try_clone().unwrap()).output().unwrap();
        assert_eq!(output.status.code(), Some(3), "{words:?}");
        assert!(text(&output.stderr).starts_with("second: standard output: "), "{words:?}: {output:?}");
    }
}

/// No more of an endless input is read than shows that it is no table.
#[test]
fn an_endless_input_is_refused() {
    let words = "image refused (2): edition is not 1, at byte 0, bit 0: edition\n";
    for (command, expected) in
        [("list", "refused 2 0\n"), ("plain", "refused 2 0\n"), ("words", words), ("show", words)]
    {
        let output = second(&[command]).stdin(File::open("/dev/zero").unwrap()).output().unwrap();
        assert_eq!(text(&output.stdout), expected);
    }
}

#[test]
fn a_program_that_answers_otherwise_is_a_difference() {
    for (command, itself, told) in [("compare", "answer", "accepted: "), ("write", "write", "written: ")] {
        let compare = |program: &[&str]| {
            output(&[&[command, "--cases", "40", "--seed", "1", "--batch", "20", "--program"], program].concat())
        };
        let same = compare(&[env!("CARGO_BIN_EXE_second"), itself]);
        assert_eq!(same.status.code(), Some(0), "{same:?}");
        assert!(text(&same.stdout).starts_with("seed 1: 40 cases, no difference\n"));
        assert!(text(&same.stdout).contains(told), "{same:?}");
        let other = compare(&["true"]);
        assert_eq!(other.status.code(), Some(1), "{other:?}");
        assert!(text(&other.stdout).starts_with("difference at seed 1 case 0 "));
    }
}

/// What it is started with stands behind its words, and a page that is none is a difference.
#[test]
fn a_program_that_writes_no_page_is_a_difference() {
    let page = |script: &str| output(&["page", "--cases", "9", "--seed", "1", "--program", "sh", "-c", script, "x"]);
    for (script, told) in [
        ("true", ": not <!DOCTYPE html> in line 1 of the page"),
        ("echo '<!DOCTYPE html><p>'; cat <&4 <&5", ": the page is not one html element that ends"),
        ("echo \"$1 $2 $3 $4 $5\"", ", before 'page - - - 1\n"),
    ] {
        let other = page(script);
        assert_eq!(other.status.code(), Some(1), "{other:?}");
        assert!(text(&other.stdout).starts_with("difference at seed 1 case 0: "), "{other:?}");
        assert!(text(&other.stdout).contains(told), "{script}: {other:?}");
        assert!(text(&other.stdout).contains("\nimage "), "{script}: {other:?}");
    }
}

/// Of those at full load none is refused, and another count of evaluations shows.
#[test]
fn a_program_that_counts_otherwise_at_full_load_is_a_difference() {
    let compare = |script: &str| {
        let words = ["compare", "--full", "--cases", "40", "--seed", "1", "--program", "sh", "-c", script];
        output(&[&words[..], &[env!("CARGO_BIN_EXE_second")]].concat())
    };
    let same = compare("exec \"$0\" answer");
    assert_eq!(same.status.code(), Some(0), "{same:?}");
    assert!(text(&same.stdout).starts_with("seed 1: 40 cases, no difference\naccepted: 40 images\n"), "{same:?}");
    let other = compare("\"$0\" answer | sed 's/ 22 0 [0-9]*/&0/'");
    assert_eq!(other.status.code(), Some(1), "{other:?}");
    assert!(text(&other.stdout).contains("\nprogram accepted "), "{other:?}");
}

/// One line among those of a case, and one line too few.
#[test]
fn a_program_that_names_somebody_else_is_a_difference() {
    let compare = |script: &str| {
        let words = ["compare", "--who", "--cases", "60", "--seed", "1", "--program", "sh", "-c", script];
        output(&[&words[..], &[env!("CARGO_BIN_EXE_second")]].concat())
    };
    let same = compare("exec \"$0\" answer");
    assert_eq!(same.status.code(), Some(0), "{same:?}");
    assert!(text(&same.stdout).contains("charge above 0: "), "{same:?}");
    for (script, line) in [
        ("\"$0\" answer | sed 's/^\\(part [0-9]* [0-9]* [0-9]* [0-9]* \\).*/\\1x/'", "\nprogram part "),
        ("\"$0\" answer | sed 's/^\\(charge [0-9]* \\).* /\\1x /'", "\nprogram charge "),
        ("\"$0\" answer | sed '/^part [0-9]* [0-9]* own/d'", "\nsecond  part "),
    ] {
        let other = compare(script);
        assert_eq!(other.status.code(), Some(1), "{script}: {other:?}");
        assert!(text(&other.stdout).contains(line), "{script}: {other:?}");
    }
}

/// One byte of one buffer, or the last cell that was read back: five words stand before the cells of a row.
#[test]
fn a_program_that_writes_one_thing_otherwise_is_a_difference() {
    for word in [3, 5 + 5 + 63 * 5 + 128 * 14] {
        let script = format!("\"$0\" write | awk 'NR == 9 {{ $({word}) = $({word}) \"0\" }} {{ print }}'");
        let program = ["--program", "sh", "-c", &script, env!("CARGO_BIN_EXE_second")];
        let output = output(&[&["write", "--cases", "20", "--seed", "4"], &program[..]].concat());
        assert_eq!(output.status.code(), Some(1), "{output:?}");
        assert!(text(&output.stdout).starts_with("difference at seed 4 case 8 buffer "));
    }
}

/// Either of the two lines of a case, by one.
#[test]
fn a_program_that_finds_another_plain_response_is_a_difference() {
    let compare = |script: &str| {
        let words = ["compare", "--plain", "--cases", "60", "--seed", "1", "--program", "sh", "-c", script];
        output(&[&words[..], &[env!("CARGO_BIN_EXE_second")]].concat())
    };
    let same = compare("exec \"$0\" answer");
    assert_eq!(same.status.code(), Some(0), "{same:?}");
    assert!(text(&same.stdout).contains("\nresponse above the period: "), "{same:?}");
    for (name, line) in [("plain", "\nprogram plain "), ("approximate", "\nprogram approximate ")] {
        let script = format!("\"$0\" answer | awk '$1 == \"{name}\" && ++n == 9 {{ $2++ }} {{ print }}'");
        let other = compare(&script);
        assert_eq!(other.status.code(), Some(1), "{name}: {other:?}");
        assert!(text(&other.stdout).contains(line), "{name}: {other:?}");
        assert!(text(&other.stdout).contains(" plain, k "), "{name}: {other:?}");
    }
}

/// A program that takes `open`, `aligned` and `explain` as its last word, and may say something on standard error.
#[test]
fn a_program_that_tells_otherwise_is_a_difference() {
    let itself = "echo heard >&2; exec \"$0\" \"$1\" ${2:+--$2}";
    let compare = |command: &str, script: &str| {
        let words = [command, "--cases", "60", "--seed", "2", "--program", "sh", "-c", script];
        output(&[&words[..], &[env!("CARGO_BIN_EXE_second"), command]].concat())
    };
    for (command, name) in [("words", "words"), ("show", "text"), ("plain", "plain responses")] {
        let same = compare(command, itself);
        assert_eq!(same.status.code(), Some(0), "{same:?}");
        assert!(text(&same.stdout).starts_with(&format!("seed 2: {name} of 60 images, no difference\nrefused 1: ")));
        assert!(text(&same.stdout).contains("\naccepted: "));
        assert_eq!(text(&same.stderr), "");
        let silent = compare(command, "echo heard >&2");
        assert_eq!(silent.status.code(), Some(1), "{silent:?}");
        assert!(text(&silent.stdout).starts_with("difference at seed 2 case 0 in line 1\nimage 1"), "{silent:?}");
        assert_eq!(text(&silent.stderr), "heard\n");
        let without_the_word = compare(command, "exec \"$0\" \"$1\"");
        assert_eq!(without_the_word.status.code(), Some(1), "{without_the_word:?}");
        let more = compare(command, "\"$0\" \"$1\" ${2:+--$2}; printf more");
        assert!(text(&more.stdout).ends_with("\nmore\nand no line feed at its end\n"), "{more:?}");
    }
}

/// The one-task image that document 01 prints.
fn image() -> Vec<u8> {
    [&[0x10, 0, 0, 0xA0, 0x40, 0, 2, 0x84, 0x20][..], &[0; 11], &[0x50, 0x28, 0, 0, 0x18]].concat()
}

fn output_for(words: &[&str], input: &[u8]) -> Output {
    let mut child = second(words).stdin(Stdio::piped()).stdout(Stdio::piped()).spawn().unwrap();
    child.stdin.take().unwrap().write_all(input).unwrap();
    child.wait_with_output().unwrap()
}

/// A file that holds these bytes.
fn file(name: &str, bytes: &[u8]) -> String {
    let path = format!("{}/{name}", env!("CARGO_TARGET_TMPDIR"));
    std::fs::write(&path, bytes).unwrap();
    path
}

#[test]
fn an_image_on_standard_input_is_listed() {
    let output = output_for(&["list"], &image());
    assert_eq!(text(&output.stdout), "task code bound evaluations mode candidate job\n0 0 3 3 0 0 0\n");
    assert_eq!(output.status.code(), Some(0));
}

#[test]
fn an_image_on_standard_input_is_told_in_words_and_shown() {
    let last = "1 task: all in time; least to spare 7 (task 0)\n";
    let line = "task trans     period priority      bound   deadline\n   \
                   0     0         10        5          3         10  in time, 7 to spare\n";
    let cases = [
        (&["words"][..], [line, last].concat()),
        (&["words", "--open"], last.into()),
        (&["show"], "frame 10\ntrans 10 1\ntask 0 0 0 10 5 3\n".into()),
        (&["plain"], "task code bound number response\n0 0 3 0 3\n".into()),
        (
            &["plain", "--explain"],
            "task     period     offset   response      bound\n   \
                0         10          0          3          3  agree: the bound is response + offset\n\
             1 task: all agree\n"
                .into(),
        ),
        (
            &["show", "--aligned"],
            "frame        10\ntrans        10         1\n\
             task          0         0         0        10         5         3\n"
                .into(),
        ),
    ];
    for (words, expected) in cases {
        let output = output_for(words, &image());
        assert_eq!(text(&output.stdout), expected, "{words:?}");
        assert_eq!(output.status.code(), Some(0), "{words:?}");
    }
}

#[test]
fn runs_of_a_file_show_the_longest_response_beside_the_bound() {
    let file = file("one task.table", &image());
    let played = output(&["simulate", &file, "--runs", "20", "--seed", "3"]);
    assert_eq!(played.status.code(), Some(0));
    assert_eq!(text(&played.stdout).lines().nth(1), Some("   0    0        10         3         3"));
    assert!(text(&played.stdout).contains("\nseed 3\nruns 20\n"));
    let other_order = output(&["simulate", "--seed", "3", "--runs", "20", &file]);
    assert_eq!(other_order.stdout, played.stdout);
    let from_input = output_for(&["simulate", "-", "--runs", "20", "--seed", "3"], &image());
    assert_eq!(from_input.stdout, played.stdout);
    let undecided = output(&["simulate", &file, "--runs", "20", "--seed", "3", "--budget", "2"]);
    assert_eq!(text(&undecided.stdout).lines().nth(1), Some("   0   23        10      none         3"));
    let by_default = output(&["simulate", &file, "--wide"]);
    assert_eq!(by_default.status.code(), Some(0));
    assert!(text(&by_default.stdout).contains("\nseed 1\nruns 10000\n"));
}

#[test]
fn a_refused_file_ends_with_status_2() {
    let output = output(&["simulate", &file("cut.table", &image()[..9])]);
    assert_eq!(text(&output.stdout), "refused 1 67\n");
    assert_eq!(output.status.code(), Some(2));
}

/// The program takes longer than a terminal has to wait for a line.
#[test]
fn a_log_has_no_progress() {
    let slow = ["sh", "-c", "sleep 0.8; exec \"$0\" answer", env!("CARGO_BIN_EXE_second")];
    let output = output(&[&["compare", "--cases", "2", "--seed", "1", "--program"], &slow[..]].concat());
    assert_eq!(text(&output.stderr), "");
    assert!(text(&output.stdout).starts_with("seed 1: 2 cases, no difference\n"));
}

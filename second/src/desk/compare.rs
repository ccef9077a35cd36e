//! Comparing the text that another program prints with ours, image by image.

use crate::compare::{hex, run, Counts};
use crate::desk::Text;
use std::ffi::OsString;
use std::io::{self, Write};
use std::process::{Command, Stdio};

pub struct Plan {
    pub text: Text,
    pub cases: u64,
    pub seed: u64,
    pub program: Vec<OsString>,
}

/// Whether no image differs, and what is to be said of it. The program is started once for each image, with each choice of
/// the text's words behind it in turn. A dear image is left out and another taken. `watch` gets the number of images so
/// far.
pub fn compare(plan: &Plan, watch: &mut dyn FnMut(u64)) -> io::Result<(bool, String)> {
    let mut counts = Counts::default();
    let images = (0..).map(|index| (index, plan.text.image(plan.seed, index)));
    let cheap = images.filter(|(_, image)| !plan.text.is_dear(image));
    for (done, (index, image)) in (1..=plan.cases).zip(cheap) {
        let words: Vec<&str> =
            (0..).zip(plan.text.words()).filter(|(i, _)| index >> i & 1 == 1).map(|(_, word)| *word).collect();
        let ours = plan.text.told(&image, &words);
        let mut command = Command::new(&plan.program[0]);
        command.args(&plan.program[1..]).args(&words).stderr(Stdio::piped());
        let theirs = run(&mut command, image.clone())?;
        if theirs.stdout != ours.text.as_bytes() {
            // What it says on standard error is not compared, but it may be the reason.
            let _ = io::stderr().write_all(&theirs.stderr);
            let words: String = words.iter().map(|word| format!(" {word}")).collect();
            let at = format!("seed {} case {index}{words}", plan.seed);
            return Ok((false, difference(&at, &image, &ours.text, &theirs.stdout)));
        }
        counts.add(&ours.answer);
        ours.plain.iter().for_each(|judged| counts.add_task(judged.sort()));
        watch(done);
    }
    let Plan { text, cases, seed, .. } = plan;
    Ok((true, format!("seed {seed}: {} of {cases} images, no difference\n{counts}", text.name())))
}

fn difference(at: &str, image: &[u8], ours: &str, theirs: &[u8]) -> String {
    let same = ours.bytes().zip(theirs).take_while(|(our, their)| our == *their);
    let line = 1 + same.filter(|(our, _)| *our == b'\n').count();
    let theirs = String::from_utf8_lossy(theirs);
    let end = if theirs.is_empty() || theirs.ends_with('\n') { "" } else { "\nand no line feed at its end\n" };
    format!("difference at {at} in line {line}\nimage {}\nsecond:\n{ours}program:\n{theirs}{end}", hex(image))
}

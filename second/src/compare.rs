//! Comparing another program with this one, case by case, over the stream.

use crate::answer::{answered, Answer, Cells, PlainAnswer};
use crate::generate;
use crate::image::{read, Refusal};
use crate::parts::Charge;
use crate::plain::{self, NO_APPROXIMATION};
use crate::stream::{self, Asked, Question};
use crate::table::Table;
use std::cmp::Ordering;
use std::collections::BTreeMap;
use std::ffi::OsString;
use std::fmt::{self, Display};
use std::io::{self, Write};
use std::marker::PhantomData;
use std::process::{Command, Output, Stdio};

pub struct Plan {
    pub cases: u64,
    pub seed: u64,
    pub batch: u64,
    pub program: Vec<OsString>,
}

/// What is compared over a stream: its cases, and our own lines for each. Shown, it says how often each answer came.
pub trait Compared: Default + Display {
    type Case;
    /// Case `index` of a seed depends on nothing else.
    fn case(seed: u64, index: u64) -> Self::Case;
    fn encoded(case: &Self::Case) -> Vec<u8>;
    /// The lines of a case, counted.
    fn answered(&mut self, case: &Self::Case) -> String;
    /// All that a case holds, for a reader.
    fn told(case: &Self::Case) -> String;
}

/// How often each answer came: refusals, charges and what the plain analysis gives by case, codes and what the bound is
/// beside a plain response by task, and of the bounds those that come from a mode above 0, from another candidate than the
/// task itself, or from a later job than the first.
#[derive(Default)]
pub struct Counts {
    refused: BTreeMap<u32, u64>,
    accepted: u64,
    codes: BTreeMap<u32, u64>,
    evaluations: u64,
    other_modes: u64,
    other_candidates: u64,
    later_jobs: u64,
    images: BTreeMap<&'static str, u64>,
    tasks: BTreeMap<&'static str, u64>,
}

impl Counts {
    pub fn add(&mut self, answer: &Result<Vec<Cells>, Refusal>) {
        match answer {
            Err(refusal) => *self.refused.entry(refusal.number).or_default() += 1,
            Ok(row) => {
                self.accepted += 1;
                for (number, cells) in row.iter().enumerate() {
                    *self.codes.entry(cells.code).or_default() += 1;
                    self.evaluations += cells.evaluations as u64;
                    self.other_modes += (cells.mode > 0) as u64;
                    self.other_candidates += (cells.bound > 0 && cells.candidate != number as u32) as u64;
                    self.later_jobs += (cells.job > 0) as u64;
                }
            }
        }
    }

    fn add_charge(&mut self, answer: &Result<Charge, Refusal>) {
        let name = match answer {
            Err(refusal) => return *self.refused.entry(refusal.number).or_default() += 1,
            Ok(Charge::Missing) => "no such transaction",
            Ok(Charge::Own) => "own transaction",
            Ok(Charge::Nobody) => "no rival",
            Ok(Charge::Greatest(greatest)) if greatest.charge == 0 => "charge 0, named",
            Ok(Charge::Greatest(_)) => "charge above 0",
        };
        *self.images.entry(name).or_default() += 1;
    }

    /// A refusal of the table, of the task or of the response counts once, though each gives a line of its own.
    fn add_plain(&mut self, question: Question, image: &[u8], answer: &PlainAnswer) {
        let Question::Plain { task, k, t } = question else { unreachable!("a plain answer to a plain question") };
        match answer.response {
            Err(refusal) => *self.refused.entry(refusal.number).or_default() += 1,
            Ok(_) => self.accepted += 1,
        }
        let table = read(image).ok().filter(|table| (task as usize) < table.transactions.len());
        let Some(table) = table else { return };
        let own = &table.transactions[task as usize];
        let mut names = Vec::new();
        if let Ok(response) = answer.response {
            names.push(match response.cmp(&own.period) {
                Ordering::Less => "response below the period",
                Ordering::Equal => "response at the period",
                Ordering::Greater => "response above the period",
            });
            names.extend((response > Table::HORIZON).then_some("response above the horizon"));
        }
        match answer.approximation {
            Err(refusal) if refusal.number == NO_APPROXIMATION => names.push("approximation refused 33"),
            Err(_) => (),
            Ok(value) => {
                let (jitter, time) = (own.tasks[0].jitter, own.tasks[0].times[0]);
                let (k, t) = (k as i64, t as i64);
                let above = value - own.period * plain::request(own.period, jitter, time, t);
                names.push(match plain::is_exact(own.period, jitter, k, t) {
                    true => "approximation up to its edge",
                    false => "approximation beyond its edge",
                });
                names.extend((t + jitter == (k - 1) * own.period).then_some("approximation at its edge"));
                names.extend((above == time * own.period).then_some("approximation C above the request"));
            }
        }
        for name in names {
            *self.images.entry(name).or_default() += 1;
        }
    }

    /// One more image of that sort.
    pub fn add_image(&mut self, name: &'static str) {
        *self.images.entry(name).or_default() += 1;
    }

    /// One more task of that sort.
    pub fn add_task(&mut self, name: &'static str) {
        *self.tasks.entry(name).or_default() += 1;
    }
}

impl Compared for Counts {
    type Case = Asked;

    fn case(seed: u64, index: u64) -> Asked {
        generate::case(seed, index).asked()
    }

    fn encoded(case: &Asked) -> Vec<u8> {
        stream::encoded(case)
    }

    fn answered(&mut self, case: &Asked) -> String {
        let (answer, text) = answered(case);
        match &answer {
            Answer::Cells(answer) => self.add(answer),
            Answer::Charge(charge) => self.add_charge(charge),
            Answer::Plain(plain) => self.add_plain(case.question, &case.image, plain),
        }
        text
    }

    fn told(case: &Asked) -> String {
        let Asked { question, image } = case;
        format!("{question}\nimage {}", hex(image))
    }
}

/// Where other cases come from than those for cells.
pub trait Source: Default {
    fn asked(seed: u64, index: u64) -> Asked;
}

/// Cases of all kinds.
#[derive(Default)]
pub struct Who;

impl Source for Who {
    fn asked(seed: u64, index: u64) -> Asked {
        generate::who::asked(seed, index)
    }
}

/// Cases at full load.
#[derive(Default)]
pub struct Full;

impl Source for Full {
    fn asked(seed: u64, index: u64) -> Asked {
        generate::full::case(seed, index).asked()
    }
}

/// Cases for the plain analysis.
#[derive(Default)]
pub struct Plain;

impl Source for Plain {
    fn asked(seed: u64, index: u64) -> Asked {
        generate::plain::asked(seed, index)
    }
}

/// The same over the cases of that source.
#[derive(Default)]
pub struct Over<S>(Counts, PhantomData<S>);

impl<S: Source> Compared for Over<S> {
    type Case = Asked;

    fn case(seed: u64, index: u64) -> Asked {
        S::asked(seed, index)
    }

    fn encoded(case: &Asked) -> Vec<u8> {
        Counts::encoded(case)
    }

    fn answered(&mut self, case: &Asked) -> String {
        self.0.answered(case)
    }

    fn told(case: &Asked) -> String {
        Counts::told(case)
    }
}

impl<S> Display for Over<S> {
    fn fmt(&self, out: &mut fmt::Formatter) -> fmt::Result {
        self.0.fmt(out)
    }
}

impl Display for Counts {
    fn fmt(&self, out: &mut fmt::Formatter) -> fmt::Result {
        for (number, count) in &self.refused {
            writeln!(out, "refused {number}: {count} images")?;
        }
        writeln!(out, "accepted: {} images", self.accepted)?;
        for (code, count) in &self.codes {
            writeln!(out, "code {code}: {count} tasks")?;
        }
        if !self.codes.is_empty() {
            writeln!(out, "evaluations: {}", self.evaluations)?;
            let Counts { other_modes, other_candidates, later_jobs, .. } = self;
            writeln!(out, "bounds from a mode above 0: {other_modes}")?;
            writeln!(out, "bounds from another candidate: {other_candidates}")?;
            writeln!(out, "bounds from a later job: {later_jobs}")?;
        }
        for (name, count) in &self.images {
            writeln!(out, "{name}: {count} images")?;
        }
        for (name, count) in &self.tasks {
            writeln!(out, "{name}: {count} tasks")?;
        }
        Ok(())
    }
}

/// Whether no case differs, and what is to be said of it. `watch` gets the number of cases so far.
pub fn compare<C: Compared>(plan: &Plan, watch: &mut dyn FnMut(u64)) -> io::Result<(bool, String)> {
    let mut counts = C::default();
    let mut from = 0;
    while from < plan.cases {
        let to = (from + plan.batch).min(plan.cases);
        if let Some(difference) = batch(plan, from, to, &mut counts, watch)? {
            return Ok((false, difference));
        }
        from = to;
    }
    Ok((true, format!("seed {}: {} cases, no difference\n{counts}", plan.seed, plan.cases)))
}

/// The first difference in the cases from..to.
fn batch<C: Compared>(
    plan: &Plan,
    from: u64,
    to: u64,
    counts: &mut C,
    watch: &mut dyn FnMut(u64),
) -> io::Result<Option<String>> {
    let cases: Vec<C::Case> = (from..to).map(|index| C::case(plan.seed, index)).collect();
    let mut command = Command::new(&plan.program[0]);
    let theirs = run(command.args(&plan.program[1..]), cases.iter().flat_map(C::encoded).collect())?;
    if !theirs.status.success() {
        let _ = writeln!(io::stderr(), "second: the program ended with {}", theirs.status);
    }
    let mut lines = theirs.stdout.split_inclusive(|&byte| byte == b'\n');
    for (index, case) in (from..to).zip(&cases) {
        for line in counts.answered(case).split_inclusive('\n') {
            let their_line = lines.next().unwrap_or(b"");
            if their_line != line.as_bytes() {
                let their_line = String::from_utf8_lossy(their_line);
                return Ok(Some(format!(
                    "difference at seed {} case {index} {}\nsecond  {line}program {}\n",
                    plan.seed,
                    C::told(case),
                    their_line.trim_end_matches('\n'),
                )));
            }
        }
        watch(index + 1);
    }
    Ok(lines.next().map(|_| {
        let last = to - 1;
        format!("difference at seed {} after case {last}: the program prints more lines than it should\n", plan.seed)
    }))
}

/// What a program prints for that input, and how it ends.
pub fn run(command: &mut Command, input: Vec<u8>) -> io::Result<Output> {
    let mut child = command.stdin(Stdio::piped()).stdout(Stdio::piped()).spawn()?;
    let mut stdin = child.stdin.take().expect("piped");
    // A program that stops early closes the pipe; what it then does not print shows as a difference.
    let writer = std::thread::spawn(move || stdin.write_all(&input));
    let output = child.wait_with_output()?;
    let _ = writer.join();
    Ok(output)
}

pub fn hex(image: &[u8]) -> String {
    image.iter().map(|byte| format!("{byte:02x}")).collect()
}

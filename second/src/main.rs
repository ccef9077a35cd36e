//! A second, independent program of the response-time analysis, written from documents 01 and 02 alone, to compare the
//! proved program with. It takes no short cut: every phase, charge and chain is worked out as the document writes it.

mod answer;
mod arguments;
mod bound;
mod compare;
mod desk;
mod draft;
mod generate;
mod image;
mod interference;
mod parts;
mod plain;
mod progress;
mod random;
mod simulate;
mod stream;
mod table;
#[cfg(test)]
mod tests;
mod write;

use arguments::{needed, Arguments};
use compare::{Counts, Full, Over, Plain, Who};
use interference::Charging;
use progress::Progress;
use std::ffi::{OsStr, OsString};
use std::fmt::Display;
use std::fs::File;
use std::io::{self, BufWriter, Read, Write};
use std::process::ExitCode;
use table::Table;

const HELP: &str = "usage:
  second list                                  one image on stdin: the listing
  second whole                                 the same with the whole-job bound
  second host TASK BUDGET                      one image on stdin: the host's 64-bit number
  second answer                                a stream of cases on stdin: the lines of each
  second generate --cases N --seed S [--who | --full | --plain]
                                               a stream of cases on stdout, all of them for cells; with --who also for the
                                               parts of bounds and for greatest charges, with --full at full load, with
                                               --plain for the plain analysis and its approximation
  second compare --cases N --seed S [--who | --full | --plain] [--batch K] --program COMMAND...
                                               compare COMMAND's lines with our own
  second words [--open] [--all]                one image on stdin: what explain says of it, with --open only of the
                                               tasks that are not shown to be in time, with --all what every bound
                                               is made of
  second show [--aligned]                      one image on stdin: its table as text
  second plain [--explain]                     one image on stdin: the plain response of each task beside its bound, with
                                               --explain in words
  second words --cases N --seed S --program COMMAND...
  second show --cases N --seed S --program COMMAND...
  second plain --cases N --seed S --program COMMAND...
                                               compare COMMAND's text of each image with our own
  second page --cases N --seed S --program COMMAND...
                                               compare the page that COMMAND writes of each image with our own answers
  second write                                 a stream of rows on stdin: one line for each, what is written of it and
                                               read back
  second write --cases N --seed S [--batch K] --program COMMAND...
                                               compare COMMAND's lines with our own
  second simulate --runs N --seed S [--wide]   play legal runs of random small tables against the bounds
  second simulate FILE [--runs N] [--seed S] [--wide] [--budget B]
                                               play legal runs of the table in FILE (- is stdin): the longest
                                               response of each task beside its bound, for which B evaluations may
                                               be made instead of the program's budget
  second help                                  this text
status: 0 all is well, 1 a difference or a violation, 2 a refused FILE, 3 trouble
";

/// How a command ends that had no trouble.
#[derive(Clone, Copy, Debug, PartialEq, Eq)]
enum End {
    Well = 0,
    /// A difference or a violation.
    Fault = 1,
    /// The image is no table.
    Refused = 2,
}

/// Why a command could not be carried out.
#[derive(Debug)]
enum Trouble {
    Told(String),
    /// Nobody reads standard output any more.
    Closed,
}

const TROUBLE: u8 = 3;

impl From<String> for Trouble {
    fn from(told: String) -> Trouble {
        Trouble::Told(told)
    }
}

/// Trouble with something that has a name.
fn with(name: impl Display) -> impl Fn(io::Error) -> Trouble {
    move |error| match error.kind() {
        io::ErrorKind::BrokenPipe => Trouble::Closed,
        _ => Trouble::Told(format!("{name}: {error}")),
    }
}

fn main() -> ExitCode {
    let mut arguments = Arguments { rest: std::env::args_os().skip(1).collect() };
    let end = match arguments.command() {
        Err(told) => Err(told.into()),
        Ok(command) => run(&command, arguments),
    };
    match end {
        Ok(end) => ExitCode::from(end as u8),
        Err(Trouble::Closed) => ExitCode::from(TROUBLE),
        Err(Trouble::Told(told)) => {
            let _ = writeln!(io::stderr(), "second: {told}");
            ExitCode::from(TROUBLE)
        }
    }
}

fn run(command: &str, mut arguments: Arguments) -> Result<End, Trouble> {
    match command {
        "help" | "--help" | "-h" => {
            arguments.end()?;
            print(HELP)
        }
        "list" | "whole" => {
            arguments.end()?;
            let charging = if command == "list" { Charging::Imposed } else { Charging::Released };
            print(&answer::listing(&image_from_stdin()?, charging))
        }
        "host" => {
            let (task, budget) = (arguments.next_number("TASK")?, arguments.next_number("BUDGET")?);
            arguments.end()?;
            print(&format!("{}\n", answer::host(&image_from_stdin()?, task, budget)))
        }
        "answer" => {
            arguments.end()?;
            answer_stream()
        }
        "generate" if arguments.flag("--who") => generate_stream::<Over<Who>>(arguments),
        "generate" if arguments.flag("--full") => generate_stream::<Over<Full>>(arguments),
        "generate" if arguments.flag("--plain") => generate_stream::<Over<Plain>>(arguments),
        "generate" => generate_stream::<Counts>(arguments),
        "compare" => {
            let program = arguments.program()?;
            if arguments.flag("--who") {
                stream_compared::<Over<Who>>(program, arguments)
            } else if arguments.flag("--full") {
                stream_compared::<Over<Full>>(program, arguments)
            } else if arguments.flag("--plain") {
                stream_compared::<Over<Plain>>(program, arguments)
            } else {
                stream_compared::<Counts>(program, arguments)
            }
        }
        "write" if arguments.rest.is_empty() => write_stream(),
        "write" => stream_compared::<write::compare::Counts>(arguments.program()?, arguments),
        "words" => text(desk::Text::Words, arguments),
        "show" => text(desk::Text::Show, arguments),
        "plain" => text(desk::Text::Plain, arguments),
        "page" => page(arguments),
        "simulate" => {
            let wide = arguments.flag("--wide");
            let (runs, seed) = (arguments.number_if_given("--runs")?, arguments.number_if_given("--seed")?);
            let budget = arguments.number_if_given("--budget")?;
            let file = arguments.file();
            arguments.end()?;
            match (file, budget) {
                (Some(file), _) => {
                    let budget = budget.unwrap_or(answer::PROGRAM_BUDGET);
                    simulate_table(&file, budget, runs, seed.unwrap_or(1), wide)
                }
                (None, None) => simulate_small(needed("--runs", runs)?, needed("--seed", seed)?, wide),
                (None, Some(_)) => Err(Trouble::Told("--budget goes with a FILE".into())),
            }
        }
        _ => Err(Trouble::Told(format!("there is no command {command}; second help lists them"))),
    }
}

/// A comparison over a stream of cases.
fn stream_compared<C: compare::Compared>(program: Vec<OsString>, mut arguments: Arguments) -> Result<End, Trouble> {
    let (cases, seed) = (arguments.number("--cases")?, arguments.number("--seed")?);
    let batch = arguments.number_if_given("--batch")?.unwrap_or(1000).max(1);
    arguments.end()?;
    let name = program[0].to_string_lossy().into_owned();
    let plan = compare::Plan { cases, seed, batch, program };
    compared(&name, cases, |watch| compare::compare::<C>(&plan, watch))
}

/// The text of one image, or the comparison of many.
fn text(text: desk::Text, mut arguments: Arguments) -> Result<End, Trouble> {
    let program = arguments.program_if_given()?;
    let (cases, seed) = (arguments.number_if_given("--cases")?, arguments.number_if_given("--seed")?);
    if program.is_none() && cases.is_none() && seed.is_none() {
        let mut words = text.words().to_vec();
        words.retain(|word| arguments.flag(&format!("--{word}")));
        arguments.end()?;
        return print(&text.told(&image_from_stdin()?, &words).text);
    }
    let program = needed("--program", program)?;
    let (cases, seed) = (needed("--cases", cases)?, needed("--seed", seed)?);
    arguments.end()?;
    let name = program[0].to_string_lossy().into_owned();
    let plan = desk::compare::Plan { text, cases, seed, program };
    compared(&name, cases, |watch| desk::compare::compare(&plan, watch))
}

/// The comparison of many pages.
fn page(mut arguments: Arguments) -> Result<End, Trouble> {
    let program = arguments.program()?;
    let (cases, seed) = (arguments.number("--cases")?, arguments.number("--seed")?);
    arguments.end()?;
    let name = program[0].to_string_lossy().into_owned();
    let plan = desk::page::compare::Plan { cases, seed, program };
    compared(&name, cases, |watch| desk::page::compare::compare(&plan, watch))
}

/// Compares with the program of that name, and shows how far it is.
fn compared(
    name: &str,
    cases: u64,
    compare: impl FnOnce(&mut dyn FnMut(u64)) -> io::Result<(bool, String)>,
) -> Result<End, Trouble> {
    let mut progress = Progress::on_terminal();
    let compared = compare(&mut |done| progress.show("cases", done, cases));
    drop(progress);
    ended(compared.map_err(with(name))?)
}

fn simulate_small(runs: u64, seed: u64, wide: bool) -> Result<End, Trouble> {
    use simulate::small::{simulate, Settings};
    let mut progress = Progress::on_terminal();
    let counts = simulate(&Settings { runs, seed, wide }, &mut |done| progress.show("runs", done, runs));
    drop(progress);
    ended(counts.told(seed))
}

fn simulate_table(file: &OsStr, budget: u32, runs: Option<u64>, seed: u64, wide: bool) -> Result<End, Trouble> {
    use simulate::given::{analysed, extent, simulate, told, Settings};
    let image = if file == "-" {
        image_from_stdin()?
    } else {
        File::open(file).and_then(image_from).map_err(with(file.to_string_lossy()))?
    };
    let table = match image::read(&image) {
        Ok(table) => table,
        Err(refusal) => {
            print(&answer::refused(refusal))?;
            return Ok(End::Refused);
        }
    };
    let mut progress = Progress::on_terminal();
    let tasks = table.numbered().len() as u64;
    let row = analysed(&table, budget, &mut |done| progress.show("tasks analysed", done, tasks));
    let extent = extent(&table, &row);
    let runs = runs.unwrap_or(extent.runs);
    let settings = Settings { size: extent.size, runs, seed, wide };
    let seen = simulate(&table, &row, &settings, &mut |done| progress.show("runs", done, runs));
    drop(progress);
    ended(told(&table, &row, &seen, seed))
}

/// Writes what was found; true says that all is well.
fn ended((is_well, text): (bool, String)) -> Result<End, Trouble> {
    print(&text)?;
    Ok(if is_well { End::Well } else { End::Fault })
}

fn print(text: &str) -> Result<End, Trouble> {
    let mut output = io::stdout().lock();
    output.write_all(text.as_bytes()).and_then(|()| output.flush()).map_err(with("standard output"))?;
    Ok(End::Well)
}

/// An image, and of a longer input no more than shows that it is longer.
fn image_from(input: impl Read) -> io::Result<Vec<u8>> {
    let mut image = Vec::new();
    input.take(Table::LONGEST_IMAGE as u64 + 1).read_to_end(&mut image)?;
    Ok(image)
}

fn image_from_stdin() -> Result<Vec<u8>, Trouble> {
    image_from(io::stdin().lock()).map_err(with("standard input"))
}

/// The lines of each case that `next` finds on standard input.
fn stream_answered<C>(
    next: impl Fn(&mut io::BufReader<io::StdinLock>) -> io::Result<Option<C>>,
    lines: impl Fn(&C) -> String,
) -> Result<End, Trouble> {
    let mut input = io::BufReader::new(io::stdin().lock());
    let mut output = BufWriter::new(io::stdout().lock());
    while let Some(case) = next(&mut input).map_err(with("standard input"))? {
        output.write_all(lines(&case).as_bytes()).map_err(with("standard output"))?;
    }
    output.flush().map_err(with("standard output"))?;
    Ok(End::Well)
}

fn answer_stream() -> Result<End, Trouble> {
    stream_answered(|input| stream::next(input), |case| answer::answered(case).1)
}

fn write_stream() -> Result<End, Trouble> {
    stream_answered(|input| write::stream::next(input), |case| write::stream::answered(case).1)
}

fn generate_stream<C: compare::Compared>(mut arguments: Arguments) -> Result<End, Trouble> {
    let (cases, seed) = (arguments.number("--cases")?, arguments.number("--seed")?);
    arguments.end()?;
    let mut output = BufWriter::new(io::stdout().lock());
    for index in 0..cases {
        output.write_all(&C::encoded(&C::case(seed, index))).map_err(with("standard output"))?;
    }
    output.flush().map_err(with("standard output"))?;
    Ok(End::Well)
}

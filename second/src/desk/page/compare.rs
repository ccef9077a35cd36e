//! Comparing the pages that a program writes with what they have to say, image by image.

use super::names::{name, names};
use super::{checked, Asked, KEY};
use crate::compare::{hex, run, Counts};
use crate::draft::{fields, pack, Kind};
use crate::generate;
use crate::image::read;
use crate::random::Random;
use std::ffi::{OsStr, OsString};
use std::fs;
use std::io::{self, Write};
use std::os::unix::ffi::OsStrExt;
use std::path::PathBuf;
use std::process::{self, Command, Stdio};

pub struct Plan {
    pub cases: u64,
    pub seed: u64,
    pub program: Vec<OsString>,
}

/// A folder of our own for what stands on other descriptors than standard input, gone at the end.
struct Folder(PathBuf);

impl Folder {
    /// Under a name that nobody has taken.
    fn made() -> io::Result<Folder> {
        let names = (0..).map(|n| format!("second-page-{}-{n}", process::id()));
        let mut paths = names.map(|name| std::env::temp_dir().join(name));
        loop {
            let path = paths.next().expect("another name");
            match fs::create_dir(&path) {
                Err(error) if error.kind() == io::ErrorKind::AlreadyExists => (),
                made => return made.map(|()| Folder(path)),
            }
        }
    }

    fn file(&self, name: &str, bytes: &[u8]) -> io::Result<PathBuf> {
        let path = self.0.join(name);
        fs::write(&path, bytes)?;
        Ok(path)
    }
}

impl Drop for Folder {
    fn drop(&mut self) {
        let _ = fs::remove_dir_all(&self.0);
    }
}

/// The image of a case: mostly that of `generate`, at times a table with many jobs to draw.
fn image(seed: u64, index: u64) -> Vec<u8> {
    if index % 10 == 9 {
        generate::crowded::image(&mut Random::of(seed, index))
    } else {
        generate::image(seed, index)
    }
}

fn is_dear(image: &[u8]) -> bool {
    read(image).is_ok_and(|table| generate::is_dear(&table))
}

/// The image with one field changed, still accepted; as it is, if no such change is found soon.
fn changed(random: &mut Random, image: &[u8]) -> Vec<u8> {
    let Ok(table) = read(image) else { return image.to_vec() };
    for _ in 0..10 {
        let mut fields = fields(&table);
        let kinds = [Kind::Offset, Kind::Jitter, Kind::Blocking, Kind::Deadline, Kind::Priority, Kind::Time];
        let kind = random.pick(&kinds);
        let at: Vec<usize> = (0..fields.len()).filter(|at| fields[*at].kind == kind).collect();
        let field = &mut fields[random.pick(&at)];
        let value = match random.below(3) {
            0 => random.within(0, 20),
            1 => field.value + random.within(-3, 3),
            _ => 2 * field.value,
        };
        if value < 0 || value >> kind.width() != 0 {
            continue;
        }
        field.value = value;
        let image = pack(&fields);
        if read(&image).is_ok() && !is_dear(&image) {
            return image;
        }
    }
    image.to_vec()
}

/// An image to compare with: of the same shape, mostly with other bounds; of any other shape; or damaged.
fn other(random: &mut Random, seed: u64, image: &[u8]) -> Vec<u8> {
    match random.below(10) {
        0 => image.to_vec(),
        1..=6 => changed(random, image),
        7 => image[..random.below(image.len() + 1)].to_vec(),
        _ => {
            let images = std::iter::repeat_with(|| generate::image(seed, random.next()));
            images.take(100).find(|image| !is_dear(image)).unwrap_or_default()
        }
    }
}

/// What is asked of an image: in turn nothing more, names, another image, and both.
fn asked(seed: u64, index: u64, image: Vec<u8>) -> Asked {
    let random = &mut Random::of(!seed, index);
    let tasks = read(&image).map_or(3, |table| table.numbered().len());
    let names = (index & 1 == 1).then(|| names(random, tasks));
    let old = (index & 2 == 2).then(|| (other(random, seed, &image), name(random)));
    let name = if index % 5 == 0 { b"flight.table".to_vec() } else { name(random) };
    Asked { image, name, names, old }
}

/// Names on descriptor 4 and the image to compare with on 5, where there are such.
const WITH_DESCRIPTORS: &str = "names=$1 old=$2; shift 2; exec \"$@\" 4<\"$names\" 5<\"$old\"";

fn page(plan: &Plan, folder: &Folder, asked: &Asked) -> io::Result<process::Output> {
    let names = folder.file("names", asked.names.as_deref().unwrap_or(b""))?;
    let (old, old_name) = asked.old.as_ref().map_or((&b""[..], &b""[..]), |(image, name)| (image, name));
    let old = folder.file("old", old)?;
    let mut command = Command::new("/bin/sh");
    command.args([OsStr::new("-c"), OsStr::new(WITH_DESCRIPTORS), OsStr::new("sh")]);
    command.args([names.as_os_str(), old.as_os_str()]).args(&plan.program);
    command.args(["page", "-"]).arg(if asked.names.is_some() { "names" } else { "-" });
    command.arg(if asked.old.is_some() { "against" } else { "-" }).arg(KEY.to_string());
    command.args([OsStr::from_bytes(&asked.name), OsStr::from_bytes(old_name)]).stderr(Stdio::piped());
    let output = run(&mut command, asked.image.clone())?;
    match output.status.code() {
        Some(126 | 127) => Err(io::Error::other("it cannot be started")),
        _ => Ok(output),
    }
}

fn difference(at: &str, asked: &Asked, fault: &str) -> String {
    let mut text = format!("difference at {at}: {fault}\nimage {}\nname {}\n", hex(&asked.image), hex(&asked.name));
    if let Some(names) = &asked.names {
        text += &format!("names {}\n", hex(names));
    }
    if let Some((image, name)) = &asked.old {
        text += &format!("compared with {}\nits name {}\n", hex(image), hex(name));
    }
    text
}

/// Whether no page differs, and what is to be said of it. The program is started once for each image, and for every third
/// once more, which has to give the same page. A dear image is left out and another taken.
pub fn compare(plan: &Plan, watch: &mut dyn FnMut(u64)) -> io::Result<(bool, String)> {
    let folder = Folder::made()?;
    let mut counts = Counts::default();
    let images = (0..).map(|index| (index, image(plan.seed, index)));
    let cheap = images.filter(|(_, image)| !is_dear(image));
    for (done, (index, image)) in (1..=plan.cases).zip(cheap) {
        let asked = asked(plan.seed, index, image);
        let theirs = page(plan, &folder, &asked)?;
        let mut seen = checked(&theirs.stdout, &asked);
        if !theirs.status.success() {
            seen = Err(format!("the program ended with {}", theirs.status));
        }
        if index % 3 == 0 && page(plan, &folder, &asked)?.stdout != theirs.stdout {
            seen = Err("another page at the second time".into());
        }
        match seen {
            Err(fault) => {
                let _ = io::stderr().write_all(&theirs.stderr);
                let at = format!("seed {} case {index}", plan.seed);
                return Ok((false, difference(&at, &asked, &fault)));
            }
            Ok(seen) => {
                counts.add(&seen.answer);
                seen.of_image.into_iter().for_each(|name| counts.add_image(name));
                seen.of_tasks.into_iter().for_each(|name| counts.add_task(name));
            }
        }
        watch(done);
    }
    Ok((true, format!("seed {}: pages of {} images, no difference\n{counts}", plan.seed, plan.cases)))
}

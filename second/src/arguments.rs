//! The words after the program's name, taken one by one.

use std::ffi::OsString;
use std::str::FromStr;

pub struct Arguments {
    pub rest: Vec<OsString>,
}

fn parsed<N: FromStr>(name: &str, text: Option<OsString>) -> Result<N, String> {
    let number = text.and_then(|text| text.to_str().and_then(|text| text.parse().ok()));
    number.ok_or(format!("{name} needs a number"))
}

pub fn needed<T>(name: &str, given: Option<T>) -> Result<T, String> {
    given.ok_or(format!("{name} is missing"))
}

impl Arguments {
    /// The first word. A `--help` behind it comes before it.
    pub fn command(&mut self) -> Result<String, String> {
        let is_help = |word: &OsString| word == "--help";
        if self.rest.get(1).is_some_and(is_help) {
            self.rest.remove(0);
            self.rest.truncate(1);
        }
        let command = self.next().ok_or("a command is missing; second help lists them")?;
        Ok(command.to_string_lossy().into_owned())
    }

    /// The next word, which is then gone.
    pub fn next(&mut self) -> Option<OsString> {
        (!self.rest.is_empty()).then(|| self.rest.remove(0))
    }

    pub fn next_number(&mut self, name: &str) -> Result<u32, String> {
        parsed(name, self.next())
    }

    /// The number after `--name`, both of which are then gone.
    pub fn number_if_given<N: FromStr>(&mut self, name: &str) -> Result<Option<N>, String> {
        let Some(at) = self.rest.iter().position(|word| word == name) else { return Ok(None) };
        self.rest.remove(at);
        parsed(name, (at < self.rest.len()).then(|| self.rest.remove(at))).map(Some)
    }

    pub fn number(&mut self, name: &str) -> Result<u64, String> {
        needed(name, self.number_if_given(name)?)
    }

    /// The next word if it is no option; `-` is none.
    pub fn file(&mut self) -> Option<OsString> {
        let is_option = |word: &OsString| word != "-" && word.as_encoded_bytes().starts_with(b"-");
        if self.rest.first().is_some_and(is_option) {
            None
        } else {
            self.next()
        }
    }

    pub fn flag(&mut self, name: &str) -> bool {
        let at = self.rest.iter().position(|word| word == name);
        at.map(|at| self.rest.remove(at)).is_some()
    }

    /// Everything after `--program`, all of which is then gone.
    pub fn program_if_given(&mut self) -> Result<Option<Vec<OsString>>, String> {
        let Some(at) = self.rest.iter().position(|word| word == "--program") else { return Ok(None) };
        let program = self.rest.split_off(at).split_off(1);
        if program.is_empty() {
            return Err("--program needs a command".into());
        }
        Ok(Some(program))
    }

    pub fn program(&mut self) -> Result<Vec<OsString>, String> {
        needed("--program", self.program_if_given()?)
    }

    pub fn end(self) -> Result<(), String> {
        self.rest.first().map_or(Ok(()), |word| Err(format!("what is {}?", word.to_string_lossy())))
    }
}

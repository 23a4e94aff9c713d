//! A command's files and options.

use std::ffi::{OsStr, OsString};
use std::os::unix::ffi::OsStrExt;

use casefile::near::did_you_mean;
use galivodern::Limits;

use crate::failure::Failure;
use crate::spec::{CommandSpec, OptionSpec};

pub struct Options {
    pub command: &'static CommandSpec,
    /// Names of files need not be text.
    pub files: Vec<OsString>,
    /// Each option that was given, with its value.
    given: Vec<(&'static str, OsString)>,
}

impl Options {
    /// Options may stand anywhere; `--name value` and `--name=value` are the same; after `--` all are files.
    pub fn parse(command: &'static CommandSpec, arguments: &[OsString]) -> Result<Options, Failure> {
        let mut options = Options { command, files: Vec::new(), given: Vec::new() };
        let mut rest = arguments.iter();
        while let Some(argument) = rest.next() {
            if argument == "--" {
                options.files.extend(rest.by_ref().cloned());
            } else if argument == "-" || !argument.as_bytes().starts_with(b"-") {
                options.files.push(argument.clone());
            } else {
                let (name, value) = split(argument);
                let known = command.option(&name).ok_or_else(|| unknown(command, &name))?;
                options.set(known, value, &mut rest)?;
            }
        }
        Ok(options)
    }

    fn set<'a>(
        &mut self,
        option: &'static OptionSpec,
        value: Option<OsString>,
        rest: &mut impl Iterator<Item = &'a OsString>,
    ) -> Result<(), Failure> {
        let name = option.name;
        if !option.again && self.flag(name) {
            return Err(Failure::usage(format!("`{name}` is given twice: leave one out")));
        }
        let value = match (option.value, value) {
            ("", None) => OsString::new(),
            ("", Some(_)) => return Err(Failure::usage(format!("`{name}` takes no value"))),
            (_, Some(value)) => value,
            (what, None) => {
                let missing = || Failure::usage(format!("a value is missing after `{name}`: {name} {what}"));
                rest.next().cloned().ok_or_else(missing)?
            }
        };
        self.given.push((name, value));
        Ok(())
    }

    /// Whether an option was given.
    pub fn flag(&self, name: &str) -> bool {
        self.given.iter().any(|(given, _)| *given == name)
    }

    /// The values that were given to an option, as text.
    pub fn texts(&self, name: &'static str) -> Result<Vec<&str>, Failure> {
        let values = self.given.iter().filter(|(given, _)| *given == name);
        let text = |value: &'_ OsString| Failure::usage(format!("`{name}` takes text, not {value:?}"));
        values.map(|(_, value)| value.to_str().ok_or_else(|| text(value))).collect()
    }

    pub fn text(&self, name: &'static str) -> Result<Option<&str>, Failure> {
        Ok(self.texts(name)?.first().copied())
    }

    /// The file that an option names.
    pub fn named_file(&self, name: &str) -> Option<&OsStr> {
        self.given.iter().find(|(given, _)| *given == name).map(|(_, value)| value.as_os_str())
    }

    pub fn number<T: std::str::FromStr>(&self, name: &'static str) -> Result<Option<T>, Failure> {
        let number = |text: &str| {
            let by_name = if name == "--node" { "; a rule is asked by its name with --rule" } else { "" };
            text.parse().map_err(|_| Failure::usage(format!("`{name}` takes a number, not `{text}`{by_name}")))
        };
        self.text(name)?.map(number).transpose()
    }

    /// The one file that most commands take.
    pub fn file(&self) -> Result<&OsStr, Failure> {
        match &self.files[..] {
            [file] => Ok(file),
            files => Err(Failure::usage(format!("`{}` takes one file, not {}", self.command.name, files.len()))),
        }
    }

    pub fn limits(&self) -> Result<Limits, Failure> {
        let usual = Limits::default();
        let (steps, room) = (self.number("--steps")?, self.number("--room")?);
        Ok(Limits { steps: steps.unwrap_or(usual.steps), room: room.unwrap_or(usual.room) })
    }
}

/// The name of an option and the value behind its `=`.
fn split(argument: &OsStr) -> (String, Option<OsString>) {
    let bytes = argument.as_bytes();
    match bytes.iter().position(|&byte| byte == b'=') {
        Some(at) => {
            let (name, value) = (&bytes[..at], OsStr::from_bytes(&bytes[at + 1..]));
            (String::from_utf8_lossy(name).into_owned(), Some(value.to_os_string()))
        }
        None => (argument.to_string_lossy().into_owned(), None),
    }
}

fn unknown(command: &CommandSpec, name: &str) -> Failure {
    let near = did_you_mean(name, command.options.iter().map(|option| option.name));
    Failure::usage(format!("`{}` has no option `{name}`{near}", command.name))
}

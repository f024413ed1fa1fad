//! Arguments and options of one command, as the command line gives them.
use super::names::{called, proposal, shown};
use std::ffi::{OsStr, OsString};

/// What a command may be given.
pub struct Syntax {
    pub name: &'static str,
    /// Its arguments: all of them are needed.
    pub arguments: &'static [&'static str],
    /// Its options, in groups that several commands have.
    pub options: &'static [&'static [Opt]],
}

/// An option, and what the values after it are called; a switch has none.
pub struct Opt {
    pub name: &'static str,
    pub values: &'static [&'static str],
}

/// What a command was given.
#[derive(Default)]
pub struct Given {
    pub arguments: Vec<OsString>,
    /// Whether help was asked for; then nothing else counts.
    pub help: bool,
    options: Vec<(&'static str, Vec<String>)>,
}

impl Syntax {
    /// Takes the command's part of the command line. Options may stand anywhere in it.
    pub fn given(&self, line: &[OsString]) -> Result<Given, String> {
        let mut given = Given::default();
        let mut rest = line.iter();
        while let Some(argument) = rest.next() {
            match argument.to_str() {
                Some("--") => given.arguments.extend(rest.by_ref().cloned()),
                Some("--help" | "-h") => given.help = true,
                // - alone is standard input or output
                _ if argument == "-" || !argument.as_encoded_bytes().starts_with(b"-") => given.arguments.push(argument.clone()),
                _ => given.add(self.option(argument, &mut rest)?)?,
            }
        }
        match given.help {
            true => Ok(given),
            false => self.counted(given),
        }
    }

    fn known(&self) -> impl Iterator<Item = &'static Opt> {
        self.options.iter().copied().flatten()
    }

    /// An option and its values, which are the next arguments; a single one may also follow `=`.
    fn option<'a>(&self, argument: &OsStr, rest: &mut impl Iterator<Item = &'a OsString>) -> Result<(&'static str, Vec<String>), String> {
        let text = argument.to_string_lossy();
        let (name, after) = text.split_once('=').map_or((&*text, None), |(name, value)| (name, Some(value.to_string())));
        let Some(option) = self.known().find(|option| option.name == name) else {
            let names = self.known().map(|option| option.name).chain(["--help"]);
            return Err(format!("{} has no option {}{}", self.name, shown(name), proposal(name, names)));
        };
        let values: Vec<String> = match after {
            Some(value) => vec![value],
            None => rest.take(option.values.len()).map(|value| value.to_string_lossy().into_owned()).collect(),
        };
        match (option.values, values.len()) {
            (wanted, given) if wanted.len() == given => Ok((option.name, values)),
            ([], _) => Err(format!("{} takes no value", option.name)),
            ([_], _) => Err(format!("{} needs a value after it", option.name)),
            (wanted, _) => Err(format!("{} needs {} values after it, with spaces between: {}", option.name, wanted.len(), option.usage())),
        }
    }

    /// Neither an argument too few nor one too many.
    fn counted(&self, given: Given) -> Result<Given, String> {
        let usage = || format!("{} {}", called(), [&[self.name], self.arguments].concat().join(" "));
        if let Some(missing) = self.arguments.get(given.arguments.len()) {
            return Err(format!("{missing} is missing: {}", usage()));
        }
        match given.arguments.get(self.arguments.len()) {
            Some(extra) => Err(format!("{} is one argument too many: {}", shown(extra), usage())),
            None => Ok(given),
        }
    }
}

impl Opt {
    fn usage(&self) -> String {
        [&[self.name], self.values].concat().join(" ")
    }
}

impl Given {
    fn add(&mut self, (name, values): (&'static str, Vec<String>)) -> Result<(), String> {
        if self.has(name) {
            return Err(format!("{name} is given more than once"));
        }
        self.options.push((name, values));
        Ok(())
    }

    /// The values of an option that was given.
    pub fn values(&self, name: &str) -> Option<&[String]> {
        self.options.iter().find(|(option, _)| *option == name).map(|(_, values)| values.as_slice())
    }

    /// The value of an option of one value.
    pub fn value(&self, name: &str) -> Option<&str> {
        self.values(name)?.first().map(String::as_str)
    }

    pub fn has(&self, name: &str) -> bool {
        self.values(name).is_some()
    }

    /// The value of an option, as a whole number.
    pub fn number(&self, name: &str) -> Result<Option<u64>, String> {
        self.value(name).map(|value| number(name, value)).transpose()
    }
}

/// A value that is a whole number. Anything but digits in it is refused, so that nobody's 12,500 or 12.500 is taken for another number.
pub fn number(name: &str, value: &str) -> Result<u64, String> {
    if value.is_empty() || !value.bytes().all(|byte| byte.is_ascii_digit()) {
        let needed = "a whole number in digits alone is needed, without comma, point, sign or space, such as 1280";
        return Err(format!("{name} {}: {needed}", shown(value)));
    }
    value.parse().map_err(|_| format!("{name} {value}: the number is too large"))
}

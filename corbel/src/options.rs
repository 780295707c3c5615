//! Options as netpbm writes them: `-name`, `-name=value` or `-name value`, with one dash or two, in any order, a name cut
//! short as long as it is one command's alone.
use crate::failure::{usage, Failure};

/// What a command was given.
pub struct Options {
    given: Vec<(&'static str, String)>,
    /// The arguments that are no options.
    pub files: Vec<String>,
}

impl Options {
    /// Of a command's arguments. Each known option is a name, and one that takes a value has `=` after it.
    pub fn read(arguments: &[String], known: &[&[&'static str]]) -> Result<Options, Failure> {
        let mut options = Options { given: Vec::new(), files: Vec::new() };
        let mut rest = arguments.iter();
        while let Some(argument) = rest.next() {
            if argument == "--" {
                options.files.extend(rest.by_ref().cloned());
            } else if argument == "-" || !argument.starts_with('-') {
                options.files.push(argument.clone());
            } else {
                options.take(argument, &mut rest, known)?;
            }
        }
        Ok(options)
    }

    /// One option, with the argument after it where that is its value.
    fn take<'a>(
        &mut self,
        argument: &str,
        rest: &mut impl Iterator<Item = &'a String>,
        known: &[&[&'static str]],
    ) -> Result<(), Failure> {
        let text = argument.strip_prefix("--").unwrap_or(&argument[1..]);
        let (name, value) = text.split_once('=').map_or((text, None), |(name, value)| (name, Some(value)));
        let option = find(name, known)?;
        let value = match (option.strip_suffix('='), value) {
            (None, None) => String::new(),
            (None, Some(_)) => return usage(format!("-{option} takes no value")),
            (Some(_), Some(value)) => value.to_string(),
            (Some(name), None) => rest.next().cloned().ok_or_else(|| wants_value(name))?,
        };
        let name = option.trim_end_matches('=');
        if self.has(name) {
            return usage(format!("-{name} is given twice"));
        }
        self.given.push((name, value));
        Ok(())
    }

    pub fn has(&self, name: &str) -> bool {
        self.value(name).is_some()
    }

    /// The value of an option, where it was given.
    pub fn value(&self, name: &str) -> Option<&str> {
        self.given.iter().find(|(given, _)| *given == name).map(|(_, value)| value.as_str())
    }

    /// The value of an option that must be given.
    pub fn needed(&self, name: &str) -> Result<&str, Failure> {
        self.value(name).ok_or_else(|| Failure::Usage(format!("-{name} is missing")))
    }

    /// The file of a command that takes one at most: none, or `-`, is standard input.
    pub fn file(&self) -> Result<Option<&str>, Failure> {
        match self.files.as_slice() {
            [] => Ok(None),
            [file] if file == "-" => Ok(None),
            [file] => Ok(Some(file)),
            [_, more, ..] => usage(format!("one file at most is taken, and {more} is another")),
        }
    }
}

/// The option of that name, or the only one that it begins.
fn find(name: &str, known: &[&[&'static str]]) -> Result<&'static str, Failure> {
    let all = || known.iter().flat_map(|part| part.iter().copied());
    if let Some(option) = all().find(|option| option.trim_end_matches('=') == name) {
        return Ok(option);
    }
    let begun: Vec<_> = all().filter(|option| !name.is_empty() && option.starts_with(name)).collect();
    match begun.as_slice() {
        [option] => Ok(option),
        [] => usage(format!("there is no option -{name}")),
        _ => usage(format!("-{name} begins more than one option")),
    }
}

fn wants_value(name: &str) -> Failure {
    Failure::Usage(format!("-{name} wants a value"))
}

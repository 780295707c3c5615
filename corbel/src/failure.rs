//! How a command ends that is not done: what it says, and its exit status.
use corbelrush::Refusal;
use std::fmt;

pub enum Failure {
    /// The library refused; the note says where, or what helps, and may be empty.
    Refused(Refusal, String),
    /// The question was answered with no, and the answer is written.
    No,
    /// The arguments, or a text that they name, cannot be understood.
    Usage(String),
    /// Something could not be read or written; the text names it.
    System(String),
    /// One of some files failed.
    Of(String, Box<Failure>),
    /// Some of many files failed, each with its own message; the worst of their statuses.
    Some(u8),
}

impl Failure {
    pub fn status(&self) -> u8 {
        match self {
            Failure::Refused(..) | Failure::No => 1,
            Failure::Usage(_) => 2,
            Failure::System(_) => 3,
            Failure::Of(_, failure) => failure.status(),
            Failure::Some(worst) => *worst,
        }
    }

    /// With the file's name, where it is not named already.
    pub fn of(self, file: &str) -> Failure {
        match self {
            Failure::System(_) => self,
            other => Failure::Of(file.to_string(), Box::new(other)),
        }
    }

    /// Whether there is anything left to say.
    pub fn is_silent(&self) -> bool {
        matches!(self, Failure::No | Failure::Some(_))
    }
}

impl fmt::Display for Failure {
    fn fmt(&self, f: &mut fmt::Formatter) -> fmt::Result {
        match self {
            Failure::Refused(refusal, note) => {
                write!(f, "refused {}: {refusal}", refusal.number())?;
                if note.is_empty() {
                    Ok(())
                } else {
                    write!(f, "; {note}")
                }
            }
            Failure::Usage(text) | Failure::System(text) => f.write_str(text),
            Failure::Of(file, failure) => write!(f, "{file}: {failure}"),
            Failure::No | Failure::Some(_) => Ok(()),
        }
    }
}

impl From<Refusal> for Failure {
    fn from(refusal: Refusal) -> Failure {
        Failure::Refused(refusal, String::new())
    }
}

/// Wrong use, in words.
pub fn usage<T>(text: impl Into<String>) -> Result<T, Failure> {
    Err(Failure::Usage(text.into()))
}

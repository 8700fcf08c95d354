//! Why a call gives no result.

use crate::refusals::{self, Entry};
use std::error;
use std::fmt;

/// Why a call gives no result.
#[derive(Clone, Debug, PartialEq, Eq)]
#[non_exhaustive]
pub enum Error {
    /// A rule refuses the token or the order.
    Refused(Refused),
    /// An order, a policy or a query is not of its form.
    Unreadable(Unreadable),
    /// An argument breaks a rule, which the text says.
    Misused(&'static str),
    /// There is not enough memory.
    OutOfMemory,
    /// The thread has less than 512 KiB of its stack left, which a call may need. The library was not called.
    OutOfStack,
    /// The library does what its header does not allow. This is a bug; please report it.
    Library(&'static str),
}

/// A refusal by a rule: one of the conditions 1 to 38 of a verifier, or a later number of an order
/// (`docs/SPECIFICATION.md`).
#[derive(Clone, Debug, PartialEq, Eq)]
pub struct Refused {
    number: u8,
    line: String,
}

/// A file that is not of its form (`docs/FILES.md`).
#[derive(Clone, Debug, PartialEq, Eq)]
pub struct Unreadable {
    input: u8,
    line: String,
}

impl Refused {
    /// The number of the rule, such as 10.
    #[must_use]
    pub fn number(&self) -> u8 {
        self.number
    }

    /// The name of the rule, such as `badSignature`.
    #[must_use]
    pub fn name(&self) -> &str {
        self.line.split(' ').nth(2).unwrap_or_default()
    }

    /// The place, such as `3` or a JSON text, if the rule has one.
    #[must_use]
    pub fn place(&self) -> Option<&str> {
        self.line.splitn(5, ' ').nth(4)
    }

    /// The line that the program `sdjwt` prints, such as `refused 10 badSignature`.
    #[must_use]
    pub fn line(&self) -> &str {
        &self.line
    }

    /// What the refusal means.
    #[must_use]
    pub fn explanation(&self) -> &'static str {
        self.entry().map_or("", |entry| entry.explanation)
    }

    /// The likely cause.
    #[must_use]
    pub fn cause(&self) -> &'static str {
        self.entry().map_or("", |entry| entry.cause)
    }

    /// What to do.
    #[must_use]
    pub fn remedy(&self) -> &'static str {
        self.entry().map_or("", |entry| entry.remedy)
    }

    fn entry(&self) -> Option<&'static Entry> {
        refusals::find(&format!("refused {} {}", self.number, self.name()))
    }
}

impl Unreadable {
    /// Which input it is, counted from 1: the order, policy or query is 1, the seed and the list of algorithms are 2.
    #[must_use]
    pub fn input(&self) -> u8 {
        self.input
    }

    /// The reason, such as `notJson` or `wrong keys`.
    #[must_use]
    pub fn reason(&self) -> &str {
        self.line.splitn(3, ' ').nth(2).unwrap_or_default()
    }

    /// The line that the program `sdjwt` prints, such as `unreadable 1 notJson`.
    #[must_use]
    pub fn line(&self) -> &str {
        &self.line
    }

    /// What the reason means.
    #[must_use]
    pub fn explanation(&self) -> &'static str {
        self.entry().map_or("", |entry| entry.explanation)
    }

    /// The likely cause.
    #[must_use]
    pub fn cause(&self) -> &'static str {
        self.entry().map_or("", |entry| entry.cause)
    }

    /// What to do.
    #[must_use]
    pub fn remedy(&self) -> &'static str {
        self.entry().map_or("", |entry| entry.remedy)
    }

    fn entry(&self) -> Option<&'static Entry> {
        refusals::find(&format!("unreadable {}", self.reason()))
    }
}

impl Error {
    /// The error of a line that the library wrote.
    pub(crate) fn of_line(bytes: &[u8]) -> Self {
        let line = String::from_utf8_lossy(bytes).trim_end_matches('\n').to_owned();
        let mut words = line.split(' ');
        let kind = words.next();
        let number = words.next().and_then(|number| number.parse().ok());
        match (kind, number) {
            (Some("refused"), Some(number)) => Self::Refused(Refused { number, line }),
            (Some("unreadable"), Some(input)) => Self::Unreadable(Unreadable { input, line }),
            _ => Self::Library("a line is not one of those that the header names"),
        }
    }

    /// The refusal, if it is one.
    #[must_use]
    pub fn refused(&self) -> Option<&Refused> {
        match self {
            Self::Refused(refused) => Some(refused),
            _ => None,
        }
    }
}

impl fmt::Display for Refused {
    fn fmt(&self, to: &mut fmt::Formatter<'_>) -> fmt::Result {
        write!(to, "{}: {}", self.line, self.explanation())
    }
}

impl fmt::Display for Unreadable {
    fn fmt(&self, to: &mut fmt::Formatter<'_>) -> fmt::Result {
        write!(to, "{}: {}", self.line, self.explanation())
    }
}

impl fmt::Display for Error {
    fn fmt(&self, to: &mut fmt::Formatter<'_>) -> fmt::Result {
        match self {
            Self::Refused(refused) => refused.fmt(to),
            Self::Unreadable(unreadable) => unreadable.fmt(to),
            Self::Misused(rule) => write!(to, "a wrong argument: {rule}"),
            Self::OutOfMemory => to.write_str("out of memory"),
            Self::OutOfStack => to.write_str("a call needs 512 KiB of stack, and this thread has less left"),
            Self::Library(fault) => write!(to, "a bug in the library: {fault}"),
        }
    }
}

impl error::Error for Refused {}

impl error::Error for Unreadable {}

impl error::Error for Error {
    fn source(&self) -> Option<&(dyn error::Error + 'static)> {
        match self {
            Self::Refused(refused) => Some(refused),
            Self::Unreadable(unreadable) => Some(unreadable),
            _ => None,
        }
    }
}

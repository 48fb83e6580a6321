//! Why there are no matches.
use crate::library::{AllocError, AllocFailed, String};
use std::fmt;

/// What went wrong with the words, or what they ask for in place of a command.
#[derive(Clone, Copy, Debug, PartialEq, Eq)]
pub enum ErrorKind {
    UnknownArgument,
    InvalidSubcommand,
    TooManyValues,
    InvalidValue,
    ArgumentConflict,
    MissingRequiredArgument,
    DisplayHelp,
    DisplayHelpOnMissingArgumentOrSubcommand,
    DisplayVersion,
    OutOfMemory,
}

pub struct Error {
    pub(super) kind: ErrorKind,
    pub(super) text: Option<String>,
}

impl Error {
    pub fn kind(&self) -> ErrorKind {
        self.kind
    }

    /// An error with nothing to say.
    pub(super) fn bare(kind: ErrorKind) -> Error {
        Error { kind, text: None }
    }
}

impl From<AllocError> for Error {
    fn from(_refused: AllocError) -> Error {
        Error::bare(ErrorKind::OutOfMemory)
    }
}

impl<T> From<AllocFailed<T>> for Error {
    fn from(_refused: AllocFailed<T>) -> Error {
        Error::bare(ErrorKind::OutOfMemory)
    }
}

impl fmt::Display for Error {
    fn fmt(&self, f: &mut fmt::Formatter) -> fmt::Result {
        match &self.text {
            Some(text) => f.write_str(text),
            None => Ok(()),
        }
    }
}

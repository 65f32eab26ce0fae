//! Errors of compiling and of searching.

use crate::ffi;
use crate::flags::FlagsError;
use crate::kind::FaultKind;
use crate::library::{code_points, fault, Fault};
use crate::regex::Nonlinear;
use std::fmt;

/// Why a pattern was not compiled.
#[derive(Clone, Debug, PartialEq, Eq)]
#[non_exhaustive]
pub enum Error {
    /// The pattern is rejected.
    Syntax {
        /// What is wrong, as a kind for a program.
        kind: FaultKind,
        /// What is wrong, as the text of the kind, which does not change. `docs/errors.md` lists the texts.
        text: String,
        /// What is wrong, as a sentence for a person, with what to write for the syntax of another engine. The sentences may
        /// change.
        message: String,
        /// The position of the error: a code-point index of the pattern, at most its length.
        position: usize,
        /// The same position as a byte offset of the pattern.
        offset: usize,
    },
    /// The letters of the flags are rejected.
    Flags(FlagsError),
    /// Searches do not take linear time, which [`LinearRegex`](crate::LinearRegex) requires.
    Nonlinear(Nonlinear),
    /// The tree of the pattern may have more nodes than [`Options`](crate::Options) allow, or its program has too many
    /// instructions.
    TooLarge,
    /// The library is out of memory, whether or not the pattern is valid.
    Memory,
    /// The library returns what this crate does not know: it is of another version.
    Library,
}

impl fmt::Display for Error {
    fn fmt(&self, f: &mut fmt::Formatter<'_>) -> fmt::Result {
        match self {
            Error::Syntax {
                message, position, ..
            } => write!(f, "{message}, at position {position}"),
            Error::Flags(error) => error.fmt(f),
            Error::Nonlinear(reason) => write!(f, "searches are not linear: {reason}"),
            Error::TooLarge => f.write_str("the pattern is too large"),
            Error::Memory => f.write_str("out of memory"),
            Error::Library => f.write_str("the library is of another version"),
        }
    }
}

impl std::error::Error for Error {
    fn source(&self) -> Option<&(dyn std::error::Error + 'static)> {
        match self {
            Error::Flags(error) => Some(error),
            Error::Nonlinear(reason) => Some(reason),
            _ => None,
        }
    }
}

impl From<FlagsError> for Error {
    fn from(error: FlagsError) -> Error {
        Error::Flags(error)
    }
}

/// Why a search has no result.
#[derive(Clone, Copy, Debug, PartialEq, Eq)]
#[non_exhaustive]
pub enum SearchError {
    /// The library is out of memory.
    Memory,
    /// The search takes more steps than [`Options`](crate::Options) allow.
    OutOfSteps,
    /// The search needs more memory than [`Options::memory`](crate::Options::memory) allows.
    TooMuchMemory,
    /// The library returns what this crate does not know: it is of another version.
    Library,
}

impl fmt::Display for SearchError {
    fn fmt(&self, f: &mut fmt::Formatter<'_>) -> fmt::Result {
        f.write_str(match self {
            SearchError::Memory => "out of memory",
            SearchError::OutOfSteps => "the search takes too many steps",
            SearchError::TooMuchMemory => {
                "the search needs more memory than the option memory allows"
            }
            SearchError::Library => "the library is of another version",
        })
    }
}

impl std::error::Error for SearchError {}

/// Returns the error of a pattern that was not compiled. `bits` are its flags and its dialect, as for a pattern that is
/// parsed.
pub(crate) fn compile_error(status: u32, pattern: &str, bits: u32) -> Error {
    match status {
        ffi::SYNTAX => syntax_error(pattern, bits),
        ffi::TOO_LARGE => Error::TooLarge,
        ffi::MEMORY => Error::Memory,
        _ => Error::Library,
    }
}

/// Returns the error of a pattern that is rejected. The call that parses it also returns the text, which the one that
/// compiles does not.
pub(crate) fn syntax_error(pattern: &str, bits: u32) -> Error {
    match fault(&code_points(pattern), bits) {
        Fault::Syntax {
            kind,
            text,
            position,
            offset,
        } => match sentence(pattern, kind, position) {
            Ok(message) => Error::Syntax {
                kind,
                text,
                message,
                position,
                offset,
            },
            Err(error) => error,
        },
        Fault::Memory => Error::Memory,
        Fault::NoCodePoint | Fault::Library => Error::Library,
    }
}

/// Returns the sentence for a syntax error of a kind at a position of a pattern.
fn sentence(pattern: &str, kind: FaultKind, position: usize) -> Result<String, Error> {
    let output = ffi::sentence(pattern, kind as u32, position);
    match output.status {
        ffi::OK => String::from_utf8(output.items).map_err(|_| Error::Library),
        ffi::MEMORY => Err(Error::Memory),
        _ => Err(Error::Library),
    }
}

/// Returns the error of a search with this status.
pub(crate) fn search_error(status: u32) -> SearchError {
    match status {
        ffi::MEMORY => SearchError::Memory,
        ffi::OUT_OF_STEPS => SearchError::OutOfSteps,
        ffi::TOO_MUCH_MEMORY => SearchError::TooMuchMemory,
        _ => SearchError::Library,
    }
}

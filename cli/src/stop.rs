//! How a command ends where it does not end well.

use std::io;

use rizhavaan_core::Failure;

/// Why a command has no answer. All of them are status 2.
#[derive(Debug)]
pub enum Stop {
    /// All was said already.
    Told,
    /// A sentence.
    Because(String),
    /// Of the engine, the check or a place of the text.
    Failure(Failure),
    /// The list could not be written to its end.
    Output(io::Error),
}

impl From<Failure> for Stop {
    fn from(failure: Failure) -> Stop {
        Stop::Failure(failure)
    }
}

impl From<io::Error> for Stop {
    fn from(error: io::Error) -> Stop {
        Stop::Output(error)
    }
}

pub type Result<T> = std::result::Result<T, Stop>;

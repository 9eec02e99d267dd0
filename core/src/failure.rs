//! Why there is no answer.

use std::fmt;

use crate::engine::{meaning, NoRun, Refusal};
use crate::text::fault::Fault;

/// Why there is no answer.
#[derive(Clone, Debug)]
pub enum Failure {
    /// Of a place of the text.
    At(Box<Fault>),
    /// Of the command.
    Usage(String),
    /// The engine refused.
    Refused { what: &'static str, refusal: Refusal },
    /// A run that needs more memory than it may take: so many words of scratch and list where its rows were counted, else more than these.
    Memory { scratch: usize, list: usize, counted: bool, memory: usize },
    /// What was packed or listed is not what was read.
    Check(String),
}

impl Failure {
    pub fn run(no_run: NoRun, memory: usize) -> Failure {
        match no_run {
            NoRun::Refused(refusal) => Failure::Refused { what: "the run", refusal },
            NoRun::Memory { scratch, list, counted } => Failure::Memory { scratch, list, counted, memory },
        }
    }

    /// The engine's refusal, given or foreseen.
    pub fn refusal(&self) -> Option<Refusal> {
        match self {
            Failure::Refused { refusal, .. } => Some(*refusal),
            Failure::At(fault) => fault.refusal.map(|number| Refusal(number.into())),
            _ => None,
        }
    }
}

/// What a run that does not fit needs, in words.
pub fn lacking(scratch: usize, list: usize, counted: bool, memory: usize) -> String {
    let [scratch, list, memory] = [4 * scratch, 4 * list, memory].map(size);
    match counted {
        true => format!("the run needs {list} of list and {scratch} of scratch, which is more than the {memory} it may take"),
        false => format!(
            "the run needs more memory than the {memory} it may take: with {scratch} of scratch and {list} of list it did not fit"
        ),
    }
}

/// A size in the unit that a person would use.
pub fn size(bytes: usize) -> String {
    let bytes = bytes as u64;
    match bytes {
        0..=9_999 => format!("{bytes} bytes"),
        10_000..=9_999_999 => format!("{} KB", bytes / 1_000),
        10_000_000..=9_999_999_999 => format!("{} MB", bytes / 1_000_000),
        _ => format!("{} GB", bytes / 1_000_000_000),
    }
}

impl fmt::Display for Failure {
    fn fmt(&self, f: &mut fmt::Formatter) -> fmt::Result {
        match self {
            Failure::At(fault) => write!(f, "{}", fault.reason),
            Failure::Usage(sentence) => write!(f, "{sentence}"),
            Failure::Refused { what, refusal } => {
                write!(f, "the engine refused {what} with {}: {}", refusal.0, meaning(*refusal))?;
                match refusal.0 {
                    20 | 21 => write!(f, ". The most it can be lent is 4 GB each; ask for less: name kinds, days or pairs"),
                    30 => write!(f, ". Ask for less: name kinds, days or pairs"),
                    _ => Ok(()),
                }
            }
            Failure::Memory { scratch, list, counted, memory } => write!(
                f,
                "{}. Give it more with --memory, or ask for less: name kinds, days or pairs, list mirror images --once, or try \
                 another --plan",
                lacking(*scratch, *list, *counted, *memory)
            ),
            Failure::Check(sentence) => write!(f, "the check of the answer failed, so there is no list: {sentence}"),
        }
    }
}

impl std::error::Error for Failure {}

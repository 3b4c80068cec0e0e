//! Why the library refused a call.

use crate::MinusError;
use crate::error::{CleanupError, SetupError};
use std::io::{Error, ErrorKind};

/// Why the library refused a call.
#[derive(Clone, Copy, Debug, PartialEq, Eq)]
pub enum Refusal {
    Memory,
    NewlineInPrompt,
    BadSize,
    BadDescription,
    QueryFull,
    BadMode,
    Failed,
    Ended,
    Setup,
    Cleanup,
    Draw,
    SearchExpError,
    NotUtf8,
    /// A number stands for nothing, or the library has a refusal that is not known here.
    BadArgument,
}

impl Refusal {
    /// The refusal that a number stands for; 0 is none.
    pub const fn of(number: u8) -> Option<Self> {
        Some(match number {
            0 => return None,
            1 => Self::Memory,
            2 => Self::NewlineInPrompt,
            5 => Self::BadSize,
            6 => Self::BadDescription,
            8 => Self::QueryFull,
            9 => Self::BadMode,
            10 => Self::Failed,
            11 => Self::Ended,
            12 => Self::Setup,
            13 => Self::Cleanup,
            14 => Self::Draw,
            15 => Self::SearchExpError,
            254 => Self::NotUtf8,
            _ => Self::BadArgument,
        })
    }

    /// Whether the pager goes on as if it had not been asked: nothing has changed, and nothing of the program's is lost.
    pub const fn is_passed_over(self) -> bool {
        matches!(self, Self::BadSize | Self::QueryFull | Self::BadMode | Self::NewlineInPrompt)
    }
}

fn no_memory() -> Error {
    ErrorKind::OutOfMemory.into()
}

impl From<Refusal> for MinusError {
    fn from(refusal: Refusal) -> Self {
        match refusal {
            Refusal::Memory | Refusal::Draw => Self::Draw(no_memory()),
            Refusal::Setup => SetupError::AlternateScreen(no_memory().into()).into(),
            Refusal::Cleanup => CleanupError::LeaveAlternateScreen(no_memory().into()).into(),
            Refusal::BadSize => Self::Conversion,
            other => Self::Draw(Error::other(format!("the pager refused a call: {other:?}"))),
        }
    }
}

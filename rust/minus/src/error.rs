//! What can go wrong: with the terminal, with the channel, with the sink.

use crate::minus_core::commands::Command;
use std::io;

/// The terminal refused an operation.
///
/// [`source`](std::error::Error::source) tells more.
#[derive(Debug, thiserror::Error)]
#[error(transparent)]
pub struct TermError(#[from] io::Error);

/// A query is no regular expression.
#[cfg(feature = "search")]
#[derive(Debug, thiserror::Error)]
#[error(transparent)]
pub struct RegexError(#[from] regex::Error);

/// The terminal could not be made ready for the pager.
#[derive(Debug, thiserror::Error)]
pub enum SetupError {
    /// The sink is no terminal.
    #[error("The standard output is not a valid terminal")]
    InvalidTerminal,

    /// The alternate screen could not be entered.
    #[error("Failed to switch to alternate screen")]
    AlternateScreen(TermError),

    /// Raw mode could not be switched on.
    #[error("Failed to enable raw mode")]
    RawMode(TermError),

    /// The cursor could not be hidden.
    #[error("Failed to hide the cursor")]
    HideCursor(TermError),

    /// The terminal does not report the mouse.
    #[error("Failed to enable mouse capture")]
    EnableMouseCapture(TermError),

    /// The terminal does not say how many columns and rows it has, or the size is none that a pager can have.
    #[error("Couldn't determine the terminal size")]
    TerminalSize(TermError),
}

/// The terminal could not be handed back as it was.
#[derive(Debug, thiserror::Error)]
pub enum CleanupError {
    /// The mouse is still reported.
    #[error("Failed to disable mouse capture")]
    DisableMouseCapture(TermError),

    /// The cursor is still hidden.
    #[error("Failed to show the cursor")]
    ShowCursor(TermError),

    /// Raw mode is still on.
    #[error("Failed to disable raw mode")]
    DisableRawMode(TermError),

    /// The alternate screen is still shown.
    #[error("Failed to switch back to main screen")]
    LeaveAlternateScreen(TermError),
}

/// What a call of this crate answers where it fails.
#[derive(Debug, thiserror::Error)]
pub enum MinusError {
    /// The terminal could not be made ready.
    #[error("Failed to initialize the terminal")]
    Setup(#[from] SetupError),

    /// The terminal could not be handed back.
    #[error("Failed to clean up the terminal")]
    Cleanup(#[from] CleanupError),

    /// The sink refused what was drawn, or there was no memory to draw.
    #[error("Failed to draw the new data")]
    Draw(#[from] io::Error),

    /// The terminal's events could not be read.
    #[error("Failed to handle terminal event")]
    HandleEvent(TermError),

    /// The terminal refused an operation on the cursor.
    #[error("Failed to do an operation on the cursor")]
    Cursor(#[from] TermError),

    /// A formatted text could not be sent to the pager.
    #[error("Failed to send formatted data to the pager")]
    FmtWriteError(#[from] std::fmt::Error),

    /// Nobody receives what was sent to the pager.
    #[error("Failed to send data to the receiver")]
    Communication(#[from] crossbeam_channel::SendError<Command>),

    /// A number does not fit its type.
    #[error("Failed to convert between some primitives")]
    Conversion,

    /// A query is no regular expression.
    #[cfg(feature = "search")]
    #[error(transparent)]
    SearchExpError(#[from] RegexError),
}

#[cfg(feature = "search")]
impl From<regex::Error> for MinusError {
    fn from(cause: regex::Error) -> Self {
        Self::SearchExpError(cause.into())
    }
}

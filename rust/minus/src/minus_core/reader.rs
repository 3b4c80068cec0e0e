//! The thread that reads the terminal.

use super::commands::Command;
use super::panics::Ends;
use super::terminal::Terminal;
use crate::error::{MinusError, TermError};
use crossbeam_channel::Sender;
use std::io::Result;
use std::time::Duration;

/// How long an event is waited for, before it is looked whether the pager ends.
const WAIT: Duration = Duration::from_millis(50);

/// Sends each event of the terminal to the pager, until the pager ends or nobody receives. Where the pager does not know
/// yet that it ends it is told so.
pub fn read_events(
    terminal: &impl Terminal,
    pager: &Sender<Command>,
    ends: &Ends,
) -> std::result::Result<(), MinusError> {
    let read = forward(terminal, pager, ends).map_err(|cause| MinusError::HandleEvent(TermError::from(cause)));
    if !ends.is_over.load(std::sync::atomic::Ordering::SeqCst) {
        // Where nobody receives there is nobody to be told.
        let _ = pager.send(Command::Stop);
    }
    read
}

fn forward(terminal: &impl Terminal, pager: &Sender<Command>, ends: &Ends) -> Result<()> {
    while !ends.are_near() {
        if let Some(event) = terminal.next_event(WAIT)?
            && pager.send(Command::Event(event)).is_err()
        {
            break;
        }
    }
    Ok(())
}

//! The process's terminal: its size, its raw mode, its events.

use crossterm::event::{self, DisableMouseCapture, Event};
use crossterm::terminal::{LeaveAlternateScreen, disable_raw_mode, enable_raw_mode, size};
use crossterm::{cursor, execute};
use std::io::{Result, Write};
use std::time::Duration;

/// What a pager asks of a terminal besides writing to it.
pub trait Terminal: Send + Sync + 'static {
    /// How many columns and rows it has.
    fn size(&self) -> Result<(u16, u16)>;

    /// Lets keys come one by one and unseen, or as they came before.
    fn set_raw(&self, is_raw: bool) -> Result<()>;

    /// Whether the threads of the process write to it, so that it has to be handed back where one of them panics.
    fn is_of_the_process(&self) -> bool;

    /// The next event, if one comes in this time.
    fn next_event(&self, wait: Duration) -> Result<Option<Event>>;
}

/// The terminal of the process.
pub struct Console;

impl Terminal for Console {
    fn size(&self) -> Result<(u16, u16)> {
        size()
    }

    fn set_raw(&self, is_raw: bool) -> Result<()> {
        if is_raw { enable_raw_mode() } else { disable_raw_mode() }
    }

    fn is_of_the_process(&self) -> bool {
        true
    }

    fn next_event(&self, wait: Duration) -> Result<Option<Event>> {
        if event::poll(wait)? { event::read().map(Some) } else { Ok(None) }
    }
}

/// Hands the terminal back where the session cannot be asked: its thread may be the one that panics.
pub fn hand_back(terminal: &impl Terminal, sink: &mut impl Write) -> Result<()> {
    execute!(sink, cursor::Show, DisableMouseCapture)?;
    terminal.set_raw(false)?;
    execute!(sink, LeaveAlternateScreen)
}

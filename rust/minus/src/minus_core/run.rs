//! A pager from its start to its end.
//!
//! 1. The session takes what waits in the channel, and starts for the terminal's size.
//! 2. The hook `PrePagerStart` is called; then raw mode is on, and the first page is drawn.
//! 3. A thread reads the terminal. This one takes commands and events, one by one, until one ends the session.
//! 4. At an exit the hook `PrePagerExit` is called, the terminal is handed back, and `PostPagerExit` is called.
//!
//! So the events `j` and `q` come as two commands: one draws a row, and one ends the session and draws the cleanup.

use super::commands::Command;
use super::joined::joined;
use super::panics::hand_back_at_panic;
use super::reader::read_events;
use super::run_mode::{Claim, RunMode};
use super::session::{Flow, Session};
use super::terminal::{Console, Terminal};
use crate::Pager;
use crate::error::{CleanupError, MinusError, SetupError};
use crate::hooks::Hook;
use crate::proved::Told;
use crossbeam_channel::Receiver;
use std::io;
use std::iter::once;
use std::panic::resume_unwind;
use std::sync::Arc;
use std::sync::atomic::Ordering;

/// Runs a pager on the process's terminal.
pub fn run(pager: &Pager, mode: RunMode) -> Result<(), MinusError> {
    run_on(pager, mode, Arc::new(Console))
}

/// Runs a pager on this terminal.
pub fn run_on<T: Terminal>(pager: &Pager, mode: RunMode, terminal: Arc<T>) -> Result<(), MinusError> {
    let _claim = Claim::of(mode);
    let mut session = Session::new(terminal)?;
    // What is told from now on comes to the pager that runs.
    let told = pager.rx.try_iter().take(pager.rx.len());
    // What is left of the terminal of a pager before is none of this one's.
    let told = told.filter(|command| !matches!(command, Command::Event(_) | Command::Stop));
    for command in joined(told) {
        session.take(command)?;
    }
    if session.start(mode)? { session.page(pager) } else { Ok(()) }
}

/// A sink that refused the first drawing, as a refusal of the first bytes that set a terminal up.
fn unset(cause: io::Error) -> MinusError {
    SetupError::AlternateScreen(cause.into()).into()
}

/// A sink that refused the last bytes, as a refusal of the first ones that clean a terminal up.
fn uncleaned(cause: io::Error) -> MinusError {
    CleanupError::ShowCursor(cause.into()).into()
}

impl<T: Terminal> Session<T> {
    /// Starts the session, and says whether it runs: a text of `page_all` may have been written.
    fn start(&mut self, mode: RunMode) -> Result<bool, MinusError> {
        let is_tty = self.sink.lock().is_tty();
        let (cols, rows) = self.size(is_tty)?;
        let told = self.begin(mode, cols, rows, is_tty)?;
        self.run_hooks(Hook::PrePagerStart)?;
        if told.exited {
            self.draw()?;
            if is_tty {
                self.run_exit_callbacks();
            }
            return Ok(false);
        }
        if !is_tty {
            return Err(SetupError::InvalidTerminal.into());
        }
        self.enter_raw_mode()?;
        self.draw().map_err(unset).inspect_err(|_| self.abandon())?;
        Ok(true)
    }

    /// The size of the terminal; 1 by 1 where there is none.
    fn size(&self, is_tty: bool) -> Result<(usize, usize), SetupError> {
        if !is_tty {
            return Ok((1, 1));
        }
        let (cols, rows) = self.terminal.size().map_err(|cause| SetupError::TerminalSize(cause.into()))?;
        Ok((cols.into(), rows.into()))
    }

    #[cfg_attr(not(feature = "static_output"), expect(unused_variables))]
    fn begin(&mut self, mode: RunMode, cols: usize, rows: usize, is_tty: bool) -> Result<Told, MinusError> {
        #[cfg(feature = "static_output")]
        if mode == RunMode::Static {
            return Ok(self.proved.page_all(cols, rows, is_tty)?);
        }
        Ok(self.proved.start(mode, cols, rows)?)
    }

    /// Pages until an exit. Another thread reads the terminal meanwhile.
    fn page(mut self, pager: &Pager) -> Result<(), MinusError> {
        let ends = self.ends.clone();
        if self.terminal.is_of_the_process() {
            hand_back_at_panic(&ends, &self.terminal, &self.sink);
        }
        let terminal = self.terminal.clone();
        std::thread::scope(|scope| {
            let reader = scope.spawn(|| read_events(&*terminal, &pager.tx, &ends));
            let paged = self.work(&pager.rx);
            ends.is_over.store(true, Ordering::SeqCst);
            reader.join().unwrap_or_else(|panic| resume_unwind(panic))?;
            paged
        })
    }

    fn work(&mut self, commands: &Receiver<Command>) -> Result<(), MinusError> {
        let worked = match self.take_all(commands) {
            _ if self.ends.has_panicked.load(Ordering::SeqCst) => return self.end_after_panic(),
            Ok(Flow::Exited) => self.exit(),
            Ok(_) => self.finish(),
            Err(cause) => Err(cause),
        };
        worked.inspect_err(|_| self.abandon())
    }

    /// Takes commands until one ends the session.
    fn take_all(&mut self, commands: &Receiver<Command>) -> Result<Flow, MinusError> {
        self.run_hooks(Hook::PostPagerStart)?;
        while let Ok(first) = commands.recv() {
            for command in joined(once(first).chain(commands.try_iter())) {
                let flow = self.take(command)?;
                if flow != Flow::On {
                    return Ok(flow);
                }
            }
        }
        Ok(Flow::Stopped)
    }

    /// Exits as the user asked for.
    fn exit(&mut self) -> Result<(), MinusError> {
        self.run_hooks(Hook::PrePagerExit)?;
        self.run_exit_callbacks();
        self.draw().map_err(uncleaned)?;
        self.leave_raw_mode()?;
        self.ends.is_over.store(true, Ordering::SeqCst);
        self.run_hooks(Hook::PostPagerExit)
    }

    /// Hands the terminal back without an exit.
    fn finish(&mut self) -> Result<(), MinusError> {
        self.proved.finish()?;
        self.draw().map_err(uncleaned)?;
        Ok(self.leave_raw_mode()?)
    }

    /// Hands the terminal back where the session cannot go on: what it refuses then is of no more use.
    fn abandon(&mut self) {
        let _ = self.finish();
        let _ = self.leave_raw_mode();
    }

    /// Ends where a thread has panicked. The terminal was handed back, and whether the process goes on is not for the
    /// pager to say.
    fn end_after_panic(&mut self) -> Result<(), MinusError> {
        self.ends.wait_for_panic();
        self.keep_process();
        self.run_hooks(Hook::PostPagerExit)
    }
}

//! The way to a pager.

use crate::error::MinusError;
use crate::hooks::{Hook, HookCallback};
use crate::input::InputClassifier;
use crate::minus_core::commands::Command;
#[cfg(feature = "search")]
use crate::search::SearchOpts;
use crate::{ExitStrategy, LineNumbers, OutputSink, Result};
use crossbeam_channel::{Receiver, Sender, unbounded};
use std::fmt;

/// The way to a pager: what a program tells it before it starts and while it runs.
///
/// Clones lead to the same pager, so that one thread runs it and others feed it. What is told waits until the pager takes
/// it. A pager is a [`fmt::Write`] too:
///
/// ```
/// use minus::Pager;
/// use std::fmt::Write;
///
/// let mut pager = Pager::new();
/// writeln!(pager, "{} files", 12)?;
/// pager.push_str("and one folder\n")?;
/// # Ok::<(), minus::MinusError>(())
/// ```
///
/// # Errors
///
/// Each call answers [`MinusError::Communication`] where nobody can receive what is sent. A `Pager` can receive itself, so
/// none does today.
#[derive(Clone)]
pub struct Pager {
    pub(crate) tx: Sender<Command>,
    pub(crate) rx: Receiver<Command>,
}

impl Pager {
    /// The way to a new pager.
    #[must_use]
    pub fn new() -> Self {
        let (tx, rx) = unbounded();
        Self { tx, rx }
    }

    fn send(&self, command: Command) -> Result {
        Ok(self.tx.send(command)?)
    }

    /// Puts a text in the place of all text.
    ///
    /// # Errors
    ///
    /// See [`Pager`].
    ///
    /// ```
    /// let pager = minus::Pager::new();
    /// pager.push_str("is gone")?;
    /// pager.set_text("the whole text\n")?;
    /// # Ok::<(), minus::MinusError>(())
    /// ```
    pub fn set_text(&self, s: impl Into<String>) -> Result<(), MinusError> {
        self.send(Command::SetData(s.into()))
    }

    /// Adds a text at the end.
    ///
    /// # Errors
    ///
    /// See [`Pager`].
    ///
    /// ```
    /// let pager = minus::Pager::new();
    /// pager.push_str("a line ")?;
    /// pager.push_str(String::from("of two pieces\n"))?;
    /// # Ok::<(), minus::MinusError>(())
    /// ```
    pub fn push_str(&self, s: impl Into<String>) -> Result<(), MinusError> {
        self.send(Command::AppendData(s.into()))
    }

    /// Lets rows begin with the numbers of their lines, or not.
    ///
    /// # Errors
    ///
    /// See [`Pager`].
    ///
    /// ```
    /// use minus::{LineNumbers, Pager};
    ///
    /// Pager::new().set_line_numbers(LineNumbers::Enabled)?;
    /// # Ok::<(), minus::MinusError>(())
    /// ```
    pub fn set_line_numbers(&self, l: LineNumbers) -> Result<(), MinusError> {
        self.send(Command::SetLineNumbers(l))
    }

    /// Says this in the prompt row, in the place of the program's name.
    ///
    /// # Panics
    ///
    /// Where the text has a newline.
    ///
    /// # Errors
    ///
    /// See [`Pager`].
    ///
    /// ```
    /// minus::Pager::new().set_prompt("licence, q to go on")?;
    /// # Ok::<(), minus::MinusError>(())
    /// ```
    pub fn set_prompt(&self, text: impl Into<String>) -> Result<(), MinusError> {
        let text = text.into();
        assert!(!text.contains('\n'), "a prompt has one row, so it cannot contain newlines");
        self.send(Command::SetPrompt(text))
    }

    /// Says this in the prompt's place, until the user presses Enter.
    ///
    /// # Panics
    ///
    /// Where the text has a newline.
    ///
    /// # Errors
    ///
    /// See [`Pager`].
    ///
    /// ```
    /// minus::Pager::new().send_message("the download has ended")?;
    /// # Ok::<(), minus::MinusError>(())
    /// ```
    pub fn send_message(&self, text: impl Into<String>) -> Result<(), MinusError> {
        let text = text.into();
        assert!(!text.contains('\n'), "a message has one row, so it cannot contain newlines");
        self.send(Command::SendMessage(text))
    }

    /// Says what an exit ends.
    ///
    /// # Errors
    ///
    /// See [`Pager`].
    #[deprecated(since = "5.7.0", note = "a callback of the hook `PostPagerExit` can do the same")]
    pub fn set_exit_strategy(&self, es: ExitStrategy) -> Result<(), MinusError> {
        self.send(Command::SetExitStrategy(es))
    }

    /// Pages even a text that fits the terminal; [`page_all`](crate::page_all) writes such a text otherwise.
    ///
    /// # Errors
    ///
    /// See [`Pager`].
    ///
    /// ```
    /// let pager = minus::Pager::new();
    /// pager.set_text("one line\n")?;
    /// pager.set_run_no_overflow(true)?;
    /// # Ok::<(), minus::MinusError>(())
    /// ```
    #[cfg(feature = "static_output")]
    pub fn set_run_no_overflow(&self, val: bool) -> Result<(), MinusError> {
        self.send(Command::SetRunNoOverflow(val))
    }

    /// Lets each line be one row, which is scrolled sideways, or wraps lines that are too long.
    ///
    /// # Errors
    ///
    /// See [`Pager`].
    ///
    /// ```
    /// minus::Pager::new().horizontal_scroll(true)?;
    /// # Ok::<(), minus::MinusError>(())
    /// ```
    pub fn horizontal_scroll(&self, value: bool) -> Result<(), MinusError> {
        self.send(Command::LineWrapping(!value))
    }

    /// Lets this decide about events, in the place of the default bindings. See [`input`](crate::input).
    ///
    /// # Errors
    ///
    /// See [`Pager`].
    pub fn set_input_classifier(&self, handler: Box<dyn InputClassifier + Send + Sync>) -> Result<(), MinusError> {
        self.send(Command::SetInputClassifier(handler))
    }

    /// Calls this at an exit.
    ///
    /// # Errors
    ///
    /// See [`Pager`].
    #[deprecated(since = "5.7.0", note = "a callback of the hook `PostPagerExit` can do the same")]
    pub fn add_exit_callback(&self, cb: Box<dyn FnMut() + Send + Sync + 'static>) -> Result<(), MinusError> {
        self.send(Command::AddExitCallback(cb))
    }

    /// Calls this at a hook, until it is removed by this id. The id 0 asks for the next one: at least 2, and greater than
    /// each that the hook holds.
    ///
    /// An id that the hook holds already is a mistake of the program, at which the pager's thread panics.
    ///
    /// # Errors
    ///
    /// See [`Pager`].
    ///
    /// ```
    /// use minus::{Pager, hooks::Hook};
    ///
    /// let pager = Pager::new();
    /// pager.add_hook(Hook::PrePagerExit, 2, Box::new(|state| eprintln!("left at row {}", state.upper_mark)))?;
    /// # Ok::<(), minus::MinusError>(())
    /// ```
    pub fn add_hook(&self, hook: Hook, id: u64, cb: HookCallback) -> Result<(), MinusError> {
        self.send(Command::AddHook(hook, id, cb))
    }

    /// Calls no longer what a hook holds under this id.
    ///
    /// # Errors
    ///
    /// See [`Pager`].
    ///
    /// ```
    /// use minus::{Pager, hooks::Hook};
    ///
    /// // After an exit the process goes on.
    /// Pager::new().remove_hook(Hook::PostPagerExit, 1)?;
    /// # Ok::<(), minus::MinusError>(())
    /// ```
    pub fn remove_hook(&self, hook: Hook, id: u64) -> Result<(), MinusError> {
        self.send(Command::RemoveHook(hook, id))
    }

    /// Lets this decide whether the page shows where a query leads while it is typed. See [`search`](crate::search).
    ///
    /// # Errors
    ///
    /// See [`Pager`].
    #[cfg(feature = "search")]
    pub fn set_incremental_search_condition(
        &self,
        cb: Box<dyn Fn(&SearchOpts) -> bool + Send + Sync + 'static>,
    ) -> Result {
        self.send(Command::IncrementalSearchCondition(cb))
    }

    /// Shows the prompt row, or hides it. The search prompt is shown in each case.
    ///
    /// # Errors
    ///
    /// See [`Pager`].
    ///
    /// ```
    /// minus::Pager::new().show_prompt(false)?;
    /// # Ok::<(), minus::MinusError>(())
    /// ```
    pub fn show_prompt(&self, show: bool) -> Result {
        self.send(Command::ShowPrompt(show))
    }

    /// Follows the end of the text while it grows, or no longer.
    ///
    /// # Errors
    ///
    /// See [`Pager`].
    ///
    /// ```
    /// minus::Pager::new().follow_output(true)?;
    /// # Ok::<(), minus::MinusError>(())
    /// ```
    pub fn follow_output(&self, follow_output: bool) -> Result {
        self.send(Command::FollowOutput(follow_output))
    }

    /// Writes here, in the place of the standard output.
    ///
    /// # Errors
    ///
    /// See [`Pager`].
    ///
    /// ```
    /// minus::Pager::new().set_output_sink(std::io::stderr())?;
    /// # Ok::<(), minus::MinusError>(())
    /// ```
    pub fn set_output_sink<S: OutputSink>(&self, sink: S) -> Result {
        self.send(Command::SetOutputSink(Box::new(sink)))
    }
}

impl Default for Pager {
    fn default() -> Self {
        Self::new()
    }
}

impl fmt::Write for Pager {
    fn write_str(&mut self, s: &str) -> fmt::Result {
        self.push_str(s).map_err(|_| fmt::Error)
    }
}

#[cfg(test)]
mod tests;

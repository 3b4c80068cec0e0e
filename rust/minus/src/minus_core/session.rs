//! The session and what stands on this side of it: the sink, the callbacks, an own classifier.

use super::commands::Command;
#[cfg(feature = "search")]
use super::commands::IncrementalCondition;
use super::panics::Ends;
use super::snapshot::state_of;
use super::terminal::Terminal;
use crate::error::{CleanupError, MinusError, SetupError};
use crate::hooks::{Hook, Hooks};
use crate::input::{InputClassifier, InputEvent};
use crate::proved::{Event, Proved, Refusal, Told};
use crate::{ExitCallbacks, ExitStrategy, OutputSink, PagerState};
use crossterm::event::Event as TerminalEvent;
use parking_lot::Mutex;
use std::io::{self, Write};
use std::sync::Arc;
use std::sync::atomic::Ordering;

/// The id of `PostPagerExit` that ends the process.
const STRATEGY_ID: u64 = 1;

/// Whether a session goes on.
#[derive(Clone, Copy, Debug, PartialEq, Eq)]
pub enum Flow {
    On,
    /// An exit was asked for: the bytes that hand the terminal back wait.
    Exited,
    /// The session is to let the terminal go.
    Stopped,
}

/// A session: the library's pager, and what the library has no part in.
pub struct Session<T> {
    pub(super) proved: Proved,
    // The help of the program's classifier while it is displayed: a pager of its own, over the text that it hides.
    pub(super) help: Option<Proved>,
    pub(super) terminal: Arc<T>,
    pub(super) sink: Arc<Mutex<Box<dyn OutputSink>>>,
    pub(super) ends: Arc<Ends>,
    // The program's own; the library's default bindings decide where there is none.
    pub(super) classifier: Option<Box<dyn InputClassifier + Send + Sync>>,
    #[cfg(feature = "search")]
    pub(super) condition: Option<IncrementalCondition>,
    hooks: Hooks,
    exit_callbacks: ExitCallbacks,
}

/// What the prompt row says at first: the name of the program.
fn first_prompt() -> Option<String> {
    let program = std::env::current_exe().ok()?;
    let name = program.file_name()?.to_str()?;
    (!name.contains('\n')).then(|| name.to_owned())
}

impl<T: Terminal> Session<T> {
    /// A session that waits for its start, and writes to the standard output.
    pub fn new(terminal: Arc<T>) -> Result<Self, MinusError> {
        let mut proved = Proved::new()?;
        if let Some(prompt) = first_prompt() {
            proved.set_prompt(&prompt)?;
        }
        let sink: Box<dyn OutputSink> = Box::new(std::io::stdout());
        let mut session = Self {
            proved,
            help: None,
            terminal,
            sink: Arc::new(Mutex::new(sink)),
            ends: Arc::default(),
            classifier: None,
            #[cfg(feature = "search")]
            condition: None,
            hooks: Hooks::default(),
            exit_callbacks: Vec::new(),
        };
        session.hooks.add_callback(Hook::PostPagerExit, STRATEGY_ID, Box::new(|_| std::process::exit(0)));
        Ok(session)
    }

    /// Takes what the session is told.
    pub fn take(&mut self, command: Command) -> Result<Flow, MinusError> {
        let told = match command {
            Command::Stop => return Ok(Flow::Stopped),
            Command::Event(event) => self.take_event(event),
            Command::SetOutputSink(sink) => self.set_sink(sink),
            #[cfg(feature = "search")]
            Command::IncrementalSearchCondition(condition) => {
                self.condition = Some(condition);
                self.proved.show_search(false)
            }
            other => match self.keep(other) {
                Some(command) => tell(&mut self.proved, command),
                None => return Ok(Flow::On),
            },
        };
        self.done(told)
    }

    /// What a call leads to: what it wrote is drawn, a copied text is handed on, hooks are called.
    fn done(&mut self, told: Result<Told, Refusal>) -> Result<Flow, MinusError> {
        let told = match told {
            Err(refusal) if refusal.is_passed_over() => return Ok(self.draw_shown().map(|()| Flow::On)?),
            other => other?,
        };
        if told.exited {
            return Ok(Flow::Exited);
        }
        self.draw_shown()?;
        #[cfg(feature = "clipboard")]
        if told.copied {
            self.hand_copied_on()?;
        }
        if self.proved.take_eof_reached() {
            self.run_hooks(Hook::EofReached)?;
        }
        Ok(Flow::On)
    }

    /// Keeps what a command registers for this side, and gives any other command back.
    fn keep(&mut self, command: Command) -> Option<Command> {
        match command {
            Command::SetInputClassifier(classifier) => self.classifier = Some(classifier),
            Command::AddExitCallback(callback) => self.exit_callbacks.push(callback),
            Command::AddHook(hook, id, callback) => self.hooks.add_callback(hook, id, callback),
            Command::RemoveHook(hook, id) => {
                self.hooks.remove_callback(hook, id);
            }
            Command::SetExitStrategy(strategy) => self.set_exit_strategy(&strategy),
            other => return Some(other),
        }
        None
    }

    fn set_exit_strategy(&mut self, strategy: &ExitStrategy) {
        self.hooks.remove_callback(Hook::PostPagerExit, STRATEGY_ID);
        if *strategy == ExitStrategy::ProcessQuit {
            self.hooks.add_callback(Hook::PostPagerExit, STRATEGY_ID, Box::new(|_| std::process::exit(1)));
        }
    }

    /// Writes to another sink from now on. Where a terminal shows it, it is of that terminal's size.
    fn set_sink(&mut self, sink: Box<dyn OutputSink>) -> Result<Told, Refusal> {
        let is_tty = sink.is_tty();
        *self.sink.lock() = sink;
        match self.terminal.size() {
            Ok((cols, rows)) if is_tty => self.proved.event(Event::Resize(cols, rows)),
            _ => Ok(Told::default()),
        }
    }

    /// What is displayed: the help, or the text.
    pub(super) fn shown(&mut self) -> &mut Proved {
        self.help.as_mut().unwrap_or(&mut self.proved)
    }

    /// Lets the program's classifier decide about an event, or the library: it does so while the search prompt is open.
    fn take_event(&mut self, event: TerminalEvent) -> Result<Told, Refusal> {
        if self.shown().state().is_searching {
            return self.edit_query(event);
        }
        if self.classifier.is_none() {
            return self.classify(&event);
        }
        let answer = self.answer(event)?;
        self.follow(answer)
    }

    /// What the program's classifier answers to an event.
    fn answer(&mut self, event: TerminalEvent) -> Result<InputEvent, Refusal> {
        let sink = self.sink.clone();
        let state = state_of(self.shown(), &sink)?;
        let answer = self.classifier.as_ref().and_then(|classifier| classifier.classify_input(event, &state));
        Ok(answer.unwrap_or(InputEvent::Ignore))
    }

    /// Does what the program's classifier answered. Each answer that types no digit lets the typed ones go; what that
    /// draws waits for the next call.
    fn follow(&mut self, answer: InputEvent) -> Result<Told, Refusal> {
        if !matches!(answer, InputEvent::Number(_)) {
            self.shown().event(Event::NOTHING)?;
        }
        match answer {
            InputEvent::ShowHelp if self.help.is_none() => self.open_help(),
            InputEvent::ShowHelp | InputEvent::Exit | InputEvent::RestorePrompt if self.help.is_some() => {
                self.close_help()
            }
            InputEvent::UpdateTermArea(..) if self.help.is_some() => {
                self.proved.user_input(answer)?;
                self.shown().user_input(answer)
            }
            _ => self.shown().user_input(answer),
        }
    }

    /// Lets the library's default bindings decide about an event.
    fn classify(&mut self, event: &TerminalEvent) -> Result<Told, Refusal> {
        let event = Event::of(event).unwrap_or(Event::NOTHING);
        let event = if self.proved.offers(event)? { event } else { Event::NOTHING };
        self.proved.event(event)
    }

    /// What callbacks are shown.
    pub fn state(&mut self) -> Result<PagerState, MinusError> {
        Ok(state_of(&mut self.proved, &self.sink)?)
    }

    /// Calls what a hook holds.
    pub fn run_hooks(&mut self, hook: Hook) -> Result<(), MinusError> {
        if self.hooks.has_any(hook) {
            let state = self.state()?;
            self.hooks.run(hook, &state);
        }
        Ok(())
    }

    /// Calls the callbacks of an exit.
    pub fn run_exit_callbacks(&mut self) {
        self.exit_callbacks.iter_mut().for_each(|callback| callback());
    }

    /// Lets the process go on after the exit.
    pub fn keep_process(&mut self) {
        self.hooks.remove_callback(Hook::PostPagerExit, STRATEGY_ID);
    }

    /// Writes the bytes of the text that wait.
    pub fn draw(&mut self) -> io::Result<()> {
        let bytes = self.proved.take();
        self.write(&bytes)
    }

    /// Writes the bytes that wait of what is displayed. While that is the help, those of the text are dropped: the text
    /// is drawn whole once the help is left.
    fn draw_shown(&mut self) -> io::Result<()> {
        let text = self.proved.take();
        let shown = self.help.as_mut().map_or(text, Proved::take);
        self.write(&shown)
    }

    /// Writes to the sink, unless the terminal was handed back for a panic.
    fn write(&self, bytes: &[u8]) -> io::Result<()> {
        if bytes.is_empty() || self.ends.has_panicked.load(Ordering::SeqCst) {
            return Ok(());
        }
        let mut sink = self.sink.lock();
        sink.write_all(bytes)?;
        sink.flush()
    }

    /// Puts a text that was copied into the terminal's clipboard, if there is one.
    #[cfg(feature = "clipboard")]
    fn hand_copied_on(&mut self) -> Result<(), MinusError> {
        match self.shown().take_copied()? {
            Some(text) => Ok(self.write(&super::clipboard::copying(&text))?),
            None => Ok(()),
        }
    }

    /// Lets keys come one by one and unseen.
    pub fn enter_raw_mode(&self) -> Result<(), SetupError> {
        self.terminal.set_raw(true).map_err(|cause| SetupError::RawMode(cause.into()))
    }

    /// Lets keys come as they came before.
    pub fn leave_raw_mode(&self) -> Result<(), CleanupError> {
        self.terminal.set_raw(false).map_err(|cause| CleanupError::DisableRawMode(cause.into()))
    }
}

/// Makes the call of the library that a command stands for.
fn tell(proved: &mut Proved, command: Command) -> Result<Told, Refusal> {
    match command {
        Command::AppendData(text) => proved.push(&text),
        Command::SetData(text) => proved.set_text(&text),
        Command::SendMessage(text) => proved.send_message(&text),
        Command::ShowPrompt(is_shown) => proved.show_prompt(is_shown),
        Command::SetPrompt(text) => proved.set_prompt(&text),
        Command::LineWrapping(wraps) => proved.horizontal_scroll(!wraps),
        Command::SetLineNumbers(numbers) => proved.set_line_numbers(numbers),
        Command::FollowOutput(follows) => proved.follow_output(follows),
        #[cfg(feature = "static_output")]
        Command::SetRunNoOverflow(on) => proved.set_run_no_overflow(on),
        Command::UserInput(event) => proved.user_input(event),
        _ => Ok(Told::default()),
    }
}

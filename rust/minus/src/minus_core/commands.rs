//! What a pager is told.

use crate::hooks::{Hook, HookCallback};
use crate::input::{InputClassifier, InputEvent};
#[cfg(feature = "search")]
use crate::search::SearchOpts;
use crate::{ExitStrategy, LineNumbers, OutputSink};
use crossterm::event::Event;
use std::fmt::{Debug, Formatter, Result};

/// What decides whether the page shows where a query leads while it is typed.
#[cfg(feature = "search")]
pub type IncrementalCondition = Box<dyn Fn(&SearchOpts) -> bool + Send + Sync + 'static>;

/// What a pager is told by the program, or by the thread that reads the terminal.
#[non_exhaustive]
pub enum Command {
    /// Add this text at the end.
    AppendData(String),
    /// Put this text in the place of all text.
    SetData(String),
    /// Say this in the prompt's place.
    SendMessage(String),
    /// Show the prompt row, or hide it.
    ShowPrompt(bool),
    /// Say this in the prompt row.
    SetPrompt(String),
    /// Wrap lines that are too long, or let each be one row.
    LineWrapping(bool),
    /// Let rows begin with the numbers of their lines, or not.
    SetLineNumbers(LineNumbers),
    /// Follow the end of the text, or not.
    FollowOutput(bool),
    /// Write here from now on.
    SetOutputSink(Box<dyn OutputSink>),
    /// End this at an exit.
    SetExitStrategy(ExitStrategy),
    /// Let this decide about events.
    SetInputClassifier(Box<dyn InputClassifier + Send + Sync + 'static>),
    /// Call this at an exit.
    AddExitCallback(Box<dyn FnMut() + Send + Sync + 'static>),
    /// Call this at a hook, under an id.
    AddHook(Hook, u64, HookCallback),
    /// Call no longer what a hook holds under an id.
    RemoveHook(Hook, u64),
    /// Page even a text that fits.
    #[cfg(feature = "static_output")]
    SetRunNoOverflow(bool),
    /// Let this decide whether the page shows where a query leads.
    #[cfg(feature = "search")]
    IncrementalSearchCondition(IncrementalCondition),
    /// Do what an event asked for.
    UserInput(InputEvent),
    /// Take this event of the terminal.
    Event(Event),
    /// Let the terminal go: a thread has panicked, or the terminal cannot be read.
    Stop,
}

impl PartialEq for Command {
    /// Two commands that register a callback, a classifier or a sink of one kind are equal, whatever these are.
    fn eq(&self, other: &Self) -> bool {
        match (self, other) {
            (Self::AppendData(a), Self::AppendData(b))
            | (Self::SetData(a), Self::SetData(b))
            | (Self::SendMessage(a), Self::SendMessage(b))
            | (Self::SetPrompt(a), Self::SetPrompt(b)) => a == b,
            (Self::ShowPrompt(a), Self::ShowPrompt(b))
            | (Self::LineWrapping(a), Self::LineWrapping(b))
            | (Self::FollowOutput(a), Self::FollowOutput(b)) => a == b,
            (Self::SetLineNumbers(a), Self::SetLineNumbers(b)) => a == b,
            (Self::SetExitStrategy(a), Self::SetExitStrategy(b)) => a == b,
            (Self::AddHook(hook, id, _), Self::AddHook(other, other_id, _))
            | (Self::RemoveHook(hook, id), Self::RemoveHook(other, other_id)) => (hook, id) == (other, other_id),
            #[cfg(feature = "static_output")]
            (Self::SetRunNoOverflow(a), Self::SetRunNoOverflow(b)) => a == b,
            (Self::UserInput(a), Self::UserInput(b)) => a == b,
            (Self::Event(a), Self::Event(b)) => a == b,
            _ => std::mem::discriminant(self) == std::mem::discriminant(other),
        }
    }
}

impl Debug for Command {
    fn fmt(&self, f: &mut Formatter<'_>) -> Result {
        match self {
            Self::AppendData(text) => f.debug_tuple("AppendData").field(text).finish(),
            Self::SetData(text) => f.debug_tuple("SetData").field(text).finish(),
            Self::SendMessage(text) => f.debug_tuple("SendMessage").field(text).finish(),
            Self::ShowPrompt(is_shown) => f.debug_tuple("ShowPrompt").field(is_shown).finish(),
            Self::SetPrompt(text) => f.debug_tuple("SetPrompt").field(text).finish(),
            Self::LineWrapping(wraps) => f.debug_tuple("LineWrapping").field(wraps).finish(),
            Self::SetLineNumbers(numbers) => f.debug_tuple("SetLineNumbers").field(numbers).finish(),
            Self::FollowOutput(follows) => f.debug_tuple("FollowOutput").field(follows).finish(),
            Self::SetOutputSink(_) => f.write_str("SetOutputSink"),
            Self::SetExitStrategy(strategy) => f.debug_tuple("SetExitStrategy").field(strategy).finish(),
            Self::SetInputClassifier(_) => f.write_str("SetInputClassifier"),
            Self::AddExitCallback(_) => f.write_str("AddExitCallback"),
            Self::AddHook(hook, id, _) => f.debug_tuple("AddHook").field(hook).field(id).finish(),
            Self::RemoveHook(hook, id) => f.debug_tuple("RemoveHook").field(hook).field(id).finish(),
            #[cfg(feature = "static_output")]
            Self::SetRunNoOverflow(on) => f.debug_tuple("SetRunNoOverflow").field(on).finish(),
            #[cfg(feature = "search")]
            Self::IncrementalSearchCondition(_) => f.write_str("IncrementalSearchCondition"),
            Self::UserInput(event) => f.debug_tuple("UserInput").field(event).finish(),
            Self::Event(event) => f.debug_tuple("Event").field(event).finish(),
            Self::Stop => f.write_str("Stop"),
        }
    }
}

//! Types of this crate and of crossterm as the numbers of `include/minus.h`, and back.

#[cfg(any(test, not(all(feature = "search", feature = "clipboard"))))]
use super::raw::Asked;
use super::raw::State;
use crate::LineNumbers;
use crate::input::InputEvent;
#[cfg(feature = "search")]
use crate::search::SearchMode;

impl LineNumbers {
    pub(super) const fn number(self) -> u8 {
        match self {
            Self::AlwaysOn => 0,
            Self::Enabled => 1,
            Self::Disabled => 2,
            Self::AlwaysOff => 3,
        }
    }

    pub(super) const fn of_number(number: usize) -> Option<Self> {
        Some(match number {
            0 => Self::AlwaysOn,
            1 => Self::Enabled,
            2 => Self::Disabled,
            3 => Self::AlwaysOff,
            _ => return None,
        })
    }
}

#[cfg(feature = "search")]
impl SearchMode {
    pub(super) const fn number(self) -> u8 {
        match self {
            Self::Forward => 0,
            Self::Reverse => 1,
            Self::Unknown => 2,
        }
    }

    pub(super) const fn of_number(number: usize) -> Self {
        match number {
            0 => Self::Forward,
            1 => Self::Reverse,
            _ => Self::Unknown,
        }
    }
}

impl State {
    /// The setting of the line numbers; a pager that never ran has none.
    pub fn line_numbers(&self) -> LineNumbers {
        LineNumbers::of_number(self.line_numbers.into()).unwrap_or(LineNumbers::Disabled)
    }

    /// The direction of the last search.
    #[cfg(feature = "search")]
    pub fn search_mode(&self) -> SearchMode {
        SearchMode::of_number(self.search_mode.into())
    }
}

/// An input event as its number and what it says more.
#[allow(deprecated)]
pub fn numbers_of(event: InputEvent) -> (u8, usize, usize) {
    match event {
        InputEvent::Ignore => (0, 0, 0),
        InputEvent::UpdateUpperMark(row) => (1, row, 0),
        InputEvent::UpdateTermArea(cols, rows) => (2, cols, rows),
        InputEvent::UpdateLeftMark(column) => (3, column, 0),
        InputEvent::UpdateLineNumber(numbers) => (4, numbers.number().into(), 0),
        InputEvent::HorizontalScroll(wraps) => (5, wraps.into(), 0),
        InputEvent::StartSelection { x, y } => (6, x.into(), y.into()),
        InputEvent::UpdateSelection { x, y } => (7, x.into(), y.into()),
        InputEvent::ClearSelection => (8, 0, 0),
        #[cfg(feature = "clipboard")]
        InputEvent::CopySelection => (9, 0, 0),
        #[cfg(feature = "search")]
        InputEvent::Search(mode) => (10, mode.number().into(), 0),
        #[cfg(feature = "search")]
        InputEvent::NextMatch => (11, 0, 0),
        #[cfg(feature = "search")]
        InputEvent::PrevMatch => (12, 0, 0),
        #[cfg(feature = "search")]
        InputEvent::MoveToNextMatch(count) => (13, count, 0),
        #[cfg(feature = "search")]
        InputEvent::MoveToPrevMatch(count) => (14, count, 0),
        InputEvent::FollowOutput(follows) => (15, follows.into(), 0),
        InputEvent::RestorePrompt => (16, 0, 0),
        InputEvent::ShowHelp => (17, 0, 0),
        InputEvent::Number(digit) => (18, u32::from(digit) as usize, 0),
        InputEvent::Exit => (19, 0, 0),
    }
}

#[cfg(any(test, not(all(feature = "search", feature = "clipboard"))))]
fn place(x: usize, y: usize) -> Option<(u16, u16)> {
    Some((x.try_into().ok()?, y.try_into().ok()?))
}

/// The input event that a call answered, if its numbers are one that the crate's features have.
#[cfg(any(test, not(all(feature = "search", feature = "clipboard"))))]
#[allow(deprecated)]
pub fn event_of(asked: Asked) -> Option<InputEvent> {
    let Asked { first, second, .. } = asked;
    Some(match asked.kind {
        _ if !asked.is_there => return None,
        1 => InputEvent::UpdateUpperMark(first),
        2 => InputEvent::UpdateTermArea(first, second),
        3 => InputEvent::UpdateLeftMark(first),
        4 => InputEvent::UpdateLineNumber(LineNumbers::of_number(first)?),
        5 => InputEvent::HorizontalScroll(first != 0),
        6 => place(first, second).map(|(x, y)| InputEvent::StartSelection { x, y })?,
        7 => place(first, second).map(|(x, y)| InputEvent::UpdateSelection { x, y })?,
        8 => InputEvent::ClearSelection,
        #[cfg(feature = "clipboard")]
        9 => InputEvent::CopySelection,
        #[cfg(feature = "search")]
        10 => InputEvent::Search(SearchMode::of_number(first)),
        #[cfg(feature = "search")]
        11 => InputEvent::NextMatch,
        #[cfg(feature = "search")]
        12 => InputEvent::PrevMatch,
        #[cfg(feature = "search")]
        13 => InputEvent::MoveToNextMatch(first),
        #[cfg(feature = "search")]
        14 => InputEvent::MoveToPrevMatch(first),
        15 => InputEvent::FollowOutput(first != 0),
        16 => InputEvent::RestorePrompt,
        17 => InputEvent::ShowHelp,
        18 => InputEvent::Number(char::from_u32(first.try_into().ok()?)?),
        19 => InputEvent::Exit,
        0 => InputEvent::Ignore,
        _ => return None,
    })
}

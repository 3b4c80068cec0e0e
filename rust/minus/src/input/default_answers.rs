//! What the default bindings answer.

use super::InputEvent;
use crate::PagerState;
#[cfg(feature = "search")]
use crate::search::SearchMode;
use crossterm::event::{Event, KeyCode, KeyEvent, KeyModifiers};

/// The row for the end of the text: each greater than the last page's goes there.
pub const END: usize = usize::MAX - 1;

/// How many rows a turn of the wheel scrolls.
const WHEEL: usize = 5;

/// By how much a key moves: 1 where no number was typed.
pub fn steps(state: &PagerState) -> usize {
    state.prefix_num.parse().unwrap_or(1)
}

pub fn up_by(state: &PagerState, rows: usize) -> InputEvent {
    InputEvent::UpdateUpperMark(state.upper_mark.saturating_sub(rows))
}

pub fn down_by(state: &PagerState, rows: usize) -> InputEvent {
    InputEvent::UpdateUpperMark(state.upper_mark.saturating_add(rows))
}

/// The rows of text on a page: the prompt has the last one.
pub const fn page(state: &PagerState) -> usize {
    state.rows.saturating_sub(1)
}

pub fn scroll_up(_: &Event, state: &PagerState) -> InputEvent {
    up_by(state, steps(state))
}

pub fn scroll_down(_: &Event, state: &PagerState) -> InputEvent {
    down_by(state, steps(state))
}

pub fn toggle_follow(_: &Event, state: &PagerState) -> InputEvent {
    InputEvent::FollowOutput(!state.follow_output)
}

pub fn restore_or_down(_: &Event, state: &PagerState) -> InputEvent {
    if state.message.is_some() { InputEvent::RestorePrompt } else { down_by(state, steps(state)) }
}

pub fn half_page_up(_: &Event, state: &PagerState) -> InputEvent {
    up_by(state, state.rows / 2)
}

pub fn half_page_down(_: &Event, state: &PagerState) -> InputEvent {
    down_by(state, state.rows / 2)
}

pub fn top(_: &Event, _: &PagerState) -> InputEvent {
    InputEvent::UpdateUpperMark(0)
}

/// To the line that the typed digits name; to the end where they name none.
pub fn to_line(_: &Event, state: &PagerState) -> InputEvent {
    InputEvent::UpdateUpperMark(state.prefix_row.unwrap_or(END))
}

pub fn page_up(_: &Event, state: &PagerState) -> InputEvent {
    up_by(state, page(state))
}

pub fn page_down(_: &Event, state: &PagerState) -> InputEvent {
    down_by(state, page(state))
}

pub fn toggle_numbers(_: &Event, state: &PagerState) -> InputEvent {
    InputEvent::UpdateLineNumber(!state.line_numbers)
}

pub fn bottom(_: &Event, _: &PagerState) -> InputEvent {
    InputEvent::UpdateUpperMark(END)
}

pub fn help(_: &Event, _: &PagerState) -> InputEvent {
    InputEvent::ShowHelp
}

pub fn quit(_: &Event, _: &PagerState) -> InputEvent {
    InputEvent::Exit
}

#[cfg(feature = "search")]
pub fn search_forward(_: &Event, _: &PagerState) -> InputEvent {
    InputEvent::Search(SearchMode::Forward)
}

#[cfg(feature = "search")]
pub fn search_backward(_: &Event, _: &PagerState) -> InputEvent {
    InputEvent::Search(SearchMode::Reverse)
}

/// On in the direction of the last search.
#[cfg(feature = "search")]
pub fn next_match(_: &Event, state: &PagerState) -> InputEvent {
    match state.search_state.search_mode {
        SearchMode::Forward => InputEvent::MoveToNextMatch(steps(state)),
        SearchMode::Reverse => InputEvent::MoveToPrevMatch(steps(state)),
        SearchMode::Unknown => InputEvent::Ignore,
    }
}

/// Against the direction of the last search.
#[cfg(feature = "search")]
pub fn previous_match(_: &Event, state: &PagerState) -> InputEvent {
    match state.search_state.search_mode {
        SearchMode::Forward => InputEvent::MoveToPrevMatch(steps(state)),
        SearchMode::Reverse => InputEvent::MoveToNextMatch(steps(state)),
        SearchMode::Unknown => InputEvent::Ignore,
    }
}

pub fn toggle_wrap(_: &Event, state: &PagerState) -> InputEvent {
    InputEvent::HorizontalScroll(!state.screen.line_wrapping)
}

pub fn scroll_left(_: &Event, state: &PagerState) -> InputEvent {
    InputEvent::UpdateLeftMark(state.left_mark.saturating_sub(steps(state)))
}

pub fn scroll_right(_: &Event, state: &PagerState) -> InputEvent {
    InputEvent::UpdateLeftMark(state.left_mark.saturating_add(steps(state)))
}

pub fn wheel_up(_: &Event, state: &PagerState) -> InputEvent {
    up_by(state, WHEEL)
}

pub fn wheel_down(_: &Event, state: &PagerState) -> InputEvent {
    down_by(state, WHEEL)
}

pub fn start_selection(event: &Event, _: &PagerState) -> InputEvent {
    match event {
        Event::Mouse(mouse) => InputEvent::StartSelection { x: mouse.column, y: mouse.row },
        _ => InputEvent::Ignore,
    }
}

pub fn update_selection(event: &Event, _: &PagerState) -> InputEvent {
    match event {
        Event::Mouse(mouse) => InputEvent::UpdateSelection { x: mouse.column, y: mouse.row },
        _ => InputEvent::Ignore,
    }
}

#[cfg(feature = "clipboard")]
pub fn copy_selection(_: &Event, _: &PagerState) -> InputEvent {
    InputEvent::CopySelection
}

pub fn resize(event: &Event, _: &PagerState) -> InputEvent {
    match event {
        Event::Resize(cols, rows) => InputEvent::UpdateTermArea((*cols).into(), (*rows).into()),
        _ => InputEvent::Ignore,
    }
}

/// A digit is typed; any other event that nothing is bound to is for nothing.
pub fn digit(event: &Event, _: &PagerState) -> InputEvent {
    match event {
        Event::Key(KeyEvent { code: KeyCode::Char(c), modifiers: KeyModifiers::NONE, .. }) if c.is_ascii_digit() => {
            InputEvent::Number(*c)
        }
        _ => InputEvent::Ignore,
    }
}

//! What decides about events.

use super::InputEvent;
use super::default_answers::{self as answers, down_by, page, steps, up_by};
use crate::PagerState;
#[cfg(feature = "search")]
use crate::search::SearchMode;
use crossterm::event::{Event, KeyCode, KeyEvent, KeyModifiers, MouseEventKind};

/// What decides which [`InputEvent`] an event of the terminal asks for.
///
/// ```
/// use minus::input::crossterm_event::{Event, KeyCode};
/// use minus::input::{InputClassifier, InputEvent};
/// use minus::{Pager, PagerState};
///
/// /// The space bar goes on, Esc ends.
/// struct TwoKeys;
///
/// impl InputClassifier for TwoKeys {
///     fn classify_input(&self, event: Event, state: &PagerState) -> Option<InputEvent> {
///         let Event::Key(key) = event else { return None };
///         match key.code {
///             KeyCode::Char(' ') => Some(InputEvent::UpdateUpperMark(state.upper_mark + state.rows)),
///             KeyCode::Esc => Some(InputEvent::Exit),
///             _ => None,
///         }
///     }
/// }
///
/// let pager = Pager::new();
/// pager.set_input_classifier(Box::new(TwoKeys))?;
/// # Ok::<(), minus::MinusError>(())
/// ```
pub trait InputClassifier {
    /// What this event asks for where the pager stands so; nothing where this is `None`.
    fn classify_input(&self, event: Event, state: &PagerState) -> Option<InputEvent>;

    /// The text that tells what the keys do, if there is one.
    fn format_help(&self) -> Option<String> {
        None
    }
}

/// The default bindings without a register, as they were before there were registers: not all of the keys are there.
pub struct DefaultInputClassifier;

impl InputClassifier for DefaultInputClassifier {
    fn classify_input(&self, event: Event, state: &PagerState) -> Option<InputEvent> {
        match event {
            Event::Key(KeyEvent { code: KeyCode::Char(c), modifiers, .. }) => letter(c, modifiers, state),
            Event::Key(KeyEvent { code, modifiers: KeyModifiers::NONE, .. }) => named_key(code, state),
            Event::Mouse(mouse) => match mouse.kind {
                MouseEventKind::ScrollUp => Some(answers::wheel_up(&event, state)),
                MouseEventKind::ScrollDown => Some(answers::wheel_down(&event, state)),
                _ => None,
            },
            Event::Resize(..) => Some(answers::resize(&event, state)),
            _ => None,
        }
    }
}

/// A character's key.
fn letter(c: char, modifiers: KeyModifiers, state: &PagerState) -> Option<InputEvent> {
    match modifiers {
        KeyModifiers::NONE if c.is_ascii_digit() => Some(InputEvent::Number(c)),
        KeyModifiers::NONE => plain_letter(c, state),
        KeyModifiers::CONTROL => control_letter(c, state),
        KeyModifiers::SHIFT if c.eq_ignore_ascii_case(&'g') => Some(to_row(state)),
        _ => None,
    }
}

fn plain_letter(c: char, state: &PagerState) -> Option<InputEvent> {
    Some(match c {
        'k' => up_by(state, steps(state)),
        'j' => down_by(state, steps(state)),
        'u' => up_by(state, state.rows / 2),
        'd' => down_by(state, state.rows / 2),
        'g' => InputEvent::UpdateUpperMark(0),
        'G' => to_row(state),
        ' ' => down_by(state, page(state)),
        'q' => InputEvent::Exit,
        'h' => InputEvent::HorizontalScroll(!state.screen.line_wrapping),
        'l' => InputEvent::UpdateLeftMark(state.left_mark.saturating_add(1)),
        #[cfg(feature = "search")]
        '/' => InputEvent::Search(SearchMode::Forward),
        #[cfg(feature = "search")]
        '?' => InputEvent::Search(SearchMode::Reverse),
        #[cfg(feature = "search")]
        'n' => along(state, InputEvent::MoveToNextMatch, InputEvent::MoveToPrevMatch),
        #[cfg(feature = "search")]
        'p' => along(state, InputEvent::MoveToPrevMatch, InputEvent::MoveToNextMatch),
        _ => return None,
    })
}

fn control_letter(c: char, state: &PagerState) -> Option<InputEvent> {
    Some(match c {
        'f' => InputEvent::FollowOutput(!state.follow_output),
        'u' => up_by(state, state.rows / 2),
        'd' => down_by(state, state.rows / 2),
        'l' => InputEvent::UpdateLineNumber(!state.line_numbers),
        'c' => InputEvent::Exit,
        _ => return None,
    })
}

fn named_key(code: KeyCode, state: &PagerState) -> Option<InputEvent> {
    Some(match code {
        KeyCode::Up => up_by(state, steps(state)),
        KeyCode::Down => down_by(state, steps(state)),
        KeyCode::Enter if state.message.is_some() => InputEvent::RestorePrompt,
        KeyCode::Enter => down_by(state, steps(state)),
        KeyCode::PageUp => up_by(state, page(state)),
        KeyCode::PageDown => down_by(state, page(state)),
        KeyCode::Left => InputEvent::UpdateLeftMark(state.left_mark.saturating_sub(1)),
        KeyCode::Right => InputEvent::UpdateLeftMark(state.left_mark.saturating_add(1)),
        _ => return None,
    })
}

/// To the row before the one that the typed digits name; to the end where that would be the first one.
fn to_row(state: &PagerState) -> InputEvent {
    let row = state.prefix_num.parse().unwrap_or(usize::MAX).saturating_sub(1);
    InputEvent::UpdateUpperMark(if row == 0 { usize::MAX } else { row })
}

/// One jump after a search back, the other one else.
#[cfg(feature = "search")]
fn along(state: &PagerState, on: fn(usize) -> InputEvent, back: fn(usize) -> InputEvent) -> InputEvent {
    let jump = if state.search_state.search_mode == SearchMode::Reverse { back } else { on };
    jump(steps(state))
}

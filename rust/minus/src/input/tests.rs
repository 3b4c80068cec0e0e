//! The default bindings and registers.

use super::definitions::{parse_key_event, parse_mouse_event};
use super::{HashedEventRegister, InputClassifier, InputEvent};
use crate::{LineNumbers, PagerState, SearchMode};
use crossterm::event::{Event, KeyCode, KeyEvent, KeyModifiers, MouseButton, MouseEvent, MouseEventKind};

/// A state of five rows at the thirteenth row.
fn state() -> PagerState {
    PagerState { upper_mark: 12, line_numbers: LineNumbers::Enabled, rows: 5, ..PagerState::default() }
}

fn asked(event: Event, state: &PagerState) -> Option<InputEvent> {
    HashedEventRegister::default().classify_input(event, state)
}

fn key(code: KeyCode, modifiers: KeyModifiers) -> Event {
    Event::Key(KeyEvent::new(code, modifiers))
}

fn plain(code: KeyCode) -> Event {
    key(code, KeyModifiers::NONE)
}

fn mouse(kind: MouseEventKind) -> Event {
    Event::Mouse(MouseEvent { kind, column: 7, row: 3, modifiers: KeyModifiers::NONE })
}

#[test]
fn keys_move_the_mark() {
    let (control, shift) = (KeyModifiers::CONTROL, KeyModifiers::SHIFT);
    let end = usize::MAX - 1;
    for (event, row) in [
        (plain(KeyCode::Down), 13),
        (plain(KeyCode::Up), 11),
        (plain(KeyCode::Char('g')), 0),
        (plain(KeyCode::PageUp), 8),
        (key(KeyCode::Char('g'), shift), end),
        (plain(KeyCode::Char('G')), end),
        (key(KeyCode::Char('G'), shift), end),
        (plain(KeyCode::PageDown), 16),
        (key(KeyCode::Char('d'), control), 14),
        (key(KeyCode::Char('u'), control), 10),
        (plain(KeyCode::Char(' ')), 16),
        (plain(KeyCode::Enter), 13),
    ] {
        assert_eq!(asked(event.clone(), &state()), Some(InputEvent::UpdateUpperMark(row)), "{event:?}");
    }
}

#[test]
fn enter_lets_a_message_go() {
    let state = PagerState { message: Some("a message".to_owned()), ..state() };
    assert_eq!(asked(plain(KeyCode::Enter), &state), Some(InputEvent::RestorePrompt));
}

#[test]
fn the_mouse_scrolls_and_selects() {
    let state = state();
    let left = MouseButton::Left;
    for (kind, event) in [
        (MouseEventKind::ScrollDown, InputEvent::UpdateUpperMark(17)),
        (MouseEventKind::ScrollUp, InputEvent::UpdateUpperMark(7)),
        (MouseEventKind::Down(left), InputEvent::StartSelection { x: 7, y: 3 }),
        (MouseEventKind::Drag(left), InputEvent::UpdateSelection { x: 7, y: 3 }),
        #[cfg(feature = "clipboard")]
        (MouseEventKind::Up(left), InputEvent::CopySelection),
    ] {
        assert_eq!(asked(mouse(kind), &state), Some(event));
    }
}

#[test]
fn the_mark_stops_at_the_ends() {
    for (code, mark) in [(KeyCode::Down, usize::MAX), (KeyCode::Up, 0)] {
        let state = PagerState { upper_mark: mark, ..state() };
        assert_eq!(asked(plain(code), &state), Some(InputEvent::UpdateUpperMark(mark)));
    }
}

#[test]
fn other_events_ask_for_what_they_say() {
    let control = KeyModifiers::CONTROL;
    for (event, answer) in [
        (Event::Resize(42, 35), InputEvent::UpdateTermArea(42, 35)),
        (key(KeyCode::Char('l'), control), InputEvent::UpdateLineNumber(LineNumbers::Disabled)),
        (plain(KeyCode::Char('q')), InputEvent::Exit),
        (key(KeyCode::Char('c'), control), InputEvent::Exit),
        (plain(KeyCode::Char('a')), InputEvent::Ignore),
        (plain(KeyCode::Char('5')), InputEvent::Number('5')),
        #[cfg(feature = "clipboard")]
        (plain(KeyCode::Char('y')), InputEvent::CopySelection),
    ] {
        assert_eq!(asked(event, &state()), Some(answer));
    }
}

#[test]
fn searches_begin_and_go_on_in_their_direction() {
    let mut state = state();
    for (c, mode) in [('/', SearchMode::Forward), ('?', SearchMode::Reverse)] {
        assert_eq!(asked(plain(KeyCode::Char(c)), &state), Some(InputEvent::Search(mode)));
    }
    let (on, back) = (InputEvent::MoveToNextMatch(1), InputEvent::MoveToPrevMatch(1));
    for (mode, n, p) in [(SearchMode::Forward, on, back), (SearchMode::Reverse, back, on)] {
        state.search_state.search_mode = mode;
        assert_eq!(asked(plain(KeyCode::Char('n')), &state), Some(n));
        assert_eq!(asked(plain(KeyCode::Char('p')), &state), Some(p));
    }
}

#[test]
fn help_lists_the_keys_that_are_described() {
    assert_eq!(asked(key(KeyCode::Char('h'), KeyModifiers::ALT), &state()), Some(InputEvent::Ignore));
    let mut register = HashedEventRegister::with_default_hasher();
    register.add_described_key_events(&["q", "c-c"], "quit", |_, _| InputEvent::Exit);
    register.add_described_key_events(&["j", "down"], "scroll down", |_, _| InputEvent::UpdateUpperMark(1));
    register.add_key_events(&["x"], |_, _| InputEvent::Exit);
    let help = register.format_help();
    for part in ["COMMAND SUMMARY", "q, Ctrl-c", "quit", "j, Down", "scroll down"] {
        assert!(help.contains(part), "{part} in {help}");
    }
    assert!(!help.contains(" x "));
}

#[test]
fn the_default_register_has_the_help_of_the_library() {
    let help = HashedEventRegister::default().format_help();
    assert_eq!(Some(help), crate::proved::help_table());
}

#[test]
fn descriptions_are_keys() {
    let (none, control) = (KeyModifiers::NONE, KeyModifiers::CONTROL);
    for (text, code, modifiers) in [
        ("up", KeyCode::Up, none),
        ("down", KeyCode::Down, none),
        ("k", KeyCode::Char('k'), none),
        ("j", KeyCode::Char('j'), none),
        ("enter", KeyCode::Enter, none),
        ("c-u", KeyCode::Char('u'), control),
        ("c-d", KeyCode::Char('d'), control),
        ("g", KeyCode::Char('g'), none),
        ("s-g", KeyCode::Char('g'), KeyModifiers::SHIFT),
        ("G", KeyCode::Char('G'), none),
        ("pageup", KeyCode::PageUp, none),
        ("pagedown", KeyCode::PageDown, none),
        ("c-l", KeyCode::Char('l'), control),
        ("q", KeyCode::Char('q'), none),
        ("c-c", KeyCode::Char('c'), control),
        ("/", KeyCode::Char('/'), none),
        ("?", KeyCode::Char('?'), none),
        ("n", KeyCode::Char('n'), none),
        ("p", KeyCode::Char('p'), none),
        ("c-s-h", KeyCode::Char('h'), control | KeyModifiers::SHIFT),
        ("m-h", KeyCode::Char('h'), KeyModifiers::ALT),
    ] {
        let parsed = parse_key_event(text);
        assert_eq!((parsed.code, parsed.modifiers), (code, modifiers), "{text}");
    }
}

#[test]
fn descriptions_are_actions_of_the_mouse() {
    let (none, control, alt) = (KeyModifiers::NONE, KeyModifiers::CONTROL, KeyModifiers::ALT);
    for (text, kind, modifiers) in [
        ("left:down", MouseEventKind::Down(MouseButton::Left), none),
        ("left:up", MouseEventKind::Up(MouseButton::Left), none),
        ("mid:up", MouseEventKind::Up(MouseButton::Middle), none),
        ("right:down", MouseEventKind::Down(MouseButton::Right), none),
        ("scroll:up", MouseEventKind::ScrollUp, none),
        ("move", MouseEventKind::Moved, none),
        ("m-left:down", MouseEventKind::Down(MouseButton::Left), alt),
        ("m-c-mid:up", MouseEventKind::Up(MouseButton::Middle), alt | control),
        ("c-scroll:up", MouseEventKind::ScrollUp, control),
        ("m-c-s-move", MouseEventKind::Moved, alt | control | KeyModifiers::SHIFT),
    ] {
        assert_eq!(parse_mouse_event(text), MouseEvent { kind, column: 0, row: 0, modifiers }, "{text}");
    }
}

#[test]
#[should_panic(expected = "'c-zz' describes no key")]
fn a_bad_description_panics() {
    HashedEventRegister::default().remove_key_events(&["c-zz"]);
}

#[test]
fn a_checked_key_may_be_new_or_remapped() {
    let mut register = HashedEventRegister::default();
    register.add_key_events_checked(&["X"], |_, _| InputEvent::Exit, false);
    register.add_key_events_checked(&["X", "q"], |_, _| InputEvent::ShowHelp, true);
    assert_eq!(register.classify_input(plain(KeyCode::Char('q')), &state()), Some(InputEvent::ShowHelp));
}

#[test]
fn events_of_the_mouse_are_bound_wherever_it_is() {
    let mut register = HashedEventRegister::with_default_hasher();
    register.add_mouse_events(&["mid:down"], |_, _| InputEvent::Exit);
    let event = mouse(MouseEventKind::Down(MouseButton::Middle));
    assert_eq!(register.classify_input(event.clone(), &state()), Some(InputEvent::Exit));
    register.remove_mouse_events(&["mid:down"]);
    assert_eq!(register.classify_input(event, &state()), None);
}

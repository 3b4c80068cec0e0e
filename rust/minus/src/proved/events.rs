//! crossterm's events as the structs of `include/minus.h`, and back.

use super::raw;
use crossterm::event::{
    KeyCode, KeyEvent, KeyEventKind, KeyEventState, KeyModifiers, MouseButton, MouseEvent, MouseEventKind,
};

/// The keys that have a number alone.
const PLAIN: [(KeyCode, u8); 23] = [
    (KeyCode::Enter, 1),
    (KeyCode::Esc, 2),
    (KeyCode::Backspace, 3),
    (KeyCode::Up, 4),
    (KeyCode::Down, 5),
    (KeyCode::Left, 6),
    (KeyCode::Right, 7),
    (KeyCode::PageUp, 8),
    (KeyCode::PageDown, 9),
    (KeyCode::Home, 10),
    (KeyCode::End, 11),
    (KeyCode::Tab, 12),
    (KeyCode::BackTab, 13),
    (KeyCode::Delete, 14),
    (KeyCode::Insert, 15),
    (KeyCode::Null, 17),
    (KeyCode::CapsLock, 18),
    (KeyCode::ScrollLock, 19),
    (KeyCode::NumLock, 20),
    (KeyCode::PrintScreen, 21),
    (KeyCode::Pause, 22),
    (KeyCode::Menu, 23),
    (KeyCode::KeypadBegin, 24),
];

const KINDS: [KeyEventKind; 3] = [KeyEventKind::Press, KeyEventKind::Repeat, KeyEventKind::Release];

const MOUSE: [MouseEventKind; 12] = [
    MouseEventKind::Down(MouseButton::Left),
    MouseEventKind::Down(MouseButton::Right),
    MouseEventKind::Down(MouseButton::Middle),
    MouseEventKind::Up(MouseButton::Left),
    MouseEventKind::Up(MouseButton::Right),
    MouseEventKind::Up(MouseButton::Middle),
    MouseEventKind::Drag(MouseButton::Left),
    MouseEventKind::Drag(MouseButton::Right),
    MouseEventKind::Drag(MouseButton::Middle),
    MouseEventKind::Moved,
    MouseEventKind::ScrollDown,
    MouseEventKind::ScrollUp,
];

fn code_of(code: KeyCode) -> Option<(u8, u32)> {
    match code {
        KeyCode::Char(c) => Some((0, c.into())),
        KeyCode::F(number) => Some((16, number.into())),
        other => PLAIN.iter().find(|(code, _)| *code == other).map(|(_, number)| (*number, 0)),
    }
}

fn code_back(number: u8, value: u32) -> Option<KeyCode> {
    match number {
        0 => char::from_u32(value).map(KeyCode::Char),
        16 => value.try_into().ok().map(KeyCode::F),
        other => PLAIN.iter().find(|(_, number)| *number == other).map(|(code, _)| *code),
    }
}

fn place_of<T: PartialEq>(kinds: &[T], kind: &T) -> Option<u8> {
    kinds.iter().position(|other| other == kind)?.try_into().ok()
}

fn state_of(state: KeyEventState) -> u8 {
    let bit = |flag, bit| if state.contains(flag) { bit } else { 0 };
    bit(KeyEventState::KEYPAD, 1) | bit(KeyEventState::CAPS_LOCK, 2) | bit(KeyEventState::NUM_LOCK, 4)
}

/// A key for the library; none where it has no such key.
pub fn key_of(key: &KeyEvent) -> Option<raw::KeyEvent> {
    let (code, value) = code_of(key.code)?;
    let kind = place_of(&KINDS, &key.kind)?;
    Some(raw::KeyEvent { code, modifiers: key.modifiers.bits(), kind, state: state_of(key.state), value })
}

/// A key that the library answered.
pub fn key_back(key: raw::KeyEvent) -> Option<KeyEvent> {
    let code = code_back(key.code, key.value)?;
    let kind = *KINDS.get(usize::from(key.kind))?;
    let modifiers = KeyModifiers::from_bits_truncate(key.modifiers);
    Some(KeyEvent::new_with_kind(code, modifiers, kind))
}

/// The mouse for the library; none where it knows no such action.
pub fn mouse_of(mouse: &MouseEvent) -> Option<raw::MouseEvent> {
    let kind = place_of(&MOUSE, &mouse.kind)?;
    let MouseEvent { column, row, modifiers, .. } = *mouse;
    Some(raw::MouseEvent { kind, modifiers: modifiers.bits(), column, row })
}

/// An action of the mouse that the library answered.
pub fn mouse_back(mouse: raw::MouseEvent) -> Option<MouseEvent> {
    let kind = *MOUSE.get(usize::from(mouse.kind))?;
    let modifiers = KeyModifiers::from_bits_truncate(mouse.modifiers);
    Some(MouseEvent { kind, column: mouse.column, row: mouse.row, modifiers })
}

#[cfg(test)]
mod tests {
    use super::*;

    #[test]
    fn each_key_comes_back() {
        let codes = PLAIN.iter().map(|(code, _)| *code).chain([KeyCode::Char('é'), KeyCode::F(12)]);
        for code in codes {
            let key = KeyEvent::new(code, KeyModifiers::CONTROL | KeyModifiers::ALT);
            assert_eq!(key_of(&key).and_then(key_back), Some(key));
        }
    }

    #[test]
    fn each_action_of_the_mouse_comes_back() {
        for kind in MOUSE {
            let mouse = MouseEvent { kind, column: 3, row: 70, modifiers: KeyModifiers::SHIFT };
            assert_eq!(mouse_of(&mouse).and_then(mouse_back), Some(mouse));
        }
    }
}

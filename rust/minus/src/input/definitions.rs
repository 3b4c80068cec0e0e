//! Descriptions of keys and of the mouse.

use crate::proved;
use crossterm::event::{KeyEvent, MouseEvent};

/// The key that a text describes; a text that describes none is a mistake of the program, so this panics.
#[track_caller]
pub fn parse_key_event(text: &str) -> KeyEvent {
    proved::parse_key(text).unwrap_or_else(|_| panic!("'{text}' describes no key"))
}

/// The action of the mouse that a text describes; as [`parse_key_event`].
#[track_caller]
pub fn parse_mouse_event(text: &str) -> MouseEvent {
    proved::parse_mouse(text).unwrap_or_else(|_| panic!("'{text}' describes no action of the mouse"))
}

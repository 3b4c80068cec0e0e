//! The calls that need no pager.

use super::events::{key_back, key_of, mouse_back};
use super::{Refusal, raw, text_of};
use crossterm::event::{KeyEvent, MouseEvent};

// SAFETY of each call below: each text and each room stands with its own length, and an answer is a valid struct.

/// The key that a text describes, such as `c-s-h` or `f5`.
pub fn parse_key(text: &str) -> Result<KeyEvent, Refusal> {
    let mut key = raw::KeyEvent::default();
    let refusal = unsafe { raw::minus_parse_key(text.as_ptr(), text.len(), &raw mut key) };
    Refusal::of(refusal).map_or_else(|| key_back(key).ok_or(Refusal::BadDescription), Err)
}

/// The action of the mouse that a text describes, such as `scroll:up`.
pub fn parse_mouse(text: &str) -> Result<MouseEvent, Refusal> {
    let mut mouse = raw::MouseEvent::default();
    let refusal = unsafe { raw::minus_parse_mouse(text.as_ptr(), text.len(), &raw mut mouse) };
    Refusal::of(refusal).map_or_else(|| mouse_back(mouse).ok_or(Refusal::BadDescription), Err)
}

/// The name of a key, if the library has such a key.
pub fn format_key(key: &KeyEvent) -> Option<String> {
    let key = key_of(key)?;
    text_of(|room| unsafe { raw::minus_format_key(key, room.as_mut_ptr(), room.len()) }).ok()?
}

/// The help of the default bindings.
#[cfg(test)]
pub fn help_table() -> Option<String> {
    text_of(|room| unsafe { raw::minus_help_table(room.as_mut_ptr(), room.len()) }).ok()?
}

/// The place of the matching row that a jump goes to.
#[cfg(test)]
pub fn next_nth_match(rows: &[usize], upper_mark: usize, jump: usize) -> Option<usize> {
    let found = unsafe { raw::minus_next_nth_match(rows.as_ptr(), rows.len(), upper_mark, jump) };
    found.value().ok()?
}

/// A line with its matches in reverse, and whether it has any.
#[cfg(test)]
pub fn highlight_line(line: &str, pattern: &str, accurate: bool) -> Result<(String, bool), Refusal> {
    let mut is_match = false;
    let text = text_of(|room| {
        let (line, pattern) = (line.as_bytes(), pattern.as_bytes());
        let (at, len) = (room.as_mut_ptr(), room.len());
        let mut found = unsafe {
            raw::minus_highlight_line(line.as_ptr(), line.len(), pattern.as_ptr(), pattern.len(), accurate, at, len)
        };
        is_match = found.is_there;
        // The text is there in each case.
        found.is_there = found.refusal == 0;
        found
    })?;
    Ok((text.unwrap_or_default(), is_match))
}

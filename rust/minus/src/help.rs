//! Texts that tell what the keys do.

use crate::proved;
use crossterm::event::KeyEvent;
use std::fmt::Write;

/// The name of a key, for a reader.
///
/// ```
/// use minus::help::format_key;
/// use minus::input::crossterm_event::{KeyCode, KeyEvent, KeyModifiers};
///
/// let key = KeyEvent::new(KeyCode::PageUp, KeyModifiers::CONTROL | KeyModifiers::SHIFT);
/// assert_eq!(format_key(&key), "Ctrl-Shift-PageUp");
/// ```
#[must_use]
pub fn format_key(ke: &KeyEvent) -> String {
    // A key that the library has no name for.
    proved::format_key(ke).unwrap_or_else(|| "Unknown".to_owned())
}

/// The keys of one description, in their order.
struct Group<'a> {
    description: &'a str,
    keys: Vec<String>,
}

/// A table of keys with what they do. Keys with one description share a row; those with none are left out.
///
/// ```
/// use minus::help::format_help_table_from_entries;
/// use minus::input::crossterm_event::{KeyCode, KeyEvent};
///
/// let (up, k) = (KeyEvent::from(KeyCode::Up), KeyEvent::from(KeyCode::Char('k')));
/// let table = format_help_table_from_entries([(&up, "a row up"), (&k, "a row up")]);
/// assert!(table.contains("Up, k"));
/// ```
pub fn format_help_table_from_entries<'a, I>(entries: I) -> String
where
    I: IntoIterator<Item = (&'a KeyEvent, &'a str)>,
{
    let mut groups: Vec<Group> = Vec::new();
    for (key, description) in entries {
        add(&mut groups, format_key(key), description.trim());
    }
    if groups.is_empty() {
        return String::new();
    }
    let mut table = String::from(
        "             COMMAND SUMMARY\n\n  Key(s)                         Action\n  ------                         ------\n",
    );
    for Group { description, keys } in groups {
        // A text takes each write.
        let _ = writeln!(table, "  {:<30} {description}", keys.join(", "));
    }
    table.push_str("\n  -- Press q to return to pager --\n");
    table
}

fn add<'a>(groups: &mut Vec<Group<'a>>, key: String, description: &'a str) {
    match groups.iter_mut().find(|group| group.description == description) {
        _ if description.is_empty() => {}
        Some(group) if group.keys.contains(&key) => {}
        Some(group) => group.keys.push(key),
        None => groups.push(Group { description, keys: vec![key] }),
    }
}

#[cfg(test)]
mod tests {
    use super::{format_help_table_from_entries, format_key};
    use crossterm::event::{KeyCode, KeyEvent, KeyModifiers};

    #[test]
    fn keys_have_names() {
        for (code, modifiers, name) in [
            (KeyCode::Char('q'), KeyModifiers::NONE, "q"),
            (KeyCode::Char('c'), KeyModifiers::CONTROL, "Ctrl-c"),
            (KeyCode::Up, KeyModifiers::ALT, "Alt-Up"),
        ] {
            assert_eq!(format_key(&KeyEvent::new(code, modifiers)), name);
        }
    }

    #[test]
    fn keys_with_one_description_share_a_row() {
        let key = |c, modifiers| KeyEvent::new(KeyCode::Char(c), modifiers);
        let (q, c, x) = (key('q', KeyModifiers::NONE), key('c', KeyModifiers::CONTROL), key('x', KeyModifiers::NONE));
        let table = format_help_table_from_entries([(&q, "quit"), (&c, "quit"), (&x, "")]);
        assert!(table.contains("COMMAND SUMMARY") && table.contains("q, Ctrl-c") && table.contains("quit"));
        assert!(!table.contains(" x "));
        assert!(format_help_table_from_entries(Vec::<(&KeyEvent, &str)>::new()).is_empty());
    }
}

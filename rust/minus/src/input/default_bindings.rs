//! The default bindings.

#[cfg(all(test, feature = "dynamic_output", feature = "search", feature = "clipboard"))]
mod tests;

use super::default_answers as answers;
use super::{HashedEventRegister, InputEvent};
use crate::PagerState;
use crossterm::event::Event;
use std::hash::BuildHasher;

type Answer = fn(&Event, &PagerState) -> InputEvent;

/// Descriptions of keys, what they do in words, and what they ask for.
const KEYS: &[(&[&str], &str, Answer)] = &[
    (&["q", "c-c"], "quit", answers::quit),
    (&["up", "k"], "scroll up", answers::scroll_up),
    (&["down", "j"], "scroll down", answers::scroll_down),
    (&["c-f"], "toggle follow", answers::toggle_follow),
    (&["enter"], "scroll lines", answers::restore_or_down),
    (&["u", "c-u"], "half-page up", answers::half_page_up),
    (&["d", "c-d"], "half-page down", answers::half_page_down),
    (&["g", "home"], "top", answers::top),
    (&["s-g", "G"], "bottom", answers::to_line),
    (&["pageup"], "page up", answers::page_up),
    (&["pagedown", "space"], "page down", answers::page_down),
    (&["c-l"], "toggle line numbers", answers::toggle_numbers),
    (&["end"], "bottom", answers::bottom),
    (&["s-m"], "help", answers::help),
    #[cfg(feature = "search")]
    (&["/"], "search forward", answers::search_forward),
    #[cfg(feature = "search")]
    (&["?"], "search backward", answers::search_backward),
    #[cfg(feature = "search")]
    (&["n"], "next match", answers::next_match),
    #[cfg(feature = "search")]
    (&["p", "s-n"], "previous match", answers::previous_match),
    #[cfg(feature = "clipboard")]
    (&["y"], "", answers::copy_selection),
    (&["c-s-h", "c-h"], "toggle line wrap", answers::toggle_wrap),
    (&["h", "left"], "scroll left", answers::scroll_left),
    (&["l", "right"], "scroll right", answers::scroll_right),
];

/// Descriptions of what is done with the mouse, and what it asks for.
const MOUSE: &[(&str, Answer)] = &[
    ("scroll:up", answers::wheel_up),
    ("scroll:down", answers::wheel_down),
    ("left:down", answers::start_selection),
    ("left:drag", answers::update_selection),
    #[cfg(feature = "clipboard")]
    ("left:up", answers::copy_selection),
];

/// Binds the default bindings in a register, over what it has for the same keys.
///
/// ```
/// use minus::input::{HashedEventRegister, generate_default_bindings};
/// use std::collections::hash_map::RandomState;
///
/// let mut register = HashedEventRegister::new(RandomState::new());
/// generate_default_bindings(&mut register);
/// assert!(register.format_help().contains("half-page down"));
/// ```
pub fn generate_default_bindings<S: BuildHasher>(map: &mut HashedEventRegister<S>) {
    for (keys, description, answer) in KEYS {
        map.add_described_key_events(keys, *description, |event, state| answer(&event, state));
    }
    for (action, answer) in MOUSE {
        map.add_mouse_events(&[action], |event, state| answer(&event, state));
    }
    map.add_resize_event(|event, state| answers::resize(&event, state));
    map.insert_wild_event_matcher(|event, state| answers::digit(&event, state));
}

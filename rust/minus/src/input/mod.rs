//! Which keys do what.
//!
//! An event of the terminal is classified: something decides which [`InputEvent`] it asks for. Unless a program says
//! otherwise the default bindings decide (see the [list](crate#keys)).
//!
//! # Bindings of one's own
//!
//! A [`HashedEventRegister`] binds descriptions of keys and of actions of the mouse to closures. A new one has the default
//! bindings, so a program adds what it wants to have otherwise:
//!
//! ```
//! use minus::input::{HashedEventRegister, InputEvent};
//! use minus::Pager;
//!
//! let mut register = HashedEventRegister::default();
//! register.add_described_key_events(&["J"], "ten rows down", |_, state| {
//!     InputEvent::UpdateUpperMark(state.upper_mark.saturating_add(10))
//! });
//! register.add_mouse_events(&["s-scroll:down"], |_, state| {
//!     InputEvent::UpdateLeftMark(state.left_mark + 5)
//! });
//!
//! let pager = Pager::new();
//! pager.set_input_classifier(Box::new(register))?;
//! # Ok::<(), minus::MinusError>(())
//! ```
//!
//! ## Descriptions
//!
//! A key is described by its modifiers and its name, with hyphens between: `c` is Ctrl, `m` is Alt, `s` is Shift.
//!
//! | description  | key               |
//! |--------------|-------------------|
//! | `a`          | a                 |
//! | `Z`          | Z                 |
//! | `c-q`        | Ctrl and q        |
//! | `c-m-pageup` | Ctrl, Alt, PageUp |
//! | `f5`         | F5                |
//! | `space`      | the space bar     |
//! | `dash`       | the hyphen        |
//!
//! The other names are `enter`, `tab`, `backtab`, `backspace`, `up`, `down`, `left`, `right`, `pageup`, `pagedown`, `home`,
//! `end`, `insert`, `delete`, `esc` and `f1` to `f12`.
//!
//! What is done with the mouse is described by modifiers and one of `left:down`, `left:up`, `left:drag`, the same of
//! `right` and `mid`, `move`, `scroll:up` and `scroll:down`.
//!
//! # A classifier of one's own
//!
//! Any type can decide about events, see [`InputClassifier`].
//!
//! # More than the pager does
//!
//! A closure may do what it likes and answer [`InputEvent::Ignore`]. It runs on the pager's thread, so it should be quick.

mod classifier;
mod default_answers;
mod default_bindings;
pub(crate) mod definitions;
mod event;
mod hashed_event_register;
#[cfg(all(test, feature = "search"))]
mod tests;

pub use classifier::{DefaultInputClassifier, InputClassifier};
pub use crossterm::event as crossterm_event;
pub use default_bindings::generate_default_bindings;
pub use event::InputEvent;
pub use hashed_event_register::HashedEventRegister;

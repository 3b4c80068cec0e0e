//! The calls of a pager.

use super::events::{key_of, mouse_of};
#[cfg(any(test, not(all(feature = "search", feature = "clipboard"))))]
use super::numbers::event_of;
use super::numbers::numbers_of;
use super::{Proved, Refusal, Told, raw, text_of};
use crate::input::InputEvent;
use crate::{LineNumbers, RunMode};
use crossterm::event::Event as TerminalEvent;

/// A text of a pager that has started.
#[derive(Clone, Copy, Debug)]
pub enum Piece {
    #[cfg(test)]
    Text = 0,
    #[cfg(test)]
    Prompt = 1,
    Message = 2,
    Query = 3,
    Prefix = 4,
}

/// An event that the library takes.
#[derive(Clone, Copy, Debug)]
pub enum Event {
    Key(raw::KeyEvent),
    Mouse(raw::MouseEvent),
    Resize(u16, u16),
}

impl Event {
    /// The release of no key: it types nothing, so it lets the typed prefix go, and does nothing else.
    pub const NOTHING: Self = Self::Key(raw::KeyEvent { code: 17, modifiers: 0, kind: 2, state: 0, value: 0 });

    /// An event of the terminal, if the library has such events.
    pub fn of(event: &TerminalEvent) -> Option<Self> {
        match event {
            TerminalEvent::Key(key) => key_of(key).map(Self::Key),
            TerminalEvent::Mouse(mouse) => mouse_of(mouse).map(Self::Mouse),
            TerminalEvent::Resize(cols, rows) => Some(Self::Resize(*cols, *rows)),
            _ => None,
        }
    }
}

// SAFETY of each call below: the pager and the room for the next one come from `Proved::call`, each text and each room
// stands with its own length, and numbers and structs are taken with any value.
impl Proved {
    /// Starts a session for a terminal of this many columns and rows.
    pub fn start(&mut self, mode: RunMode, cols: usize, rows: usize) -> Result<Told, Refusal> {
        let mode = u8::from(mode.is_dynamic());
        self.told(|pager, out| unsafe { raw::minus_start(pager, mode, cols, rows, out) })
    }

    /// Writes the text where it fits or where no terminal shows it, and pages it else.
    #[cfg(feature = "static_output")]
    pub fn page_all(&mut self, cols: usize, rows: usize, is_tty: bool) -> Result<Told, Refusal> {
        self.told(|pager, out| unsafe { raw::minus_page_all(pager, cols, rows, is_tty, out) })
    }

    /// Ends the session: the bytes that clean the terminal up wait then.
    pub fn finish(&mut self) -> Result<Told, Refusal> {
        self.told(|pager, out| unsafe { raw::minus_finish(pager, out) })
    }

    pub fn set_text(&mut self, text: &str) -> Result<Told, Refusal> {
        self.told(|pager, out| unsafe { raw::minus_set_text(pager, text.as_ptr(), text.len(), out) })
    }

    pub fn push(&mut self, text: &str) -> Result<Told, Refusal> {
        self.told(|pager, out| unsafe { raw::minus_push(pager, text.as_ptr(), text.len(), out) })
    }

    pub fn set_prompt(&mut self, text: &str) -> Result<Told, Refusal> {
        self.told(|pager, out| unsafe { raw::minus_set_prompt(pager, text.as_ptr(), text.len(), out) })
    }

    pub fn send_message(&mut self, text: &str) -> Result<Told, Refusal> {
        self.told(|pager, out| unsafe { raw::minus_send_message(pager, text.as_ptr(), text.len(), out) })
    }

    pub fn show_prompt(&mut self, is_shown: bool) -> Result<Told, Refusal> {
        self.told(|pager, out| unsafe { raw::minus_show_prompt(pager, is_shown, out) })
    }

    pub fn set_line_numbers(&mut self, numbers: LineNumbers) -> Result<Told, Refusal> {
        self.told(|pager, out| unsafe { raw::minus_set_line_numbers(pager, numbers.number(), out) })
    }

    pub fn horizontal_scroll(&mut self, on: bool) -> Result<Told, Refusal> {
        self.told(|pager, out| unsafe { raw::minus_horizontal_scroll(pager, on, out) })
    }

    pub fn follow_output(&mut self, follow: bool) -> Result<Told, Refusal> {
        self.told(|pager, out| unsafe { raw::minus_follow_output(pager, follow, out) })
    }

    #[cfg(feature = "static_output")]
    pub fn set_run_no_overflow(&mut self, on: bool) -> Result<Told, Refusal> {
        self.told(|pager, out| unsafe { raw::minus_set_run_no_overflow(pager, on, out) })
    }

    /// Whether the page shows where a query leads: the caller decides from the first call on.
    #[cfg(feature = "search")]
    pub fn show_search(&mut self, is_shown: bool) -> Result<Told, Refusal> {
        self.told(|pager, out| unsafe { raw::minus_show_search(pager, is_shown, out) })
    }

    /// Hands in an event, which the default bindings decide about, or the search prompt.
    pub fn event(&mut self, event: Event) -> Result<Told, Refusal> {
        self.told(|pager, out| unsafe {
            match event {
                Event::Key(key) => raw::minus_key(pager, key, out),
                Event::Mouse(mouse) => raw::minus_mouse(pager, mouse, out),
                Event::Resize(cols, rows) => raw::minus_resize(pager, cols, rows, out),
            }
        })
    }

    /// Whether this crate's features have what the default bindings ask for at an event.
    #[cfg(all(feature = "search", feature = "clipboard"))]
    pub fn offers(&mut self, _: Event) -> Result<bool, Refusal> {
        Ok(true)
    }

    /// Whether this crate's features have what the default bindings ask for at an event.
    #[cfg(not(all(feature = "search", feature = "clipboard")))]
    pub fn offers(&mut self, event: Event) -> Result<bool, Refusal> {
        Ok(self.asked(event)?.is_none_or(|asked| event_of(asked).is_some()))
    }

    /// The numbers of what the default bindings ask for at a key, or at an action of the mouse, if they ask for something.
    #[cfg(any(test, not(all(feature = "search", feature = "clipboard"))))]
    fn asked(&mut self, event: Event) -> Result<Option<raw::Asked>, Refusal> {
        let asked = match event {
            Event::Key(key) => self.call(|pager, out| unsafe { raw::minus_classify_key(pager, key, out) }),
            Event::Mouse(mouse) => self.call(|pager, out| unsafe { raw::minus_classify_mouse(pager, mouse, out) }),
            Event::Resize(..) => return Ok(None),
        };
        Refusal::of(asked.refusal).map_or(Ok(asked.is_there.then_some(asked)), Err)
    }

    /// What the default bindings ask for at a key, or at an action of the mouse, as far as this crate's features have it.
    #[cfg(test)]
    pub fn asks_for(&mut self, event: Event) -> Result<Option<InputEvent>, Refusal> {
        Ok(self.asked(event)?.and_then(event_of))
    }

    /// The query that an event leaves in the search prompt, if one is open. Nothing is done.
    #[cfg(feature = "search")]
    pub fn query_after(&mut self, event: Event) -> Result<Option<String>, Refusal> {
        let Event::Key(key) = event else {
            return self.piece(Piece::Query);
        };
        text_of(|room| {
            let (at, len) = (room.as_mut_ptr(), room.len());
            self.call(|pager, out| unsafe { raw::minus_query_after(pager, key, at, len, out) })
        })
    }

    /// Does what an event asked for.
    pub fn user_input(&mut self, event: InputEvent) -> Result<Told, Refusal> {
        let (kind, first, second) = numbers_of(event);
        self.told(|pager, out| unsafe { raw::minus_user_input(pager, kind, first, second, out) })
    }

    /// Draws the whole page.
    pub fn redraw(&mut self) -> Result<Told, Refusal> {
        self.told(|pager, out| unsafe { raw::minus_io(pager, 1, 0, out) })
    }

    /// Takes the bytes that wait for the terminal.
    pub fn take(&mut self) -> Vec<u8> {
        let mut room = vec![0; std::mem::take(&mut self.written)];
        if !room.is_empty() {
            let (at, len) = (room.as_mut_ptr(), room.len());
            let count = self.call(|pager, out| unsafe { raw::minus_take(pager, at, len, out) });
            debug_assert_eq!(count, len, "a call tells how many bytes wait");
        }
        room
    }

    /// Takes the text that was copied in the last call.
    #[cfg(feature = "clipboard")]
    pub fn take_copied(&mut self) -> Result<Option<String>, Refusal> {
        text_of(|room| {
            let (at, len) = (room.as_mut_ptr(), room.len());
            self.call(|pager, out| unsafe { raw::minus_take_copied(pager, at, len, out) })
        })
    }

    /// Whether the last row was shown since the last time.
    pub fn take_eof_reached(&mut self) -> bool {
        let hooks = self.call(|pager, out| unsafe { raw::minus_take_hooks(pager, out) });
        hooks & 4 != 0
    }

    /// Where the pager stands.
    pub fn state(&mut self) -> raw::State {
        self.call(|pager, out| unsafe { raw::minus_state(pager, out) })
    }

    /// A text of the pager, if it is there.
    pub fn piece(&mut self, piece: Piece) -> Result<Option<String>, Refusal> {
        text_of(|room| {
            let (at, len) = (room.as_mut_ptr(), room.len());
            self.call(|pager, out| unsafe { raw::minus_text(pager, piece as u8, at, len, out) })
        })
    }

    /// The first row of a line, counted from 0.
    pub fn first_row(&mut self, line: usize) -> Option<usize> {
        let found = self.call(|pager, out| unsafe { raw::minus_line_first_row(pager, line, out) });
        found.value().ok().flatten()
    }

    /// A row as it is shown.
    #[cfg(test)]
    pub fn row(&mut self, row: usize) -> Result<Option<String>, Refusal> {
        text_of(|room| {
            let (at, len) = (room.as_mut_ptr(), room.len());
            self.call(|pager, out| unsafe { raw::minus_row(pager, row, at, len, out) })
        })
    }
}

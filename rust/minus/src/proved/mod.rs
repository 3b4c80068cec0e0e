//! The proved library as one safe type. This module and `heap` are the only ones with `unsafe`.
//!
//! A pager of the library stands behind a pointer that each call takes and hands back. [`Proved`] moves that pointer: it
//! is handed in once, and the next call has the one that came back.

mod calls;
mod events;
mod numbers;
mod raw;
mod refusal;
mod tables;
#[cfg(all(test, feature = "dynamic_output"))]
mod tests;

pub use calls::{Event, Piece};
pub use refusal::Refusal;
pub use tables::{format_key, parse_key, parse_mouse};
#[cfg(test)]
pub use tables::{help_table, highlight_line, next_nth_match};

use raw::{Found, Handed};
use std::marker::PhantomData;

/// What a call that was not refused told.
#[derive(Clone, Copy, Debug, Default)]
pub struct Told {
    /// The pager has exited, or its text was written and is not paged.
    pub exited: bool,
    /// A text was copied: [`Proved::take_copied`] has it.
    pub copied: bool,
}

impl TryFrom<raw::Told> for Told {
    type Error = Refusal;

    fn try_from(told: raw::Told) -> Result<Self, Refusal> {
        let raw::Told { exited, copied, .. } = told;
        Refusal::of(told.refusal).map_or(Ok(Self { exited, copied }), Err)
    }
}

impl Found {
    fn value(self) -> Result<Option<usize>, Refusal> {
        Refusal::of(self.refusal).map_or(Ok(self.is_there.then_some(self.value)), Err)
    }
}

/// A pager of the library. It stays on its thread, since the library proves no `Send` of it.
pub struct Proved {
    // Taken out by each call, and put back by it.
    pager: Option<raw::Pager>,
    // How many bytes wait for the terminal, as the last call told.
    written: usize,
    stays: PhantomData<*mut ()>,
}

impl Proved {
    /// A pager that waits for its start.
    pub fn new() -> Result<Self, Refusal> {
        let mut out = Handed::nothing();
        // SAFETY: `out` is a valid `Handed`.
        let refusal = unsafe { raw::minus_new(&raw mut out) };
        let pager = out.given.then_some(out.pager);
        Refusal::of(refusal).map_or(Ok(Self { pager, written: 0, stays: PhantomData }), Err)
    }

    /// Hands the pager in, and keeps the one that is handed back.
    ///
    /// `f` makes one call of the library with the two. The pager is the last one that was handed back, and the value of
    /// it is gone with the call, so each call below is one that the library allows.
    fn call<R>(&mut self, f: impl FnOnce(raw::Pager, *mut Handed) -> R) -> R {
        let pager = self.pager.take().expect("each call hands the pager back");
        let mut out = Handed::nothing();
        let told = f(pager, &raw mut out);
        self.pager = out.given.then_some(out.pager);
        told
    }

    fn told(&mut self, f: impl FnOnce(raw::Pager, *mut Handed) -> raw::Told) -> Result<Told, Refusal> {
        let told = self.call(f);
        self.written = told.written;
        told.try_into()
    }
}

impl Drop for Proved {
    fn drop(&mut self) {
        if let Some(pager) = self.pager.take() {
            // SAFETY: the pager is the last one that was handed back, and goes no other way.
            unsafe { raw::minus_drop(pager) }
        }
    }
}

/// Room that a text has at first.
const ROOM: usize = 256;

/// A text that a call puts where there is room for it, and else tells the length of.
fn bytes_of(mut call: impl FnMut(&mut [u8]) -> Found) -> Result<Option<Vec<u8>>, Refusal> {
    let mut room = vec![0; ROOM];
    loop {
        let found = call(&mut room);
        let len = if found.is_there {
            found.value()?.unwrap_or(0)
        } else {
            return found.value().map(|_| None);
        };
        let is_whole = len <= room.len();
        room.resize(len, 0);
        if is_whole {
            return Ok(Some(room));
        }
    }
}

/// As [`bytes_of`], for a text: the library's are UTF-8.
fn text_of(call: impl FnMut(&mut [u8]) -> Found) -> Result<Option<String>, Refusal> {
    let bytes = bytes_of(call)?;
    bytes.map(|bytes| String::from_utf8(bytes).map_err(|_| Refusal::NotUtf8)).transpose()
}

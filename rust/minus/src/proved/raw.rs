//! The declarations of `include/minus.h`: `tools/test_declarations.py` compares the two texts, and no proof does.

use std::ffi::c_void;

/// A pager as it is handed in. It is no `Copy`, so that each one is handed in once.
#[repr(C)]
pub struct Pager {
    at: *mut c_void,
}

/// A pager as it is handed out; `given` says whether one was.
#[repr(C)]
pub struct Handed {
    pub pager: Pager,
    pub given: bool,
}

impl Handed {
    /// Room for a pager that is handed out.
    pub const fn nothing() -> Self {
        Self { pager: Pager { at: std::ptr::null_mut() }, given: false }
    }
}

/// What a call told.
#[repr(C)]
#[derive(Clone, Copy, Debug)]
pub struct Told {
    pub refusal: u8,
    pub exited: bool,
    pub quits: bool,
    pub code: u8,
    pub copied: bool,
    pub refused: bool,
    pub written: usize,
}

/// A number or a text that may not be there.
#[repr(C)]
#[derive(Clone, Copy, Debug)]
pub struct Found {
    pub refusal: u8,
    pub is_there: bool,
    pub value: usize,
}

/// A key and what is done with it.
#[repr(C)]
#[derive(Clone, Copy, Debug, Default, PartialEq, Eq)]
pub struct KeyEvent {
    pub code: u8,
    pub modifiers: u8,
    pub kind: u8,
    pub state: u8,
    pub value: u32,
}

/// What is done with the mouse, and where.
#[repr(C)]
#[derive(Clone, Copy, Debug, Default, PartialEq, Eq)]
pub struct MouseEvent {
    pub kind: u8,
    pub modifiers: u8,
    pub column: u16,
    pub row: u16,
}

/// What an event asks for.
#[cfg(any(test, not(all(feature = "search", feature = "clipboard"))))]
#[repr(C)]
#[derive(Clone, Copy, Debug)]
pub struct Asked {
    pub refusal: u8,
    pub is_there: bool,
    pub kind: u8,
    pub first: usize,
    pub second: usize,
}

/// Where a pager stands.
#[repr(C)]
#[derive(Clone, Copy, Debug)]
pub struct State {
    pub cols: usize,
    pub rows: usize,
    pub upper_mark: usize,
    pub left_mark: usize,
    pub row_count: usize,
    pub line_count: usize,
    pub max_line_length: usize,
    pub stage: u8,
    pub line_numbers: u8,
    pub search_mode: u8,
    pub line_wrapping: bool,
    pub follow_output: bool,
    pub show_prompt: bool,
    pub is_searching: bool,
    pub is_help: bool,
}

unsafe extern "C" {
    pub fn minus_new(out: *mut Handed) -> u8;
    pub fn minus_drop(pager: Pager);
    pub fn minus_start(pager: Pager, mode: u8, cols: usize, rows: usize, out: *mut Handed) -> Told;
    pub fn minus_page_all(pager: Pager, cols: usize, rows: usize, is_tty: bool, out: *mut Handed) -> Told;
    pub fn minus_finish(pager: Pager, out: *mut Handed) -> Told;

    pub fn minus_set_text(pager: Pager, text: *const u8, len: usize, out: *mut Handed) -> Told;
    pub fn minus_push(pager: Pager, text: *const u8, len: usize, out: *mut Handed) -> Told;

    pub fn minus_set_prompt(pager: Pager, text: *const u8, len: usize, out: *mut Handed) -> Told;
    pub fn minus_send_message(pager: Pager, text: *const u8, len: usize, out: *mut Handed) -> Told;
    pub fn minus_show_prompt(pager: Pager, is_shown: bool, out: *mut Handed) -> Told;
    pub fn minus_set_line_numbers(pager: Pager, numbers: u8, out: *mut Handed) -> Told;
    pub fn minus_horizontal_scroll(pager: Pager, on: bool, out: *mut Handed) -> Told;
    pub fn minus_follow_output(pager: Pager, follow: bool, out: *mut Handed) -> Told;
    pub fn minus_set_run_no_overflow(pager: Pager, on: bool, out: *mut Handed) -> Told;
    pub fn minus_show_search(pager: Pager, is_shown: bool, out: *mut Handed) -> Told;

    pub fn minus_key(pager: Pager, key: KeyEvent, out: *mut Handed) -> Told;
    pub fn minus_mouse(pager: Pager, mouse: MouseEvent, out: *mut Handed) -> Told;
    pub fn minus_resize(pager: Pager, cols: u16, rows: u16, out: *mut Handed) -> Told;
    pub fn minus_user_input(pager: Pager, kind: u8, first: usize, second: usize, out: *mut Handed) -> Told;
    #[cfg(feature = "search")]
    pub fn minus_query_after(pager: Pager, key: KeyEvent, room: *mut u8, len: usize, out: *mut Handed) -> Found;
    pub fn minus_io(pager: Pager, kind: u8, argument: usize, out: *mut Handed) -> Told;

    pub fn minus_take(pager: Pager, room: *mut u8, len: usize, out: *mut Handed) -> usize;
    pub fn minus_take_copied(pager: Pager, room: *mut u8, len: usize, out: *mut Handed) -> Found;
    pub fn minus_take_hooks(pager: Pager, out: *mut Handed) -> u8;

    pub fn minus_state(pager: Pager, out: *mut Handed) -> State;
    pub fn minus_text(pager: Pager, piece: u8, room: *mut u8, len: usize, out: *mut Handed) -> Found;
    pub fn minus_line_first_row(pager: Pager, line: usize, out: *mut Handed) -> Found;

    pub fn minus_parse_key(text: *const u8, len: usize, key: *mut KeyEvent) -> u8;
    pub fn minus_parse_mouse(text: *const u8, len: usize, mouse: *mut MouseEvent) -> u8;
    pub fn minus_format_key(key: KeyEvent, room: *mut u8, len: usize) -> Found;
}

#[cfg(any(test, not(all(feature = "search", feature = "clipboard"))))]
unsafe extern "C" {
    pub fn minus_classify_key(pager: Pager, key: KeyEvent, out: *mut Handed) -> Asked;
    pub fn minus_classify_mouse(pager: Pager, mouse: MouseEvent, out: *mut Handed) -> Asked;
}

#[cfg(test)]
unsafe extern "C" {
    pub fn minus_row(pager: Pager, row: usize, room: *mut u8, len: usize, out: *mut Handed) -> Found;
    pub fn minus_help_table(room: *mut u8, len: usize) -> Found;
    pub fn minus_next_nth_match(rows: *const usize, count: usize, upper_mark: usize, jump: usize) -> Found;
    pub fn minus_highlight_line(
        line: *const u8,
        line_len: usize,
        pattern: *const u8,
        pattern_len: usize,
        accurate: bool,
        room: *mut u8,
        len: usize,
    ) -> Found;
}

//! A terminal pager as a library: the names of the crate `minus` 5.8.0 over a core that is proved.
//!
//! A program makes a [`Pager`], tells it what to show, and runs it by `page_all`, over a text that stays, or by
//! `dynamic_paging`, over a text that may grow meanwhile. What is drawn, scrolled and searched comes from a static library
//! whose functions are proved; this crate has the channel, the threads and the terminal's mode.
//!
//! # A text that stays
//!
#![cfg_attr(feature = "static_output", doc = "```no_run")]
#![cfg_attr(not(feature = "static_output"), doc = "```ignore")]
//! use minus::{MinusError, Pager, page_all};
//!
//! fn main() -> Result<(), MinusError> {
//!     let pager = Pager::new();
//!     pager.set_text(std::fs::read_to_string("/etc/services")?)?;
//!     pager.set_prompt("services")?;
//!     page_all(pager)
//! }
//! ```
//!
//! # A text that grows
//!
#![cfg_attr(feature = "dynamic_output", doc = "```no_run")]
#![cfg_attr(not(feature = "dynamic_output"), doc = "```ignore")]
//! use minus::{MinusError, Pager, dynamic_paging};
//! use std::io::BufRead;
//! use std::thread;
//!
//! fn main() -> Result<(), MinusError> {
//!     let pager = Pager::new();
//!     let feeding = pager.clone();
//!     thread::spawn(move || {
//!         for line in std::io::stdin().lock().lines().map_while(Result::ok) {
//!             if feeding.push_str(line + "\n").is_err() {
//!                 break;
//!             }
//!         }
//!     });
//!     dynamic_paging(pager)
//! }
//! ```
//!
//! # Keys
//!
//! A number n may be typed before the keys that say so.
//!
//! | keys                    | what they do                                       |
//! |-------------------------|----------------------------------------------------|
//! | q, Ctrl-c               | exit, or leave the help                            |
//! | j, Down, Enter          | n rows down; Enter lets a message go first         |
//! | k, Up                   | n rows up                                          |
//! | d, Ctrl-d; u, Ctrl-u    | half a page down; up                               |
//! | Space, PageDown; PageUp | a page down; up                                    |
//! | g, Home; G, End         | to the first page; to the last (n G: to line n)    |
//! | h, Left; l, Right       | n columns left; right, where lines are not wrapped |
//! | Ctrl-h                  | wrap lines, or not                                 |
//! | Ctrl-l                  | numbers of lines, or none                          |
//! | Ctrl-f                  | follow the end, or not                             |
//! | M                       | show what the keys do                              |
//! | /, ?                    | search on; back                                    |
//! | n; p, N                 | to the next match; to the one before               |
//! | the wheel               | five rows up; down                                 |
//!
//! In the search prompt Enter takes the query and Esc drops it; Backspace, Delete, Left, Right, Ctrl-Left, Ctrl-Right, Home
//! and End edit it.
//!
//! Which keys do what is a program's to say: see [`input`].
//!
//! # Features
//!
//! - `static_output`: `page_all`
//! - `dynamic_output`: `dynamic_paging`
//! - `search`: the module `search` and its keys
//! - `clipboard`: what is selected is copied to the terminal's clipboard

#![deny(missing_docs)]
#![cfg_attr(not(any(feature = "dynamic_output", feature = "static_output")), allow(dead_code, unused_imports))]

#[cfg(not(all(target_arch = "x86_64", target_pointer_width = "64", target_os = "linux")))]
compile_error!("this crate runs on x86-64 Linux alone, for which its proved library is made");

#[cfg(feature = "dynamic_output")]
mod dynamic_pager;
pub mod error;
mod exit;
mod heap;
pub mod help;
pub mod hooks;
pub mod input;
mod line_numbers;
mod minus_core;
mod pager;
// Which calls are made depends on the features.
#[cfg_attr(
    not(all(feature = "static_output", feature = "dynamic_output", feature = "search", feature = "clipboard")),
    allow(dead_code, unused_imports)
)]
mod proved;
pub mod screen;
#[cfg(feature = "search")]
pub mod search;
pub mod sink;
pub mod state;
#[cfg(feature = "static_output")]
mod static_pager;

#[cfg(feature = "dynamic_output")]
pub use dynamic_pager::dynamic_paging;
pub use error::MinusError;
pub use exit::{ExitCallbacks, ExitStrategy};
pub use line_numbers::LineNumbers;
pub use minus_core::RunMode;
pub use pager::Pager;
#[cfg(feature = "search")]
pub use search::SearchMode;
pub use sink::OutputSink;
pub use state::PagerState;
#[cfg(feature = "static_output")]
pub use static_pager::page_all;

/// What most calls answer.
type Result<T = (), E = MinusError> = std::result::Result<T, E>;

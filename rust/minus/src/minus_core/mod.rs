//! What runs a pager: the commands, the thread that owns the session, the one that reads the terminal.

#[cfg(feature = "clipboard")]
mod clipboard;
pub mod commands;
#[cfg(any(feature = "dynamic_output", feature = "static_output"))]
mod help_view;
#[cfg(any(feature = "dynamic_output", feature = "static_output"))]
mod joined;
#[cfg(any(feature = "dynamic_output", feature = "static_output"))]
mod panics;
#[cfg(any(feature = "dynamic_output", feature = "static_output"))]
mod reader;
#[cfg(any(feature = "dynamic_output", feature = "static_output"))]
pub mod run;
mod run_mode;
#[cfg(any(feature = "dynamic_output", feature = "static_output"))]
mod search_prompt;
#[cfg(any(feature = "dynamic_output", feature = "static_output"))]
mod session;
#[cfg(any(feature = "dynamic_output", feature = "static_output"))]
pub mod snapshot;
#[cfg(any(feature = "dynamic_output", feature = "static_output"))]
mod terminal;
#[cfg(all(test, feature = "dynamic_output", feature = "static_output", feature = "search"))]
mod tests;

pub use run_mode::{RUNMODE, RunMode};

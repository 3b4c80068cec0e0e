//! What callbacks see of a pager that runs.

use crate::minus_core::RUNMODE;
use crate::screen::Screen;
#[cfg(feature = "search")]
use crate::search::SearchMode;
use crate::{LineNumbers, OutputSink, RunMode};
use parking_lot::Mutex;
use std::sync::Arc;

/// What is known of the search.
#[cfg(feature = "search")]
#[derive(Debug, Default)]
pub struct SearchState {
    /// The direction of the last search.
    pub search_mode: SearchMode,
}

/// An end of what is selected by the mouse.
#[derive(Debug, Copy, Clone, PartialEq, Eq)]
pub struct Selection {
    /// The row, counted from 0 at the first row of the text.
    pub absolute_row: usize,
    /// The column, counted from 0 at the first column of the row's text.
    pub col: usize,
}

/// Where a pager stands, as it was when the callback was called.
///
/// A callback of a [hook](crate::hooks), an [input classifier](crate::input::InputClassifier) and each callback of a
/// [register](crate::input::HashedEventRegister) are lent one.
pub struct PagerState {
    /// Whether rows begin with the numbers of their lines.
    pub line_numbers: LineNumbers,
    /// What the prompt row says in the place of the prompt.
    pub message: Option<String>,
    /// The first row of text on the page, counted from 0.
    pub upper_mark: usize,
    /// How many columns are cut off at the left where lines are not wrapped.
    pub left_mark: usize,
    /// The direction of the last search, which [`SearchState::search_mode`] has too.
    #[cfg(feature = "search")]
    pub search_mode: SearchMode,
    /// The rows of the terminal, that of the prompt with them.
    pub rows: usize,
    /// The columns of the terminal.
    pub cols: usize,
    /// The digits that were typed before a key.
    pub prefix_num: String,
    /// The mode of the pager that runs in this process, if any does.
    pub running: &'static Mutex<RunMode>,
    /// What is known of the search.
    #[cfg(feature = "search")]
    pub search_state: SearchState,
    /// The measures of the displayed text.
    pub screen: Screen,
    /// The end of the selection that the mouse moves.
    pub selection: Option<Selection>,
    /// Where the pager writes.
    pub output_sink: Arc<Mutex<Box<dyn OutputSink>>>,
    /// Whether the end of the text is followed.
    pub(crate) follow_output: bool,
    /// The first row of the line that the typed digits name.
    pub(crate) prefix_row: Option<usize>,
}

impl PagerState {
    /// The state of a pager without text that writes here.
    pub(crate) fn writing_to(output_sink: Arc<Mutex<Box<dyn OutputSink>>>) -> Self {
        Self {
            line_numbers: LineNumbers::Disabled,
            message: None,
            upper_mark: 0,
            left_mark: 0,
            #[cfg(feature = "search")]
            search_mode: SearchMode::default(),
            rows: 0,
            cols: 0,
            prefix_num: String::new(),
            running: &RUNMODE,
            #[cfg(feature = "search")]
            search_state: SearchState::default(),
            screen: Screen::default(),
            selection: None,
            output_sink,
            follow_output: false,
            prefix_row: None,
        }
    }
}

#[cfg(test)]
impl Default for PagerState {
    fn default() -> Self {
        let sink: Box<dyn OutputSink> = Box::new(Vec::new());
        Self { cols: 80, rows: 10, ..Self::writing_to(Arc::new(Mutex::new(sink))) }
    }
}

//! The search, and when the page shows where a query leads while it is typed.
//!
//! A program may decide about the latter by a condition, which is asked at each change of a query. Without one, a query of
//! two characters or more is shown in a text of at most 5,000 lines.
//!
//! ```
//! use minus::Pager;
//!
//! let pager = Pager::new();
//! // Queries of four characters and more, in each text.
//! pager.set_incremental_search_condition(Box::new(|search| search.string.chars().count() >= 4))?;
//! // None.
//! pager.set_incremental_search_condition(Box::new(|_| false))?;
//! # Ok::<(), minus::MinusError>(())
//! ```

use crate::screen::Screen;
use crate::{LineNumbers, PagerState};
use crossterm::event::Event;

/// The direction of a search.
#[derive(Clone, Copy, Debug, Default, PartialEq, Eq)]
pub enum SearchMode {
    /// From the page on.
    Forward,
    /// From the page back.
    Reverse,
    /// No search has begun.
    #[default]
    Unknown,
}

/// What a condition for incremental search is shown.
pub struct SearchOpts<'a> {
    /// The event that led to this query.
    pub ev: Option<Event>,
    /// The query.
    pub string: String,
    /// Whether the prompt is open.
    pub input_status: InputStatus,
    /// The column behind the query, counted from 1 at its first character.
    pub cursor_position: u16,
    /// The direction of the search.
    pub search_mode: SearchMode,
    /// The character that the prompt begins with.
    pub search_char: char,
    /// The rows of the terminal.
    pub rows: u16,
    /// The columns of the terminal.
    pub cols: u16,
    /// What is known of the displayed text.
    pub incremental_search_options: Option<IncrementalSearchOpts<'a>>,
}

/// What a condition for incremental search is shown of the text.
pub struct IncrementalSearchOpts<'a> {
    /// Whether rows begin with the numbers of their lines.
    pub line_numbers: LineNumbers,
    /// The first row on the page before the prompt was opened.
    pub initial_upper_mark: usize,
    /// The measures of the text.
    pub screen: &'a Screen,
    /// How many columns were cut off at the left before the prompt was opened.
    pub initial_left_mark: usize,
}

impl<'a> From<&'a PagerState> for IncrementalSearchOpts<'a> {
    fn from(state: &'a PagerState) -> Self {
        Self {
            line_numbers: state.line_numbers,
            initial_upper_mark: state.upper_mark,
            screen: &state.screen,
            initial_left_mark: state.left_mark,
        }
    }
}

impl<'a> From<&'a PagerState> for SearchOpts<'a> {
    /// A prompt with no query yet.
    fn from(state: &'a PagerState) -> Self {
        let search_mode = state.search_state.search_mode;
        Self {
            ev: None,
            string: String::new(),
            input_status: InputStatus::Active,
            cursor_position: 1,
            search_mode,
            search_char: if search_mode == SearchMode::Reverse { '?' } else { '/' },
            rows: clamped(state.rows),
            cols: clamped(state.cols),
            incremental_search_options: Some(state.into()),
        }
    }
}

impl<'a> SearchOpts<'a> {
    /// A prompt with this query, after this event.
    #[cfg(any(feature = "dynamic_output", feature = "static_output"))]
    pub(crate) fn of_query(state: &'a PagerState, event: Event, query: String) -> Self {
        let cursor_position = clamped(query.chars().count().saturating_add(1));
        Self { ev: Some(event), string: query, cursor_position, ..state.into() }
    }
}

fn clamped(count: usize) -> u16 {
    count.try_into().unwrap_or(u16::MAX)
}

/// Whether a search prompt is open.
#[derive(Debug, Eq, PartialEq, Clone)]
pub enum InputStatus {
    /// The query was taken.
    Confirmed,
    /// The query was dropped.
    Cancelled,
    /// The query is typed still.
    Active,
}

impl InputStatus {
    /// Whether the prompt is closed.
    ///
    /// ```
    /// use minus::search::InputStatus;
    ///
    /// assert!(InputStatus::Confirmed.done() && !InputStatus::Active.done());
    /// ```
    #[must_use]
    pub const fn done(&self) -> bool {
        matches!(self, Self::Cancelled | Self::Confirmed)
    }
}

//! What an event asks a pager for.

use crate::LineNumbers;
#[cfg(feature = "search")]
use crate::search::SearchMode;

/// What an event asks a pager for.
#[derive(Debug, Copy, Clone, PartialEq, Eq)]
#[non_exhaustive]
pub enum InputEvent {
    /// To exit, or to leave the help where it is open.
    Exit,
    /// To take the terminal as one of this many columns and rows.
    UpdateTermArea(usize, usize),
    /// To move the mark to this row, so that it is the first one on the page. Rows count from 0; a greater number than the
    /// last page's goes to the last page.
    UpdateUpperMark(usize),
    /// To let rows begin with the numbers of their lines, or not.
    UpdateLineNumber(LineNumbers),
    /// To add this digit to those that were typed before.
    Number(char),
    /// To let the message go, so that the prompt is shown again.
    RestorePrompt,
    /// To wrap long lines (`true`), or to scroll sideways.
    HorizontalScroll(bool),
    /// To cut off this many columns at the left, where lines are not wrapped.
    UpdateLeftMark(usize),
    /// To begin a selection at this place of the terminal, counted from 0.
    StartSelection {
        /// The column.
        x: u16,
        /// The row.
        y: u16,
    },
    /// To lead the selection to this place of the terminal, counted from 0.
    UpdateSelection {
        /// The column.
        x: u16,
        /// The row.
        y: u16,
    },
    /// To select nothing.
    ClearSelection,
    /// To copy what is selected, and to select nothing then.
    #[cfg(feature = "clipboard")]
    CopySelection,
    /// For nothing.
    Ignore,
    /// To open the search prompt for a search in this direction.
    #[cfg(feature = "search")]
    Search(SearchMode),
    /// To go on to the next match.
    #[cfg(feature = "search")]
    #[deprecated = "`MoveToNextMatch(1)` does the same"]
    NextMatch,
    /// To go back to the match before.
    #[cfg(feature = "search")]
    #[deprecated = "`MoveToPrevMatch(1)` does the same"]
    PrevMatch,
    /// To go on by this many matches.
    #[cfg(feature = "search")]
    MoveToNextMatch(usize),
    /// To go back by this many matches.
    #[cfg(feature = "search")]
    MoveToPrevMatch(usize),
    /// To follow the end of the text, or to stay from now on.
    FollowOutput(bool),
    /// To show what the keys do, or to leave that again.
    ShowHelp,
}

//! What callbacks are shown of a session.

use crate::proved::{Piece, Proved, Refusal};
use crate::screen::Screen;
#[cfg(feature = "search")]
use crate::state::SearchState;
use crate::{OutputSink, PagerState};
use parking_lot::Mutex;
use std::sync::Arc;

/// The first row of the line that typed digits name; lines count from 1 there.
fn prefix_row(proved: &mut Proved, digits: &str) -> Option<usize> {
    let line: usize = digits.parse().ok()?;
    proved.first_row(line.checked_sub(1)?)
}

/// The state of a session that writes here.
pub fn state_of(proved: &mut Proved, sink: &Arc<Mutex<Box<dyn OutputSink>>>) -> Result<PagerState, Refusal> {
    let now = proved.state();
    let prefix_num = piece(proved, Piece::Prefix)?.unwrap_or_default();
    let prefix_row = prefix_row(proved, &prefix_num);
    let message = piece(proved, Piece::Message)?;
    let screen = Screen {
        row_count: now.row_count,
        line_count: now.line_count,
        max_line_length: now.max_line_length,
        line_wrapping: now.line_wrapping,
    };
    Ok(PagerState {
        line_numbers: now.line_numbers(),
        message,
        upper_mark: now.upper_mark,
        left_mark: now.left_mark,
        rows: now.rows,
        cols: now.cols,
        #[cfg(feature = "search")]
        search_mode: now.search_mode(),
        #[cfg(feature = "search")]
        search_state: SearchState { search_mode: now.search_mode() },
        screen,
        prefix_num,
        prefix_row,
        follow_output: now.follow_output,
        ..PagerState::writing_to(sink.clone())
    })
}

/// A text of the session: none has begun before the start.
fn piece(proved: &mut Proved, piece: Piece) -> Result<Option<String>, Refusal> {
    match proved.piece(piece) {
        Err(Refusal::BadMode | Refusal::Ended) => Ok(None),
        text => text,
    }
}

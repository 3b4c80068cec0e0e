//! What a pager can tell about the text that it shows.

/// A part of a line that takes one row of the terminal.
pub type Row = String;

/// Rows, from the first one on.
pub type Rows = Vec<String>;

/// A text with no newline in it.
pub type Line<'a> = &'a str;

/// A text of any lines.
pub type TextBlock<'a> = &'a str;

/// A text of any lines that is owned.
pub type OwnedTextBlock = String;

/// The measures of the displayed text.
///
/// ```
/// use minus::screen::Screen;
///
/// assert_eq!(Screen::default().formatted_lines_count(), 0);
/// ```
#[derive(Clone, Debug)]
pub struct Screen {
    pub(crate) row_count: usize,
    pub(crate) line_count: usize,
    pub(crate) max_line_length: usize,
    pub(crate) line_wrapping: bool,
}

impl Screen {
    /// How many rows of a terminal the text takes.
    #[must_use]
    pub const fn formatted_lines_count(&self) -> usize {
        self.row_count
    }

    /// How many lines the text has.
    #[must_use]
    pub const fn line_count(&self) -> usize {
        self.line_count
    }

    /// How many columns the longest line has.
    #[must_use]
    pub const fn get_max_line_length(&self) -> usize {
        self.max_line_length
    }
}

impl Default for Screen {
    /// The measures of no text, with long lines wrapped.
    fn default() -> Self {
        Self { row_count: 0, line_count: 0, max_line_length: 0, line_wrapping: true }
    }
}

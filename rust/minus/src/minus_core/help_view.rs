//! The help of a program's own classifier.

use super::session::Session;
use super::terminal::Terminal;
use crate::RunMode;
use crate::proved::{Proved, Refusal, Told};

/// What the prompt row says while the help is displayed.
const PROMPT: &str = "HELP -- Press q or Shift-m to return to pager";

/// A pager over a help text that has started, and has nothing to draw.
fn pager_of(text: &str, cols: usize, rows: usize) -> Result<Proved, Refusal> {
    let mut help = Proved::new()?;
    help.set_text(text)?;
    help.set_prompt(PROMPT)?;
    help.horizontal_scroll(true)?;
    // The terminal is ready for a pager, so what the start writes is dropped.
    help.start(RunMode::paging(), cols, rows)?;
    help.take();
    Ok(help)
}

impl<T: Terminal> Session<T> {
    /// Shows what the keys of the program's classifier do.
    pub(super) fn open_help(&mut self) -> Result<Told, Refusal> {
        let text = self.classifier.as_ref().and_then(|classifier| classifier.format_help()).unwrap_or_default();
        let state = self.proved.state();
        let mut help = pager_of(&text, state.cols, state.rows)?;
        #[cfg(feature = "search")]
        if self.condition.is_some() {
            help.show_search(false)?;
        }
        let told = help.redraw()?;
        self.help = Some(help);
        Ok(told)
    }

    /// Leaves the help: the text is displayed again.
    pub(super) fn close_help(&mut self) -> Result<Told, Refusal> {
        self.help = None;
        self.proved.redraw()
    }
}

//! The search prompt, where the program has its own condition for incremental search.

use super::session::Session;
use super::terminal::Terminal;
use crate::proved::{Event, Refusal, Told};
use crossterm::event::Event as TerminalEvent;
#[cfg(feature = "search")]
use {crate::proved::Piece, crate::search::SearchOpts};

impl<T: Terminal> Session<T> {
    /// Hands an event to the search prompt that is open.
    #[cfg(not(feature = "search"))]
    pub(super) fn edit_query(&mut self, event: TerminalEvent) -> Result<Told, Refusal> {
        Event::of(&event).map_or(Ok(Told::default()), |event| self.shown().event(event))
    }

    /// Hands an event to the search prompt that is open. Where the query will be another one and the program's condition
    /// holds of that, the page shows where it leads.
    #[cfg(feature = "search")]
    pub(super) fn edit_query(&mut self, event: TerminalEvent) -> Result<Told, Refusal> {
        let Some(taken) = Event::of(&event) else {
            return Ok(Told::default());
        };
        if self.condition.is_some()
            && let Some(query) = self.new_query(taken)?
        {
            let is_shown = self.shows(event, query)?;
            self.shown().show_search(is_shown)?;
        }
        self.shown().event(taken)
    }

    /// The query that an event leaves, if it is another one.
    #[cfg(feature = "search")]
    fn new_query(&mut self, event: Event) -> Result<Option<String>, Refusal> {
        let shown = self.shown();
        let before = shown.piece(Piece::Query)?;
        Ok(shown.query_after(event)?.filter(|query| before.as_ref() != Some(query)))
    }

    /// What the program's condition says of a query.
    #[cfg(feature = "search")]
    fn shows(&mut self, event: TerminalEvent, query: String) -> Result<bool, Refusal> {
        let sink = self.sink.clone();
        let state = super::snapshot::state_of(self.shown(), &sink)?;
        let opts = SearchOpts::of_query(&state, event, query);
        Ok(self.condition.as_ref().is_some_and(|holds| holds(&opts)))
    }
}

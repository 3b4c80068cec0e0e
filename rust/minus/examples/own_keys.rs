//! Keys of one's own: x goes three rows down, e to the end, and a condition of one's own for incremental search.

use minus::input::{HashedEventRegister, InputEvent};
use minus::{MinusError, Pager, dynamic_paging};
use std::fmt::Write;

fn main() -> Result<(), MinusError> {
    let mut register = HashedEventRegister::default();
    register.add_described_key_events(&["x"], "three rows down", |_, state| {
        InputEvent::UpdateUpperMark(state.upper_mark + 3)
    });
    register.add_described_key_events(&["e"], "the end", |_, state| {
        InputEvent::UpdateUpperMark(state.screen.formatted_lines_count())
    });
    let mut pager = Pager::new();
    pager.set_prompt("own keys")?;
    pager.set_input_classifier(Box::new(register))?;
    pager.set_incremental_search_condition(Box::new(|search| search.string.len() > 3))?;
    for number in 0..100 {
        writeln!(pager, "row {number}")?;
    }
    dynamic_paging(pager)
}

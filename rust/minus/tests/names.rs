//! Each public name of the original crate is there, in its module.

#![cfg(all(feature = "static_output", feature = "dynamic_output", feature = "search"))]
#![allow(unused_imports, deprecated)]

use minus::error::{CleanupError, MinusError as _, RegexError, SetupError, TermError};
use minus::help::{format_help_table_from_entries, format_key};
use minus::hooks::{Hook, HookCallback};
use minus::input::{
    DefaultInputClassifier, HashedEventRegister, InputClassifier, InputEvent, crossterm_event,
    generate_default_bindings,
};
use minus::screen::{Line, OwnedTextBlock, Row, Rows, Screen, TextBlock};
use minus::search::{IncrementalSearchOpts, InputStatus, SearchMode as _, SearchOpts};
use minus::sink::OutputSink as _;
use minus::state::{PagerState as _, SearchState, Selection};
use minus::{
    ExitCallbacks, ExitStrategy, LineNumbers, MinusError, OutputSink, Pager, PagerState, RunMode, SearchMode,
    dynamic_paging, page_all,
};

/// The calls of a pager, with the types that the original gives them.
#[test]
fn a_pager_has_its_calls() -> Result<(), MinusError> {
    let pager = Pager::default().clone();
    pager.set_text("text")?;
    pager.push_str(String::from("text"))?;
    pager.set_prompt("prompt")?;
    pager.send_message("message")?;
    pager.set_line_numbers(!LineNumbers::Disabled)?;
    pager.set_exit_strategy(ExitStrategy::PagerQuit)?;
    pager.set_run_no_overflow(true)?;
    pager.horizontal_scroll(true)?;
    pager.set_input_classifier(Box::new(DefaultInputClassifier))?;
    pager.add_exit_callback(Box::new(|| ()))?;
    pager.add_hook(Hook::EofReached, 0, Box::new(|_: &PagerState| ()))?;
    pager.remove_hook(Hook::EofReached, 0)?;
    pager.set_incremental_search_condition(Box::new(|_: &SearchOpts| true))?;
    pager.show_prompt(false)?;
    pager.follow_output(true)?;
    pager.set_output_sink(Vec::new())
}

/// What threads hand to each other.
#[test]
fn a_pager_goes_between_threads() {
    fn both<T: Send + Sync + 'static>() {}
    both::<Pager>();
    both::<MinusError>();
    both::<HashedEventRegister<std::collections::hash_map::RandomState>>();
    both::<PagerState>();
    both::<ExitCallbacks>();
}

/// The fields of a state that a callback may read.
#[allow(dead_code)]
fn a_state_has_its_fields(state: &PagerState) -> bool {
    let _: (&Option<String>, &String) = (&state.message, &state.prefix_num);
    let _: [usize; 4] = [state.upper_mark, state.left_mark, state.rows, state.cols];
    let _: Option<Selection> = state.selection;
    let _: (SearchMode, SearchMode) = (state.search_mode, state.search_state.search_mode);
    let _ = state.screen.formatted_lines_count() + state.screen.line_count() + state.screen.get_max_line_length();
    state.running.lock().is_uninitialized()
        && state.output_sink.lock().is_tty()
        && state.line_numbers == LineNumbers::Enabled
}

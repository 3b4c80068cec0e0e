//! What each call sends.

use super::Pager;
use crate::LineNumbers;
use crate::minus_core::commands::Command;
use std::fmt::Write;

const TEXT: &str = "a text";

/// What the pager was told, in its order.
fn told(pager: &Pager) -> Vec<Command> {
    pager.rx.try_iter().collect()
}

#[test]
fn texts_are_sent() {
    let pager = Pager::new();
    pager.set_text(TEXT).unwrap();
    pager.push_str(TEXT).unwrap();
    assert_eq!(told(&pager), [Command::SetData(TEXT.into()), Command::AppendData(TEXT.into())]);
}

#[test]
fn prompts_and_messages_are_sent() {
    let pager = Pager::new();
    pager.set_prompt(TEXT).unwrap();
    pager.send_message(TEXT).unwrap();
    assert_eq!(told(&pager), [Command::SetPrompt(TEXT.into()), Command::SendMessage(TEXT.into())]);
}

#[test]
fn line_numbers_are_sent() {
    let pager = Pager::new();
    pager.set_line_numbers(LineNumbers::Enabled).unwrap();
    assert_eq!(told(&pager), [Command::SetLineNumbers(LineNumbers::Enabled)]);
}

#[cfg(feature = "static_output")]
#[test]
fn whether_a_text_that_fits_is_paged_is_sent() {
    let pager = Pager::new();
    pager.set_run_no_overflow(false).unwrap();
    assert_eq!(told(&pager), [Command::SetRunNoOverflow(false)]);
}

#[test]
fn a_sink_is_sent() {
    let pager = Pager::new();
    pager.set_output_sink(std::io::stderr()).unwrap();
    assert_eq!(told(&pager), [Command::SetOutputSink(Box::new(std::io::sink()))]);
}

#[test]
fn what_is_written_is_appended() {
    let mut pager = Pager::new();
    write!(pager, "{TEXT}").unwrap();
    assert_eq!(told(&pager), [Command::AppendData(TEXT.into())]);
    writeln!(pager, "{TEXT}").unwrap();
    let text: String = told(&pager)
        .into_iter()
        .map(|command| match command {
            Command::AppendData(text) => text,
            other => panic!("{other:?}"),
        })
        .collect();
    assert_eq!(text, "a text\n");
}

#[test]
#[should_panic(expected = "cannot contain newlines")]
fn a_prompt_has_one_row() {
    let _ = Pager::new().set_prompt("two\nrows");
}

#[test]
#[should_panic(expected = "cannot contain newlines")]
fn a_message_has_one_row() {
    let _ = Pager::new().send_message("two\nrows");
}

#[test]
fn clones_lead_to_one_pager() {
    let pager = Pager::new();
    pager.clone().push_str(TEXT).unwrap();
    assert_eq!(told(&pager), [Command::AppendData(TEXT.into())]);
}

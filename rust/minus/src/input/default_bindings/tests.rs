//! The default bindings beside the library's.

use super::{KEYS, MOUSE};
use crate::input::definitions::{parse_key_event, parse_mouse_event};
use crate::input::{HashedEventRegister, InputClassifier, InputEvent};
use crate::minus_core::snapshot::state_of;
use crate::proved::{self, Proved};
use crate::{LineNumbers, OutputSink, RunMode};
use crossterm::event::{Event, KeyCode, KeyEvent, KeyModifiers};
use parking_lot::Mutex;
use std::sync::Arc;

/// Every key and action of the mouse that is bound, digits, and what nothing is bound to.
fn events() -> impl Iterator<Item = Event> {
    let described = KEYS.iter().flat_map(|(keys, ..)| *keys).map(|key| Event::Key(parse_key_event(key)));
    let mouse = MOUSE.iter().map(|(action, _)| Event::Mouse(parse_mouse_event(action)));
    let others = [KeyCode::Char('0'), KeyCode::Char('9'), KeyCode::Char('z'), KeyCode::Esc, KeyCode::F(1)];
    let alt_5 = KeyEvent::new(KeyCode::Char('5'), KeyModifiers::ALT);
    described.chain(mouse).chain(others.map(|code| Event::Key(code.into()))).chain([Event::Key(alt_5)])
}

/// A pager of 20 columns and 5 rows over 40 lines, some of which take two rows, that these keys were typed to.
fn pager(keys: &str) -> Proved {
    let mut proved = Proved::new().unwrap();
    let lines: String = (1..=40).map(|number| format!("{} {number}\n", "line ".repeat(number % 3 + 2))).collect();
    proved.set_text(&lines).unwrap();
    proved.start(RunMode::Dynamic, 20, 5).unwrap();
    for key in keys.chars() {
        let code = if key == '\n' { KeyCode::Enter } else { KeyCode::Char(key) };
        proved.event(proved::Event::of(&Event::Key(code.into())).unwrap()).unwrap();
    }
    proved
}

fn assert_the_same_answers(proved: &mut Proved) {
    let register = HashedEventRegister::default();
    let sink: Box<dyn OutputSink> = Box::new(Vec::new());
    let state = state_of(proved, &Arc::new(Mutex::new(sink))).unwrap();
    for event in events() {
        let library = proved.asks_for(proved::Event::of(&event).unwrap()).unwrap();
        let own = register.classify_input(event.clone(), &state);
        assert_eq!(own.unwrap_or(InputEvent::Ignore), library.unwrap_or(InputEvent::Ignore), "{event:?}");
    }
}

#[test]
fn each_event_asks_for_what_it_asks_the_library_for() {
    for keys in ["", "12j", "3", "99999999999999999999", "12j7", "G", "/line\n", "?line\n", "12j5/4\nn3"] {
        assert_the_same_answers(&mut pager(keys));
    }
}

#[test]
fn settings_and_messages_decide_as_in_the_library() {
    for numbers in [LineNumbers::AlwaysOn, LineNumbers::Enabled, LineNumbers::Disabled, LineNumbers::AlwaysOff] {
        let mut proved = pager("3j");
        proved.set_line_numbers(numbers).unwrap();
        proved.follow_output(numbers == LineNumbers::Enabled).unwrap();
        proved.horizontal_scroll(numbers == LineNumbers::Disabled).unwrap();
        assert_the_same_answers(&mut proved);
        proved.send_message("a message").unwrap();
        assert_the_same_answers(&mut proved);
    }
}

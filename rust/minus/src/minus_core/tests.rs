//! Whole pagers over a terminal that plays a script.

use super::commands::Command;
use super::run::run_on;
use super::run_mode::{RUNMODE, RunMode};
use super::session::{Flow, Session};
use super::terminal::Terminal;
use crate::hooks::Hook;
use crate::input::{HashedEventRegister, InputEvent};
use crate::proved::Piece;
use crate::{MinusError, OutputSink, Pager};
use crossterm::event::{Event, KeyCode};
use parking_lot::Mutex;
use std::collections::VecDeque;
use std::io::{ErrorKind, Result, Write};
use std::sync::Arc;
use std::time::Duration;

/// One pager at a time: they share the process's mode.
static ALONE: Mutex<()> = Mutex::new(());

/// A terminal of these columns and rows that these events come from, one by one, and whether it is in raw mode. It breaks
/// behind its events, or waits.
struct Script {
    size: (u16, u16),
    events: Mutex<VecDeque<Event>>,
    is_raw: Mutex<bool>,
    breaks: bool,
}

impl Script {
    fn new(cols: u16, rows: u16, keys: &str) -> Arc<Self> {
        let events = keys.chars().map(key).collect();
        Arc::new(Self { size: (cols, rows), events: Mutex::new(events), is_raw: Mutex::new(false), breaks: false })
    }

    fn breaking(keys: &str) -> Arc<Self> {
        let script = Self::new(20, 5, keys);
        Arc::new(Self { breaks: true, ..Arc::into_inner(script).unwrap() })
    }
}

impl Terminal for Script {
    fn size(&self) -> Result<(u16, u16)> {
        Ok(self.size)
    }

    fn set_raw(&self, is_raw: bool) -> Result<()> {
        *self.is_raw.lock() = is_raw;
        Ok(())
    }

    fn is_of_the_process(&self) -> bool {
        // Other tests panic meanwhile.
        false
    }

    fn next_event(&self, _: Duration) -> Result<Option<Event>> {
        let event = self.events.lock().pop_front();
        if event.is_none() {
            if self.breaks {
                return Err(ErrorKind::BrokenPipe.into());
            }
            std::thread::sleep(Duration::from_millis(1));
        }
        Ok(event)
    }
}

/// The key of a character; a newline stands for Enter.
fn key(c: char) -> Event {
    let code = if c == '\n' { KeyCode::Enter } else { KeyCode::Char(c) };
    Event::Key(code.into())
}

/// A sink of a terminal, or of none, that keeps what is written, and refuses a write that has these bytes.
#[derive(Clone, Default)]
struct Kept {
    bytes: Arc<Mutex<Vec<u8>>>,
    is_tty: bool,
    refused: Option<&'static str>,
}

impl Kept {
    fn text(&self) -> String {
        String::from_utf8(self.bytes.lock().clone()).unwrap()
    }
}

impl Write for Kept {
    fn write(&mut self, bytes: &[u8]) -> Result<usize> {
        if self.refused.is_some_and(|refused| String::from_utf8_lossy(bytes).contains(refused)) {
            return Err(ErrorKind::BrokenPipe.into());
        }
        self.bytes.lock().write(bytes)
    }

    fn flush(&mut self) -> Result<()> {
        Ok(())
    }
}

impl OutputSink for Kept {
    fn is_tty(&self) -> bool {
        self.is_tty
    }
}

/// A pager of a text that writes to a sink, and does not end the process.
fn pager(text: &str, is_tty: bool) -> (Pager, Kept) {
    let (pager, sink) = (Pager::new(), Kept { is_tty, ..Kept::default() });
    pager.set_text(text).unwrap();
    pager.set_output_sink(sink.clone()).unwrap();
    pager.remove_hook(Hook::PostPagerExit, 1).unwrap();
    (pager, sink)
}

/// This many lines, from 0 on.
fn lines(count: usize) -> String {
    (0..count).map(|number| format!("line {number}\n")).collect()
}

/// A session of ten columns and five rows that has started over a text.
fn session(text: &str) -> Session<Script> {
    let mut session = Session::new(Script::new(10, 5, "")).unwrap();
    let (pager, _) = pager(text, true);
    pager.rx.try_iter().for_each(|command| assert!(session.take(command).is_ok()));
    session.proved.start(RunMode::Dynamic, 10, 5).unwrap();
    session
}

fn tell(session: &mut Session<Script>, command: Command) -> Flow {
    session.take(command).unwrap()
}

fn ask(session: &mut Session<Script>, event: InputEvent) -> Flow {
    tell(session, Command::UserInput(event))
}

fn press(session: &mut Session<Script>, keys: &str) -> Flow {
    keys.chars().map(|c| tell(session, Command::Event(key(c)))).last().unwrap()
}

#[test]
fn an_exit_ends_a_pager_that_runs() {
    let _alone = ALONE.lock();
    let (pager, sink) = pager("", true);
    pager.follow_output(true).unwrap();
    // What comes before the start is not a user's, so another thread waits for that.
    let (started, has_started) = crossbeam_channel::bounded(1);
    let tell = move |_: &crate::PagerState| started.send(*RUNMODE.lock()).unwrap();
    pager.add_hook(Hook::PostPagerStart, 2, Box::new(tell)).unwrap();
    let feeding = pager.clone();
    std::thread::scope(|scope| {
        let paging = scope.spawn(move || run_on(&pager, RunMode::Dynamic, Script::new(80, 10, "")));
        assert_eq!(has_started.recv(), Ok(RunMode::Dynamic));
        feeding.push_str("the last line").unwrap();
        feeding.tx.send(Command::UserInput(InputEvent::Exit)).unwrap();
        paging.join().unwrap().unwrap();
    });
    assert!(RUNMODE.lock().is_uninitialized());
    assert!(sink.text().contains("the last line"));
}

#[test]
fn keys_are_read_and_the_terminal_is_handed_back() {
    let _alone = ALONE.lock();
    let (pager, sink) = pager(&lines(100), true);
    let terminal = Script::new(20, 5, "jjq");
    run_on(&pager, RunMode::Dynamic, terminal.clone()).unwrap();
    assert!(!*terminal.is_raw.lock());
    let text = sink.text();
    assert!(text.contains("line 5") && !text.contains("line 6"), "{text:?}");
    assert!(text.starts_with("\x1b[?1049h") && text.ends_with("\x1b[?1049l"), "{text:?}");
}

#[test]
fn a_text_that_fits_or_goes_to_no_terminal_is_written() {
    let _alone = ALONE.lock();
    for (text, is_tty, written) in [("one\ntwo\n", true, "\rone\n\rtwo\n"), (&lines(9), false, &(lines(9) + "\n"))] {
        let (pager, sink) = pager(text, is_tty);
        run_on(&pager, RunMode::Static, Script::new(20, 5, "")).unwrap();
        assert_eq!(sink.text(), written);
    }
}

#[test]
fn a_growing_text_needs_a_terminal() {
    let _alone = ALONE.lock();
    let (pager, sink) = pager("text", false);
    let ended = run_on(&pager, RunMode::Dynamic, Script::new(20, 5, ""));
    assert!(matches!(ended, Err(MinusError::Setup(crate::error::SetupError::InvalidTerminal))));
    assert_eq!(sink.text(), "");
    assert!(RUNMODE.lock().is_uninitialized());
}

#[test]
fn a_sink_that_refuses_a_write_ends_a_pager() {
    let _alone = ALONE.lock();
    let left = "\x1b[?1049l";
    for (refused, told) in [("line 0", "Setup(AlternateScreen("), ("line 6", "Draw("), (left, "Cleanup(ShowCursor(")] {
        let (pager, sink) = pager(&lines(100), true);
        pager.set_output_sink(Kept { refused: Some(refused), ..sink.clone() }).unwrap();
        let terminal = Script::new(20, 5, "jjjjjq");
        let cause = format!("{:?}", run_on(&pager, RunMode::Dynamic, terminal.clone()).unwrap_err());
        assert!(cause.starts_with(told) && cause.contains("BrokenPipe"), "{cause}");
        assert!(!*terminal.is_raw.lock() && RUNMODE.lock().is_uninitialized());
        assert_eq!(sink.text().ends_with(left), refused != left);
    }
}

#[test]
fn a_terminal_that_cannot_be_read_ends_a_pager() {
    let _alone = ALONE.lock();
    let (pager, sink) = pager(&lines(100), true);
    let terminal = Script::breaking("jj");
    let ended = run_on(&pager, RunMode::Dynamic, terminal.clone());
    assert!(matches!(ended, Err(MinusError::HandleEvent(_))));
    assert!(!*terminal.is_raw.lock());
    assert!(sink.text().contains("line 5") && sink.text().ends_with("\x1b[?1049l"));
}

#[test]
fn a_pager_can_run_again() {
    let _alone = ALONE.lock();
    let (pager, sink) = pager(&lines(100), true);
    // The keys behind the exit are none of the next run's.
    run_on(&pager, RunMode::Dynamic, Script::new(20, 5, "qjjjq")).unwrap();
    sink.bytes.lock().clear();
    pager.set_text("another text").unwrap();
    pager.set_output_sink(sink.clone()).unwrap();
    pager.remove_hook(Hook::PostPagerExit, 1).unwrap();
    run_on(&pager, RunMode::Dynamic, Script::new(20, 5, "q")).unwrap();
    assert!(sink.text().contains("another text"));
}

#[test]
#[allow(deprecated)]
fn hooks_and_exit_callbacks_are_called_in_their_order() {
    let _alone = ALONE.lock();
    let (pager, _) = pager(&lines(9), true);
    let called = Arc::new(Mutex::new(Vec::new()));
    let hooks = [Hook::PrePagerStart, Hook::PostPagerStart, Hook::EofReached, Hook::PrePagerExit, Hook::PostPagerExit];
    for hook in hooks {
        let called = called.clone();
        let note = move |state: &crate::PagerState| called.lock().push(format!("{hook:?} {}", state.upper_mark));
        pager.add_hook(hook, 2, Box::new(note)).unwrap();
    }
    let exited = called.clone();
    pager.add_exit_callback(Box::new(move || exited.lock().push("exit".to_owned()))).unwrap();
    run_on(&pager, RunMode::Dynamic, Script::new(20, 5, "jGq")).unwrap();
    let order = ["PrePagerStart 0", "PostPagerStart 0", "EofReached 5", "PrePagerExit 5", "exit", "PostPagerExit 5"];
    assert_eq!(*called.lock(), order);
}

#[test]
fn a_closure_decides_about_its_keys() {
    let mut session = session(&lines(50));
    let mut register = HashedEventRegister::default();
    register.add_described_key_events(&["x"], "two rows down", |_, state| {
        InputEvent::UpdateUpperMark(state.upper_mark + 2)
    });
    tell(&mut session, Command::SetInputClassifier(Box::new(register)));
    press(&mut session, "xxj");
    assert_eq!(session.state().unwrap().upper_mark, 5);
    press(&mut session, "12j");
    let state = session.state().unwrap();
    assert_eq!((state.upper_mark, state.prefix_num.as_str()), (17, ""));
    press(&mut session, "3");
    assert_eq!(session.state().unwrap().prefix_num, "3");
    press(&mut session, "G");
    assert_eq!(session.state().unwrap().upper_mark, 2);
    assert_eq!(press(&mut session, "q"), Flow::Exited);
}

#[test]
fn settings_show_in_the_state() {
    let mut session = session("some text");
    tell(&mut session, Command::SetPrompt("a prompt".to_owned()));
    tell(&mut session, Command::SendMessage("a message".to_owned()));
    assert_eq!(session.proved.piece(Piece::Prompt).unwrap().unwrap(), "a prompt");
    assert_eq!(session.state().unwrap().message.unwrap(), "a message");
    tell(&mut session, Command::SetData("another text\nof two lines".to_owned()));
    let screen = session.state().unwrap().screen;
    assert_eq!((screen.line_count(), screen.formatted_lines_count(), screen.get_max_line_length()), (2, 4, 12));
}

#[test]
fn help_is_shown_and_left() {
    let text = |session: &mut Session<Script>| session.proved.piece(Piece::Text).unwrap().unwrap();
    let mut session = session("the text\n");
    ask(&mut session, InputEvent::ShowHelp);
    assert!(text(&mut session).contains("COMMAND SUMMARY"));
    assert!(session.proved.piece(Piece::Prompt).unwrap().unwrap().contains("HELP"));
    ask(&mut session, InputEvent::ShowHelp);
    assert_eq!(text(&mut session), "the text\n");
    ask(&mut session, InputEvent::ShowHelp);
    assert_eq!(ask(&mut session, InputEvent::Exit), Flow::On);
    assert_eq!(text(&mut session), "the text\n");
}

#[test]
fn the_help_of_an_own_register_is_shown_over_the_text() {
    let mut register = HashedEventRegister::default();
    register.add_described_key_events(&["x"], "two rows down", |_, state| {
        InputEvent::UpdateUpperMark(state.upper_mark + 2)
    });
    let mut session = session(&lines(100));
    let sink = Kept::default();
    tell(&mut session, Command::SetOutputSink(Box::new(sink.clone())));
    tell(&mut session, Command::SetInputClassifier(Box::new(register)));
    tell(&mut session, Command::Event(Event::Resize(60, 40)));
    press(&mut session, "xM");
    assert!(sink.text().contains("x                              two rows down"), "{:?}", sink.text());
    sink.bytes.lock().clear();
    tell(&mut session, Command::AppendData("a last line".to_owned()));
    assert_eq!(sink.text(), "");
    assert_eq!(press(&mut session, "q"), Flow::On);
    assert!(sink.text().contains("\rline 2\n"), "{:?}", sink.text());
    press(&mut session, "G");
    assert!(sink.text().contains("a last line"), "{:?}", sink.text());
    assert_eq!(press(&mut session, "q"), Flow::Exited);
}

#[test]
fn a_selection_that_is_led_over_an_edge_scrolls() {
    for (count, mark, y, scrolled) in [(10, 3, 0, 2), (10, 3, 4, 4), (6, 2, 10, 2)] {
        let mut session = session(&lines(count));
        ask(&mut session, InputEvent::UpdateUpperMark(mark));
        ask(&mut session, InputEvent::StartSelection { x: 0, y: 0 });
        ask(&mut session, InputEvent::UpdateSelection { x: 0, y });
        assert_eq!(session.state().unwrap().upper_mark, scrolled);
    }
}

#[cfg(feature = "clipboard")]
#[test]
fn a_copy_goes_to_the_terminal_and_selects_nothing() {
    let _alone = ALONE.lock();
    let (pager, sink) = pager("abcdef\n", true);
    for event in [
        InputEvent::StartSelection { x: 1, y: 0 },
        InputEvent::UpdateSelection { x: 3, y: 0 },
        InputEvent::CopySelection,
        InputEvent::Exit,
    ] {
        let tx = pager.tx.clone();
        let send = move |_: &crate::PagerState| tx.send(Command::UserInput(event)).unwrap();
        pager.add_hook(Hook::PostPagerStart, 0, Box::new(send)).unwrap();
    }
    run_on(&pager, RunMode::Dynamic, Script::new(20, 5, "")).unwrap();
    // "bcd" in base 64.
    assert!(sink.text().contains("\x1b]52;c;YmNk\x07"));
}

#[test]
fn queries_are_edited() {
    let mut session = session(&lines(50));
    press(&mut session, "/this is @complex-text_search?query");
    assert_eq!(session.proved.piece(Piece::Query).unwrap().unwrap(), "this is @complex-text_search?query");
    tell(&mut session, Command::Event(Event::Key(KeyCode::Home.into())));
    tell(&mut session, Command::Event(Event::Key(KeyCode::Delete.into())));
    press(&mut session, "T");
    assert_eq!(session.proved.piece(Piece::Query).unwrap().unwrap(), "This is @complex-text_search?query");
    tell(&mut session, Command::Event(Event::Key(KeyCode::Esc.into())));
    assert_eq!(session.proved.piece(Piece::Query).unwrap(), None);
}

#[test]
fn a_condition_is_asked_with_each_query() {
    let mut session = session(&lines(50));
    let asked = Arc::new(Mutex::new(Vec::new()));
    let inside = asked.clone();
    let condition = move |search: &crate::search::SearchOpts<'_>| {
        inside.lock().push(search.string.clone());
        search.string.len() > 6
    };
    tell(&mut session, Command::IncrementalSearchCondition(Box::new(condition)));
    press(&mut session, "/line 4");
    assert_eq!(session.state().unwrap().upper_mark, 0);
    press(&mut session, "1");
    assert_eq!(*asked.lock(), ["l", "li", "lin", "line", "line ", "line 4", "line 41"]);
    assert_eq!(session.proved.piece(Piece::Query).unwrap().unwrap(), "line 41");
    press(&mut session, "\n");
    assert_eq!(session.state().unwrap().upper_mark, 41);
}

#[test]
fn another_size_is_taken() {
    let mut session = session(&lines(50));
    tell(&mut session, Command::Event(Event::Resize(30, 20)));
    let state = session.state().unwrap();
    assert_eq!((state.cols, state.rows), (30, 20));
    // No terminal has such a size: the pager goes on as it was.
    tell(&mut session, Command::Event(Event::Resize(0, 0)));
    assert_eq!(session.state().unwrap().cols, 30);
}

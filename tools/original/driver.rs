//! Steps the core of the Rust crate `minus` over a sink that keeps nothing, as `crates/minus_bench` steps a session: by
//! the words and the text of that program. `build.sh` puts it into a copy of the crate as a module of its search, since
//! what it calls is seen only there.

use super::{InputStatus, SearchMode, SearchOpts, handle_key_press};
use crate::hooks::Hook;
use crate::input::InputEvent;
use crate::input::definitions::keydefs::parse_key_event;
use crate::minus_core::commands::{Command, IoCommand};
use crate::minus_core::ev_handler::{handle_event, handle_io_command};
use crate::minus_core::utils::display::{draw_for_change, draw_full};
use crate::minus_core::{CommandQueue, RUNMODE, RunMode};
use crate::{LineNumbers, PagerState};
use crossterm::cursor::Hide;
use crossterm::event::{EnableMouseCapture, Event, KeyCode, KeyEvent};
use crossterm::terminal::EnterAlternateScreen;
use parking_lot::{Condvar, Mutex};
use regex::Regex;
use std::collections::VecDeque;
use std::io::{self, Read, Write};
use std::sync::Arc;
use std::sync::atomic::AtomicBool;

/// Parts of the text stand apart by this character, and each is a push of its own.
const SEPARATOR: char = '\x1e';

/// A sink that keeps nothing but how many bytes it was sent. (To one of `std::io::sink` nothing is formatted at all.)
struct Sink {
    bytes: usize,
}

impl Write for Sink {
    fn write(&mut self, bytes: &[u8]) -> io::Result<usize> {
        self.bytes += bytes.len();
        Ok(bytes.len())
    }

    fn flush(&mut self) -> io::Result<()> {
        Ok(())
    }
}

/// An input to the core.
enum Step {
    Command(Command),
    Event(Event),
}

/// The input that an act is in a turn, counted from 0.
type Act = Box<dyn Fn(usize) -> Step>;

fn user(event: InputEvent) -> Step {
    Step::Command(Command::UserInput(event))
}

fn pair(text: &str) -> (u16, u16) {
    let (first, second) = text.split_once(',').expect("two numbers");
    (first.parse().unwrap(), second.parse().unwrap())
}

fn act(word: &str) -> Act {
    let (name, value) = word.split_once('=').unwrap_or((word, ""));
    let value = value.to_string();
    match name {
        "redraw" => Box::new(|_| Step::Command(Command::Io(IoCommand::RedrawDisplay))),
        "help" => Box::new(|_| user(InputEvent::ShowHelp)),
        "numbers" => Box::new(|_| Step::Command(Command::SetLineNumbers(LineNumbers::Enabled))),
        "unwrapped" => Box::new(|_| Step::Command(Command::LineWrapping(false))),
        "following" => Box::new(|_| Step::Command(Command::FollowOutput(true))),
        "copy" => Box::new(|_| user(InputEvent::CopySelection)),
        "next" => Box::new(|turn| user(InputEvent::UpdateUpperMark(turn + 1))),
        "drag" => Box::new(|turn| {
            let (x, y) = ((turn % 70) as u16, (turn % 20 + 1) as u16);
            user(InputEvent::UpdateSelection { x, y })
        }),
        "mark" => {
            let row = value.parse().unwrap();
            Box::new(move |_| user(InputEvent::UpdateUpperMark(row)))
        }
        "key" => Box::new(move |_| Step::Event(Event::Key(parse_key_event(&value)))),
        "select" => {
            let (x, y) = pair(&value);
            Box::new(move |_| user(InputEvent::StartSelection { x, y }))
        }
        "lead" => {
            let (x, y) = pair(&value);
            Box::new(move |_| user(InputEvent::UpdateSelection { x, y }))
        }
        "size" => {
            let (cols, rows) = pair(&value);
            Box::new(move |_| Step::Event(Event::Resize(cols, rows)))
        }
        _ => panic!("no act has the name {name}"),
    }
}

/// This number of acts, one after another and from the first again.
fn turns(acts: &[Act], count: usize) -> VecDeque<Step> {
    acts.iter().cycle().take(count).enumerate().map(|(turn, act)| act(turn)).collect()
}

/// What can be counted alone.
#[inline(never)]
fn counted(work: &mut dyn FnMut()) {
    work();
}

struct Core {
    state: PagerState,
    sink: Sink,
    queue: CommandQueue,
    exited: Arc<AtomicBool>,
    listens: Arc<(Mutex<bool>, Condvar)>,
}

impl Core {
    fn new() -> Self {
        let mut state = PagerState::new().unwrap();
        (state.cols, state.rows) = (80, 24);
        state.prompt = "minus".to_string();
        state.format_prompt();
        Self {
            state,
            sink: Sink { bytes: 0 },
            queue: CommandQueue::new(),
            exited: Arc::new(AtomicBool::new(false)),
            listens: Arc::new((Mutex::new(true), Condvar::new())),
        }
    }

    /// What a start does once the commands that wait were handled.
    fn start(&mut self) {
        *RUNMODE.lock() = RunMode::Dynamic;
        self.state.run_hooks(Hook::PrePagerStart);
        crossterm::execute!(self.sink, EnterAlternateScreen, EnableMouseCapture, Hide).unwrap();
        draw_full(&mut self.sink, &mut self.state).unwrap();
        self.state.run_hooks(Hook::PostPagerStart);
        if self.state.follow_output {
            draw_for_change(&mut self.sink, &mut self.state, &mut (usize::MAX - 1)).unwrap();
        }
    }

    /// A command, and those that it asks for.
    fn command(&mut self, command: Command) {
        let mut next = Some(command);
        while let Some(command) = next {
            if let Command::Io(command) = command {
                let (sink, state) = (&mut self.sink, &mut self.state);
                handle_io_command(command, sink, state, &mut self.queue, &self.listens).unwrap();
            } else {
                handle_event(command, &mut self.state, &mut self.queue, &self.exited);
            }
            next = self.queue.pop_front();
        }
    }

    fn event(&mut self, event: Event) {
        let asked = self.state.input_classifier.classify_input(event, &self.state);
        if !matches!(asked, Some(InputEvent::Number(_))) {
            self.state.prefix_num.clear();
            self.state.format_prompt();
        }
        if let Some(asked) = asked {
            self.command(Command::UserInput(asked));
        }
    }

    fn step(&mut self, step: Step) {
        match step {
            Step::Command(command) => self.command(command),
            Step::Event(event) => self.event(event),
        }
    }

    /// Takes a term, as Enter at the search prompt does. (There the crate panics where no row matches.)
    fn take_term(&mut self, term: &Option<Regex>) {
        self.state.search_state.search_term = term.clone();
        self.state.reformat_display();
        let found = &self.state.search_state;
        if let Some(row) = found.search_idx.iter().nth(found.search_mark) {
            self.state.upper_mark = *row;
        }
        self.command(Command::Io(IoCommand::RedrawDisplay));
        self.command(Command::Io(IoCommand::RedrawPrompt));
    }

    /// Opens the search prompt, and presses at it what comes before and then what is counted, until it is closed.
    fn search(&mut self, before: &mut VecDeque<Step>, steps: &mut VecDeque<Step>) {
        let open = Command::UserInput(InputEvent::Search(SearchMode::Forward));
        handle_event(open, &mut self.state, &mut self.queue, &self.exited);
        self.queue.pop_front();
        let mut prompt = SearchOpts::from(&self.state);
        let condition = &self.state.search_state.incremental_search_condition;
        let sink = &mut self.sink;
        let mut press = |keys: &mut VecDeque<Step>| {
            while prompt.input_status == InputStatus::Active
                && let Some(Step::Event(key)) = keys.pop_front()
            {
                prompt.ev = Some(key);
                handle_key_press(sink, &mut prompt, condition).unwrap();
            }
            prompt.input_status == InputStatus::Active
        };
        let is_counted = press(before);
        if is_counted {
            counted(&mut || drop(press(steps)));
        }
        let (status, term) = (prompt.input_status, prompt.compiled_regex);
        if status == InputStatus::Confirmed && is_counted {
            counted(&mut || self.take_term(&term));
        } else if status == InputStatus::Confirmed {
            self.take_term(&term);
        }
    }

    /// Does what comes before, and then what is counted.
    fn run_steps(&mut self, mut before: VecDeque<Step>, mut steps: VecDeque<Step>) {
        let slash = Event::Key(KeyEvent::from(KeyCode::Char('/')));
        while let Some(step) = before.pop_front() {
            match step {
                Step::Event(event) if event == slash => self.search(&mut before, &mut steps),
                step => self.step(step),
            }
        }
        counted(&mut || {
            while let Some(step) = steps.pop_front() {
                self.step(step);
            }
        });
    }
}

fn pushes(text: &str) -> VecDeque<Step> {
    let push = |part: &str| Step::Command(Command::AppendData(part.to_string()));
    text.split(SEPARATOR).map(push).collect()
}

/// A start with commands that wait for it.
fn start_counted(core: &mut Core, mut waiting: VecDeque<Step>) {
    let mut queue = CommandQueue::new_zero();
    counted(&mut || {
        while let Some(Step::Command(command)) = waiting.pop_front() {
            handle_event(command, &mut core.state, &mut queue, &core.exited);
        }
        core.start();
    });
}

pub fn main() {
    let words: Vec<String> = std::env::args().skip(1).collect();
    let [coming, count, acts @ ..] = &words[..] else {
        panic!("usage: original TEXT TURNS [ACT..] [-- ACT..]");
    };
    let parts: Vec<&[String]> = acts.splitn(2, |word| word == "--").collect();
    let acts_of = |part: Option<&&[String]>| -> Vec<Act> {
        part.map_or(Vec::new(), |words| words.iter().map(|word| act(word)).collect())
    };
    let before = acts_of(parts.first());
    let mut before = turns(&before, before.len());
    let steps = turns(&acts_of(parts.get(1)), count.parse().unwrap());
    let mut text = String::new();
    io::stdin().read_to_string(&mut text).unwrap();
    let mut core = Core::new();
    if coming == "waiting" {
        start_counted(&mut core, pushes(&text));
    } else {
        core.start();
        match coming.as_str() {
            "shown" => {
                before.push_front(Step::Command(Command::AppendData(text)));
                core.run_steps(before, steps);
            }
            "pushed" => core.run_steps(before, pushes(&text)),
            "set" => core.run_steps(before, VecDeque::from([Step::Command(Command::SetData(text))])),
            _ => panic!("the text comes shown, pushed, set or waiting"),
        }
    }
    let (screen, found) = (&core.state.screen, &core.state.search_state.search_idx);
    let (rows, lines) = (screen.formatted_lines_count(), screen.line_count());
    println!("rows {rows} lines {lines} matches {} mark {}", found.len(), core.state.upper_mark);
}

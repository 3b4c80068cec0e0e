//! Hooks and a callback of the exit: what was called is told at the end, in its order.

use minus::hooks::Hook::{self, EofReached, PostPagerExit, PostPagerStart, PrePagerExit, PrePagerStart};
use minus::{ExitStrategy, MinusError, Pager, dynamic_paging};
use std::fmt::Write;
use std::sync::{Arc, Mutex};

type Told = Arc<Mutex<Vec<String>>>;

fn note(pager: &Pager, told: &Told, hook: Hook) -> Result<(), MinusError> {
    let told = told.clone();
    let note = move |state: &minus::PagerState| {
        told.lock().unwrap().push(format!("{hook:?} at {}", state.upper_mark));
    };
    pager.add_hook(hook, 2, Box::new(note))
}

#[allow(deprecated)]
fn main() -> Result<(), MinusError> {
    let told = Told::default();
    let mut pager = Pager::new();
    pager.set_prompt("hooks")?;
    pager.set_exit_strategy(ExitStrategy::PagerQuit)?;
    for hook in [PrePagerStart, PostPagerStart, EofReached, PrePagerExit, PostPagerExit] {
        note(&pager, &told, hook)?;
    }
    let exited = told.clone();
    pager.add_exit_callback(Box::new(move || exited.lock().unwrap().push("exit callback".to_owned())))?;
    for number in 0..30 {
        writeln!(pager, "row {number}")?;
    }
    dynamic_paging(pager)?;
    for line in told.lock().unwrap().iter() {
        println!("{line}");
    }
    Ok(())
}

//! Callbacks for what happens to a pager.
//!
//! They are called on the pager's own thread: a callback that takes long holds up each key and each drawing, so long work
//! belongs on another thread.
//!
//! ```
//! use minus::{Pager, hooks::Hook};
//!
//! let pager = Pager::new();
//! pager.add_hook(Hook::EofReached, 2, Box::new(|state| {
//!     eprintln!("the last of {} rows was shown", state.screen.formatted_lines_count());
//! }))?;
//! # Ok::<(), minus::MinusError>(())
//! ```

use crate::PagerState;
use std::collections::HashMap;

/// A moment at which callbacks are called.
#[derive(Debug, Eq, PartialEq, Hash, Clone, Copy)]
pub enum Hook {
    /// Before the pager takes the terminal.
    PrePagerStart,
    /// After the first page was drawn.
    PostPagerStart,
    /// When the last row is shown.
    EofReached,
    /// When an exit was asked for, before the pager hands the terminal back.
    PrePagerExit,
    /// After the pager has handed the terminal back.
    ///
    /// The id 1 of this hook belongs to the [`ExitStrategy`](crate::ExitStrategy), which ends the process unless it is
    /// removed or replaced. So ids of a program begin with 2, and what stands behind the id 1 is called only where the
    /// process goes on.
    PostPagerExit,
}

/// A callback of a hook.
pub type HookCallback = Box<dyn FnMut(&PagerState) + Send + Sync + 'static>;

/// The callbacks of all hooks, each with its id.
#[derive(Default)]
pub(crate) struct Hooks {
    callbacks: HashMap<Hook, Vec<(u64, HookCallback)>>,
}

/// The least id that is given to a callback that asks for none: the one before belongs to the exit strategy.
const FIRST_ID: u64 = 2;

impl Hooks {
    /// Adds a callback behind those of this hook. The id 0 asks for the next one: at least 2, and greater than each that
    /// the hook holds.
    pub(crate) fn add_callback(&mut self, hook: Hook, id: u64, callback: HookCallback) {
        let held = self.callbacks.entry(hook).or_default();
        let id = if id == 0 { next_id(held) } else { id };
        assert!(held.iter().all(|(own, _)| *own != id), "Callback ID {id} already exists for hook {hook:?}");
        held.push((id, callback));
    }

    /// Whether anything is called at this hook.
    pub(crate) fn has_any(&self, hook: Hook) -> bool {
        self.callbacks.get(&hook).is_some_and(|held| !held.is_empty())
    }

    /// Removes a callback, and says whether it was there.
    pub(crate) fn remove_callback(&mut self, hook: Hook, id: u64) -> bool {
        let Some(held) = self.callbacks.get_mut(&hook) else {
            return false;
        };
        let place = held.iter().position(|(own, _)| *own == id);
        place.map(|place| held.remove(place)).is_some()
    }

    /// Calls what this hook holds, in the order in which it was added.
    pub(crate) fn run(&mut self, hook: Hook, state: &PagerState) {
        for (_, callback) in self.callbacks.entry(hook).or_default() {
            callback(state);
        }
    }
}

/// The id behind those that a hook holds.
fn next_id(held: &[(u64, HookCallback)]) -> u64 {
    let greatest = held.iter().map(|(id, _)| *id).max().unwrap_or(0);
    greatest.checked_add(1).expect("an id is free behind the greatest one").max(FIRST_ID)
}

#[cfg(test)]
mod tests {
    use super::{Hook, Hooks};
    use crate::PagerState;
    use std::sync::Arc;
    use std::sync::atomic::{AtomicUsize, Ordering};

    fn counted(hooks: &mut Hooks, id: u64) -> Arc<AtomicUsize> {
        let count = Arc::new(AtomicUsize::new(0));
        let inside = count.clone();
        let add = Box::new(move |_: &PagerState| {
            inside.fetch_add(1, Ordering::SeqCst);
        });
        hooks.add_callback(Hook::EofReached, id, add);
        count
    }

    #[test]
    fn each_callback_is_called_until_it_is_removed() {
        let mut hooks = Hooks::default();
        let (first, second) = (counted(&mut hooks, 5), counted(&mut hooks, 7));
        let state = PagerState::default();
        hooks.run(Hook::EofReached, &state);
        assert!(hooks.remove_callback(Hook::EofReached, 5));
        assert!(!hooks.remove_callback(Hook::EofReached, 5));
        hooks.run(Hook::EofReached, &state);
        hooks.run(Hook::PrePagerExit, &state);
        assert_eq!((first.load(Ordering::SeqCst), second.load(Ordering::SeqCst)), (1, 2));
    }

    #[test]
    fn the_id_0_asks_for_the_next_one() {
        let mut hooks = Hooks::default();
        let counts = [1, 0, 7, 0].map(|id| counted(&mut hooks, id));
        for (id, called) in [(2, [1, 0, 1, 1]), (8, [2, 0, 2, 1])] {
            assert!(hooks.remove_callback(Hook::EofReached, id));
            hooks.run(Hook::EofReached, &PagerState::default());
            assert_eq!(counts.each_ref().map(|count| count.load(Ordering::SeqCst)), called);
        }
    }

    #[test]
    #[should_panic(expected = "Callback ID 5 already exists for hook EofReached")]
    fn an_id_is_taken_once() {
        let mut hooks = Hooks::default();
        counted(&mut hooks, 5);
        counted(&mut hooks, 5);
    }
}

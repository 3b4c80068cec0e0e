//! What happens to the terminal where a thread of the program panics while a pager has it.

use super::terminal::{Terminal, hand_back};
use crate::OutputSink;
use parking_lot::Mutex;
use std::panic;
use std::sync::Arc;
use std::sync::atomic::{AtomicBool, Ordering};
use std::time::Duration;

/// How long a panic waits for a sink that another thread writes to, and the pager for a panic that is told.
const PATIENCE: Duration = Duration::from_millis(500);

/// Why the threads of a pager end.
#[derive(Default)]
pub struct Ends {
    /// The pager has handed the terminal back.
    pub is_over: AtomicBool,
    /// A thread has panicked, and the terminal was handed back for that.
    pub has_panicked: AtomicBool,
    // Held while a panic hands the terminal back and is told.
    telling: Mutex<()>,
}

impl Ends {
    pub fn are_near(&self) -> bool {
        self.is_over.load(Ordering::SeqCst) || self.has_panicked.load(Ordering::SeqCst)
    }

    /// Waits until the panic is told, since the process may end with the pager.
    pub fn wait_for_panic(&self) {
        drop(self.telling.try_lock_for(2 * PATIENCE));
    }
}

/// From now on a panic of any thread hands the terminal back first, and is told then, as long as the pager has it.
pub fn hand_back_at_panic(ends: &Arc<Ends>, terminal: &Arc<impl Terminal>, sink: &Arc<Mutex<Box<dyn OutputSink>>>) {
    let (ends, terminal, sink) = (ends.clone(), terminal.clone(), sink.clone());
    let before = panic::take_hook();
    panic::set_hook(Box::new(move |info| {
        if ends.is_over.load(Ordering::SeqCst) {
            return before(info);
        }
        let _telling = ends.telling.lock();
        if !ends.are_near() {
            ends.has_panicked.store(true, Ordering::SeqCst);
            if let Some(mut sink) = sink.try_lock_for(PATIENCE) {
                // A panic goes on, whatever the terminal says.
                let _ = hand_back(&*terminal, &mut *sink);
            }
        }
        before(info);
    }));
}

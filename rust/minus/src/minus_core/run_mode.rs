//! The mode of the pager that runs in this process.

use parking_lot::{Mutex, const_mutex};

/// The mode of the pager that runs in this process, if any does: two would share the terminal.
pub static RUNMODE: Mutex<RunMode> = const_mutex(RunMode::Uninitialized);

/// How a pager runs.
#[derive(Copy, Clone, PartialEq, Eq, Debug)]
pub enum RunMode {
    /// By [`page_all`](crate::page_all), over a text that stays.
    #[cfg(feature = "static_output")]
    Static,
    /// By [`dynamic_paging`](crate::dynamic_paging), over a text that may grow.
    #[cfg(feature = "dynamic_output")]
    Dynamic,
    /// No pager runs.
    Uninitialized,
}

impl RunMode {
    /// Whether no pager runs.
    ///
    /// ```
    /// use minus::RunMode;
    ///
    /// assert!(RunMode::Uninitialized.is_uninitialized());
    /// ```
    #[must_use]
    pub fn is_uninitialized(self) -> bool {
        self == Self::Uninitialized
    }

    /// A mode that a pager runs in.
    #[cfg(any(feature = "dynamic_output", feature = "static_output"))]
    pub(crate) const fn paging() -> Self {
        #[cfg(feature = "dynamic_output")]
        return Self::Dynamic;
        #[cfg(not(feature = "dynamic_output"))]
        Self::Static
    }

    /// Whether the text may grow while the pager runs.
    pub(crate) fn is_dynamic(self) -> bool {
        #[cfg(feature = "dynamic_output")]
        return self == Self::Dynamic;
        #[cfg(not(feature = "dynamic_output"))]
        false
    }
}

/// The process's one pager: while this value lives no other can start.
#[cfg(any(feature = "dynamic_output", feature = "static_output"))]
pub struct Claim(());

#[cfg(any(feature = "dynamic_output", feature = "static_output"))]
impl Claim {
    /// Claims the terminal for a pager of this mode, and panics where another pager runs.
    pub fn of(mode: RunMode) -> Self {
        let mut running = RUNMODE.lock();
        assert!(running.is_uninitialized(), "another pager runs in this process: {:?}", *running);
        *running = mode;
        Self(())
    }
}

#[cfg(any(feature = "dynamic_output", feature = "static_output"))]
impl Drop for Claim {
    fn drop(&mut self) {
        *RUNMODE.lock() = RunMode::Uninitialized;
    }
}

//! Paging a text that may grow.

use crate::error::MinusError;
use crate::minus_core::run::run;
use crate::{Pager, RunMode};

/// Pages a text that may grow while it is paged.
///
/// The thread that calls this runs the pager until the user exits; other threads feed it by clones of the [`Pager`]. At an
/// exit the process ends, unless the id 1 of the hook [`PostPagerExit`](crate::hooks::Hook::PostPagerExit) is removed.
///
/// ```no_run
/// use minus::{MinusError, Pager, dynamic_paging};
/// use std::fmt::Write;
/// use std::{thread, time::Duration};
///
/// fn main() -> Result<(), MinusError> {
///     let mut pager = Pager::new();
///     let running = pager.clone();
///     let paging = thread::spawn(move || dynamic_paging(running));
///     for seconds in 0..60 {
///         writeln!(pager, "{seconds} s")?;
///         thread::sleep(Duration::from_secs(1));
///     }
///     paging.join().expect("the pager does not panic")
/// }
/// ```
///
/// # Panics
///
/// Where another pager runs in this process.
///
/// # Errors
///
/// Where the standard output, or the sink, is no terminal, and where the terminal refuses an operation.
#[expect(clippy::needless_pass_by_value, reason = "the signature is the crate's")]
pub fn dynamic_paging(pager: Pager) -> Result<(), MinusError> {
    run(&pager, RunMode::Dynamic)
}

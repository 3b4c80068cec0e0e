//! Paging a text that stays.

use crate::error::MinusError;
use crate::minus_core::run::run;
use crate::{Pager, RunMode};

/// Pages the text that was told before, or writes it.
///
/// It is written where it fits the terminal (unless [`Pager::set_run_no_overflow`] says otherwise), and where the sink is
/// no terminal. Where it is paged this returns or ends the process as [`dynamic_paging`](crate::dynamic_paging) does.
///
/// ```no_run
/// use minus::{MinusError, Pager, page_all};
///
/// fn main() -> Result<(), MinusError> {
///     let pager = Pager::new();
///     for line in 1..=1000 {
///         pager.push_str(format!("line {line}\n"))?;
///     }
///     page_all(pager)
/// }
/// ```
///
/// # Panics
///
/// Where another pager runs in this process.
///
/// # Errors
///
/// Where the terminal or the sink refuses an operation.
#[expect(clippy::needless_pass_by_value, reason = "the signature is the crate's")]
pub fn page_all(pager: Pager) -> Result<(), MinusError> {
    run(&pager, RunMode::Static)
}

//! What happens at an exit.

/// Callbacks that are called at an exit.
pub type ExitCallbacks = Vec<Box<dyn FnMut() + Send + Sync + 'static>>;

/// What an exit ends.
#[derive(PartialEq, Clone, Debug, Eq)]
pub enum ExitStrategy {
    /// The whole process. A pager does so unless it is told otherwise.
    ProcessQuit,
    /// The pager alone: `dynamic_paging` or `page_all` returns.
    PagerQuit,
}

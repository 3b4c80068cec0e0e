//! Where a pager writes.

use crossterm::tty::IsTty;
use std::io::Write;

/// A place that a pager writes its text and its control sequences to.
///
/// A pager writes to [`Stdout`](std::io::Stdout) unless [`Pager::set_output_sink`](crate::Pager::set_output_sink)
/// names another sink.
///
/// ```
/// use minus::OutputSink;
/// use std::io::{Result, Write};
///
/// /// Counts the bytes of a pager.
/// struct Counted(usize);
///
/// impl Write for Counted {
///     fn write(&mut self, bytes: &[u8]) -> Result<usize> {
///         self.0 += bytes.len();
///         Ok(bytes.len())
///     }
///
///     fn flush(&mut self) -> Result<()> {
///         Ok(())
///     }
/// }
///
/// impl OutputSink for Counted {}
///
/// assert!(!Counted(0).is_tty());
/// ```
pub trait OutputSink: Write + Send + Sync + 'static {
    /// Whether a terminal shows what is written.
    fn is_tty(&self) -> bool {
        false
    }
}

impl OutputSink for std::io::Stdout {
    fn is_tty(&self) -> bool {
        IsTty::is_tty(self)
    }
}

impl OutputSink for std::io::Stderr {
    fn is_tty(&self) -> bool {
        IsTty::is_tty(self)
    }
}

impl OutputSink for std::fs::File {
    fn is_tty(&self) -> bool {
        IsTty::is_tty(self)
    }
}

impl OutputSink for Vec<u8> {}

impl<T: AsRef<[u8]> + Send + Sync + 'static> OutputSink for std::io::Cursor<T> where Self: Write {}

impl OutputSink for std::io::Sink {}

impl<T: OutputSink + ?Sized> OutputSink for Box<T> {
    fn is_tty(&self) -> bool {
        (**self).is_tty()
    }
}

#[cfg(test)]
mod tests {
    use super::OutputSink;
    use std::io::{Cursor, sink};

    #[test]
    fn buffers_are_no_terminals() {
        assert!(!Vec::<u8>::new().is_tty());
        assert!(!Cursor::new(Vec::<u8>::new()).is_tty());
        assert!(!sink().is_tty());
        assert!(!(Box::new(sink()) as Box<dyn OutputSink>).is_tty());
    }
}

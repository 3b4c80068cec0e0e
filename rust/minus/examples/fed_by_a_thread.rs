//! A text that grows while it is paged: this thread feeds it, another one runs the pager.

use minus::{LineNumbers, MinusError, Pager, dynamic_paging};
use std::fmt::Write;
use std::thread;
use std::time::Duration;

fn main() -> Result<(), MinusError> {
    let mut pager = Pager::new();
    pager.set_prompt("a feed")?;
    pager.set_line_numbers(LineNumbers::Enabled)?;
    let running = pager.clone();
    let paging = thread::spawn(move || dynamic_paging(running));
    for number in 0..=100_u32 {
        writeln!(pager, "reading {number}: {}", number * number)?;
        thread::sleep(Duration::from_millis(5));
    }
    pager.send_message("all was read")?;
    paging.join().expect("the pager does not panic")
}

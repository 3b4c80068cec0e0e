//! A text that stays: numbered lines, one of them long.

use minus::{MinusError, Pager, page_all};
use std::fmt::Write;

fn main() -> Result<(), MinusError> {
    let count = std::env::args().nth(1).and_then(|count| count.parse().ok()).unwrap_or(200);
    let mut pager = Pager::new();
    pager.set_prompt("numbers")?;
    for number in 1..=count {
        let words = if number == 7 {
            " many words that do not fit in one row of a small terminal".repeat(2)
        } else {
            String::new()
        };
        writeln!(pager, "this is line {number}{words}")?;
    }
    page_all(pager)
}

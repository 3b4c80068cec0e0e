//! A file that is read whole, and paged then: file_at_once FILE

use minus::{MinusError, Pager, page_all};

fn main() -> Result<(), MinusError> {
    let Some(name) = std::env::args().nth(1) else {
        eprintln!("file_at_once FILE");
        std::process::exit(2);
    };
    let pager = Pager::new();
    pager.set_text(std::fs::read_to_string(name)?)?;
    pager.set_prompt("a file")?;
    page_all(pager)
}

//! A reader of a file, as `less` is one: less_like FILE

use minus::{MinusError, Pager, dynamic_paging};
use std::fs::File;
use std::io::{BufRead, BufReader};
use std::thread;

fn feed(file: File, pager: &Pager) -> Result<(), MinusError> {
    let mut reader = BufReader::new(file);
    loop {
        let mut piece = String::new();
        if reader.read_line(&mut piece)? == 0 {
            return Ok(());
        }
        pager.push_str(piece)?;
    }
}

fn main() -> Result<(), MinusError> {
    let Some(name) = std::env::args().nth(1) else {
        eprintln!("less_like FILE");
        std::process::exit(2);
    };
    let file = File::open(&name)?;
    let pager = Pager::new();
    pager.set_prompt(name)?;
    let feeding = pager.clone();
    let reading = thread::spawn(move || feed(file, &feeding));
    dynamic_paging(pager)?;
    reading.join().expect("the reader does not panic")
}

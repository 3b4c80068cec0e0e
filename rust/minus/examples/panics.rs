//! A panic while the pager has the terminal: p panics in a callback of the pager; a second argument panics in a thread.

use minus::input::HashedEventRegister;
use minus::{MinusError, Pager, dynamic_paging};
use std::thread;
use std::time::Duration;

fn main() -> Result<(), MinusError> {
    let mut register = HashedEventRegister::default();
    register.add_key_events(&["p"], |_, _| panic!("a callback gives up"));
    let pager = Pager::new();
    pager.set_prompt("panics")?;
    pager.set_input_classifier(Box::new(register))?;
    pager.set_text("press p\n")?;
    if std::env::args().nth(1).is_some() {
        thread::spawn(|| {
            thread::sleep(Duration::from_millis(300));
            panic!("a thread gives up");
        });
    }
    dynamic_paging(pager)?;
    println!("the pager has ended");
    Ok(())
}

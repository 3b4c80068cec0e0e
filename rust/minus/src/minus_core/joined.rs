//! Texts that are appended one after the other, as one.

use super::commands::Command;
use std::iter::{Peekable, from_fn};

/// How long a joined text grows before it is appended, in bytes: each one is drawn.
const PIECE: usize = 64 * 1024;

/// These commands, with texts that are appended one after the other joined.
pub fn joined(commands: impl Iterator<Item = Command>) -> impl Iterator<Item = Command> {
    let mut commands = commands.peekable();
    from_fn(move || {
        let mut next = commands.next()?;
        if let Command::AppendData(text) = &mut next {
            join(text, &mut commands);
        }
        Some(next)
    })
}

fn join(text: &mut String, commands: &mut Peekable<impl Iterator<Item = Command>>) {
    while text.len() < PIECE
        && let Some(Command::AppendData(more)) = commands.next_if(|next| matches!(next, Command::AppendData(_)))
    {
        text.push_str(&more);
    }
}

#[cfg(test)]
mod tests {
    use super::{Command, PIECE, joined};

    fn append(text: &str) -> Command {
        Command::AppendData(text.to_owned())
    }

    #[test]
    fn appends_are_joined_up_to_another_command() {
        let told =
            [append("a"), append("b"), Command::ShowPrompt(true), append("c"), Command::Stop, append("d"), append("e")];
        let taken = [append("ab"), Command::ShowPrompt(true), append("c"), Command::Stop, append("de")];
        assert_eq!(joined(told.into_iter()).collect::<Vec<_>>(), taken);
    }

    #[test]
    fn a_long_text_is_appended_by_itself() {
        let long = "x".repeat(PIECE);
        let told = [append(&long), append("a"), append("b")];
        assert_eq!(joined(told.into_iter()).collect::<Vec<_>>(), [append(&long), append("ab")]);
    }
}

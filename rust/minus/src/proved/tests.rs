//! What the library answers, where this crate shows it.

use super::{Event, Piece, Proved, Refusal, highlight_line, next_nth_match};
use crate::heap::refusals;
use crate::{LineNumbers, RunMode};
use crossterm::event::{Event as TerminalEvent, KeyCode};

const COLOR: &str = "\x1b[34m";
const PLAIN: &str = "\x1b[0m";

/// A text with the marks of the tests below as escape sequences: `<` and `>` around what is in reverse, `(` a color, `)`
/// none.
fn marked(text: &str) -> String {
    text.replace('<', "\x1b[7m").replace('>', "\x1b[27m").replace('(', COLOR).replace(')', PLAIN)
}

/// A session of this many columns and ten rows over these pieces.
fn session(cols: usize, pieces: &[&str]) -> Proved {
    let mut proved = Proved::new().unwrap();
    for piece in pieces {
        proved.push(piece).unwrap();
    }
    proved.start(RunMode::Dynamic, cols, 10).unwrap();
    proved
}

/// The rows of the text.
fn rows(proved: &mut Proved) -> Vec<String> {
    (0..proved.state().row_count).map(|row| proved.row(row).unwrap().unwrap()).collect()
}

#[test]
fn matches_are_in_reverse() {
    for (line, pattern, shown) in [
        ("no match", "test", "no match"),
        ("this is a test", " a ", "this is< a >test"),
        ("test another test", "test", "<test> another <test>"),
        (
            "Integer placerat tristique nisl. placerat non mollis, magna orci dolor, placerat at vulputate neque nulla lacinia \
             eros.",
            r"\W\w+t\W",
            "Integer< placerat >tristique nisl.< placerat >non mollis, magna orci dolor,< placerat >at vulputate neque nulla \
             lacinia eros.",
        ),
    ] {
        for accurate in [false, true] {
            let (text, is_match) = highlight_line(line, pattern, accurate).unwrap();
            assert_eq!((text, is_match), (marked(shown), shown.contains('<')));
        }
    }
}

#[test]
fn sequences_come_behind_a_match() {
    for (line, shown) in [
        ("(color) and test", "(color) and <test>"),
        ("this (is a te)st", "this (is a <test>)"),
        ("this is a te(st again)", "this is a <test>( again)"),
        ("this is (a test again)", "this is (a <test> again)"),
        ("this is a t(es)t again", "this is a <test>() again"),
        ("this (is a te)st again (yeah) test", "this (is a <test>) again (yeah) <test>"),
    ] {
        assert_eq!(highlight_line(&marked(line), "test", false).unwrap().0, marked(shown), "{line}");
    }
}

#[test]
fn sequences_stay_in_a_match_where_that_is_asked_for() {
    for (line, shown) in [
        ("(test) this (is a te)st again (yeah) test", "<(test>) this (is a <te)st> again (yeah) <test>"),
        ("(color) and test", "(color) and <test>"),
        ("this (is a te)st", "this (is a <te)st>"),
        ("this is a te(st again)", "this is a <te(st> again)"),
        ("this is (a test again)", "this is (a <test> again)"),
        ("this is a t(es)t again", "this is a <t(es)t> again"),
        ("this (is a te)st again (yeah) test", "this (is a <te)st> again (yeah) <test>"),
    ] {
        assert_eq!(highlight_line(&marked(line), "test", true).unwrap().0, marked(shown), "{line}");
    }
}

#[test]
fn a_jump_goes_to_the_next_match() {
    let matches = [2, 10, 15, 17, 50];
    let mut mark = 0;
    for (place, row) in matches.iter().enumerate() {
        assert_eq!(next_nth_match(&matches, mark, 1), Some(place));
        mark = *row;
    }
    assert_eq!(next_nth_match(&matches, mark, 1), Some(0));
    assert_eq!(next_nth_match(&[], mark, 1), None);
}

/// How many rows the last line takes, and whether a push adds to it.
fn last_line(cols: usize, pieces: &[&str]) -> (usize, bool) {
    let mut proved = session(cols, pieces);
    let before = proved.state();
    let first = proved.first_row(before.line_count - 1).unwrap();
    proved.push("x").unwrap();
    (before.row_count - first, proved.state().line_count == before.line_count)
}

#[test]
fn an_unfinished_line_takes_its_rows_and_goes_on() {
    let lengthy = "This is a quite lengthy line";
    for (cols, pieces, rows) in [
        (80, vec!["This is a line"], 1),
        (80, vec!["This is a line\nThis is another line\nThis is third line"], 1),
        (20, vec![lengthy], 2),
        (20, vec![lengthy, "\nIt has three lines\nThis is\nthird line"], 1),
        (80, vec!["This is a line. ", "This is another line"], 1),
        (20, vec!["This is a line. This is second line. "], 2),
        (20, vec!["This is a line. This is second line. ", "This is third line"], 3),
        (20, vec!["This is a line.\nThis is second line. "], 1),
        (20, vec!["This is a line.\nThis is second line. ", "This is third line."], 2),
        (20, vec!["This is a line. "], 1),
        (20, vec!["This is a line. ", "This is second line. "], 2),
        (20, vec!["This is a line. ", "This is second line. ", "This is third line"], 3),
    ] {
        assert_eq!(last_line(cols, &pieces), (rows, true), "{pieces:?}");
    }
}

#[test]
fn a_finished_line_is_done() {
    for (cols, pieces) in [
        (80, vec!["This is a line\n"]),
        (80, vec!["This is a line\nThis is another line\n"]),
        (20, vec!["This is a quite lengthy line\nIt has three lines\nThis is\nthird line\n"]),
        (80, vec!["This is a line. ", "This is another line\n"]),
        (80, vec!["This is a line\n", "This is another line\n"]),
        (20, vec!["This is a line. This is second line. ", "This is another line\n"]),
    ] {
        assert!(!last_line(cols, &pieces).1, "{pieces:?}");
    }
}

#[test]
fn pieces_join_to_lines() {
    for (cols, pieces, shown) in [
        (80, vec!["This is a line.", " This is a follow up line"], vec!["This is a line. This is a follow up line"]),
        (
            80,
            vec!["This is a line.\n", " This is a follow up line\n"],
            vec!["This is a line.", " This is a follow up line"],
        ),
        (
            80,
            vec!["hello,\n", "this is ", "a test\r\n", "of weird line endings"],
            vec!["hello,", "this is a test", "of weird line endings"],
        ),
        (
            80,
            vec![
                "This line has trailing whitespace      ",
                "     This has leading whitespace\n",
                "   This has whitespace on both sides   ",
                "Andthishasnone",
            ],
            vec![
                "This line has trailing whitespace           This has leading whitespace",
                "   This has whitespace on both sides   Andthishasnone",
            ],
        ),
        (
            15,
            vec![
                "this is a normal line with no newline",
                "this is an appended line with a newline\n",
                "and this is a third line",
            ],
            vec![
                "this is a",
                "normal line",
                "with no",
                "newlinethis is",
                "an appended",
                "line with a",
                "newline",
                "and this is a",
                "third line",
            ],
        ),
        (
            80,
            vec![
                "this is a line",
                " and this is another",
                " and this is yet another\n",
                "and this should be on a newline",
            ],
            vec!["this is a line and this is another and this is yet another", "and this should be on a newline"],
        ),
        (80, vec!["This\n\n\nhas many\n newlines\n"], vec!["This", "", "", "has many", " newlines"]),
        (
            80,
            vec!["This is a line with a bunch of\nin between\nbut not at the end"],
            vec!["This is a line with a bunch of", "in between", "but not at the end"],
        ),
    ] {
        assert_eq!(rows(&mut session(cols, &pieces)), shown);
        // What is pushed while it runs leads to the rows that it leads to before.
        let mut running = session(cols, &[]);
        pieces.iter().for_each(|piece| assert!(running.push(piece).is_ok()));
        assert_eq!(rows(&mut running), shown);
    }
}

#[test]
fn a_text_may_be_replaced() {
    let mut proved = session(80, &["x\ny\nz\n"]);
    proved.set_text("short\nlines").unwrap();
    assert_eq!(rows(&mut proved), ["short", "lines"]);
    proved.set_text("one\ntwo\nthree").unwrap();
    assert_eq!(rows(&mut proved), ["one", "two", "three"]);
}

/// A pager from its start to its end, and how many bytes it wrote.
fn life() -> Result<usize, Refusal> {
    let mut proved = Proved::new()?;
    proved.push("one\ntwo\nthree\n")?;
    proved.set_prompt("a text")?;
    proved.set_line_numbers(LineNumbers::Enabled)?;
    proved.start(RunMode::Dynamic, 20, 5)?;
    for code in "jk/tw".chars().map(KeyCode::Char).chain([KeyCode::Enter, KeyCode::Char('n')]) {
        proved.event(Event::of(&TerminalEvent::Key(code.into())).unwrap())?;
    }
    proved.piece(Piece::Text)?;
    proved.event(Event::Resize(30, 4))?;
    proved.set_text("another\ntext of two\nlines two")?;
    proved.push("more")?;
    proved.finish()?;
    Ok(proved.take().len())
}

#[test]
fn each_request_for_memory_may_be_refused() {
    let written = life().unwrap();
    for count in 0.. {
        refusals::begin_after(Some(count));
        let ended = life();
        refusals::begin_after(None);
        match ended {
            Ok(bytes) => {
                assert!(count > 100 && bytes == written, "{count} requests, {bytes} bytes");
                break;
            }
            Err(refusal) => assert!(
                matches!(refusal, Refusal::Memory | Refusal::Setup | Refusal::Draw | Refusal::Cleanup),
                "{refusal:?}"
            ),
        }
    }
}

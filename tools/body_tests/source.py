"""A file that the tests of wrong bodies turn, and its places."""
import os
import tempfile
from contextlib import contextmanager

from body_edits import Body
from body_places import Place, place_of

SOURCE = """const LIMIT: usize = 3;

pub fn free(n: usize) -> usize {
    if n == 0 {
        1
    } else {
        2
    }
}

impl<T: Sink> Sink for io::Cursor<T>
where
    T: Write,
{
    const NAME: usize = 4;

    fn put(&mut self) -> usize {
        5
    }
}

impl<T: Sink> Sink for &mut T {
    fn put(&mut self) -> usize {
        8
    }
}

impl From<fmt::Error> for Fault {
    fn from(cause: fmt::Error) -> Fault {
        Fault::Six(cause)
    }
}

pub trait Named {
    fn name(&self) -> usize {
        7
    }
}
"""


def place(mark):
    return place_of(SOURCE, SOURCE.index(mark), "m")


def body(label, name, at=0):
    return Body(label, [("src/m.rt", at, at + 1, "x")], {Place("m", name=name)})


@contextmanager
def folder_with(files):
    """Leads to a folder of these files, each path with its text, which is gone behind the block."""
    with tempfile.TemporaryDirectory() as folder:
        for path, text in files.items():
            write(folder, path, text)
        yield folder


def write(folder, path, text):
    os.makedirs(os.path.dirname(f"{folder}/{path}"), exist_ok=True)
    with open(f"{folder}/{path}", "w", encoding="utf-8") as out:
        out.write(text)

"""Pages a file on the terminal: page.py LIBRARY FILE, where LIBRARY is a shared object, as minus.h says how to make it."""
import ctypes as c
import os
import select
import signal
import sys
import termios
import tty

LATE = 0.05  # seconds: a byte ESC that nothing has followed for so long is the Esc key
MORE, KEY, MOUSE = range(3)
PASSED = 5, 8  # the pager goes on where a size is none, or a query is full


def struct(name, **fields):
    return type(name, (c.Structure,), {'_fields_': list(fields.items())})


u8, u16, u32, size_t = c.c_uint8, c.c_uint16, c.c_uint32, c.c_size_t
Pager = struct('Pager', at=c.c_void_p)
Handed = struct('Handed', pager=Pager, given=c.c_bool)
Told = struct('Told', refusal=u8, exited=c.c_bool, quits=c.c_bool, code=u8, copied=c.c_bool, refused=c.c_bool, written=size_t)
Found = struct('Found', refusal=u8, is_there=c.c_bool, value=size_t)
Key = struct('Key', code=u8, modifiers=u8, kind=u8, state=u8, value=u32)
Mouse = struct('Mouse', kind=u8, modifiers=u8, column=u16, row=u16)
Read = struct('Read', kind=u8, taken=size_t, key=Key, mouse=Mouse)


class Page:
    """A pager of a text."""

    def __init__(self, library, text):
        self.library, self.held = c.CDLL(os.path.abspath(library)), Handed()
        self.library.minus_read.restype, self.library.minus_refusal_text.restype = Read, Found
        self.told = Told(refusal=self.library.minus_new(c.byref(self.held)))
        if not self.told.refusal:
            self.told = self.call('push', text, size_t(len(text)))

    def call(self, name, *words, answers=Told):
        """Hands the pager in, and takes it back."""
        export = getattr(self.library, 'minus_' + name)
        export.restype = answers
        return export(self.held.pager, *words, c.byref(self.held))

    def show(self, name, *words):
        """Makes a call, writes what the pager drew, and says whether it goes on."""
        self.told = self.call(name, *words)
        room = c.create_string_buffer(self.told.written + 1)
        count = self.call('take', room, size_t(self.told.written), answers=size_t)
        drawn = room.raw[:count]
        while drawn:
            drawn = drawn[os.write(1, drawn):]
        return self.told.refusal in (0, *PASSED) and not self.told.exited

    def press(self, data, late):
        """Hands in the events of some bytes, and answers those that are left, or nothing where the pager ends."""
        while (event := self.library.minus_read(data, size_t(len(data)), c.c_bool(late))).kind != MORE:
            data = data[event.taken:]
            if event.kind == KEY and not self.show('key', event.key) or event.kind == MOUSE and not self.show('mouse', event.mouse):
                return None
        return data

    def run(self, woken):
        """Hands in keys, the mouse and new sizes until the pager has exited."""
        rest, is_fresh = b'', False
        while rest is not None:
            ready = select.select([0, woken], [], [], LATE if is_fresh else None)[0]
            if woken in ready:
                os.read(woken, 4096)
                size = os.get_terminal_size()
                if not self.show('resize', u16(size.columns), u16(size.lines)):
                    break
            if 0 in ready:
                more = os.read(0, 4096)
                rest = self.press(rest + more, False) if more else None
            elif not ready:
                rest = self.press(rest, True)
            is_fresh = bool(rest) and bool(ready)

    def page(self):
        """Pages the text on the terminal, or writes it where there is none, and answers a status."""
        if not self.told.refusal and not (os.isatty(0) and os.isatty(1)):
            self.show('page_all', size_t(80), size_t(24), c.c_bool(False))
        elif not self.told.refusal:
            self.page_on_terminal()
        if self.told.refusal in (0, *PASSED):
            return self.told.code
        room = c.create_string_buffer(80)
        said = self.library.minus_refusal_text(self.told.refusal, room, size_t(len(room)))
        print('page:', room.raw[:said.value].decode(), file=sys.stderr)
        return 1

    def page_on_terminal(self):
        woken, wakes = os.pipe()
        os.set_blocking(wakes, False)
        signal.signal(signal.SIGWINCH, lambda *_: None)
        signal.set_wakeup_fd(wakes)
        before, size = termios.tcgetattr(0), os.get_terminal_size()
        tty.setraw(0)
        try:
            if self.show('page_all', size_t(size.columns), size_t(size.lines), c.c_bool(True)):
                self.run(woken)
            told = self.told
            self.show('finish')
            self.told = told
        finally:
            termios.tcsetattr(0, termios.TCSANOW, before)


def main():
    if len(sys.argv) != 3:
        sys.exit(__doc__)
    try:
        with open(sys.argv[2], 'rb') as file:
            page = Page(sys.argv[1], file.read())
        status = page.page()
        page.library.minus_drop(page.held.pager)
    except OSError as cause:
        sys.exit(f'page: {cause}')
    sys.exit(status)


if __name__ == '__main__':
    main()

/* Pages a file on the terminal: cc -I../../include page.c heap.c libminus_c.a -o page && ./page FILE */
#include "minus.h"
#include <errno.h>
#include <signal.h>
#include <stdio.h>
#include <stdlib.h>
#include <string.h>
#include <sys/ioctl.h>
#include <sys/select.h>
#include <termios.h>
#include <unistd.h>

static struct minus_handed held;
static struct minus_told last; /* what the last call told */
static volatile sig_atomic_t is_resized;

static void note_resize(int number) { is_resized = number == SIGWINCH; }

/* The whole of a file. */
static uint8_t *contents(FILE *file, size_t *len) {
    uint8_t *text = NULL;
    size_t room = 1 << 16;
    for (*len = 0; (text = realloc(text, room)); room *= 2) {
        *len += fread(text + *len, 1, room - *len, file);
        if (*len < room) break;
    }
    return text;
}

/* Writes what the pager drew, and says whether it goes on: it does where a query is full, or a size is none. */
static bool shown(struct minus_told told) {
    uint8_t *room = malloc(told.written + 1);
    if (!room) exit(1);
    fwrite(room, 1, minus_take(held.pager, room, told.written, &held), stdout);
    fflush(stdout);
    free(room);
    if (told.refusal == MINUS_QUERY_FULL || told.refusal == MINUS_BAD_SIZE) told.refusal = MINUS_DONE;
    last = told;
    return !told.refusal && !told.exited;
}

/* Hands in the events of some bytes, keeps the rest, and says whether the pager goes on. */
static bool pressed(uint8_t *bytes, size_t *count, bool late) {
    bool goes_on = true;
    size_t taken = 0;
    while (goes_on) {
        struct minus_read event = minus_read(bytes + taken, *count - taken, late);
        if (event.kind == MINUS_READ_MORE) break;
        if (event.kind == MINUS_READ_KEY) goes_on = shown(minus_key(held.pager, event.key, &held));
        if (event.kind == MINUS_READ_MOUSE) goes_on = shown(minus_mouse(held.pager, event.mouse, &held));
        taken += event.taken;
    }
    *count -= taken;
    memmove(bytes, bytes + taken, *count);
    return goes_on;
}

/* Hands in keys, the mouse and new sizes until the pager has exited. The signal of a new size comes during the wait alone. */
static void run(const sigset_t *awaited) {
    uint8_t bytes[4096];
    size_t count = 0;
    bool is_fresh = false, goes_on = true; /* whether nothing has followed the bytes that are left for less than 50 ms */
    while (goes_on) {
        fd_set input;
        FD_ZERO(&input);
        FD_SET(0, &input);
        int ready = pselect(1, &input, NULL, NULL, is_fresh ? &(struct timespec){.tv_nsec = 50000000} : NULL, awaited);
        if (is_resized) {
            struct winsize size = {0};
            is_resized = 0;
            ioctl(1, TIOCGWINSZ, &size);
            goes_on = shown(minus_resize(held.pager, size.ws_col, size.ws_row, &held));
        } else if (ready > 0) {
            ssize_t more = read(0, bytes + count, sizeof bytes - count);
            if (more <= 0) break;
            count += (size_t)more;
            goes_on = pressed(bytes, &count, false);
            is_fresh = count > 0;
        } else if (!ready) {
            goes_on = pressed(bytes, &count, true);
            is_fresh = false;
        } else if (errno != EINTR) {
            break;
        }
    }
}

/* Pages the text on the terminal, or writes it where there is none. */
static void page(void) {
    struct winsize size = {0};
    struct termios before, raw;
    sigset_t resizes, awaited;
    bool is_tty = !ioctl(1, TIOCGWINSZ, &size) && !tcgetattr(0, &before);
    if (is_tty) {
        sigemptyset(&resizes);
        sigaddset(&resizes, SIGWINCH);
        sigprocmask(SIG_BLOCK, &resizes, &awaited);
        sigaction(SIGWINCH, &(struct sigaction){.sa_handler = note_resize}, NULL);
        raw = before;
        cfmakeraw(&raw);
        tcsetattr(0, TCSANOW, &raw);
    }
    if (shown(minus_page_all(held.pager, is_tty ? size.ws_col : 80, is_tty ? size.ws_row : 24, is_tty, &held))) run(&awaited);
    struct minus_told told = last;
    shown(minus_finish(held.pager, &held));
    last = told;
    if (is_tty) tcsetattr(0, TCSANOW, &before);
}

int main(int count, char **words) {
    size_t len;
    FILE *file = count == 2 ? fopen(words[1], "rb") : NULL;
    uint8_t *text = file ? contents(file, &len) : NULL;
    if (!text || minus_new(&held)) return fprintf(stderr, "page: give one file that can be read\n"), 1;
    last = minus_push(held.pager, text, len, &held);
    if (!last.refusal) page();
    if (last.refusal) {
        uint8_t room[80];
        struct minus_found said = minus_refusal_text(last.refusal, room, sizeof room);
        fprintf(stderr, "page: %.*s\n", (int)said.value, (char *)room);
    }
    minus_drop(held.pager);
    free(text);
    return last.refusal ? 1 : last.code;
}

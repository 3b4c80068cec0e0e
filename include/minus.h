/* minus.h: a terminal pager in a static library.
 *
 * How it is called. minus_new makes a pager and writes where it stands to a `struct minus_handed`. Each other call takes
 * a pager by value, and hands it back through its last argument, also where it refuses what it was asked for:
 *
 *     struct minus_handed held;
 *     if (minus_new(&held)) return 1;
 *     struct minus_told told = minus_push(held.pager, text, len, &held);
 *
 * A pager that was handed in is gone until it is handed back: hand in the last one that came back, each once. minus_drop
 * ends it. A pager stays on the thread that made it. Nothing of the library is shared between two pagers.
 *
 * Who owns what. Texts and room for texts are the caller's, and are looked at during the call alone. `text` stands with
 * its length in bytes and needs no zero at its end; where `len` is 0 it may be any pointer that is not NULL. Texts are
 * UTF-8. `room` is filled where all fits, and else stays as it is; the answer tells how many bytes there are, so a call
 * with too little room can be made again. `out` is written in each call. No pointer may be NULL.
 *
 * Stages. A pager waits at first: what it is told is kept for its start. After minus_start, or minus_page_all of a text
 * that does not fit, it runs: each call draws what changes. What it draws waits for minus_take. After an exit, a
 * finish, or a text that was written and not paged it is over. Counts of rows and columns: a terminal has from 1 to
 * 65,535 of each; places count from 0.
 *
 * Memory. The library takes its memory by three functions that the program defines:
 *
 *     struct rattle_tried { bool ok; void *at; };
 *     struct rattle_tried rattle_alloc(size_t size, size_t align);
 *     struct rattle_tried rattle_realloc(void *at, size_t old_size, size_t size, size_t align);
 *     void rattle_dealloc(void *at);
 *
 * examples/c/heap.c has them over malloc. `align` is at most 16; where `ok` is false, `at` still is no NULL pointer.
 * Out of memory is an answer (MINUS_MEMORY), and no call ends the process.
 *
 * The library has no global state, no threads, reads no clock, no environment and no file, and calls nothing else but
 * memcpy, memmove and memset. It is for Linux on an x86-64 processor with SSE4.2 and POPCNT (x86-64-v2). For a language
 * that loads a shared object, make one of it and heap.c:
 *
 *     cc -shared -fPIC -o libminus.so heap.c -Wl,--whole-archive libminus_c.a -Wl,--no-whole-archive
 */
#ifndef MINUS_H
#define MINUS_H

#include <stdbool.h>
#include <stddef.h>
#include <stdint.h>

#ifdef __cplusplus
extern "C" {
#endif

/* The version of the library, as `minus --version` says it. */
#define MINUS_VERSION "0.1.0"

/* A pager, as it is handed in. */
struct minus_pager {
    void *at;
};

/* A pager, as it is handed out; `given` is true where one was. */
struct minus_handed {
    struct minus_pager pager;
    bool given;
};

/* Why a call was refused; minus_refusal_text says it in words. */
enum minus_refusal {
    MINUS_DONE = 0,               /* it was not */
    MINUS_MEMORY = 1,             /* memory ran out; nothing has changed, or, where an input had waited, the pager has failed */
    MINUS_NEWLINE_IN_PROMPT = 2,  /* a prompt or a message has a newline; nothing has changed */
    MINUS_BAD_SIZE = 5,           /* columns or rows are not from 1 to 65,535; nothing has changed */
    MINUS_BAD_DESCRIPTION = 6,    /* a text describes no key, or no action of the mouse */
    MINUS_QUERY_FULL = 8,         /* a query has 65,534 characters; nothing has changed */
    MINUS_BAD_MODE = 9,           /* the call is not for the stage that the pager is in; nothing has changed */
    MINUS_FAILED = 10,            /* the pager has failed before; nothing has changed */
    MINUS_ENDED = 11,             /* the pager is over; nothing has changed */
    MINUS_SETUP = 12,             /* the bytes that set a terminal up found no memory, or it is no terminal: it is over */
    MINUS_CLEANUP = 13,           /* the bytes that clean a terminal up found no memory: the pager has failed */
    MINUS_DRAW = 14,              /* a drawing found no memory: the pager has failed, or is over */
    MINUS_SEARCH_EXP_ERROR = 15,  /* a pattern was not built */
    MINUS_NOT_UTF8 = 254,         /* a text is not UTF-8; nothing has changed */
    MINUS_BAD_ARGUMENT = 255,     /* a number stands for nothing; nothing has changed */
    /* No call of this header answers these. */
    MINUS_HOOK_ID_TAKEN = 3, MINUS_NO_FREE_HOOK_ID = 4, MINUS_BOUND = 7, MINUS_FMT_WRITE_ERROR = 16, MINUS_OTHER = 253
};

/* What a call told. */
struct minus_told {
    uint8_t refusal;  /* enum minus_refusal */
    bool exited;      /* the pager has exited in this call, or its text was written and is not paged */
    bool quits;       /* it has exited, and the process is to end with `code` */
    uint8_t code;
    bool copied;      /* a text was copied in this call: minus_take_copied has it */
    bool refused;     /* inputs that had waited were refused in this call: minus_take_refused has the numbers */
    size_t written;   /* the number of bytes that wait for minus_take */
};

/* A number or a text that may not be there. */
struct minus_found {
    uint8_t refusal;  /* enum minus_refusal: 1 where there is no memory for it, and others as the call says */
    bool is_there;
    size_t value;     /* the number, or the length of the text in bytes; 0 where it is not there */
};

/* How a session is started. */
enum minus_mode { MINUS_STATIC = 0, MINUS_DYNAMIC = 1 };

enum minus_line_numbers {
    MINUS_ALWAYS_ON = 0, MINUS_ENABLED = 1, MINUS_DISABLED = 2, MINUS_ALWAYS_OFF = 3
};

enum minus_exit_strategy { MINUS_PROCESS_QUIT = 0, MINUS_PAGER_QUIT = 1 };

enum minus_search_mode {
    MINUS_FORWARD = 0, MINUS_REVERSE = 1, MINUS_UNKNOWN = 2
};

/* Which key it is: `code` of a struct minus_key_event. */
enum minus_key_code {
    MINUS_KEY_CHAR = 0,           /* `value` is the character, a Unicode scalar value */
    MINUS_KEY_ENTER = 1, MINUS_KEY_ESC = 2, MINUS_KEY_BACKSPACE = 3, MINUS_KEY_UP = 4, MINUS_KEY_DOWN = 5,
    MINUS_KEY_LEFT = 6, MINUS_KEY_RIGHT = 7, MINUS_KEY_PAGE_UP = 8, MINUS_KEY_PAGE_DOWN = 9, MINUS_KEY_HOME = 10,
    MINUS_KEY_END = 11, MINUS_KEY_TAB = 12, MINUS_KEY_BACK_TAB = 13, MINUS_KEY_DELETE = 14, MINUS_KEY_INSERT = 15,
    MINUS_KEY_F = 16,             /* `value` is the number of the function key, at most 255 */
    MINUS_KEY_NULL = 17, MINUS_KEY_CAPS_LOCK = 18, MINUS_KEY_SCROLL_LOCK = 19, MINUS_KEY_NUM_LOCK = 20,
    MINUS_KEY_PRINT_SCREEN = 21, MINUS_KEY_PAUSE = 22, MINUS_KEY_MENU = 23, MINUS_KEY_KEYPAD_BEGIN = 24
};

/* The modifier keys that are held down: bits of `modifiers`; other bits are kept, and mean nothing. */
enum minus_modifiers {
    MINUS_SHIFT = 1, MINUS_CONTROL = 2, MINUS_ALT = 4, MINUS_SUPER = 8, MINUS_HYPER = 16, MINUS_META = 32
};

/* What is done with a key. */
enum minus_key_kind { MINUS_PRESS = 0, MINUS_REPEAT = 1, MINUS_RELEASE = 2 };

/* A key and what is done with it. */
struct minus_key_event {
    uint8_t code;       /* enum minus_key_code */
    uint8_t modifiers;  /* bits of enum minus_modifiers */
    uint8_t kind;       /* enum minus_key_kind */
    uint8_t state;      /* bits: 1 a key of the keypad, 2 caps lock is on, 4 num lock is on */
    uint32_t value;     /* of a character or a function key; of other keys it is not looked at */
};

/* What is done with the mouse. */
enum minus_mouse_kind {
    MINUS_MOUSE_DOWN_LEFT = 0, MINUS_MOUSE_DOWN_RIGHT = 1, MINUS_MOUSE_DOWN_MIDDLE = 2, MINUS_MOUSE_UP_LEFT = 3,
    MINUS_MOUSE_UP_RIGHT = 4, MINUS_MOUSE_UP_MIDDLE = 5, MINUS_MOUSE_DRAG_LEFT = 6, MINUS_MOUSE_DRAG_RIGHT = 7,
    MINUS_MOUSE_DRAG_MIDDLE = 8, MINUS_MOUSE_MOVED = 9, MINUS_MOUSE_SCROLL_DOWN = 10, MINUS_MOUSE_SCROLL_UP = 11,
    MINUS_MOUSE_SCROLL_LEFT = 12, MINUS_MOUSE_SCROLL_RIGHT = 13
};

/* What is done with the mouse, and where. */
struct minus_mouse_event {
    uint8_t kind;       /* enum minus_mouse_kind */
    uint8_t modifiers;  /* bits of enum minus_modifiers */
    uint16_t column;    /* from 0 */
    uint16_t row;       /* from 0 */
};

/* What a terminal's bytes begin with. */
enum minus_read_kind {
    MINUS_READ_MORE = 0,   /* nothing yet: more bytes have to come */
    MINUS_READ_KEY = 1,    /* `key` */
    MINUS_READ_MOUSE = 2,  /* `mouse` */
    MINUS_READ_OTHER = 3   /* what is neither, or means nothing */
};

/* What a terminal's bytes begin with, and how many of them it is. */
struct minus_read {
    uint8_t kind;       /* enum minus_read_kind */
    size_t taken;       /* 0 at MINUS_READ_MORE, and never else */
    struct minus_key_event key;
    struct minus_mouse_event mouse;
};

/* What an event asks for: with `first` and `second` what it says more, 0 where nothing is named here. */
enum minus_input_event {
    MINUS_IGNORE = 0,
    MINUS_UPDATE_UPPER_MARK = 1,     /* first: the row */
    MINUS_UPDATE_TERM_AREA = 2,      /* first: columns; second: rows */
    MINUS_UPDATE_LEFT_MARK = 3,      /* first: the column */
    MINUS_UPDATE_LINE_NUMBER = 4,    /* first: enum minus_line_numbers */
    MINUS_HORIZONTAL_SCROLL = 5,     /* first: whether lines are wrapped, 0 or 1 */
    MINUS_START_SELECTION = 6,       /* first: column; second: row; each at most 65,535 */
    MINUS_UPDATE_SELECTION = 7,      /* first: column; second: row; each at most 65,535 */
    MINUS_CLEAR_SELECTION = 8,
    MINUS_COPY_SELECTION = 9,
    MINUS_SEARCH = 10,               /* first: enum minus_search_mode */
    MINUS_NEXT_MATCH = 11,
    MINUS_PREV_MATCH = 12,
    MINUS_MOVE_TO_NEXT_MATCH = 13,   /* first: by how many matches */
    MINUS_MOVE_TO_PREV_MATCH = 14,   /* first: by how many matches */
    MINUS_INPUT_FOLLOW_OUTPUT = 15,  /* first: whether the end is followed, 0 or 1 */
    MINUS_RESTORE_PROMPT = 16,
    MINUS_SHOW_HELP = 17,
    MINUS_NUMBER = 18,               /* first: the character that is typed to the prefix */
    MINUS_EXIT = 19
};

/* What an event asks for in the state that a pager is in. */
struct minus_asked {
    uint8_t refusal;  /* enum minus_refusal */
    bool is_there;    /* it asks for something */
    uint8_t kind;     /* enum minus_input_event */
    size_t first;
    size_t second;
};

/* A command that asks for a drawing. */
enum minus_io {
    MINUS_REDRAW_PROMPT = 0,
    MINUS_REDRAW_DISPLAY = 1,
    MINUS_SET_UPPER_MARK = 2,        /* argument: the row */
    MINUS_FETCH_SEARCH_QUERY = 3     /* open the search prompt in the direction of the last search, if there is one */
};

/* Hooks, as bits. */
enum minus_hook {
    MINUS_PRE_PAGER_START = 1,
    MINUS_POST_PAGER_START = 2,
    MINUS_EOF_REACHED = 4,
    MINUS_PRE_PAGER_EXIT = 8,
    MINUS_POST_PAGER_EXIT = 16
};

enum minus_stage {
    MINUS_WAITING = 0,
    MINUS_RUNNING = 1,
    MINUS_OVER = 2                   /* also where a session has failed */
};

/* Where a pager stands. After an exit or a failure it is as it was then; all but `stage` is 0 while it waits, and after
 * minus_finish or a text that was written and not paged. */
struct minus_state {
    size_t cols;
    size_t rows;
    size_t upper_mark;   /* the first row of text on the page */
    size_t left_mark;    /* the columns that are cut off at the left */
    size_t row_count;    /* rows of the displayed text */
    size_t line_count;   /* lines of the displayed text */
    size_t max_line_length; /* columns of its longest line */
    uint8_t stage;       /* enum minus_stage */
    uint8_t line_numbers; /* enum minus_line_numbers */
    uint8_t search_mode; /* enum minus_search_mode: of the last search */
    bool line_wrapping;
    bool follow_output;
    bool show_prompt;
    bool is_searching;   /* the search prompt is open: keys go to it, and all else waits */
    bool is_help;        /* help is displayed */
};

/* A text of a pager that has started. */
enum minus_piece {
    MINUS_TEXT = 0,      /* the displayed text */
    MINUS_PROMPT = 1,
    MINUS_MESSAGE = 2,   /* not there where the prompt is shown */
    MINUS_QUERY = 3,     /* of the search prompt; not there where none is open */
    MINUS_PREFIX = 4     /* the digits that were typed; empty where there are none */
};

/* ---- Life ---- */

/* Makes a pager that waits. Answers 0, or MINUS_MEMORY, and then `out->given` is false. */
uint8_t minus_new(struct minus_handed *out);

/* Ends a pager, in each stage. Nothing is written: a pager that runs is finished first. */
void minus_drop(struct minus_pager pager);

/* Starts the session, for a terminal of `cols` columns and `rows` rows. `mode` is of enum minus_mode. Refused with
 * MINUS_BAD_ARGUMENT at another mode, MINUS_BAD_SIZE, MINUS_BAD_MODE where it runs, MINUS_ENDED where it is over,
 * MINUS_NEWLINE_IN_PROMPT where such a prompt waits, and MINUS_MEMORY: the pager waits on. MINUS_SETUP, MINUS_DRAW: over. */
struct minus_told minus_start(struct minus_pager pager, uint8_t mode, size_t cols, size_t rows, struct minus_handed *out);

/* Writes a text that fits the terminal, or that goes to none (`is_tty` is false), and pages one that does not fit. */
struct minus_told minus_page_all(struct minus_pager pager, size_t cols, size_t rows, bool is_tty, struct minus_handed *out);

/* Ends the session, as an exit does, but for the callbacks: the bytes that clean the terminal up wait for minus_take,
 * unless it has exited before. A pager that waits is over then, with nothing written. */
struct minus_told minus_finish(struct minus_pager pager, struct minus_handed *out);

/* ---- Text ---- */

/* Puts a text in the place of all text. */
struct minus_told minus_set_text(struct minus_pager pager, const uint8_t *text, size_t len, struct minus_handed *out);

/* Adds a text at the end. */
struct minus_told minus_push(struct minus_pager pager, const uint8_t *text, size_t len, struct minus_handed *out);

/* Makes room for `bytes` more bytes of text in a session that runs; MINUS_BAD_MODE where none does. */
struct minus_told minus_reserve(struct minus_pager pager, size_t bytes, struct minus_handed *out);

/* ---- Settings ---- */

/* Lets the prompt row say this. */
struct minus_told minus_set_prompt(struct minus_pager pager, const uint8_t *text, size_t len, struct minus_handed *out);

/* Lets the prompt row say this in the prompt's place, until the message goes. */
struct minus_told minus_send_message(struct minus_pager pager, const uint8_t *text, size_t len, struct minus_handed *out);

/* Shows the prompt row, or hides it. */
struct minus_told minus_show_prompt(struct minus_pager pager, bool is_shown, struct minus_handed *out);

/* Lets rows begin with the numbers of their lines, or not: enum minus_line_numbers. */
struct minus_told minus_set_line_numbers(struct minus_pager pager, uint8_t numbers, struct minus_handed *out);

/* Lets each line be one row, which is scrolled sideways, or wraps long lines. */
struct minus_told minus_horizontal_scroll(struct minus_pager pager, bool on, struct minus_handed *out);

/* Moves to the last page, and goes on with what is appended, or no longer. */
struct minus_told minus_follow_output(struct minus_pager pager, bool follow, struct minus_handed *out);

/* How the program is to go on after an exit: enum minus_exit_strategy. */
struct minus_told minus_set_exit_strategy(struct minus_pager pager, uint8_t strategy, struct minus_handed *out);

/* Pages even a text that fits, or writes it: for minus_page_all. */
struct minus_told minus_set_run_no_overflow(struct minus_pager pager, bool on, struct minus_handed *out);

/* Searches in each line, so that a match goes over the ends of rows, or in each row by itself. */
struct minus_told minus_set_match_lines(struct minus_pager pager, bool on, struct minus_handed *out);

/* Puts each row with the style that its line carries to it, or rows as their texts are. */
struct minus_told minus_set_carry_style(struct minus_pager pager, bool on, struct minus_handed *out);

/* Whether the page shows where a query leads while it is typed: from the first call on the caller decides, before each
 * key; until then the default rule does. While the search prompt is open the first call waits until it is closed. */
struct minus_told minus_show_search(struct minus_pager pager, bool is_shown, struct minus_handed *out);

/* ---- Input ---- */

/* What a terminal's bytes begin with; call it again with the bytes behind those that it is, until it answers
 * MINUS_READ_MORE. At most 65 bytes are left then: keep them, and put what comes next behind them. `late` says that
 * nothing has come behind these bytes for a while, such as 50 ms: one ESC is the Esc key then. */
struct minus_read minus_read(const uint8_t *bytes, size_t len, bool late);

/* A key: by the default bindings, or of the search prompt. MINUS_BAD_ARGUMENT where `code`, `kind` or `value` stand for
 * nothing. MINUS_BAD_MODE where no session has begun. */
struct minus_told minus_key(struct minus_pager pager, struct minus_key_event key, struct minus_handed *out);

/* The query that a key would leave in the search prompt, if one is open, so that a caller can decide by minus_show_search
 * before the key; nothing is done. MINUS_QUERY_FULL and MINUS_BAD_ARGUMENT as minus_key, MINUS_BAD_MODE as minus_text. */
struct minus_found minus_query_after(struct minus_pager pager, struct minus_key_event key, uint8_t *room, size_t len,
                                     struct minus_handed *out);

/* The mouse: as a key. */
struct minus_told minus_mouse(struct minus_pager pager, struct minus_mouse_event mouse, struct minus_handed *out);

/* The terminal has `cols` columns and `rows` rows now. */
struct minus_told minus_resize(struct minus_pager pager, uint16_t cols, uint16_t rows, struct minus_handed *out);

/* Does what an event would ask for: enum minus_input_event, so that a caller decides about events. */
struct minus_told minus_user_input(struct minus_pager pager, uint8_t kind, size_t first, size_t second,
                                   struct minus_handed *out);

/* Draws: enum minus_io. */
struct minus_told minus_io(struct minus_pager pager, uint8_t kind, size_t argument, struct minus_handed *out);

/* ---- Output ---- */

/* Takes the bytes that were written since the last time, where there is room for all of them: they are to go to the
 * terminal, in this order. Answers how many there are. */
size_t minus_take(struct minus_pager pager, uint8_t *room, size_t len, struct minus_handed *out);

/* Takes the text that was copied in the last call that went through, where there is room for it. */
struct minus_found minus_take_copied(struct minus_pager pager, uint8_t *room, size_t len, struct minus_handed *out);

/* Takes the numbers (enum minus_refusal) of the inputs that were refused in the last call that went through, where there
 * is room for them, in their order. Answers how many there are. */
size_t minus_take_refused(struct minus_pager pager, uint8_t *room, size_t len, struct minus_handed *out);

/* The hooks that were due since the last time: bits of enum minus_hook. */
uint8_t minus_take_hooks(struct minus_pager pager, struct minus_handed *out);

/* ---- State ---- */

struct minus_state minus_state(struct minus_pager pager, struct minus_handed *out);

/* A text of a session: enum minus_piece; MINUS_BAD_ARGUMENT at another number. This and the two below answer as
 * minus_state does: after an exit or a failure as it was then, and MINUS_BAD_MODE where all is 0 there. */
struct minus_found minus_text(struct minus_pager pager, uint8_t piece, uint8_t *room, size_t len, struct minus_handed *out);

/* A row of the displayed text, with its line number and the marks of matches, if there is such a row. */
struct minus_found minus_row(struct minus_pager pager, size_t row, uint8_t *room, size_t len, struct minus_handed *out);

/* The first row of a line of the displayed text, if there is such a line. */
struct minus_found minus_line_first_row(struct minus_pager pager, size_t line, struct minus_handed *out);

/* ---- Tables ---- */

/* The key that a text describes, such as "c-s-h" or "f5". Answers 0, MINUS_NOT_UTF8 or MINUS_BAD_DESCRIPTION; `key` is
 * written at 0 alone. */
uint8_t minus_parse_key(const uint8_t *text, size_t len, struct minus_key_event *key);

/* The action of the mouse that a text describes, such as "scroll:up"; as a key. */
uint8_t minus_parse_mouse(const uint8_t *text, size_t len, struct minus_mouse_event *mouse);

/* A key's name, such as "Ctrl-x". */
struct minus_found minus_format_key(struct minus_key_event key, uint8_t *room, size_t len);

/* The help text of the default bindings. */
struct minus_found minus_help_table(uint8_t *room, size_t len);

/* What a key asks for by the default bindings, in the state of a session that has begun; nothing is done.
 * MINUS_BAD_MODE where none has. */
struct minus_asked minus_classify_key(struct minus_pager pager, struct minus_key_event key, struct minus_handed *out);

/* What the mouse asks for. */
struct minus_asked minus_classify_mouse(struct minus_pager pager, struct minus_mouse_event mouse, struct minus_handed *out);

/* ---- No session ---- */

/* What the number of a refusal says, in English; not there where no refusal has the number. */
struct minus_found minus_refusal_text(uint8_t refusal, uint8_t *room, size_t len);

/* A line with each match of a pattern in reverse. `is_there` says whether it matches; `value` is the length in each
 * case. Escape sequences inside a match stay where they stand where `accurate` is true, and else come right behind it.
 * MINUS_SEARCH_EXP_ERROR where the pattern is none. */
struct minus_found minus_highlight_line(const uint8_t *line, size_t line_len, const uint8_t *pattern, size_t pattern_len,
                                        bool accurate, uint8_t *room, size_t len);

/* The place, from 0 in ascending order, of the matching row that a jump by `jump` matches from `upper_mark` goes to. */
struct minus_found minus_next_nth_match(const size_t *rows, size_t count, size_t upper_mark, size_t jump);

#ifdef __cplusplus
}
#endif

#endif

/* Lives of a pager over the static library, with requests for memory refused, and calls with bad arguments.
 *
 *   c_faults lives [STEP]   for each n (or each STEP-th): a life whose n-th request is refused alone, with the call made
 *                           again that it refused, and one whose n-th and all later ones are refused. Made again, the
 *                           call is done and the life writes the same bytes, unless the pager has failed
 *   c_faults arguments      each call with each kind of bad argument, in each stage, and what bytes of a terminal begin with
 *
 * It ends with status 0 where each call handed its pager back and answered as the header says, and no block was left. */
#include "minus.h"
#include <stdio.h>
#include <stdlib.h>
#include <string.h>

static size_t requests, first_refused, last_refused, blocks, calls, faults;
static size_t answers[256];
static char nothing;

struct rattle_tried {
    bool ok;
    void *at;
};

static bool is_refused(void) {
    requests++;
    return first_refused && requests >= first_refused && requests <= last_refused;
}

struct rattle_tried rattle_alloc(size_t size, size_t align) {
    void *at = is_refused() ? NULL : malloc(size ? size : align);
    blocks += at != NULL;
    return at ? (struct rattle_tried){true, at} : (struct rattle_tried){false, &nothing};
}

struct rattle_tried rattle_realloc(void *at, size_t old_size, size_t size, size_t align) {
    (void)old_size;
    void *new = is_refused() ? NULL : realloc(at, size ? size : align);
    return new ? (struct rattle_tried){true, new} : (struct rattle_tried){false, &nothing};
}

void rattle_dealloc(void *at) {
    blocks--;
    free(at);
}

static void fault(const char *what, size_t number) {
    faults++;
    fprintf(stderr, "%s: %zu\n", what, number);
}

static struct minus_handed held;
static uint64_t sum;           /* of the bytes that a life wrote */
static bool again, is_broken;  /* whether a refused call is made again; whether a pager failed */

static void handed_back(const char *what) {
    calls++;
    if (!held.given) fault(what, 0);
    held.given = false;
}

static void take(void) {
    static uint8_t room[1 << 16];
    size_t count = minus_take(held.pager, room, sizeof room, &held);
    handed_back("minus_take");
    if (count > sizeof room) fault("bytes", count);
    for (size_t i = 0; i < count && i < sizeof room; i++) sum = (sum ^ room[i]) * 0x100000001b3;
}

/* A call that tells: with memory refused it is refused for memory, or has failed the pager. */
#define TELL(call)                                                                   \
    do {                                                                             \
        struct minus_told told = call;                                               \
        handed_back(#call);                                                          \
        answers[told.refusal]++;                                                     \
        if (again && told.refusal == MINUS_MEMORY) {                                 \
            told = call;                                                             \
            handed_back(#call);                                                      \
            if (told.refusal && told.refusal != MINUS_FAILED) fault("again: " #call, told.refusal); \
        }                                                                            \
        if (told.refusal >= MINUS_FAILED) is_broken = true;                          \
        if (told.refusal && told.refusal != MINUS_MEMORY && told.refusal < MINUS_BAD_MODE) fault(#call, told.refusal); \
        if (told.refusal > MINUS_DRAW) fault(#call, told.refusal);                   \
        take();                                                                      \
    } while (0)

/* A call that finds. */
#define FIND(call)                                                                   \
    do {                                                                             \
        struct minus_found found = call;                                             \
        calls++;                                                                     \
        if (found.refusal == MINUS_MEMORY && again) found = call;                    \
        answers[found.refusal]++;                                                    \
        if (found.refusal > MINUS_MEMORY && found.refusal != MINUS_BAD_MODE) fault(#call, found.refusal); \
    } while (0)

#define FIND_IN(call)                                                                \
    do {                                                                             \
        FIND(call);                                                                  \
        if (!held.given) fault(#call, 0);                                            \
    } while (0)

#define TEXT(text) (const uint8_t *)text, sizeof text - 1
#define KEY(c) ((struct minus_key_event){.code = MINUS_KEY_CHAR, .value = c})
#define PLAIN(name) ((struct minus_key_event){.code = MINUS_KEY_##name})
#define IN held.pager
#define OUT &held

static void settings(void) {
    TELL(minus_set_prompt(IN, TEXT("prompt"), OUT));
    TELL(minus_send_message(IN, TEXT("message"), OUT));
    TELL(minus_show_prompt(IN, true, OUT));
    TELL(minus_set_line_numbers(IN, MINUS_ENABLED, OUT));
    TELL(minus_horizontal_scroll(IN, false, OUT));
    TELL(minus_follow_output(IN, false, OUT));
    TELL(minus_set_exit_strategy(IN, MINUS_PAGER_QUIT, OUT));
    TELL(minus_set_run_no_overflow(IN, true, OUT));
    TELL(minus_set_match_lines(IN, true, OUT));
    TELL(minus_set_carry_style(IN, true, OUT));
    TELL(minus_show_search(IN, true, OUT));
}

static void keys(void) {
    static const char typed[] = "jjkG3gh/on";
    static uint8_t room[256];
    for (const char *c = typed; *c; c++) TELL(minus_key(IN, KEY((uint8_t)*c), OUT));
    FIND_IN(minus_query_after(IN, KEY('x'), room, sizeof room, OUT));
    TELL(minus_push(IN, TEXT("it waits\nuntil the prompt is closed\n"), OUT));
    TELL(minus_key(IN, PLAIN(BACKSPACE), OUT));
    TELL(minus_key(IN, PLAIN(ENTER), OUT));
    TELL(minus_key(IN, KEY('n'), OUT));
    TELL(minus_key(IN, KEY('?'), OUT));
    TELL(minus_key(IN, PLAIN(ESC), OUT));
    TELL(minus_mouse(IN, ((struct minus_mouse_event){.kind = MINUS_MOUSE_DOWN_LEFT, .column = 1}), OUT));
    TELL(minus_mouse(IN, ((struct minus_mouse_event){.kind = MINUS_MOUSE_DRAG_LEFT, .column = 5, .row = 2}), OUT));
    TELL(minus_user_input(IN, MINUS_COPY_SELECTION, 0, 0, OUT));
    TELL(minus_user_input(IN, MINUS_SHOW_HELP, 0, 0, OUT));
    TELL(minus_user_input(IN, MINUS_RESTORE_PROMPT, 0, 0, OUT));
    TELL(minus_io(IN, MINUS_REDRAW_DISPLAY, 0, OUT));
    TELL(minus_resize(IN, 30, 7, OUT));
}

static void questions(void) {
    static uint8_t room[256];
    FIND_IN(minus_take_copied(IN, room, sizeof room, OUT));
    minus_take_refused(IN, room, sizeof room, OUT);
    handed_back("minus_take_refused");
    minus_take_hooks(IN, OUT);
    handed_back("minus_take_hooks");
    minus_state(IN, OUT);
    handed_back("minus_state");
    for (uint8_t piece = 0; piece < 5; piece++) FIND_IN(minus_text(IN, piece, room, sizeof room, OUT));
    for (size_t row = 0; row < 4; row++) FIND_IN(minus_row(IN, row, room, sizeof room, OUT));
    FIND_IN(minus_line_first_row(IN, 1, OUT));
    minus_classify_key(IN, KEY('j'), OUT);
    handed_back("minus_classify_key");
    FIND(minus_format_key(KEY('j'), room, sizeof room));
    FIND(minus_help_table(room, sizeof room));
    FIND(minus_highlight_line(TEXT("one two"), TEXT("o."), true, room, sizeof room));
    static const size_t rows[] = {7, 3, 3, 9};
    FIND(minus_next_nth_match(rows, 4, 3, 1));
}

/* A life; how many requests it made. */
static size_t life(bool is_static) {
    requests = 0;
    is_broken = false;
    sum = 0xcbf29ce484222325;
    uint8_t made = minus_new(&held);
    if (made && again) made = minus_new(&held);
    answers[made]++;
    calls++;
    if (held.given == (made != 0)) fault("minus_new", made);
    if (!made) {
        TELL(minus_push(IN, TEXT("one two\nthree \x1b[31mfour\x1b[0m five six seven eight nine\n"), OUT));
        TELL(minus_set_text(IN, TEXT("one\ntwo\nthree\nfour\nfive\nsix\nseven\neight\nnine\nten"), OUT));
        TELL(minus_push(IN, TEXT("\neleven \xc3\xa9\xe4\xb8\xad twelve thirteen fourteen\n"), OUT));
        settings();
        if (is_static)
            TELL(minus_page_all(IN, 20, 5, true, OUT));
        else
            TELL(minus_start(IN, MINUS_DYNAMIC, 20, 5, OUT));
        TELL(minus_reserve(IN, 1000, OUT));
        keys();
        questions();
        settings();
        TELL(minus_set_text(IN, TEXT("another"), OUT));
        TELL(minus_key(IN, KEY('q'), OUT));
        TELL(minus_finish(IN, OUT));
        take();
        minus_drop(held.pager);
    }
    if (blocks) fault("blocks left", blocks);
    blocks = 0;
    return requests;
}

static int lives(size_t step) {
    size_t alone = 0, later = 0, broken = 0;
    for (int is_static = 0; is_static < 2; is_static++) {
        first_refused = last_refused = 0;
        again = false;
        memset(answers, 0, sizeof answers);
        size_t count = life(is_static);
        uint64_t whole = sum;
        printf("a life by %s: %zu requests\n", is_static ? "minus_page_all" : "minus_start", count);
        for (size_t n = 1; n <= count; n += step) {
            again = true;
            first_refused = last_refused = n;
            life(is_static);
            if (!is_broken && sum != whole) fault("other bytes where one request was refused", n);
            broken += is_broken;
            alone++;
            again = false;
            last_refused = (size_t)-1;
            life(is_static);
            later++;
        }
    }
    printf("lives with one request refused: %zu (of which %zu failed the pager), with all later ones: %zu; calls: %zu\n", alone, broken,
           later, calls);
    printf("answers of the second kind of life:");
    for (int i = 0; i < 256; i++)
        if (answers[i]) printf(" %d: %zu", i, answers[i]);
    printf("\nfaults: %zu\n", faults);
    return faults != 0;
}

/* A call with a bad argument: it is refused so, and nothing of the pager has changed. */
#define REFUSED(call, refusal_wanted)                                                \
    do {                                                                             \
        struct minus_state before = minus_state(IN, OUT);                            \
        size_t waits = minus_take(IN, NULL_ROOM, 0, OUT);                            \
        uint8_t told = (call).refusal;                                               \
        handed_back(#call);                                                          \
        if (told != (refusal_wanted)) fault(#call, told);                            \
        struct minus_state after = minus_state(IN, OUT);                             \
        if (!same_state(&before, &after)) fault("changed: " #call, told);            \
        if (waits != minus_take(IN, NULL_ROOM, 0, OUT)) fault("wrote: " #call, told); \
    } while (0)

static uint8_t NULL_ROOM[1];

static bool same_state(const struct minus_state *a, const struct minus_state *b) {
    return a->cols == b->cols && a->rows == b->rows && a->upper_mark == b->upper_mark && a->left_mark == b->left_mark &&
           a->row_count == b->row_count && a->line_count == b->line_count && a->max_line_length == b->max_line_length &&
           a->stage == b->stage && a->line_numbers == b->line_numbers && a->search_mode == b->search_mode &&
           a->line_wrapping == b->line_wrapping && a->follow_output == b->follow_output && a->show_prompt == b->show_prompt &&
           a->is_searching == b->is_searching && a->is_help == b->is_help;
}

static const struct {
    const uint8_t *text;
    size_t len;
} broken_texts[] = {{TEXT("\xff")},         {TEXT("a\xc3")},         {TEXT("\xc0\x80")}, {TEXT("\xed\xa0\x80")},
                    {TEXT("\xf4\x90\x80\x80")}, {TEXT("\x80")}, {TEXT("ab\xe4\xb8")}};

static const uint32_t no_characters[] = {0xd800, 0xdfff, 0x110000, 0xffffffff};

static void bad_texts(void) {
    static uint8_t room[64];
    struct minus_key_event key = {1, 2, 0, 4, 5};
    struct minus_mouse_event mouse = {1, 2, 3, 4};
    for (size_t i = 0; i < sizeof broken_texts / sizeof *broken_texts; i++) {
        const uint8_t *text = broken_texts[i].text;
        size_t len = broken_texts[i].len;
        REFUSED(minus_push(IN, text, len, OUT), MINUS_NOT_UTF8);
        REFUSED(minus_set_text(IN, text, len, OUT), MINUS_NOT_UTF8);
        REFUSED(minus_set_prompt(IN, text, len, OUT), MINUS_NOT_UTF8);
        REFUSED(minus_send_message(IN, text, len, OUT), MINUS_NOT_UTF8);
        if (minus_parse_key(text, len, &key) != MINUS_NOT_UTF8 || key.code != 1 || key.value != 5) fault("minus_parse_key", i);
        if (minus_parse_mouse(text, len, &mouse) != MINUS_NOT_UTF8 || mouse.kind != 1 || mouse.row != 4) fault("minus_parse_mouse", i);
        if (minus_highlight_line(text, len, TEXT("o"), true, room, sizeof room).refusal != MINUS_NOT_UTF8) fault("line", i);
        if (minus_highlight_line(TEXT("o"), text, len, true, room, sizeof room).refusal != MINUS_NOT_UTF8) fault("pattern", i);
        calls += 4;
    }
    if (minus_highlight_line(TEXT("o"), TEXT("(o"), true, room, sizeof room).refusal != MINUS_SEARCH_EXP_ERROR) fault("(o", 0);
    if (minus_parse_key(TEXT("no-key"), &key) != MINUS_BAD_DESCRIPTION || key.code != 1) fault("no-key", 0);
    if (minus_parse_mouse(TEXT("no:action"), &mouse) != MINUS_BAD_DESCRIPTION || mouse.kind != 1) fault("no:action", 0);
    calls += 3;
}

static void bad_keys(void) {
    struct minus_key_event key;
    for (int n = 0; n < 256; n++) {
        key = (struct minus_key_event){.code = (uint8_t)n, .value = 'x'};
        if (n > MINUS_KEY_KEYPAD_BEGIN) REFUSED(minus_key(IN, key, OUT), MINUS_BAD_ARGUMENT);
        if (n > MINUS_KEY_KEYPAD_BEGIN) REFUSED(minus_classify_key(IN, key, OUT), MINUS_BAD_ARGUMENT);
        if (n > MINUS_KEY_KEYPAD_BEGIN) REFUSED(minus_query_after(IN, key, NULL_ROOM, 0, OUT), MINUS_BAD_ARGUMENT);
        key = (struct minus_key_event){.kind = (uint8_t)n, .value = 'x'};
        if (n > MINUS_RELEASE) REFUSED(minus_key(IN, key, OUT), MINUS_BAD_ARGUMENT);
        struct minus_mouse_event mouse = {.kind = (uint8_t)n};
        if (n > MINUS_MOUSE_SCROLL_RIGHT) REFUSED(minus_mouse(IN, mouse, OUT), MINUS_BAD_ARGUMENT);
        if (n > MINUS_MOUSE_SCROLL_RIGHT) REFUSED(minus_classify_mouse(IN, mouse, OUT), MINUS_BAD_ARGUMENT);
        if (n > MINUS_KEY_KEYPAD_BEGIN && minus_format_key((struct minus_key_event){.code = (uint8_t)n}, NULL_ROOM, 0).refusal != MINUS_BAD_ARGUMENT)
            fault("minus_format_key", n);
    }
    for (size_t i = 0; i < sizeof no_characters / sizeof *no_characters; i++) {
        REFUSED(minus_key(IN, KEY(no_characters[i]), OUT), MINUS_BAD_ARGUMENT);
        REFUSED(minus_user_input(IN, MINUS_NUMBER, no_characters[i], 0, OUT), MINUS_BAD_ARGUMENT);
    }
    REFUSED(minus_key(IN, ((struct minus_key_event){.code = MINUS_KEY_F, .value = 256}), OUT), MINUS_BAD_ARGUMENT);
}

static void bad_numbers(void) {
    static const size_t large[] = {4, 65536, (size_t)1 << 32, (size_t)-1};
    for (int n = 0; n < 256; n++) {
        if (n > MINUS_DYNAMIC) REFUSED(minus_start(IN, (uint8_t)n, 20, 5, OUT), MINUS_BAD_ARGUMENT);
        if (n > MINUS_ALWAYS_OFF) REFUSED(minus_set_line_numbers(IN, (uint8_t)n, OUT), MINUS_BAD_ARGUMENT);
        if (n > MINUS_PAGER_QUIT) REFUSED(minus_set_exit_strategy(IN, (uint8_t)n, OUT), MINUS_BAD_ARGUMENT);
        if (n > MINUS_EXIT) REFUSED(minus_user_input(IN, (uint8_t)n, 0, 0, OUT), MINUS_BAD_ARGUMENT);
        if (n > MINUS_FETCH_SEARCH_QUERY) REFUSED(minus_io(IN, (uint8_t)n, 0, OUT), MINUS_BAD_ARGUMENT);
    }
    for (size_t i = 0; i < sizeof large / sizeof *large; i++) {
        REFUSED(minus_user_input(IN, MINUS_UPDATE_LINE_NUMBER, large[i], 0, OUT), MINUS_BAD_ARGUMENT);
        REFUSED(minus_user_input(IN, MINUS_HORIZONTAL_SCROLL, large[i], 0, OUT), MINUS_BAD_ARGUMENT);
        REFUSED(minus_user_input(IN, MINUS_SEARCH, large[i], 0, OUT), MINUS_BAD_ARGUMENT);
        REFUSED(minus_user_input(IN, MINUS_INPUT_FOLLOW_OUTPUT, large[i], 0, OUT), MINUS_BAD_ARGUMENT);
        if (i) REFUSED(minus_user_input(IN, MINUS_START_SELECTION, large[i], 0, OUT), MINUS_BAD_ARGUMENT);
        if (i) REFUSED(minus_user_input(IN, MINUS_UPDATE_SELECTION, 0, large[i], OUT), MINUS_BAD_ARGUMENT);
        if (i > 1) REFUSED(minus_user_input(IN, MINUS_NUMBER, large[i], 0, OUT), MINUS_BAD_ARGUMENT);
    }
}

/* What is refused by the stage alone, with right arguments. */
static void stage_refusals(uint8_t started, uint8_t told) {
    static const size_t sizes[][2] = {{0, 5}, {20, 0}, {65536, 5}, {20, 65536}, {(size_t)-1, (size_t)-1}};
    for (size_t i = 0; i < 5; i++) {
        REFUSED(minus_start(IN, MINUS_DYNAMIC, sizes[i][0], sizes[i][1], OUT), started);
        REFUSED(minus_page_all(IN, sizes[i][0], sizes[i][1], true, OUT), started);
        REFUSED(minus_user_input(IN, MINUS_UPDATE_TERM_AREA, sizes[i][0], sizes[i][1], OUT), told ? told : MINUS_BAD_SIZE);
    }
    REFUSED(minus_resize(IN, 0, 5, OUT), told ? told : MINUS_BAD_SIZE);
    REFUSED(minus_reserve(IN, (size_t)-1, OUT), told ? told : MINUS_MEMORY);
    if (told) {
        REFUSED(minus_key(IN, KEY('j'), OUT), told);
        REFUSED(minus_io(IN, MINUS_REDRAW_DISPLAY, 0, OUT), told);
    }
}

/* Room that is too small: it stays as it is, and the bytes wait on. */
static void small_rooms(void) {
    static uint8_t room[4096];
    size_t count = minus_take(IN, room, 0, OUT);
    memset(room, 0xaa, sizeof room);
    for (size_t len = 0; len < count && len < sizeof room; len++) {
        if (minus_take(IN, room, len, OUT) != count) fault("minus_take", len);
        handed_back("minus_take");
        for (size_t i = 0; i <= len; i++)
            if (room[i] != 0xaa) fault("room", i);
    }
    if (count > sizeof room || minus_take(IN, room, sizeof room, OUT) != count) fault("minus_take", count);
    for (size_t i = count; i < sizeof room; i++)
        if (room[i] != 0xaa) fault("behind the bytes", i);
    if (minus_take(IN, room, sizeof room, OUT)) fault("taken twice", 0);
    for (int piece = 5; piece < 256; piece++) {
        struct minus_found found = minus_text(IN, (uint8_t)piece, room, sizeof room, OUT);
        if (found.refusal != MINUS_BAD_ARGUMENT || found.is_there) fault("minus_text", piece);
        calls++;
    }
    struct minus_found found = minus_text(IN, MINUS_TEXT, room, 3, OUT);
    if (found.refusal || !found.is_there || found.value < 4) fault("minus_text", found.value);
    found = minus_row(IN, (size_t)-1, room, sizeof room, OUT);
    if (found.refusal || found.is_there) fault("minus_row", found.refusal);
    found = minus_line_first_row(IN, (size_t)-1, OUT);
    if (found.refusal || found.is_there) fault("minus_line_first_row", found.refusal);
}

/* What bytes of a terminal begin with. */
static void readings(void) {
    static const struct {
        const uint8_t *bytes;
        size_t len;
        bool late;
        struct minus_read read;
    } cases[] = {
        {TEXT(""), true, {0}},
        {TEXT("jk"), false, {.kind = MINUS_READ_KEY, .taken = 1, .key = {.value = 'j'}}},
        {TEXT("\xc3"), true, {0}},
        {TEXT("\xc3\xa9"), false, {.kind = MINUS_READ_KEY, .taken = 2, .key = {.value = 0xe9}}},
        {TEXT("\x1b[1;5D"), false, {.kind = MINUS_READ_KEY, .taken = 6, .key = {.code = MINUS_KEY_LEFT, .modifiers = MINUS_CONTROL}}},
        {TEXT("\x1b[15~q"), false, {.kind = MINUS_READ_KEY, .taken = 5, .key = {.code = MINUS_KEY_F, .value = 5}}},
        {TEXT("\x1b"), false, {0}},
        {TEXT("\x1b"), true, {.kind = MINUS_READ_KEY, .taken = 1, .key = {.code = MINUS_KEY_ESC}}},
        {TEXT("\x1b["), true, {0}},
        {TEXT("\x1b[<35;10;5M"), false, {.kind = MINUS_READ_MOUSE, .taken = 11, .mouse = {.kind = MINUS_MOUSE_MOVED, .column = 9, .row = 4}}},
        {TEXT("\x1b[Iq"), false, {.kind = MINUS_READ_OTHER, .taken = 3}},
        {TEXT("\xffq"), false, {.kind = MINUS_READ_OTHER, .taken = 1}},
    };
    for (size_t i = 0; i < sizeof cases / sizeof *cases; i++) {
        struct minus_read wanted = cases[i].read, read = minus_read(cases[i].bytes, cases[i].len, cases[i].late);
        calls++;
        if (read.kind != wanted.kind || read.taken != wanted.taken || memcmp(&read.key, &wanted.key, sizeof read.key) ||
            memcmp(&read.mouse, &wanted.mouse, sizeof read.mouse))
            fault("minus_read", i);
    }
}

/* Each refusal has a text, and nothing else has. */
static void texts_of_refusals(void) {
    static uint8_t room[80];
    for (int n = 0; n < 256; n++) {
        struct minus_found found = minus_refusal_text((uint8_t)n, room, sizeof room);
        calls++;
        if (found.refusal || found.is_there != (n <= MINUS_FMT_WRITE_ERROR || n >= MINUS_OTHER) || found.value > sizeof room)
            fault("minus_refusal_text", n);
    }
}

/* The query that a key would leave, beside the one that stands. */
static void queries(void) {
    static uint8_t room[8];
    static const struct {
        struct minus_key_event key;
        const char *query;
    } cases[] = {{KEY('n'), "on"}, {PLAIN(BACKSPACE), ""}, {PLAIN(ESC), "o"}};
    if (minus_query_after(IN, KEY('n'), room, sizeof room, OUT).is_there) fault("minus_query_after", 0);
    minus_key(IN, KEY('/'), OUT);
    minus_key(IN, KEY('o'), OUT);
    for (size_t i = 0; i < sizeof cases / sizeof *cases; i++) {
        struct minus_found found = minus_query_after(IN, cases[i].key, room, sizeof room, OUT);
        size_t len = strlen(cases[i].query);
        if (!found.is_there || found.value != len || memcmp(room, cases[i].query, len)) fault("minus_query_after", i);
        found = minus_text(IN, MINUS_QUERY, room, sizeof room, OUT);
        if (found.value != 1 || *room != 'o') fault("a query is another one", i);
        calls += 2;
    }
    minus_key(IN, PLAIN(ESC), OUT);
}

/* Where a session stands is answered after its exit, and neither before the start nor after the end. */
static void standing(uint8_t refusal) {
    static uint8_t room[80];
    struct minus_state state = minus_state(IN, OUT);
    if ((state.cols != 0) != (refusal == MINUS_DONE)) fault("minus_state", refusal);
    if (minus_text(IN, MINUS_TEXT, room, sizeof room, OUT).refusal != refusal) fault("minus_text", refusal);
    if (minus_row(IN, 0, room, sizeof room, OUT).refusal != refusal) fault("minus_row", refusal);
    if (minus_line_first_row(IN, 0, OUT).refusal != refusal) fault("minus_line_first_row", refusal);
    calls += 4;
}

static int arguments(void) {
    readings();
    texts_of_refusals();
    if (minus_new(&held)) return 1;
    standing(MINUS_BAD_MODE);
    bad_texts();
    bad_keys();
    bad_numbers();
    stage_refusals(MINUS_BAD_SIZE, MINUS_BAD_MODE);
    REFUSED(minus_set_prompt(IN, TEXT("two\nlines"), OUT), MINUS_NEWLINE_IN_PROMPT);
    REFUSED(minus_send_message(IN, TEXT("two\nlines"), OUT), MINUS_NEWLINE_IN_PROMPT);
    minus_push(IN, TEXT("one\ntwo\nthree\nfour\nfive\nsix\n"), OUT);
    if (minus_start(IN, MINUS_DYNAMIC, 20, 5, OUT).refusal) fault("minus_start", 0);
    bad_texts();
    bad_keys();
    bad_numbers();
    stage_refusals(MINUS_BAD_MODE, 0);
    REFUSED(minus_set_prompt(IN, TEXT("two\nlines"), OUT), MINUS_NEWLINE_IN_PROMPT);
    REFUSED(minus_send_message(IN, TEXT("two\nlines"), OUT), MINUS_NEWLINE_IN_PROMPT);
    queries();
    small_rooms();
    if (!minus_key(IN, KEY('q'), OUT).exited) fault("q", 0);
    bad_texts();
    bad_keys();
    bad_numbers();
    stage_refusals(MINUS_ENDED, MINUS_ENDED);
    standing(MINUS_DONE);
    if (minus_finish(IN, OUT).refusal) fault("minus_finish", 0);
    standing(MINUS_BAD_MODE);
    stage_refusals(MINUS_ENDED, MINUS_ENDED);
    minus_drop(held.pager);
    if (blocks) fault("blocks left", blocks);
    printf("calls with bad arguments, and around them: %zu; faults: %zu\n", calls, faults);
    return faults != 0;
}

int main(int count, char **words) {
    if (count > 1 && !strcmp(words[1], "lives")) return lives(count > 2 ? strtoul(words[2], NULL, 10) : 1);
    if (count > 1 && !strcmp(words[1], "arguments")) return arguments();
    return 2;
}

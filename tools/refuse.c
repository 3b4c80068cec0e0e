/* A malloc before the C library's that refuses one request for memory of a process: the one whose number, from 1, stands
   in REFUSE. At the end it tells on standard error how many requests there were. */
extern void *__libc_malloc(unsigned long size);
extern void *__libc_realloc(void *block, unsigned long size);
extern char *getenv(const char *name);
extern long write(int file, const void *bytes, unsigned long count);

static unsigned long requests, refused;
static int is_read;

static int refuses(void) {
    if (!is_read) {
        const char *digit = getenv("REFUSE");
        is_read = 1;
        for (; digit && *digit >= '0' && *digit <= '9'; digit++) refused = refused * 10 + (*digit - '0');
    }
    requests++;
    return requests == refused;
}

void *malloc(unsigned long size) { return refuses() ? 0 : __libc_malloc(size); }

void *realloc(void *block, unsigned long size) { return refuses() ? 0 : __libc_realloc(block, size); }

__attribute__((destructor)) static void tell(void) {
    char text[24];
    int at = sizeof text;
    unsigned long rest = requests;
    text[--at] = '\n';
    do {
        text[--at] = '0' + rest % 10;
        rest /= 10;
    } while (rest);
    if (getenv("REFUSE")) write(2, text + at, sizeof text - at);
}

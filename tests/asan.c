/*
 * Recorded calls, made again from C under the address sanitizer.
 *
 *     record REQUESTS CALLS SEED | asan
 *
 * Every call is made twice: once with each buffer on the heap in exactly the length lent (for the
 * sanitizer or valgrind), and once with each buffer flush against a page that must not be touched,
 * by turns behind it and before it (which also catches reads and writes of code that no sanitizer
 * was compiled into). Both must give the recorded answer and leave every byte of every buffer as
 * recorded. What a record is, stands in src/record.rs, which also writes rows.h, a line for each row
 * of src/rows.rs: nothing here names a call.
 */
#define _GNU_SOURCE
#include <stdint.h>
#include <stdio.h>
#include <stdlib.h>
#include <string.h>
#include <sys/mman.h>
#include <unistd.h>

#include "bus.h"

/* The rows. A shape has a letter for each argument: n for a number, r for a buffer that is only read, w for one that may be written. */
static const struct {
    const char *name, *shape;
} rows[] = {
#define ROW(name, shape, call) {name, shape},
#include "rows.h"
#undef ROW
};

enum { ROWS = sizeof rows / sizeof *rows, ARGUMENTS = 16, ROOM = 8192 };

/* A buffer: its length, what it holds before the call, and after it. */
typedef struct {
    size_t len;
    uint8_t before[ROOM], after[ROOM];
} buffer;

typedef struct {
    unsigned row;
    uint64_t number[ARGUMENTS];
    buffer buffers[ARGUMENTS];
    int32_t answer;
} call;

static long calls, refused, counted[ROWS];

static void stop(const char *text)
{
    fprintf(stderr, "call %ld: %s\n", calls, text);
    exit(2);
}

/* ---- records ---- */

static void read_bytes(uint8_t *to, size_t len)
{
    if (fread(to, 1, len, stdin) != len)
        stop("the record ends too early");
}

static uint64_t read_number(size_t len)
{
    uint8_t bytes[8];
    uint64_t number = 0;
    read_bytes(bytes, len);
    for (size_t i = len; i > 0; i--)
        number = number << 8 | bytes[i - 1];
    return number;
}

/* 0 at the end of all records. */
static int read_call(call *x)
{
    int first = getchar();
    if (first == EOF)
        return 0;
    ungetc(first, stdin);
    x->row = (unsigned)read_number(4);
    if (x->row >= ROWS)
        stop("there is no such row");
    const char *shape = rows[x->row].shape;
    if (strlen(shape) > ARGUMENTS)
        stop("too many arguments");
    for (int i = 0; shape[i]; i++) {
        buffer *b = &x->buffers[i];
        if (shape[i] == 'n') {
            x->number[i] = read_number(8);
            continue;
        }
        b->len = (size_t)read_number(4);
        if (b->len > ROOM)
            stop("the buffer is too long");
        read_bytes(b->before, b->len);
        memcpy(b->after, b->before, b->len);
    }
    x->answer = (int32_t)read_number(4);
    for (int i = 0; shape[i]; i++)
        if (shape[i] == 'w')
            read_bytes(x->buffers[i].after, x->buffers[i].len);
    return 1;
}

/* ---- lent buffers ---- */

enum place { HEAP, BEFORE_A_PAGE, BEHIND_A_PAGE };

static uint8_t *arena[ARGUMENTS];

static void make_arenas(void)
{
    size_t page = (size_t)sysconf(_SC_PAGESIZE);
    if (ROOM % page)
        stop("the arenas are no whole pages");
    for (int i = 0; i < ARGUMENTS; i++) {
        uint8_t *whole = mmap(NULL, ROOM + 2 * page, PROT_NONE, MAP_PRIVATE | MAP_ANONYMOUS, -1, 0);
        if (whole == MAP_FAILED || mprotect(whole + page, ROOM, PROT_READ | PROT_WRITE))
            stop("no closed pages");
        arena[i] = whole + page;
    }
}

static uint8_t *lend(enum place place, int which, const buffer *b)
{
    uint8_t *at = arena[which];
    if (place == HEAP)
        at = malloc(b->len);
    else if (place == BEFORE_A_PAGE)
        at += ROOM - b->len;
    if (b->len)
        memcpy(at, b->before, b->len);
    return at;
}

/* ---- calls ---- */

static void show(const char *what, const uint8_t *bytes, size_t len)
{
    fprintf(stderr, "%s:", what);
    for (size_t i = 0; i < len; i++)
        fprintf(stderr, " %02X", bytes[i]);
    fprintf(stderr, "\n");
}

static void fault(const char *text, const call *x, int32_t answer)
{
    const char *shape = rows[x->row].shape;
    fprintf(stderr, "call %ld, %s: %s; answer %ld expected %ld\n", calls, rows[x->row].name, text,
            (long)answer, (long)x->answer);
    for (int i = 0; shape[i]; i++) {
        if (shape[i] == 'n')
            fprintf(stderr, "number: %llu\n", (unsigned long long)x->number[i]);
        else
            show(shape[i] == 'r' ? "read" : "write", x->buffers[i].before, x->buffers[i].len);
    }
    exit(1);
}

/* The call's answer, with its buffers where they were lent. */
static int32_t answer_of(const call *x, uint8_t *const *at)
{
    unsigned row = 0;
#define NUMBER(type, i) (type)x->number[i]
#define BUFFER(i) at[i], x->buffers[i].len
#define ROW(name, shape, call) \
    if (x->row == row++)       \
        return call;
#include "rows.h"
    abort();
}

static void make(const call *x, enum place place)
{
    const char *shape = rows[x->row].shape;
    uint8_t *at[ARGUMENTS];
    for (int i = 0; shape[i]; i++)
        at[i] = shape[i] == 'n' ? NULL : lend(place, i, &x->buffers[i]);
    int32_t answer = answer_of(x, at);
    if (answer != x->answer)
        fault("another answer", x, answer);
    for (int i = 0; shape[i]; i++) {
        const buffer *b = &x->buffers[i];
        if (at[i] && b->len && memcmp(at[i], b->after, b->len))
            fault("other bytes in a buffer", x, answer);
        if (place == HEAP)
            free(at[i]);
    }
}

int main(void)
{
    static call x;
    make_arenas();
    while (read_call(&x)) {
        make(&x, HEAP);
        make(&x, calls % 2 ? BEFORE_A_PAGE : BEHIND_A_PAGE);
        calls++;
        counted[x.row]++;
        refused += x.answer < 0;
    }
    for (int i = 0; i < ROWS; i++)
        if (!counted[i])
            stop("some row was never called");
    printf("%ld recorded calls, each on the heap and at a closed page, %ld refused, no fault\n", calls, refused);
    return 0;
}

/*
 * The calls of a controller that `bus c` wrote, in many states: states.c makes them, and `visit` says what is
 * done with each. both.c compares it with the library; tests/digest.c sums up the answers where there is none.
 *
 * State and timer stand in the library's 72 bytes, and the entries in its 32, whoever is called.
 */
#ifndef STATES_H
#define STATES_H

#include <stddef.h>
#include <stdint.h>

#define STATE_BYTES 64
#define TIMER_BYTES 72
#define ENTRIES_BYTES 32
#define MOST_TASKS 16u

enum kind {
    FRESH,
    NEXT_FRAME,
    REPORT,
    TIMER_FRESH,
    TIMER_READ,
    TIMER_WRITE,
    TIMER_EVENT,
    TIMER_SERVE,
    TIMER_REPORT,
    TIMER_LINE,
    KINDS
};

/* A call: of a report the task is `number`, of a register the address; `value` is what is written. */
struct call {
    enum kind kind;
    uint8_t number;
    uint8_t value;
    uint32_t ticks;
};

/* A controller: what it was made from, its own constants, and its calls over bytes. */
struct subject {
    const char *name;
    const uint8_t *request, *table;
    size_t request_len, table_len;
    const uint8_t *own_table;
    size_t own_table_len;
    const uint16_t *lengths;
    const uint16_t *enumerators;
    uint16_t frame, cycle, rows, tasks, silent;
    int32_t (*call)(const struct call *call, uint8_t *timer, uint8_t *entries);
};

/* The subjects of a program. */
extern const struct subject *const subjects[];
extern const size_t subject_count;

/* Makes every call, in the states that are compared. */
void all_states(const struct subject *subject);

/* One call in the state of these bytes, which stay as they are. */
void visit(const struct subject *subject, const struct call *call, const uint8_t *timer);

uint16_t word_at(const uint8_t *bytes, size_t at);
void put_word(uint8_t *bytes, size_t at, uint16_t word);

/* C of a task and the silent ticks, by the request's bytes. */
uint16_t length_of(const struct subject *subject, unsigned task);
uint16_t silent_of(const struct subject *subject);

/* The places of f, H and F in a table's bytes. */
#define FRAME_AT 1
#define CYCLE_AT 3
#define ROWS_AT 5

#endif

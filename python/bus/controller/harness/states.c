/* The calls in the states that are compared: each row and some marks, and what the registers may hold. */
#include "states.h"

#include <string.h>

/* A larger STEP leaves out most rows that are far too high, and most bytes that are written. */
#ifndef STEP
#define STEP 1u
#endif

#define COUNT(array) (sizeof(array) / sizeof *(array))

/* Marks 0 and 1, and some that are none. */
static const uint8_t marks[] = {0, 1, 2, 255};

/* Control is at most 3, status at most 7; the others are refused. */
static const uint8_t controls[] = {0, 1, 2, 3, 4, 255};
static const uint8_t statuses[] = {0, 1, 2, 3, 4, 5, 6, 7, 8, 255};
static const uint8_t addresses[] = {0, 1, 2, 3, 4, 5, 6, 7, 8, 255};

/* Counts of overruns: the first and the last, and where the low byte is full. */
static const uint16_t counts[] = {0, 255, 65534, 65535};

/* The sum of two of these passes 65,535 or does not. */
static const uint16_t addends[] = {0, 1, 32767, 32768, 65535};

uint16_t word_at(const uint8_t *bytes, size_t at)
{
    return (uint16_t)(bytes[at] + 256u * bytes[at + 1]);
}

void put_word(uint8_t *bytes, size_t at, uint16_t word)
{
    bytes[at] = (uint8_t)(word % 256u);
    bytes[at + 1] = (uint8_t)(word / 256u);
}

/* C of a task stands first in its record of 8 bytes, behind the number of tasks. */
uint16_t length_of(const struct subject *subject, unsigned task)
{
    return task < subject->request[0] ? word_at(subject->request, 1u + 8u * task) : 1u;
}

/* The third section stands behind the pairs, if there is one. */
uint16_t silent_of(const struct subject *subject)
{
    size_t pairs = 1u + 8u * subject->request[0];
    size_t third = pairs + 1u + 2u * subject->request[pairs];
    return third + 1u < subject->request_len ? subject->request[third + 1u] : 0u;
}

/* A timer in row 0, with another number of overruns for each task and no byte alike. */
static void some_timer(uint8_t *timer)
{
    unsigned i;
    for (i = 0; i < TIMER_BYTES; i++)
        timer[i] = (uint8_t)(151u - 2u * i);
    put_word(timer, 0, 0);
    timer[2] = 0;
    timer[64] = 0;
    timer[65] = 0;
}

/* The call with every mark. */
static void with_marks(const struct subject *subject, const struct call *call, uint8_t *timer)
{
    size_t i;
    for (i = 0; i < COUNT(marks); i++) {
        timer[2] = marks[i];
        visit(subject, call, timer);
    }
}

static void with_statuses(const struct subject *subject, const struct call *call, uint8_t *timer)
{
    size_t i;
    for (i = 0; i < COUNT(statuses); i++) {
        timer[65] = statuses[i];
        visit(subject, call, timer);
    }
}

/* The call with every control and status. */
static void with_registers(const struct subject *subject, const struct call *call, uint8_t *timer)
{
    size_t i;
    for (i = 0; i < COUNT(controls); i++) {
        timer[64] = controls[i];
        with_statuses(subject, call, timer);
    }
}

/* The call with every mark, control and status. */
static void with_marks_and_registers(const struct subject *subject, const struct call *call, uint8_t *timer)
{
    size_t i;
    for (i = 0; i < COUNT(marks); i++) {
        timer[2] = marks[i];
        with_registers(subject, call, timer);
    }
}

/* The fresh ones set every byte, whatever was there. */
static void fresh_ones(const struct subject *subject)
{
    const struct call fresh = {FRESH, 0, 0, 0}, timer_fresh = {TIMER_FRESH, 0, 0, 0};
    uint8_t timer[TIMER_BYTES];
    some_timer(timer);
    visit(subject, &fresh, timer);
    visit(subject, &timer_fresh, timer);
}

static uint32_t next_row(const struct subject *subject, uint32_t row)
{
    return row + (row < subject->rows + 300u ? 1u : STEP);
}

/* Every row that a state can name, with each mark. */
static void frames(const struct subject *subject)
{
    const struct call call = {NEXT_FRAME, 0, 0, 0};
    uint8_t timer[TIMER_BYTES];
    uint32_t row;
    some_timer(timer);
    for (row = 0; row <= 65535u; row = next_row(subject, row)) {
        put_word(timer, 0, (uint16_t)row);
        with_marks(subject, &call, timer);
    }
}

/* The rows of the table, the next two, and the last of all. */
static uint16_t row_to_serve(const struct subject *subject, uint16_t i)
{
    return i < subject->rows + 2u ? i : 65535u;
}

static void servings(const struct subject *subject)
{
    const struct call call = {TIMER_SERVE, 0, 0, 0};
    uint8_t timer[TIMER_BYTES];
    uint16_t i;
    some_timer(timer);
    for (i = 0; i < subject->rows + 3u; i++) {
        put_word(timer, 0, row_to_serve(subject, i));
        with_marks_and_registers(subject, &call, timer);
    }
}

/* The call with a number of overruns of its task, by the dispatcher and by the registers. */
static void with_counts(const struct subject *subject, struct call *call, uint8_t *timer)
{
    size_t i;
    for (i = 0; i < COUNT(counts); i++) {
        if (call->number < MOST_TASKS)
            put_word(timer, 3u + 2u * call->number, counts[i]);
        call->kind = REPORT;
        with_marks(subject, call, timer);
        call->kind = TIMER_REPORT;
        with_marks(subject, call, timer);
        timer[2] = 1;
        with_registers(subject, call, timer);
        timer[64] = 0;
        timer[65] = 0;
    }
}

/* Ticks up to C and above it, and such that 16 bits do not hold. */
static void report(const struct subject *subject, uint8_t task)
{
    const uint32_t length = length_of(subject, task);
    const uint32_t ticks[] = {0, length, length + 1u, 65535u, 65536u, 65536u + length, UINT32_MAX};
    struct call call = {REPORT, 0, 0, 0};
    uint8_t timer[TIMER_BYTES];
    size_t i;
    call.number = task;
    some_timer(timer);
    for (i = 0; i < COUNT(ticks); i++) {
        call.ticks = ticks[i];
        with_counts(subject, &call, timer);
    }
}

/* Every task, one above, and the highest number. */
static void reports(const struct subject *subject)
{
    uint8_t task;
    for (task = 0; task <= subject->request[0]; task++)
        report(subject, task);
    report(subject, 255);
}

/* Registers 2 and 3 in every row. */
static void rows_read(const struct subject *subject)
{
    struct call call = {TIMER_READ, 0, 0, 0};
    uint8_t timer[TIMER_BYTES];
    uint32_t i;
    some_timer(timer);
    for (i = 0; i < 2u * 65536u; i += STEP) {
        call.number = (uint8_t)(2u + i % 2u);
        put_word(timer, 0, (uint16_t)(i / 2u));
        visit(subject, &call, timer);
    }
}

/* Registers 4 and 5, with two counts in the first and the last task and 0 elsewhere. */
static void sum_read(const struct subject *subject, uint16_t first, uint16_t last)
{
    struct call call = {TIMER_READ, 0, 0, 0};
    uint8_t timer[TIMER_BYTES];
    some_timer(timer);
    memset(timer + 3, 0, 2u * MOST_TASKS);
    put_word(timer, 3u, first);
    if (subject->request[0] > 1u)
        put_word(timer, 1u + 2u * subject->request[0], last);
    for (call.number = 4; call.number < 6u; call.number++)
        visit(subject, &call, timer);
}

static void sums_read(const struct subject *subject)
{
    size_t i;
    for (i = 0; i < COUNT(addends) * COUNT(addends); i++)
        sum_read(subject, addends[i / COUNT(addends)], addends[i % COUNT(addends)]);
}

/* Every count at its highest: the sum passes 16 bits more than once. */
static void highest_sum_read(const struct subject *subject)
{
    struct call call = {TIMER_READ, 0, 0, 0};
    uint8_t timer[TIMER_BYTES];
    some_timer(timer);
    memset(timer + 3, 0xFF, 2u * subject->request[0]);
    memset(timer + 3 + 2u * subject->request[0], 0, 2u * (MOST_TASKS - subject->request[0]));
    for (call.number = 4; call.number < 6u; call.number++)
        visit(subject, &call, timer);
}

/* Every address with every control and status. Counts of tasks that the list does not have are 0, as in a flight. */
static void registers_read(const struct subject *subject)
{
    struct call call = {TIMER_READ, 0, 0, 0};
    uint8_t timer[TIMER_BYTES];
    size_t i;
    some_timer(timer);
    memset(timer + 3 + 2u * subject->request[0], 0, 2u * (MOST_TASKS - subject->request[0]));
    for (i = 0; i < COUNT(addresses); i++) {
        call.number = addresses[i];
        with_marks_and_registers(subject, &call, timer);
    }
}

/* Every byte written to an address, with every control and status, and once with every mark. */
static void written_to(const struct subject *subject, uint8_t address)
{
    struct call call = {TIMER_WRITE, 0, 0, 0};
    uint8_t timer[TIMER_BYTES];
    uint16_t value;
    call.number = address;
    some_timer(timer);
    with_marks_and_registers(subject, &call, timer);
    timer[2] = 0;
    for (value = 0; value < 256u; value = (uint16_t)(value + STEP)) {
        call.value = (uint8_t)value;
        with_registers(subject, &call, timer);
    }
}

static void registers_written(const struct subject *subject)
{
    size_t i;
    for (i = 0; i < COUNT(addresses); i++)
        written_to(subject, addresses[i]);
}

static void events_and_lines(const struct subject *subject)
{
    const struct call event = {TIMER_EVENT, 0, 0, 0}, line = {TIMER_LINE, 0, 0, 0};
    uint8_t timer[TIMER_BYTES];
    some_timer(timer);
    with_marks_and_registers(subject, &event, timer);
    with_marks_and_registers(subject, &line, timer);
}

void all_states(const struct subject *subject)
{
    fresh_ones(subject);
    frames(subject);
    reports(subject);
    servings(subject);
    rows_read(subject);
    sums_read(subject);
    highest_sum_read(subject);
    registers_read(subject);
    registers_written(subject);
    events_and_lines(subject);
}

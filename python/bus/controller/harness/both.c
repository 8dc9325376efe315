/*
 * Compares controllers that `bus c` wrote with the proved library: every call, in many states, and every
 * constant. `both` compares all subjects of the program, `both NUMBER` one of them. For each it prints a
 * line: NAME STATES CALLS, the states of next_frame and all calls; or NAME and what differs.
 */
#include "library.h"

#include <stdio.h>
#include <string.h>

static const char *const names[KINDS] = {
    "fresh",       "next_frame",  "report",      "timer_fresh",  "timer_read",
    "timer_write", "timer_event", "timer_serve", "timer_report", "timer_line",
};

static unsigned long states, calls;
static int differs;

/* The first difference of a subject is told. */
static void tell(const struct subject *subject, const char *what, long own, long expected)
{
    if (!differs)
        printf("%s: %s is %ld, and the library says %ld", subject->name, what, own, expected);
    differs = 1;
}

static void tell_call(const struct subject *subject, const struct call *call, const uint8_t *timer, long own,
                      long expected)
{
    if (differs)
        return;
    tell(subject, names[call->kind], own, expected);
    printf(", with %u, %u and %lu, in row %u, mark %u, control %u, status %u\n", (unsigned)call->number,
           (unsigned)call->value, (unsigned long)call->ticks, (unsigned)word_at(timer, 0), (unsigned)timer[2],
           (unsigned)timer[64], (unsigned)timer[65]);
}

/* The first byte that differs. */
static void compare_bytes(const struct subject *subject, const struct call *call, const uint8_t *timer,
                          const uint8_t *own, const uint8_t *expected, size_t len)
{
    size_t i;
    for (i = 0; i < len; i++)
        if (own[i] != expected[i])
            tell_call(subject, call, timer, own[i], expected[i]);
}

/* The answer, all bytes of state and timer, and all 16 places must be the library's. */
void visit(const struct subject *subject, const struct call *call, const uint8_t *timer)
{
    uint8_t own[TIMER_BYTES], expected[TIMER_BYTES], own_entries[ENTRIES_BYTES], entries[ENTRIES_BYTES];
    int32_t own_answer, answer;
    memcpy(own, timer, TIMER_BYTES);
    memcpy(expected, timer, TIMER_BYTES);
    memset(own_entries, 0x5A, ENTRIES_BYTES);
    memset(entries, 0x5A, ENTRIES_BYTES);
    own_answer = subject->call(call, own, own_entries);
    answer = library(subject, call, expected, entries);
    if (own_answer != answer)
        tell_call(subject, call, timer, own_answer, answer);
    compare_bytes(subject, call, timer, own, expected, TIMER_BYTES);
    compare_bytes(subject, call, timer, own_entries, entries, ENTRIES_BYTES);
    states += call->kind == NEXT_FRAME;
    calls++;
}

static void expect(const struct subject *subject, const char *what, long own, long expected)
{
    if (own == expected)
        return;
    tell(subject, what, own, expected);
    printf("\n");
}

/* The macros and arrays say what the list's and the table's bytes say, and the table is one of the list. */
static void constants(const struct subject *subject)
{
    unsigned task;
    expect(subject, "the table's check", 0,
           bus_check(subject->request, subject->request_len, subject->own_table, subject->own_table_len));
    expect(subject, "the table's length", (long)subject->own_table_len, (long)subject->table_len);
    if (differs)
        return;
    expect(subject, "a byte of the table", memcmp(subject->own_table, subject->table, subject->table_len), 0);
    expect(subject, "FRAME", subject->frame, word_at(subject->table, FRAME_AT));
    expect(subject, "CYCLE", subject->cycle, word_at(subject->table, CYCLE_AT));
    expect(subject, "ROWS", subject->rows, word_at(subject->table, ROWS_AT));
    expect(subject, "TASKS", subject->tasks, subject->request[0]);
    expect(subject, "SILENT", subject->silent, silent_of(subject));
    for (task = 0; !differs && task < subject->tasks; task++) {
        expect(subject, "a length", subject->lengths[task], length_of(subject, task));
        expect(subject, "a task of the enum", subject->enumerators[task], (long)task);
    }
}

static int compare(const struct subject *subject)
{
    states = 0;
    calls = 0;
    differs = 0;
    constants(subject);
    if (!differs)
        all_states(subject);
    if (!differs)
        printf("%s %lu %lu\n", subject->name, states, calls);
    fflush(stdout);
    return differs;
}

int main(int argc, char **argv)
{
    size_t first = argc > 1 ? (size_t)strtoul(argv[1], NULL, 10) : 0;
    size_t end = argc > 1 ? first + 1 : subject_count, i;
    int different = 0;
    for (i = first; i < end && i < subject_count; i++)
        different |= compare(subjects[i]);
    return different;
}

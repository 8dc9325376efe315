/*
 * The answers of controllers that `bus c` wrote, summed up: on another processor there is no library to
 * compare them with. For each controller it prints how many calls were made, and a number over every answer,
 * every byte of state and timer after it and every place. Built with LIBRARY it prints the same of the proved
 * library, so that the two texts can be compared. tests/cross builds and runs both.
 */
#include "states.h"

#include <stdio.h>
#include <string.h>

#ifdef LIBRARY
#include "library.h"
#endif

#ifdef __AVR__
#include "avr.h"
#else
#define begin()
#define end()
#endif

static uint32_t digest;
static uint32_t calls;

/* FNV-1a, 32 bits. */
static void take(uint8_t byte)
{
    digest = (uint32_t)((digest ^ byte) * UINT32_C(16777619));
}

static void take_all(const uint8_t *bytes, size_t len)
{
    size_t i;
    for (i = 0; i < len; i++)
        take(bytes[i]);
}

static void take_word(uint16_t word)
{
    take((uint8_t)(word % 256u));
    take((uint8_t)(word / 256u));
}

static int32_t answer_of(const struct subject *subject, const struct call *call, uint8_t *timer, uint8_t *entries)
{
#ifdef LIBRARY
    return library(subject, call, timer, entries);
#else
    return subject->call(call, timer, entries);
#endif
}

void visit(const struct subject *subject, const struct call *call, const uint8_t *timer)
{
    uint8_t after[TIMER_BYTES], entries[ENTRIES_BYTES];
    int32_t answer;
    memcpy(after, timer, TIMER_BYTES);
    memset(entries, 0x5A, ENTRIES_BYTES);
    answer = answer_of(subject, call, after, entries);
    take_word((uint16_t)(answer + 1000));
    take_all(after, TIMER_BYTES);
    take_all(entries, ENTRIES_BYTES);
    calls++;
}

/* The constants: the controller's own, or those of the bytes that the library was given. */
static void constants(const struct subject *subject)
{
#ifdef LIBRARY
    const uint8_t *table = subject->table;
    const uint16_t sizes[] = {word_at(table, FRAME_AT), word_at(table, CYCLE_AT), word_at(table, ROWS_AT),
                              subject->request[0], silent_of(subject)};
#else
    const uint8_t *table = subject->own_table;
    const uint16_t sizes[] = {subject->frame, subject->cycle, subject->rows, subject->tasks, subject->silent};
#endif
    size_t i;
    for (i = 0; i < sizeof sizes / sizeof *sizes; i++)
        take_word(sizes[i]);
    take_all(table, subject->table_len);
}

int main(void)
{
    size_t i;
    begin();
    for (i = 0; i < subject_count; i++) {
        digest = UINT32_C(2166136261);
        calls = 0;
        constants(subjects[i]);
        all_states(subjects[i]);
        printf("%s %lu calls %08lX\n", subjects[i]->name, (unsigned long)calls, (unsigned long)digest);
    }
    end();
    return 0;
}

/*
 * The bus controller of $title: its table, the dispatcher that serves it, and the registers of the bus
 * timer. C99 for any controller: no operating system, no allocation, no writable globals. `bus c` of
 * Wethlak $version wrote this file; do not edit it, write it anew. docs/CONTROLLER.md there says what is
 * proved, what is compared and what is only tested.
 *
 *   list   SHA-256 $list_sha256
 *   table  SHA-256 $table_sha256
 *
 * A frame starts every ${NAME}_FRAME ticks. The controller then asks for its entries and runs them, one
 * after the other, with ${NAME}_SILENT silent ticks after each:
 *
 *     ${name}_state state;
 *     ${name}_entry entries[${NAME}_PLACES];
 *     ${name}_fresh(&state);
 *     for (;;) {
 *         wait_for_the_next_frame();
 *         int count = ${name}_next_frame(&state, entries);
 *         for (int i = 0; i < count; i++)
 *             ${name}_report(&state, entries[i].task, transfer(entries[i].task));
 *     }
 *
 * An answer below 0 is a refusal, its number negated; a refused call changes nothing. Pointers must not
 * be NULL. A state or a timer that an interrupt routine and the main loop both use needs interrupts held
 * off during each call.
 */
#ifndef ${NAME}_BUS_H
#define ${NAME}_BUS_H

#include <stddef.h>
#include <stdint.h>

#ifdef __cplusplus
extern "C" {
#endif

/* The version of the library and of the command, and CRC-32 of the list's file and of the table's bytes. */
#define ${NAME}_BUS_VERSION "$version"
#define ${NAME}_LIST_CRC32 UINT32_C(0x$list_crc32)
#define ${NAME}_TABLE_CRC32 UINT32_C(0x$table_crc32)

#define ${NAME}_FRAME ${frame}u /* ticks of a frame */
#define ${NAME}_CYCLE ${cycle}u /* ticks of the cycle, after which the table begins anew */
#define ${NAME}_ROWS ${rows}u /* rows of the table, one for each frame of the cycle */
#define ${NAME}_TASKS ${tasks}u
#define ${NAME}_SILENT ${silent}u /* silent ticks after every transfer */
#define ${NAME}_PLACES 16u /* the most entries of a frame */
#define ${NAME}_TABLE_BYTES ${table_bytes}u

/* The tasks of the list, by their numbers. */
enum ${name}_task {
$enumerators
};

/* The refusals, as in the library. */
enum ${name}_refusal {
    ${NAME}_ROW_TOO_HIGH = 15, /* the state's row is none of the table */
    ${NAME}_NO_SUCH_TASK = 16, /* the list has no task of this number */
    ${NAME}_NO_REGISTER = 29, /* the address is above 7 */
    ${NAME}_BAD_STATE = 99 /* the state's mark is above 1, or the timer's control or status has a bit without a name */
};

/* The table file, byte by byte, and the longest time of each task, C. */
extern const uint8_t ${name}_table[${NAME}_TABLE_BYTES];
extern const uint16_t ${name}_length[${NAME}_TASKS];

/* What a frame serves: a task, and a job byte with the job in bits 0 to 6 and carry in bit 7. */
typedef struct ${name}_entry {
    uint8_t task;
    uint8_t job;
} ${name}_entry;

/* The number of the job in its cycle, and 1 where that is the cycle before this one, else 0. */
static inline uint8_t ${name}_job(${name}_entry entry)
{
    return (uint8_t)(entry.job & 0x7Fu);
}

static inline uint8_t ${name}_carried(${name}_entry entry)
{
    return (uint8_t)(entry.job >> 7);
}

/* The dispatcher. */
typedef struct ${name}_state {
    uint16_t row; /* the row that is served next */
    uint8_t first; /* 1 in the first cycle, in which carried entries are left out, then 0 */
    uint16_t overruns[${NAME}_TASKS]; /* of each task; the count stops at 65,535 */
} ${name}_state;

/* Row 0, first cycle, no overruns. */
void ${name}_fresh(${name}_state *state);

/*
 * The entries of the next frame, in the order in which they run. All 16 places are filled, unused ones
 * with 0. The state moves on by one row, and from the last row to row 0.
 *
 * Answers the number of entries, 0 to 16, or refuses with 99, then 15.
 */
int ${name}_next_frame(${name}_state *state, ${name}_entry entries[${NAME}_PLACES]);

/*
 * Reports the ticks that a task used. More than its length is an overrun.
 *
 * Answers 0, or refuses with 99, then 16.
 */
int ${name}_report(${name}_state *state, uint8_t task, uint32_t ticks);

/*
 * The bus timer: the dispatcher behind eight registers of a byte each.
 *
 *   0        control: bit 0 run, bit 1 interrupt enable
 *   1        status: bit 0 frame due, bit 1 overrun, bit 2 frame missed; writing a 1 clears bit 1 or 2
 *   2 and 3  the row that is served next, low byte first
 *   4 and 5  the overruns of all tasks together, at most 65,535
 *   6 and 7  0
 */
#define ${NAME}_TIMER_CONTROL 0u
#define ${NAME}_TIMER_STATUS 1u
#define ${NAME}_TIMER_ROW 2u
#define ${NAME}_TIMER_SUM 4u

#define ${NAME}_TIMER_RUN 0x01u
#define ${NAME}_TIMER_ENABLE 0x02u

#define ${NAME}_TIMER_DUE 0x01u
#define ${NAME}_TIMER_OVERRUN 0x02u
#define ${NAME}_TIMER_MISSED 0x04u

typedef struct ${name}_timer {
    ${name}_state state;
    uint8_t control;
    uint8_t status;
} ${name}_timer;

/* A fresh state, and 0 in all eight registers. */
void ${name}_timer_fresh(${name}_timer *timer);

/* Answers the byte at an address, 0 to 255, or refuses with 99, then 29. */
int ${name}_timer_read(const ${name}_timer *timer, uint8_t address);

/* Writes a byte to an address. Answers 0, or refuses with 99, then 29. */
int ${name}_timer_write(${name}_timer *timer, uint8_t address, uint8_t value);

/* A timer event: with run set a frame is due, or missed if one was due already. Answers 0, or refuses with 99. */
int ${name}_timer_event(${name}_timer *timer);

/*
 * Serves the frame that is due, as ${name}_next_frame does. With none due it answers 0 and changes
 * nothing, in the places neither.
 *
 * Answers the number of entries, 0 to 16, or refuses with 99, then 15; the frame then stays due.
 */
int ${name}_timer_serve(${name}_timer *timer, ${name}_entry entries[${NAME}_PLACES]);

/* Reports the ticks that a task used; an overrun is marked in status. Answers 0, or refuses with 99, then 16. */
int ${name}_timer_report(${name}_timer *timer, uint8_t task, uint32_t ticks);

/* The interrupt line. Answers 1 if it is on, that is, enabled with a status bit set, else 0; or refuses with 99. */
int ${name}_timer_line(const ${name}_timer *timer);

#ifdef __cplusplus
}
#endif

#endif

/*
 * The bus table library: joining and cutting requests, planning, checking and dispatching a table
 * for the bus controller, the registers of its timer, a heater's commands, which are sent again until
 * they are answered, finding time for a one-off transfer, moving jobs by hand, counting the phases
 * of a task that still fit, and listing the jobs of a table for the ground team.
 *
 * All times are whole ticks. A u16 in a file, a state or a draft is two bytes, low byte first.
 *
 * Every call answers an int32_t. From 0 on it is what the call's comment says; below 0 it is a
 * refusal, its number negated (the numbers stand at the end of this file). A refused call leaves
 * every buffer as it was, but for the count of tries that bus_plan gives with every answer.
 *
 * A buffer is a pointer and the number of bytes behind it. Pointers must not be NULL, even for
 * length 0. Buffers of one call must not overlap unless both are only read. Nothing is kept between
 * calls but what stands in the buffers: there are no globals, no allocation and no input or output,
 * so calls on different buffers may run at the same time.
 */
/*
 * A whole flight: the request is planned, and frame after frame its table is served. The board has
 * `wait_until`, which answers 0 when the flight is over, and `transfer`, which runs one transfer and
 * answers the ticks that it took.
 *
 *     #include <bus.h>
 *
 *     int fly(const uint8_t *request, size_t request_len)
 *     {
 *         uint8_t table[BUS_TABLE_BYTES], tries[BUS_TRIES_BYTES];
 *         uint8_t state[BUS_STATE_BYTES], entries[BUS_ENTRIES_BYTES];
 *         int32_t len = bus_plan(request, request_len, 10000000, table, sizeof table, tries, sizeof tries);
 *         if (len < 0)
 *             return (int)-len; // BUS_NO_PLAN, for example
 *         bus_fresh(state, sizeof state);
 *         for (uint32_t frame = 0; wait_until(frame * bus_table_frame(table)); frame++) {
 *             int32_t count = bus_next_frame(table, (size_t)len, state, sizeof state, entries, sizeof entries);
 *             for (int32_t i = 0; i < count; i++) {
 *                 uint8_t task = bus_entry_task(entries, (unsigned)i);
 *                 uint32_t ticks = transfer(task, bus_entry_job(entries, (unsigned)i));
 *                 bus_report(request, request_len, task, ticks, state, sizeof state);
 *             }
 *         }
 *         return 0;
 *     }
 *
 * The command `bus` writes requests (`bus list`) and plans on the ground (`bus plan`), and docs/FORMATS.md
 * has the formats of requests, tables, states and timers. The library is for x86-64 Linux; for another
 * processor `bus c` writes a table and its dispatcher as C source: see docs/CONTROLLER.md.
 */
#ifndef BUS_H
#define BUS_H

#include <stddef.h>
#include <stdint.h>

#ifdef __cplusplus
extern "C" {
#endif

/* The version: the first number changes with a call or a format, the second with what is new. */
#define BUS_VERSION "1.0.0"

/* The bytes of a state, of a timer, of the entries of a frame, of a count of tries, of the counts of phases. */
#define BUS_STATE_BYTES 64
#define BUS_TIMER_BYTES 72
#define BUS_ENTRIES_BYTES 32
#define BUS_TRIES_BYTES 8
#define BUS_PHASES_BYTES 8

/* The bytes of a heater. */
#define BUS_HEATER_BYTES 72

/* The most tasks, and so the counts of a state. */
#define BUS_TASKS 16

/* The longest table: 7 + 256 rows + 2 for each of 128 jobs. */
#define BUS_TABLE_BYTES 519

/* The bytes of a job record, and of a list that holds the records of every cycle: 128 jobs. */
#define BUS_RECORD_BYTES 8
#define BUS_RECORDS_BYTES 1024

/* The longest request: 16 tasks, 16 pairs and the silent ticks. */
#define BUS_REQUEST_BYTES 164

/* The bytes of a draft, and what stands in the place of a frame where the job is lifted. */
#define BUS_DRAFT_BYTES 770
#define BUS_LIFTED 65535

/*
 * A state, timer, heater, entries, tries, draft or counts buffer that is too short, or bytes that are
 * no state (its mark is neither 0 nor 1), no timer or no heater.
 */
#define BUS_BAD_BUFFER 99

/*
 * Two calls plan a request: bus_decide and bus_plan. Unless bus_plan answers 23 both come to the same,
 * byte for byte: the table of the chosen plan, or the number that tells why there is none.
 *
 *   bus_decide  where an answer is wanted: on the ground, in a tool, in a test. Every request gets its
 *               table or a final number, and never 23.
 *   bus_plan    where the work must have a limit that is known before: at most so many tries are made,
 *               and a request that needs more is refused with 23. Also where the count of tries is
 *               wanted, or the stack is small.
 *
 * Most requests take either call some microseconds. Where bus_plan needs millions of tries, bus_decide
 * mostly takes milliseconds; but no bound on its time is promised, and there are requests for which it
 * takes seconds.
 *
 * Stack: bus_decide stays below 512 KiB, every other call of this file below 256 KiB.
 */

/*
 * Decides a request: writes the table of the chosen plan to the front of `out`, however long the search
 * for it would be. The bytes behind the table are left as they are.
 *
 * The answer is that of bus_plan with enough tries. So 10 means that there is no plan at all.
 *
 * Answers the table's length, or refuses with 1 to 5, 17, 6 to 10, or 11. A buffer of BUS_TABLE_BYTES is
 * never too short.
 */
int32_t bus_decide(const uint8_t *request, size_t request_len, uint8_t *out, size_t out_len);

/*
 * Plans a request with a limit and writes the table of the chosen plan to the front of `out`. The bytes
 * behind the table are left as they are.
 *
 * The search may be long where plans are hard to find, so it is allowed so many tries and no more.
 * One try is one job tested in one frame of its window, whether it is then placed there or passed
 * over. The tries of the full search depend on the request alone. If it needs more than `allowance`,
 * the answer is 23: a table may or may not exist. With enough tries the answer is final. The programs
 * `plan`, `plan_table`, `fly` and `timeline` allow 10,000,000 tries; UINT64_MAX is a limit that no search
 * reaches in a lifetime. bus_decide answers without a limit.
 *
 * The first 8 bytes of `tries` get the count of tries, low byte first, with every answer but 99: with
 * 1 to 9 and 17 it is 0, with 23 the allowance, else the tries of the full search. The bytes behind
 * them are left as they are.
 *
 * Answers the table's length, or refuses with 99 (fewer than 8 bytes in `tries`), then 1 to 5, 17, 6
 * to 9, 23, 10, or 11. A buffer of BUS_TABLE_BYTES is never too short.
 */
int32_t bus_plan(const uint8_t *request, size_t request_len, uint64_t allowance, uint8_t *out,
                 size_t out_len, uint8_t *tries, size_t tries_len);

/* The count of tries in the 8 bytes that bus_plan filled. */
static inline uint64_t bus_tries(const uint8_t *tries)
{
    uint64_t count = 0;
    for (unsigned i = BUS_TRIES_BYTES; i > 0; i--)
        count = count << 8 | tries[i - 1];
    return count;
}

/*
 * Checks whether a table describes a plan of a request, of any frame length and not only of the
 * chosen one.
 *
 * Answers 0 where it does, or refuses with 1 to 5, 17, 6 to 8, or 12 to 14.
 */
int32_t bus_check(const uint8_t *request, size_t request_len, const uint8_t *table, size_t table_len);

/*
 * Checks a table like bus_check, and writes the table of the plan that was read to the front of
 * `out`. The bytes behind it are left as they are.
 *
 * Answers the table's length, or refuses with 1 to 5, 17, 6 to 8, 12 to 14, or 11.
 */
int32_t bus_rewrite(const uint8_t *request, size_t request_len, const uint8_t *table, size_t table_len,
                    uint8_t *out, size_t out_len);

/*
 * The sizes that stand in a table: the ticks of a frame f, the ticks of the cycle H and the number of
 * rows F, with F * f = H. `table` points to a table that a call wrote or accepted.
 */
static inline uint16_t bus_table_frame(const uint8_t *table)
{
    return (uint16_t)(table[1] + 256u * table[2]);
}

static inline uint16_t bus_table_cycle(const uint8_t *table)
{
    return (uint16_t)(table[3] + 256u * table[4]);
}

static inline uint16_t bus_table_rows(const uint8_t *table)
{
    return (uint16_t)(table[5] + 256u * table[6]);
}

/*
 * The dispatcher's state stands in 64 bytes that the caller lends:
 *
 *   bytes 0 and 1     the row that is served next
 *   byte 2            the mark of the first cycle: 1 while it lasts, then 0
 *   bytes 3 + 2i and  the number of overruns of task i, at most 65,535; i goes from 0 to 15, so
 *         4 + 2i      these are bytes 3 to 34
 *   bytes 35 to 63    kept free; bus_fresh sets them to 0, the other calls neither read nor change them
 *
 * Bytes behind the first 64 of a longer buffer are never read or changed.
 */

/*
 * The number of overruns of a task that a state holds, from 0 to 65,535; 0 for a number that no
 * task has. `state` points to the 64 bytes of a state. To see which boards overran:
 *
 *     for (unsigned task = 0; task < BUS_TASKS; task++)
 *         printf("task %u: %u overruns\n", task, (unsigned)bus_overruns(state, task));
 */
static inline uint16_t bus_overruns(const uint8_t *state, unsigned task)
{
    if (task >= BUS_TASKS)
        return 0;
    return (uint16_t)(state[3 + 2 * task] + 256u * state[4 + 2 * task]);
}

/*
 * Makes a fresh state: row 0, mark set, no overruns of any task.
 *
 * Answers 0, or refuses with 99.
 */
int32_t bus_fresh(uint8_t *state, size_t state_len);

/*
 * The entries to serve in the next frame: those of the state's row, in their order, without the
 * carried ones in the first cycle. The state moves on by one row, and behind the last row to row 0
 * with the mark cleared. The first entry starts with its frame, each later one as many ticks after
 * the one before ended as the request has silent ticks.
 *
 * `entries` gets 16 pairs of a task byte and a job byte (bits 0 to 6 the job, bit 7 carry), filled
 * from the first; unused pairs are 0. Bytes behind the first 32 are left as they are.
 *
 * Answers the number of entries, 0 to 16, or refuses with 99, then 12, then 15.
 */
int32_t bus_next_frame(const uint8_t *table, size_t table_len, uint8_t *state, size_t state_len,
                       uint8_t *entries, size_t entries_len);

/*
 * The task of an entry, its job's number in the cycle, and whether it is carried, a job of the cycle
 * before: 1 or 0. `entries` points to the 32 bytes that a call filled, and `place` is from 0 to 15.
 */
static inline uint8_t bus_entry_task(const uint8_t *entries, unsigned place)
{
    return entries[2u * place];
}

static inline uint8_t bus_entry_job(const uint8_t *entries, unsigned place)
{
    return (uint8_t)(entries[2u * place + 1u] & 0x7Fu);
}

static inline int bus_entry_carried(const uint8_t *entries, unsigned place)
{
    return entries[2u * place + 1u] >> 7;
}

/*
 * Reports the ticks that a task used. More than the request's C for the task is an overrun, and
 * the task's number of overruns in the state rises by one, up to 65,535. The numbers of the other
 * tasks, the row and the mark stay. Silent ticks are not used ticks.
 *
 * Answers 0, or refuses with 99, then 1 to 5, then 17, then 6, then 16.
 */
int32_t bus_report(const uint8_t *request, size_t request_len, uint8_t task, uint32_t ticks,
                   uint8_t *state, size_t state_len);

/*
 * The bus timer shows the dispatcher as eight registers, each a byte at an address:
 *
 *   0        control: bit 0 run, bit 1 interrupt enable
 *   1        status: bit 0 frame due, bit 1 overrun, bit 2 frame missed; writing a 1 clears bit 1 or
 *            bit 2, and bit 0 ignores writes
 *   2 and 3  the row that is served next
 *   4 and 5  the smaller of 65,535 and the sum of all tasks' overruns
 *   6 and 7  0
 *
 * Bits without a name read 0, and bytes 2 to 7 ignore writes. A timer stands in 72 bytes that the
 * caller lends:
 *
 *   bytes 0 to 63   the dispatcher's state, as for bus_fresh; bus_overruns reads it
 *   byte 64         control, at most 3
 *   byte 65         status, at most 7
 *   bytes 66 to 71  kept free; bus_timer_fresh sets them to 0, the other calls neither read nor change
 *                   them
 *
 * Every call refuses with 99, before every other number, a buffer of fewer than 72 bytes or bytes that
 * are no timer: a mark above 1, control above 3 or status above 7. Bytes behind the first 72 of a
 * longer buffer are never read or changed.
 *
 * If run is set before the first timer event and stays set, and each event is followed by its serving
 * before any other event, a table flies as it does by bus_next_frame: frame m, counted from 0, starts
 * with its event, at tick m * f. examples/interrupt.c is an interrupt routine that serves frames.
 */

/* The addresses of the registers, and the bits of control and of status. */
#define BUS_TIMER_CONTROL 0
#define BUS_TIMER_STATUS 1
#define BUS_TIMER_ROW 2
#define BUS_TIMER_SUM 4

#define BUS_TIMER_RUN 0x01
#define BUS_TIMER_ENABLE 0x02

#define BUS_TIMER_DUE 0x01
#define BUS_TIMER_OVERRUN 0x02
#define BUS_TIMER_MISSED 0x04

/*
 * Makes a fresh timer, whose eight registers are 0 and whose dispatcher is fresh. It sets all 72
 * bytes.
 *
 * Answers 0, or refuses with 99 where there are fewer than 72.
 */
int32_t bus_timer_fresh(uint8_t *timer, size_t timer_len);

/*
 * The register at an address.
 *
 * Answers its byte, 0 to 255, or refuses with 99, then with 29 for an address above 7.
 */
int32_t bus_timer_read(uint8_t address, const uint8_t *timer, size_t timer_len);

/*
 * Writes a byte to an address.
 *
 * Answers 0, or refuses with 99, then with 29 for an address above 7.
 */
int32_t bus_timer_write(uint8_t address, uint8_t value, uint8_t *timer, size_t timer_len);

/*
 * A timer event. With run set it makes a frame due, or marks a miss if one is due already; with run
 * clear it does nothing.
 *
 * Answers 0, or refuses with 99.
 */
int32_t bus_timer_event(uint8_t *timer, size_t timer_len);

/*
 * Serves the frame that is due, as bus_next_frame does, and clears its status bit; run is not asked.
 * Where the call is refused the frame stays due. With none due nothing is refused, whatever the table
 * is, and nothing changes, in `entries` neither.
 *
 * Answers the number of entries, 0 to 16, and 0 with none due; or refuses with 99 (which `entries` of
 * fewer than 32 bytes also get, whether or not a frame is due), then 12, then 15.
 */
int32_t bus_timer_serve(const uint8_t *table, size_t table_len, uint8_t *timer, size_t timer_len,
                        uint8_t *entries, size_t entries_len);

/*
 * Reports the ticks that a task used, as bus_report does. More than the request's C for the task sets
 * the overrun bit, also where the task's number of overruns stands at 65,535.
 *
 * Answers 0, or refuses with 99, then 1 to 5, then 17, then 6, then 16.
 */
int32_t bus_timer_report(const uint8_t *request, size_t request_len, uint8_t task, uint32_t ticks,
                         uint8_t *timer, size_t timer_len);

/*
 * The interrupt line: it is on exactly if it is enabled and a status bit is set.
 *
 * Answers 1 where it is on, else 0; or refuses with 99.
 */
int32_t bus_timer_line(const uint8_t *timer, size_t timer_len);

/*
 * The heater link sends a heater's commands over a line that may lose them. For a pair a, b of the
 * request a command goes out each time task a is served, and a reply each time task b is. A command
 * carries the master's bit, a reply the bit that the board last obeyed. The board toggles the heater
 * if the arriving bit differs from the one it last obeyed. The master repeats its bit until a reply
 * shows it; that reply answers the command, and the next command has the other bit. So whatever is
 * lost, the toggles are as many as the commands answered, or one more while a command is unanswered:
 * a command that is sent again never toggles twice.
 *
 * A heater stands in 72 bytes that the caller lends:
 *
 *   bytes 0 to 63     the dispatcher's state, as above
 *   byte 64           the bit that the master sends
 *   byte 65           the bit that the board last obeyed
 *   byte 66           1 where the board toggled in the last call that was not refused, else 0
 *   byte 67           1 where the command was answered in that call, else 0
 *   bytes 68 to 71    kept free; bus_heater_fresh sets them to 0, bus_heater_serve neither reads nor
 *                     changes them
 *
 * Bytes behind the first 72 of a longer buffer are never read or changed. A heater is a state for
 * bus_report too: the overruns of a flight are counted in its first 64 bytes.
 */

/*
 * Whether the board toggled, and whether the command was answered, in the last call that was not
 * refused: 1 or 0. `heater` points to the 72 bytes of a heater.
 */
static inline int bus_heater_toggled(const uint8_t *heater)
{
    return heater[66];
}

static inline int bus_heater_answered(const uint8_t *heater)
{
    return heater[67];
}

/*
 * Makes a fresh heater: a fresh state, the master's bit 0, the bit last obeyed 1, nothing toggled and
 * nothing answered. All 72 bytes are set.
 *
 * Answers 0, or refuses with 99 (fewer than 72 bytes).
 */
int32_t bus_heater_fresh(uint8_t *heater, size_t heater_len);

/*
 * Serves one frame of a table for the pair a, b of the request, as bus_next_frame does with the
 * heater's state, and plays the command and the reply that are served in it. Where both are, the
 * command goes first. `lost` tells which of the two are lost: bit 0 the command, bit 1 the reply;
 * other bits mean nothing, and so does the loss of what is not served in this frame. Bytes 66 and 67
 * tell what came of it.
 *
 * `entries` is filled as by bus_next_frame.
 *
 * Answers the number of entries, 0 to 16, or refuses with 99 (fewer than 72 bytes in `heater` or 32
 * in `entries`, or byte 2 or one of bytes 64 to 67 neither 0 nor 1), then with bus_check's numbers,
 * then with 30, then with 15.
 */
int32_t bus_heater_serve(const uint8_t *request, size_t request_len, const uint8_t *table, size_t table_len,
                         uint8_t a, uint8_t b, uint8_t lost, uint8_t *heater, size_t heater_len,
                         uint8_t *entries, size_t entries_len);

/*
 * Joins two requests and writes one to the front of `out`: the tasks of the first and then those
 * of the second, the pairs of the first and then those of the second with both numbers raised by
 * the first's number of tasks, and the silent ticks, which must be the same in both. No silent
 * ticks are written by leaving the third section out. The bytes behind the request are left as
 * they are. The two requests may be the same bytes. The cycle of the joined request is judged
 * when it is planned.
 *
 * Answers the request's length, or refuses with 1 to 5, 17 or 6 for the first request, then for
 * the second, then with 18, 19, 20, or 11. A buffer of BUS_REQUEST_BYTES is never too short. Which
 * of the two was refused is told by joining the first with itself.
 */
int32_t bus_join(const uint8_t *first, size_t first_len, const uint8_t *second, size_t second_len,
                 uint8_t *out, size_t out_len);

/*
 * Cuts a long transfer in two and writes the new request to the front of `out`. Task `task` becomes
 * two tasks, `task` of `first` ticks and `task` + 1 of the rest, with the same T, D and P; later
 * tasks move up by one. A pair of the two stands in front of the other pairs, so the pieces run in
 * order. A pair that had the task second now has the first piece, and a pair that had it first now
 * has the second piece. The silent ticks stay; none are written by leaving the third section out.
 * The bytes behind the request are left as they are. A table for the new request runs both pieces
 * inside the window of the old transfer. The cycle is judged when the request is planned.
 *
 * Answers the request's length, or refuses with 1 to 5, 17 or 6, then with 24, 25, 19, or 11. A
 * buffer of BUS_REQUEST_BYTES is never too short.
 */
int32_t bus_cut(const uint8_t *request, size_t request_len, uint8_t task, uint16_t first, uint8_t *out,
                size_t out_len);

/*
 * Counts which phases of a task still fit. Each phase from 0 to T - 1 is set for task `task`, with all
 * else as in the request, and the request with it is planned as bus_plan plans it, with `allowance`
 * tries for each phase. The request's own phase of the task does not matter.
 *
 * The first 8 bytes of `counts` get four u16: how many phases lead to a table, to 9, to 10 and to 23.
 * They add up to T. The bytes behind them are left as they are. A call plans T requests, so with a
 * large allowance it may take long.
 *
 * Answers 0, or refuses with 99 (fewer than 8 bytes in `counts`), then 1 to 5, 17, 6 to 8, then 16.
 */
int32_t bus_phases(const uint8_t *request, size_t request_len, uint8_t task, uint64_t allowance,
                   uint8_t *counts, size_t counts_len);

/*
 * Finds time for a one-off transfer of `length` ticks beside a table: the earliest frame that begins
 * at the tick `from` or later, ends at the tick `until` or earlier, and leaves enough of its time
 * unused for the transfer and the silent ticks after it. Ticks and frames are counted from the
 * start of the flight. A frame is used by every entry of its row, each with the silent ticks after
 * it; carried entries count in the first cycle too, in which they are not served. The transfer comes
 * behind the entries that bus_next_frame gives for that frame: while these keep to their C and it
 * to its length, it ends in its frame, and nothing else moves.
 *
 * Answers the frame k, which starts at tick k * f and is served by call k of bus_next_frame, the
 * first being call 0; in the second cycle k is the number of rows or more. Refuses with 1 to 5, 17,
 * 6 to 8, 12 to 14, then with 21 where the length is 0, `from` is after `until`, or `until` is after
 * the second cycle's end, then with 22 where no frame fits. Every later cycle is like these two: for
 * a later time take whole cycles off both ticks.
 */
int32_t bus_one_off(const uint8_t *request, size_t request_len, const uint8_t *table, size_t table_len,
                    uint32_t length, uint32_t from, uint32_t until);

/*
 * Checks a table like bus_check, and writes a record for each job of the cycle to the front of
 * `records`, in planning order: by release, then task number. A record has 8 bytes:
 *
 *   byte 0            the task
 *   byte 1            the job
 *   bytes 2 and 3     its release
 *   bytes 4 and 5     its due time, which may pass the cycle's end
 *   bytes 6 and 7     its frame k, counted from time 0; for a carried entry k is the number of rows
 *                     or more
 *
 * The list has records_len / 8 places. The bytes behind the records are left as they are.
 *
 * Answers the number of jobs, or refuses with 1 to 5, 17, 6 to 8, 12 to 14, then with 11 where the
 * list has fewer places than the cycle has jobs. A list of BUS_RECORDS_BYTES is never too short.
 */
int32_t bus_timeline(const uint8_t *request, size_t request_len, const uint8_t *table,
                     size_t table_len, uint8_t *records, size_t records_len);

/*
 * A draft is a table whose jobs are moved by hand. It stands in 770 bytes that the caller lends:
 *
 *   bytes 0 and 1        the frame length f
 *   bytes 2 + 2y and     the frame of job y, counted from time 0, or 65,535 while it is lifted; y is
 *         3 + 2y         the place of the job in planning order, from 0 to 127
 *   bytes 258 + 2r and   the load of row r, from 0 to 255: what its placed jobs take of it, carried
 *         259 + 2r       ones too, each with the silent ticks after it
 *
 * Places of jobs and rows that the request does not have are unused: bus_draft_start sets them to 0,
 * the other calls neither judge nor change them. Bytes behind the first 770 of a longer buffer are
 * never read or changed.
 *
 * Any 770 bytes may be given for a draft. What is wrong in them is refused with 26: a frame length
 * that is not plausible for the request, a load that is not its row's sum, placed jobs that break
 * window, capacity or order. A draft that was started is never wrong, whatever moves were made on it
 * under the request that it started with.
 */

/*
 * Starts a draft from a table that bus_check accepts: every job placed where the table has it.
 *
 * Answers 0, or refuses with 99, then 1 to 5, 17, 6 to 8, or 12 to 14.
 */
int32_t bus_draft_start(const uint8_t *request, size_t request_len, const uint8_t *table, size_t table_len,
                        uint8_t *draft, size_t draft_len);

/*
 * Lifts a job out of its frame: it is marked as lifted, and what it took of its row is taken off the
 * row's load. All else stays.
 *
 * Answers 0, or refuses with 99, then 1 to 5, 17, 6 to 8, then with 26, also where the request has no
 * such job or the job is lifted already.
 */
int32_t bus_draft_lift(const uint8_t *request, size_t request_len, uint8_t job, uint8_t *draft,
                       size_t draft_len);

/*
 * Puts a lifted job into a frame, and adds what it takes to the load of that frame's row. All else
 * stays.
 *
 * Answers 0, or refuses with 99, then 1 to 5, 17, 6 to 8, then with 26, also where the request has no
 * such job or the job is not lifted, then with 27 where the frame is outside the job's window, then
 * with 28 where the row has no room or a pair would be out of order with a placed job.
 */
int32_t bus_draft_put(const uint8_t *request, size_t request_len, uint8_t job, uint16_t frame,
                      uint8_t *draft, size_t draft_len);

/*
 * Writes a draft in which no job is lifted as the table of exactly its frame length and frames, to
 * the front of `out`; bus_check accepts it. The bytes behind the table are left as they are.
 *
 * Answers the table's length, or refuses with 99, then 1 to 5, 17, 6 to 8, then with 26, also while a
 * job is lifted, or with 11. A buffer of BUS_TABLE_BYTES is never too short.
 */
int32_t bus_draft_write(const uint8_t *request, size_t request_len, const uint8_t *draft, size_t draft_len,
                        uint8_t *out, size_t out_len);

/*
 * The refusals, each with its words; a call answers its number negated. BUS_BAD_BUFFER, 99, stands above.
 * docs/FORMATS.md has the same words, with what a team can do.
 */
enum bus_refusal {
    /* the request's bytes end inside a section or before its count */
    BUS_REQUEST_ENDS = 1,
    /* no task, or more than 16 */
    BUS_TASK_COUNT = 2,
    /* a transfer breaks 1 <= length <= deadline <= period or phase < period */
    BUS_BAD_TASK = 3,
    /* more than 16 pairs */
    BUS_PAIR_COUNT = 4,
    /*
     * a pair does not name two transfers of the request, the one with the lower number first, or they
     * have different periods
     */
    BUS_BAD_PAIR = 5,
    /* bytes follow the last section */
    BUS_BYTES_FOLLOW = 6,
    /* the cycle, the least common multiple of all periods, is above 10,000 ticks */
    BUS_CYCLE_TOO_LONG = 7,
    /* more than 128 jobs in a cycle */
    BUS_TOO_MANY_JOBS = 8,
    /*
     * no frame length is plausible: none divides the cycle into at most 256 rows, holds the longest
     * transfer with its silent ticks and lies whole in each window of every transfer
     */
    BUS_NO_FRAME_LENGTH = 9,
    /*
     * some length is plausible, so each window by itself holds a frame, and yet none of all placings
     * keeps windows, capacity and order
     */
    BUS_NO_PLAN = 10,
    /*
     * the buffer is shorter than the table, than the joined or cut request, or than the records of a
     * timeline
     */
    BUS_SHORT_BUFFER = 11,
    /* bytes that are not a table */
    BUS_NO_TABLE = 12,
    /*
     * the table's cycle is not the request's, or its frame length is not plausible: too short for a
     * transfer, or some window holds no whole frame of that length
     */
    BUS_WRONG_SIZES = 13,
    /* the table does not describe a plan of the request */
    BUS_NOT_A_PLAN = 14,
    /* the state's row is none of the table */
    BUS_ROW_TOO_HIGH = 15,
    /*
     * there is no such task: the number of a report, or of the task whose phases are counted, is none
     * of the request
     */
    BUS_NO_SUCH_TASK = 16,
    /*
     * the request's third section has a count above 1, or more than 15 silent ticks are asked for;
     * judged after 5 and before 6
     */
    BUS_BAD_SILENT_TICKS = 17,
    /* two requests that are joined have more than 16 tasks together */
    BUS_JOINED_TASKS = 18,
    /* the request that is made by joining or cutting would have more than 16 pairs */
    BUS_MADE_PAIRS = 19,
    /* two requests that are joined have different silent ticks */
    BUS_SILENT_TICKS_DIFFER = 20,
    /*
     * a one-off transfer is asked for with length 0, from a tick after its last, or until a tick after
     * the second cycle
     */
    BUS_BAD_ONE_OFF = 21,
    /*
     * no frame between the two ticks leaves enough unused time for the one-off transfer and its silent
     * ticks
     */
    BUS_NO_TIME = 22,
    /* the search needs more tries than are allowed; whether there is a plan is not known */
    BUS_MORE_TRIES_NEEDED = 23,
    /*
     * the transfer to be cut is not one of the list, or its first piece has not from 1 tick to one
     * less than its length
     */
    BUS_BAD_CUT = 24,
    /* a task is to be cut where there are 16 tasks already */
    BUS_NO_TASK_LEFT = 25,
    /*
     * there is no such job; or it is lifted already, or put without being lifted; or a table is
     * written while a job is lifted; or the draft's frame length, loads or frames break the rules
     */
    BUS_BAD_DRAFT = 26,
    /* the frame is outside the job's window: it begins before the release or ends after the due time */
    BUS_OUTSIDE_WINDOW = 27,
    /*
     * the row would exceed the frame length, or a pair would be out of order with a job that is placed
     */
    BUS_NO_ROOM = 28,
    /* the timer has no register at the address, which is above 7 */
    BUS_NO_REGISTER = 29,
    /* the two tasks of a heater link are no pair of the request */
    BUS_NO_SUCH_PAIR = 30
};

#ifdef __cplusplus
}
#endif

#endif

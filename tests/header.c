/*
 * Every call of include/bus.h, on P1, and the counts that an operator reads. This file is compiled as C99 and as C++11, with every
 * warning an error: the header must be good in both languages, and its calls must link from both.
 */
#include "bus.h"
/* A second time, as by two headers of a larger program. */
#include "bus.h"

#include <stdio.h>
#include <string.h>

static int faults;

static void expect(const char *call, int32_t answer, int32_t expected)
{
    if (answer != expected) {
        fprintf(stderr, "%s answered %ld for %ld\n", call, (long)answer, (long)expected);
        faults++;
    }
}

/* Cuts a task: this answer, and nothing written behind the file. */
static void cut(const uint8_t *request, size_t len, uint8_t task, uint16_t first, size_t room, int32_t answer)
{
    uint8_t file[BUS_REQUEST_BYTES];
    memset(file, 0x5A, sizeof file);
    expect("bus_cut", bus_cut(request, len, task, first, file, room), answer);
    for (size_t i = answer < 0 ? 0 : (size_t)answer; i < sizeof file; i++)
        expect("bus_cut, behind the file", file[i], 0x5A);
}

/* Plans with so many tries allowed: this answer and count, and nothing else written. */
static void plan(const uint8_t *request, size_t len, uint64_t allowance, int32_t answer, uint64_t count)
{
    uint8_t table[BUS_TABLE_BYTES], tries[BUS_TRIES_BYTES + 1];
    memset(table, 0x5A, sizeof table);
    memset(tries, 0x5A, sizeof tries);
    expect("bus_plan", bus_plan(request, len, allowance, table, sizeof table, tries, sizeof tries), answer);
    expect("bus_tries", bus_tries(tries) == count, 1);
    expect("bus_plan, behind the count", tries[BUS_TRIES_BYTES], 0x5A);
    for (size_t i = answer < 0 ? 0 : (size_t)answer; i < sizeof table; i++)
        expect("bus_plan, behind the table", table[i], 0x5A);
}

/* Decides: this answer, and nothing written behind the table. */
static void decide(const uint8_t *request, size_t len, size_t room, int32_t answer)
{
    uint8_t table[BUS_TABLE_BYTES];
    memset(table, 0x5A, sizeof table);
    expect("bus_decide", bus_decide(request, len, table, room), answer);
    for (size_t i = answer < 0 ? 0 : (size_t)answer; i < sizeof table; i++)
        expect("bus_decide, behind the table", table[i], 0x5A);
}

/* P1's search takes 5 tries, one for each job; with a silent tick 6, since one frame is passed over before the last job has no room. */
static void limits(const uint8_t *request, size_t len, const uint8_t *silent, size_t silent_len)
{
    uint8_t table[BUS_TABLE_BYTES], tries[BUS_TRIES_BYTES];
    plan(request, len, UINT64_MAX, 19, 5);
    plan(request, len, 5, 19, 5);
    plan(request, len, 4, -23, 4);
    plan(request, len, 0, -23, 0);
    plan(request, len - 1, 0, -1, 0);
    plan(silent, silent_len, 6, -10, 6);
    plan(silent, silent_len, 5, -23, 5);
    decide(request, len, BUS_TABLE_BYTES, 19);
    decide(request, len, 19, 19);
    decide(request, len, 18, -11);
    decide(request, len - 1, 0, -1);
    decide(silent, silent_len, BUS_TABLE_BYTES, -10);
    memset(tries, 0x5A, sizeof tries);
    expect("bus_plan", bus_plan(request, len, 1000, table, 18, tries, sizeof tries), -11);
    expect("bus_tries", bus_tries(tries) == 5, 1);
    expect("bus_plan", bus_plan(request, len, 4, table, 18, tries, sizeof tries), -23);
    expect("bus_tries", bus_tries(tries) == 4, 1);
    expect("bus_plan", bus_plan(request, len, 5, table, 19, tries, sizeof tries - 1), -BUS_BAD_BUFFER);
    expect("bus_tries", bus_tries(tries) == 4, 1);
    for (unsigned i = 0; i < sizeof tries; i++)
        tries[i] = (uint8_t)(0x88 - 0x11 * i);
    expect("bus_tries", bus_tries(tries) == UINT64_C(0x1122334455667788), 1);
}

/* The words of a draft that stand behind each other from this place on. */
static void draft_words(const uint8_t *draft, size_t place, const uint16_t *words, size_t count)
{
    for (size_t i = 0; i < count; i++)
        expect("a draft's word", draft[2 * (place + i)] + 256 * draft[2 * (place + i) + 1], words[i]);
}

/* P1's draft with job 2 lifted and put into the other row, and each number of the four calls. */
static void drafts(const uint8_t *request, size_t len, const uint8_t *bad, size_t bad_len, const uint8_t *table, size_t used)
{
    static const uint16_t first[] = {20, 0, 0, 0, 1, 1, 0}, loads[] = {20, 10, 0};
    static const uint16_t up[] = {20, 0, 0, BUS_LIFTED, 1, 1, 0}, less[] = {10, 10, 0};
    static const uint16_t there[] = {20, 0, 0, 1, 1, 1, 0}, moved[] = {10, 20, 0};
    uint8_t draft[BUS_DRAFT_BYTES + 1], out[BUS_TABLE_BYTES];
    memset(draft, 0x5A, sizeof draft);
    expect("bus_draft_start", bus_draft_start(request, len, table, used - 1, draft, sizeof draft), -12);
    expect("bus_draft_start", bus_draft_start(bad, bad_len, table, used, draft, sizeof draft), -17);
    expect("bus_draft_start", bus_draft_start(request, len, table, used, draft, BUS_DRAFT_BYTES - 1), -BUS_BAD_BUFFER);
    for (size_t i = 0; i < sizeof draft; i++)
        expect("bus_draft_start, refused", draft[i], 0x5A);
    expect("bus_draft_start", bus_draft_start(request, len, table, used, draft, sizeof draft), 0);
    draft_words(draft, 0, first, 7);
    draft_words(draft, 129, loads, 3);
    expect("bus_draft_put", bus_draft_put(request, len, 2, 1, draft, BUS_DRAFT_BYTES), -26);
    expect("bus_draft_lift", bus_draft_lift(request, len, 5, draft, BUS_DRAFT_BYTES), -26);
    expect("bus_draft_lift", bus_draft_lift(request, len, 2, draft, BUS_DRAFT_BYTES - 1), -BUS_BAD_BUFFER);
    expect("bus_draft_lift", bus_draft_lift(bad, bad_len, 2, draft, BUS_DRAFT_BYTES), -17);
    draft_words(draft, 0, first, 7);
    expect("bus_draft_lift", bus_draft_lift(request, len, 2, draft, sizeof draft), 0);
    draft_words(draft, 0, up, 7);
    draft_words(draft, 129, less, 3);
    expect("bus_draft_lift", bus_draft_lift(request, len, 2, draft, BUS_DRAFT_BYTES), -26);
    expect("bus_draft_write", bus_draft_write(request, len, draft, BUS_DRAFT_BYTES, out, sizeof out), -26);
    expect("bus_draft_put", bus_draft_put(request, len, 2, 2, draft, BUS_DRAFT_BYTES), -27);
    expect("bus_draft_put", bus_draft_put(request, len, 2, BUS_LIFTED, draft, BUS_DRAFT_BYTES), -27);
    expect("bus_draft_put", bus_draft_put(request, len, 130, 1, draft, BUS_DRAFT_BYTES), -26);
    expect("bus_draft_put", bus_draft_put(bad, bad_len, 2, 1, draft, BUS_DRAFT_BYTES), -17);
    expect("bus_draft_put", bus_draft_put(request, len, 2, 1, draft, sizeof draft), 0);
    draft_words(draft, 0, there, 7);
    draft_words(draft, 129, moved, 3);
    /* The window of job 3 is frame 1 alone; it is put back before job 2 is. */
    expect("bus_draft_lift", bus_draft_lift(request, len, 3, draft, sizeof draft), 0);
    expect("bus_draft_put", bus_draft_put(request, len, 3, 0, draft, sizeof draft), -27);
    expect("bus_draft_lift", bus_draft_lift(request, len, 2, draft, sizeof draft), 0);
    expect("bus_draft_put", bus_draft_put(request, len, 3, 1, draft, sizeof draft), 0);
    expect("bus_draft_put", bus_draft_put(request, len, 2, 1, draft, sizeof draft), 0);
    draft_words(draft, 0, there, 7);
    expect("bus_draft_write", bus_draft_write(request, len, draft, sizeof draft, out, used - 1), -11);
    expect("bus_draft_write", bus_draft_write(bad, bad_len, draft, sizeof draft, out, used), -17);
    expect("bus_draft_write", bus_draft_write(request, len, draft, BUS_DRAFT_BYTES - 1, out, used), -BUS_BAD_BUFFER);
    expect("bus_draft_write", bus_draft_write(request, len, draft, sizeof draft, out, sizeof out), (int32_t)used);
    expect("bus_check", bus_check(request, len, out, used), 0);
    expect("bus_draft_write, another table", memcmp(table, out, used) != 0, 1);
    expect("the byte behind a draft", draft[BUS_DRAFT_BYTES], 0x5A);
    draft[258] = 11;
    expect("bus_draft_lift", bus_draft_lift(request, len, 2, draft, sizeof draft), -26);
    expect("bus_draft_write", bus_draft_write(request, len, draft, sizeof draft, out, 0), -26);
}

/* P1 with a silent tick has a plan of no frame length: with one job lifted, that job fits into no row. */
static void full_row(const uint8_t *silent, size_t len)
{
    uint8_t draft[BUS_DRAFT_BYTES];
    memset(draft, 0, sizeof draft);
    draft[0] = 20;
    memset(draft + 6, 0xFF, 2);
    draft[8] = 1;
    draft[10] = 1;
    draft[258] = 12;
    draft[260] = 12;
    expect("bus_draft_put", bus_draft_put(silent, len, 2, 0, draft, sizeof draft), -28);
    expect("bus_draft_put", bus_draft_put(silent, len, 2, 1, draft, sizeof draft), -28);
    expect("bus_draft_put", bus_draft_put(silent, len, 2, 2, draft, sizeof draft), -27);
    expect("bus_draft_lift", bus_draft_lift(silent, len, 0, draft, sizeof draft), 0);
    expect("bus_draft_put", bus_draft_put(silent, len, 2, 0, draft, sizeof draft), 0);
}

/* Counts phases: how many lead to a table, to 9, to 10 and to 23, and nothing else written. */
static void phases(const uint8_t *request, size_t len, uint8_t task, uint64_t allowance, int tables, int nines, int tens, int ended)
{
    uint8_t counts[BUS_PHASES_BYTES + 1];
    memset(counts, 0x5A, sizeof counts);
    expect("bus_phases", bus_phases(request, len, task, allowance, counts, sizeof counts), 0);
    expect("bus_phases, tables", counts[0] + 256 * counts[1], tables);
    expect("bus_phases, 9", counts[2] + 256 * counts[3], nines);
    expect("bus_phases, 10", counts[4] + 256 * counts[5], tens);
    expect("bus_phases, 23", counts[6] + 256 * counts[7], ended);
    expect("bus_phases, behind the counts", counts[BUS_PHASES_BYTES], 0x5A);
}

/* Counts no phases: this refusal, and nothing written. */
static void no_phases(const uint8_t *request, size_t len, uint8_t task, size_t room, int32_t answer)
{
    uint8_t counts[BUS_PHASES_BYTES];
    memset(counts, 0x5A, sizeof counts);
    expect("bus_phases", bus_phases(request, len, task, UINT64_MAX, counts, room), answer);
    for (size_t i = 0; i < sizeof counts; i++)
        expect("bus_phases, refused", counts[i], 0x5A);
}

/* P1 has a table with every phase of every task, and needs 5 tries or more. With a silent tick frames of 20 ticks are the only ones, too
 * short for the three transfers and too long for a task of period 20 that does not begin with one. P12 has 10,000 phases. */
static void shifts(const uint8_t *request, size_t len, const uint8_t *silent, size_t silent_len)
{
    static const uint8_t p12[] = {0x01, 0x01, 0x00, 0x10, 0x27, 0x10, 0x27, 0x00, 0x00, 0x00};
    phases(request, len, 0, UINT64_MAX, 20, 0, 0, 0);
    phases(request, len, 2, UINT64_MAX, 40, 0, 0, 0);
    phases(request, len, 2, 4, 0, 0, 0, 40);
    phases(silent, silent_len, 0, UINT64_MAX, 0, 19, 1, 0);
    phases(silent, silent_len, 0, 0, 0, 19, 0, 1);
    phases(silent, silent_len, 2, UINT64_MAX, 0, 0, 40, 0);
    phases(p12, sizeof p12, 0, 1, 10000, 0, 0, 0);
    phases(p12, sizeof p12, 0, 0, 0, 0, 0, 10000);
    no_phases(request, len, 3, BUS_PHASES_BYTES, -16);
    no_phases(request, len, 255, BUS_PHASES_BYTES, -16);
    no_phases(request, len - 1, 3, BUS_PHASES_BYTES, -1);
    no_phases(request, len, 0, BUS_PHASES_BYTES - 1, -BUS_BAD_BUFFER);
    no_phases(request, len - 1, 3, 0, -BUS_BAD_BUFFER);
}

/* The eight registers, from the first. */
static void registers(const uint8_t *timer, const int32_t *bytes)
{
    for (uint8_t address = 0; address < 8; address++)
        expect("bus_timer_read", bus_timer_read(address, timer, BUS_TIMER_BYTES), bytes[address]);
}

/* P1's first frames by the timer, a miss and an overrun, and each number of the seven calls. */
static void timers(const uint8_t *request, size_t len, const uint8_t *bad, size_t bad_len, const uint8_t *table, size_t used)
{
    static const int32_t none[8] = {0}, due[8] = {3, 1}, moved[8] = {3, 0, 1};
    static const int32_t marked[8] = {3, 7, 1, 0, 1}, cleared[8] = {1, 1, 1, 0, 1};
    uint8_t timer[BUS_TIMER_BYTES + 1], entries[BUS_ENTRIES_BYTES];
    memset(timer, 0x5A, sizeof timer);
    expect("bus_timer_fresh", bus_timer_fresh(timer, BUS_TIMER_BYTES - 1), -BUS_BAD_BUFFER);
    expect("bus_timer_fresh, refused", timer[0], 0x5A);
    expect("bus_timer_fresh", bus_timer_fresh(timer, sizeof timer), 0);
    registers(timer, none);
    expect("bus_timer_event", bus_timer_event(timer, sizeof timer), 0);
    registers(timer, none);
    expect("bus_timer_write", bus_timer_write(BUS_TIMER_CONTROL, 0xFF, timer, sizeof timer), 0);
    expect("bus_timer_line", bus_timer_line(timer, sizeof timer), 0);
    expect("bus_timer_event", bus_timer_event(timer, sizeof timer), 0);
    registers(timer, due);
    expect("bus_timer_line", bus_timer_line(timer, sizeof timer), 1);
    memset(entries, 0x5A, sizeof entries);
    expect("bus_timer_serve", bus_timer_serve(table, used - 1, timer, sizeof timer, entries, sizeof entries), -12);
    expect("bus_timer_serve", bus_timer_serve(table, used, timer, sizeof timer, entries, sizeof entries - 1), -BUS_BAD_BUFFER);
    registers(timer, due);
    expect("bus_timer_serve, refused", entries[0], 0x5A);
    expect("bus_timer_serve", bus_timer_serve(table, used, timer, sizeof timer, entries, sizeof entries), 3);
    expect("bus_timer_serve, entries", entries[2] == 1 && entries[4] == 2 && entries[6] == 0, 1);
    registers(timer, moved);
    memset(entries, 0x5A, sizeof entries);
    expect("bus_timer_serve", bus_timer_serve(table, 0, timer, sizeof timer, entries, sizeof entries), 0);
    expect("bus_timer_serve, none due", entries[0], 0x5A);
    expect("bus_timer_report", bus_timer_report(request, len, 2, 10, timer, sizeof timer), 0);
    registers(timer, moved);
    expect("bus_timer_report", bus_timer_report(request, len, 2, 11, timer, sizeof timer), 0);
    expect("bus_timer_report", bus_timer_report(request, len, 3, 11, timer, sizeof timer), -16);
    expect("bus_timer_report", bus_timer_report(bad, bad_len, 2, 11, timer, sizeof timer), -17);
    expect("bus_overruns", bus_overruns(timer, 2), 1);
    expect("bus_timer_event", bus_timer_event(timer, sizeof timer), 0);
    expect("bus_timer_event", bus_timer_event(timer, sizeof timer), 0);
    registers(timer, marked);
    expect("bus_timer_write", bus_timer_write(BUS_TIMER_STATUS, 0xFF, timer, sizeof timer), 0);
    expect("bus_timer_write", bus_timer_write(BUS_TIMER_CONTROL, BUS_TIMER_RUN, timer, sizeof timer), 0);
    expect("bus_timer_write", bus_timer_write(BUS_TIMER_ROW, 7, timer, sizeof timer), 0);
    expect("bus_timer_write", bus_timer_write(8, 7, timer, sizeof timer), -29);
    expect("bus_timer_read", bus_timer_read(8, timer, sizeof timer), -29);
    registers(timer, cleared);
    expect("bus_timer_line", bus_timer_line(timer, sizeof timer), 0);
    expect("the byte behind a timer", timer[BUS_TIMER_BYTES], 0x5A);
    timer[0] = 2;
    expect("bus_timer_serve", bus_timer_serve(table, used, timer, sizeof timer, entries, sizeof entries), -15);
    timer[64] = 4;
    expect("bus_timer_read", bus_timer_read(8, timer, sizeof timer), -BUS_BAD_BUFFER);
    expect("bus_timer_write", bus_timer_write(8, 0, timer, sizeof timer), -BUS_BAD_BUFFER);
    expect("bus_timer_event", bus_timer_event(timer, sizeof timer), -BUS_BAD_BUFFER);
    expect("bus_timer_serve", bus_timer_serve(table, 0, timer, sizeof timer, entries, sizeof entries), -BUS_BAD_BUFFER);
    expect("bus_timer_report", bus_timer_report(request, len, 3, 11, timer, sizeof timer), -BUS_BAD_BUFFER);
    expect("bus_timer_line", bus_timer_line(timer, sizeof timer), -BUS_BAD_BUFFER);
}

/* A command and its reply in one frame of 4 ticks: (1,4,4,0) twice, pair 0, 1. */
static const uint8_t switched[] = {
    0x02, 0x01, 0x00, 0x04, 0x00, 0x04, 0x00, 0x00, 0x00, 0x01, 0x00,
    0x04, 0x00, 0x04, 0x00, 0x00, 0x00, 0x01, 0x00, 0x01,
};
static const uint8_t switched_table[] = {0x02, 0x04, 0x00, 0x04, 0x00, 0x01, 0x00, 0x02, 0x00, 0x00, 0x01, 0x00};

/* Serves a frame for a pair, with so much room for its entries: this answer, and both entries in it. */
static void serve(uint8_t a, uint8_t b, uint8_t lost, uint8_t *link, size_t room, int32_t answer)
{
    uint8_t entries[BUS_ENTRIES_BYTES];
    memset(entries, 0x5A, sizeof entries);
    expect("bus_heater_serve",
           bus_heater_serve(switched, sizeof switched, switched_table, sizeof switched_table, a, b, lost, link,
                            BUS_HEATER_BYTES, entries, room), answer);
    expect("bus_heater_serve, entries", entries[2], answer < 0 ? 0x5A : 1);
    expect("bus_heater_serve, unused entries", entries[31], answer < 0 ? 0x5A : 0);
}

/* A reply is lost and the command sent again; then a command is lost, both, and nothing. Refusals leave what was told. */
static void heater(const uint8_t *other, size_t other_len)
{
    static const uint8_t frames[][3] = {{2, 1, 0}, {2, 0, 0}, {0, 0, 1}, {1, 0, 0}, {3, 0, 0}, {252, 1, 1}};
    uint8_t link[BUS_HEATER_BYTES + 1], entries[BUS_ENTRIES_BYTES];
    memset(link, 0x5A, sizeof link);
    expect("bus_heater_fresh", bus_heater_fresh(link, BUS_HEATER_BYTES - 1), -BUS_BAD_BUFFER);
    expect("bus_heater_fresh, refused", link[64], 0x5A);
    expect("bus_heater_fresh", bus_heater_fresh(link, sizeof link), 0);
    expect("bus_heater_fresh, bits", link[64] == 0 && link[65] == 1 && link[71] == 0, 1);
    expect("bus_heater_fresh, behind", link[BUS_HEATER_BYTES], 0x5A);
    for (size_t i = 0; i < sizeof frames / sizeof *frames; i++) {
        serve(0, 1, frames[i][0], link, sizeof entries, 2);
        expect("bus_heater_toggled", bus_heater_toggled(link), frames[i][1]);
        expect("bus_heater_answered", bus_heater_answered(link), frames[i][2]);
    }
    serve(1, 0, 0, link, sizeof entries, -30);
    serve(0, 1, 0, link, sizeof entries - 1, -BUS_BAD_BUFFER);
    expect("bus_heater_serve",
           bus_heater_serve(switched, sizeof switched, other, other_len, 1, 0, 0, link, sizeof link, entries,
                            sizeof entries), -13);
    expect("bus_heater_serve, refused", bus_heater_toggled(link) && bus_heater_answered(link), 1);
    expect("bus_report", bus_report(switched, sizeof switched, 1, 9, link, sizeof link), 0);
    expect("bus_overruns", bus_overruns(link, 1), 1);
    serve(0, 1, 0, link, sizeof entries, 2);
    expect("bus_overruns", bus_overruns(link, 1), 1);
    link[0] = 1;
    serve(0, 1, 0, link, sizeof entries, -15);
    link[67] = 2;
    serve(0, 1, 0, link, sizeof entries, -BUS_BAD_BUFFER);
    expect("bus_heater_serve, behind", link[BUS_HEATER_BYTES], 0x5A);
}

/* The jobs of P1 in planning order: task, job, release, due and frame; and the lists that are too short. */
static void timeline(const uint8_t *request, size_t len, const uint8_t *bad, size_t bad_len, const uint8_t *table,
                     size_t table_len)
{
    static const uint8_t jobs[5][BUS_RECORD_BYTES] = {
        {0, 0, 0, 0, 20, 0, 0, 0}, {1, 0, 0, 0, 20, 0, 0, 0}, {2, 0, 0, 0, 40, 0, 0, 0},
        {0, 1, 20, 0, 40, 0, 1, 0}, {1, 1, 20, 0, 40, 0, 1, 0},
    };
    uint8_t records[BUS_RECORDS_BYTES];
    memset(records, 0x5A, sizeof records);
    expect("bus_timeline", bus_timeline(request, len, table, table_len, records, sizeof jobs - 1), -11);
    expect("bus_timeline", bus_timeline(request, len, table, table_len - 1, records, 0), -12);
    expect("bus_timeline", bus_timeline(bad, bad_len, table, table_len, records, sizeof records), -17);
    for (size_t i = 0; i < sizeof records; i++)
        expect("bus_timeline, refused", records[i], 0x5A);
    expect("bus_timeline", bus_timeline(request, len, table, table_len, records, sizeof jobs), 5);
    expect("bus_timeline", bus_timeline(request, len, table, table_len, records, sizeof records), 5);
    expect("bus_timeline, records", memcmp(records, jobs, sizeof jobs), 0);
    for (size_t i = sizeof jobs; i < sizeof records; i++)
        expect("bus_timeline, behind", records[i], 0x5A);
}

/* The sizes of a table beside the library: f is a draft's, F the first row that is refused, and 2H the last tick that may be asked for. */
static void sizes(const uint8_t *request, size_t len, const uint8_t *table, size_t used)
{
    uint8_t draft[BUS_DRAFT_BYTES], state[BUS_STATE_BYTES], entries[BUS_ENTRIES_BYTES];
    uint32_t frame = bus_table_frame(table), cycle = bus_table_cycle(table), rows = bus_table_rows(table);
    expect("bus_draft_start", bus_draft_start(request, len, table, used, draft, sizeof draft), 0);
    expect("bus_table_frame", (int32_t)frame, draft[0] + 256 * draft[1]);
    expect("bus_table_cycle", bus_one_off(request, len, table, used, 1, 2 * cycle, 2 * cycle), -BUS_NO_TIME);
    expect("bus_table_cycle", bus_one_off(request, len, table, used, 1, 2 * cycle, 2 * cycle + 1), -BUS_BAD_ONE_OFF);
    memset(state, 0, sizeof state);
    state[0] = (uint8_t)((rows - 1) % 256);
    state[1] = (uint8_t)((rows - 1) / 256);
    expect("bus_table_rows", bus_next_frame(table, used, state, sizeof state, entries, sizeof entries) >= 0, 1);
    state[0] = (uint8_t)(rows % 256);
    state[1] = (uint8_t)(rows / 256);
    expect("bus_table_rows", bus_next_frame(table, used, state, sizeof state, entries, sizeof entries), -BUS_ROW_TOO_HIGH);
    expect("the sizes of a table", (int32_t)(rows * frame), (int32_t)cycle);
}

/* The frame of a job in the records of a timeline, or -1. */
static int32_t frame_of(const uint8_t *records, int32_t count, uint8_t task, uint8_t job)
{
    for (const uint8_t *record = records; record < records + 8 * count; record += 8)
        if (record[0] == task && record[1] == job)
            return record[6] + 256 * record[7];
    return -1;
}

/* Task, job and carry of the entries of a row, which is not in the first cycle: their frames are those of the timeline. Answers their number. */
static int32_t row_entries(const uint8_t *table, size_t used, uint16_t row, const uint8_t *records, int32_t jobs)
{
    uint8_t state[BUS_STATE_BYTES], entries[BUS_ENTRIES_BYTES];
    memset(state, 0, sizeof state);
    state[0] = (uint8_t)(row % 256);
    state[1] = (uint8_t)(row / 256);
    int32_t count = bus_next_frame(table, used, state, sizeof state, entries, sizeof entries);
    for (unsigned i = 0; (int32_t)i < count; i++) {
        int32_t frame = row + bus_entry_carried(entries, i) * bus_table_rows(table);
        expect("an entry", frame_of(records, jobs, bus_entry_task(entries, i), bus_entry_job(entries, i)), frame);
    }
    return count;
}

/* Plans a request and looks at all that the accessors say of its table; so many jobs are carried. */
static void accessors(const uint8_t *request, size_t len, int32_t carried)
{
    uint8_t table[BUS_TABLE_BYTES], tries[BUS_TRIES_BYTES], records[BUS_RECORDS_BYTES];
    int32_t length = bus_plan(request, len, UINT64_MAX, table, sizeof table, tries, sizeof tries);
    expect("bus_plan", length > 0, 1);
    if (length <= 0)
        return;
    sizes(request, len, table, (size_t)length);
    int32_t jobs = bus_timeline(request, len, table, (size_t)length, records, sizeof records), served = 0;
    for (uint16_t row = 0; row < bus_table_rows(table); row++)
        served += row_entries(table, (size_t)length, row, records, jobs);
    expect("the entries of a table", served, jobs);
    for (int32_t i = 0; i < jobs; i++)
        carried -= records[8 * i + 6] + 256 * records[8 * i + 7] >= bus_table_rows(table);
    expect("carried jobs", carried, 0);
}

/* P7 has a carried job, P9 256 rows, P12 a frame of 10,000 ticks; the last request has 128 jobs. */
static void all_accessors(const uint8_t *request, size_t len)
{
    static const uint8_t p7[] = {0x01, 0x02, 0x00, 0x0A, 0x00, 0x09, 0x00, 0x06, 0x00, 0x00};
    static const uint8_t p9[] = {0x01, 0x01, 0x00, 0x00, 0x01, 0x01, 0x00, 0x00, 0x00, 0x00};
    static const uint8_t p12[] = {0x01, 0x01, 0x00, 0x10, 0x27, 0x10, 0x27, 0x00, 0x00, 0x00};
    static const uint8_t many[] = {0x02, 0x01, 0x00, 0x02, 0x00, 0x02, 0x00, 0x01, 0x00, 0x01, 0x00, 0xFE, 0x00, 0xFE, 0x00, 0x00, 0x00, 0x00};
    accessors(request, len, 0);
    accessors(p7, sizeof p7, 1);
    accessors(p9, sizeof p9, 0);
    accessors(p12, sizeof p12, 0);
    accessors(many, sizeof many, 0);
    expect("BUS_VERSION", BUS_VERSION[0], '1');
    expect("enum bus_refusal", BUS_NO_SUCH_PAIR, 30);
}

int main(void)
{
    static const uint8_t request[] = {
        0x03, 0x05, 0x00, 0x14, 0x00, 0x14, 0x00, 0x00, 0x00, 0x05, 0x00, 0x14, 0x00,
        0x14, 0x00, 0x00, 0x00, 0x0A, 0x00, 0x28, 0x00, 0x28, 0x00, 0x00, 0x00, 0x00,
    };
    /* P1 with a third section of one silent tick, which has no plan, and one of 16, which is bad. */
    uint8_t silent[sizeof request + 2], bad[sizeof request + 2];
    uint8_t table[BUS_TABLE_BYTES], again[BUS_TABLE_BYTES];
    uint8_t state[BUS_STATE_BYTES], entries[BUS_ENTRIES_BYTES];
    uint8_t tries[BUS_TRIES_BYTES];
    int32_t length = bus_plan(request, sizeof request, 10000000, table, sizeof table, tries, sizeof tries);
    expect("bus_plan", length, 19);
    if (faults)
        return 1;
    size_t used = (size_t)length;
    expect("bus_check", bus_check(request, sizeof request, table, used), 0);
    expect("bus_rewrite", bus_rewrite(request, sizeof request, table, used, again, used), 19);
    expect("memcmp", memcmp(table, again, used), 0);
    expect("bus_fresh", bus_fresh(state, sizeof state), 0);
    expect("bus_next_frame", bus_next_frame(table, used, state, sizeof state, entries, sizeof entries), 3);
    expect("bus_report", bus_report(request, sizeof request, 2, 11, state, sizeof state), 0);
    expect("bus_report", bus_report(request, sizeof request, 3, 11, state, sizeof state), -16);
    for (int32_t i = 0; i < 257; i++)
        expect("bus_report", bus_report(request, sizeof request, 1, 6, state, sizeof state), 0);
    for (unsigned task = 0; task <= BUS_TASKS; task++)
        expect("bus_overruns", bus_overruns(state, task), task == 1 ? 257 : task == 2);
    expect("bus_next_frame", bus_next_frame(table, used, state, sizeof state, entries, sizeof entries), 2);
    expect("bus_overruns", bus_overruns(state, 1), 257);
    expect("bus_fresh", bus_fresh(state, sizeof state - 1), -BUS_BAD_BUFFER);
    memcpy(silent, request, sizeof request);
    silent[sizeof request] = 1;
    silent[sizeof request + 1] = 1;
    memcpy(bad, silent, sizeof bad);
    bad[sizeof request + 1] = 16;
    limits(request, sizeof request, silent, sizeof silent);
    shifts(request, sizeof request, silent, sizeof silent);
    no_phases(bad, sizeof bad, 3, BUS_PHASES_BYTES, -17);
    plan(silent, sizeof silent, UINT64_MAX, -10, 6);
    expect("bus_check", bus_check(silent, sizeof silent, table, used), -14);
    plan(bad, sizeof bad, UINT64_MAX, -17, 0);
    expect("bus_check", bus_check(bad, sizeof bad, table, used), -17);
    expect("bus_rewrite", bus_rewrite(bad, sizeof bad, table, used, again, used), -17);
    expect("bus_report", bus_report(bad, sizeof bad, 2, 11, state, sizeof state), -17);
    uint8_t file[BUS_REQUEST_BYTES];
    expect("bus_join", bus_join(request, sizeof request, request, sizeof request, file, sizeof file), 50);
    expect("bus_join", file[0], 6);
    plan(file, 50, UINT64_MAX, -10, 148);
    expect("bus_join", bus_join(request, sizeof request, silent, sizeof silent, file, sizeof file), -20);
    expect("bus_join", bus_join(request, sizeof request, bad, sizeof bad, file, sizeof file), -17);
    expect("bus_join", bus_join(request, sizeof request, request, sizeof request, file, 49), -11);
    expect("bus_cut", bus_cut(request, sizeof request, 2, 4, file, sizeof file), 36);
    expect("bus_cut, tasks", file[0], 4);
    expect("bus_cut, first piece", file[17], 4);
    expect("bus_cut, second piece", file[25], 6);
    expect("bus_cut, pair", file[34] == 2 && file[35] == 3, 1);
    plan(file, 36, UINT64_MAX, 21, 6);
    cut(request, sizeof request, 2, 9, 36, 36);
    cut(request, sizeof request, 2, 9, 35, -11);
    cut(silent, sizeof silent, 0, 1, BUS_REQUEST_BYTES, 38);
    cut(request, sizeof request, 3, 1, BUS_REQUEST_BYTES, -24);
    cut(request, sizeof request, 255, 1, BUS_REQUEST_BYTES, -24);
    cut(request, sizeof request, 2, 0, BUS_REQUEST_BYTES, -24);
    cut(request, sizeof request, 2, 10, BUS_REQUEST_BYTES, -24);
    cut(request, sizeof request, 2, 65535, BUS_REQUEST_BYTES, -24);
    cut(bad, sizeof bad, 2, 10, BUS_REQUEST_BYTES, -17);
    expect("bus_one_off", bus_one_off(request, sizeof request, table, used, 10, 0, 80), 1);
    expect("bus_one_off", bus_one_off(request, sizeof request, table, used, 10, 21, 80), 3);
    expect("bus_one_off", bus_one_off(request, sizeof request, table, used, 11, 0, 80), -22);
    expect("bus_one_off", bus_one_off(request, sizeof request, table, used, 4294967295u, 0, 80), -22);
    expect("bus_one_off", bus_one_off(request, sizeof request, table, used, 10, 0, 81), -21);
    expect("bus_one_off", bus_one_off(silent, sizeof silent, table, used, 10, 0, 81), -14);
    expect("bus_one_off", bus_one_off(bad, sizeof bad, table, used, 10, 0, 80), -17);
    drafts(request, sizeof request, bad, sizeof bad, table, used);
    full_row(silent, sizeof silent);
    timers(request, sizeof request, bad, sizeof bad, table, used);
    heater(table, used);
    timeline(request, sizeof request, bad, sizeof bad, table, used);
    all_accessors(request, sizeof request);
    return faults != 0;
}

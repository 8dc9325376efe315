/*
$compared
 *
 * The bus controller of $title, written by `bus c` of Wethlak $version. Do not edit it: write it anew.
 */
#include "${name}_bus.h"

$table
const uint16_t ${name}_length[${NAME}_TASKS] = {$lengths};

/* Where the rows begin, behind the sizes; the bit of a job byte that says carry. */
#define ${NAME}_FIRST_ROW 7u
#define ${NAME}_CARRY 0x80u

#define ${NAME}_MOST_OVERRUNS 65535u

/* The place behind a row of the table, given that of its number of entries. */
static uint16_t ${name}_behind(uint16_t at)
{
    return (uint16_t)(at + 1u + 2u * ${name}_table[at]);
}

/* The place of a row. */
static uint16_t ${name}_place(uint16_t row)
{
    uint16_t at = ${NAME}_FIRST_ROW;
    for (; row > 0u; row--)
        at = ${name}_behind(at);
    return at;
}

static void ${name}_clear(${name}_entry entries[${NAME}_PLACES])
{
    uint8_t i;
    for (i = 0; i < ${NAME}_PLACES; i++) {
        entries[i].task = 0;
        entries[i].job = 0;
    }
}

/* Fills the first places with the entries of the row at a place, and answers their number. */
static uint8_t ${name}_fill(uint16_t at, uint8_t first, ${name}_entry entries[${NAME}_PLACES])
{
    const uint16_t end = ${name}_behind(at);
    uint8_t count = 0;
    for (at = (uint16_t)(at + 1u); at < end; at = (uint16_t)(at + 2u)) {
        const uint8_t job = ${name}_table[at + 1u];
        if (first != 0u && (job & ${NAME}_CARRY) != 0u)
            continue;
        entries[count].task = ${name}_table[at];
        entries[count].job = job;
        count++;
    }
    return count;
}

/* From the last row the first cycle ends, and row 0 is next. */
static void ${name}_move_on(${name}_state *state)
{
    if (state->row == ${NAME}_ROWS - 1u) {
        state->row = 0;
        state->first = 0;
    } else {
        state->row++;
    }
}

void ${name}_fresh(${name}_state *state)
{
    uint8_t task;
    state->row = 0;
    state->first = 1;
    for (task = 0; task < ${NAME}_TASKS; task++)
        state->overruns[task] = 0;
}

int ${name}_next_frame(${name}_state *state, ${name}_entry entries[${NAME}_PLACES])
{
    uint8_t count;
    if (state->first > 1u)
        return -${NAME}_BAD_STATE;
    if (state->row >= ${NAME}_ROWS)
        return -${NAME}_ROW_TOO_HIGH;
    ${name}_clear(entries);
    count = ${name}_fill(${name}_place(state->row), state->first, entries);
    ${name}_move_on(state);
    return count;
}

int ${name}_report(${name}_state *state, uint8_t task, uint32_t ticks)
{
    if (state->first > 1u)
        return -${NAME}_BAD_STATE;
    if (task >= ${NAME}_TASKS)
        return -${NAME}_NO_SUCH_TASK;
    if (ticks > ${name}_length[task] && state->overruns[task] < ${NAME}_MOST_OVERRUNS)
        state->overruns[task]++;
    return 0;
}

/* The overruns of all tasks, as registers 4 and 5 show them. The sum itself needs more than 16 bits. */
static uint16_t ${name}_sum(const ${name}_state *state)
{
    uint32_t sum = 0;
    uint8_t task;
    for (task = 0; task < ${NAME}_TASKS; task++)
        sum += state->overruns[task];
    return sum < ${NAME}_MOST_OVERRUNS ? (uint16_t)sum : (uint16_t)${NAME}_MOST_OVERRUNS;
}

/* Whether no bit is set but those that have a name. */
static int ${name}_is_timer(const ${name}_timer *timer)
{
    return timer->state.first <= 1u && timer->control <= 3u && timer->status <= 7u;
}

void ${name}_timer_fresh(${name}_timer *timer)
{
    ${name}_fresh(&timer->state);
    timer->control = 0;
    timer->status = 0;
}

int ${name}_timer_read(const ${name}_timer *timer, uint8_t address)
{
    if (!${name}_is_timer(timer))
        return -${NAME}_BAD_STATE;
    switch (address) {
    case ${NAME}_TIMER_CONTROL:
        return timer->control;
    case ${NAME}_TIMER_STATUS:
        return timer->status;
    case ${NAME}_TIMER_ROW:
        return (int)(timer->state.row % 256u);
    case ${NAME}_TIMER_ROW + 1u:
        return (int)(timer->state.row / 256u);
    case ${NAME}_TIMER_SUM:
        return (int)(${name}_sum(&timer->state) % 256u);
    case ${NAME}_TIMER_SUM + 1u:
        return (int)(${name}_sum(&timer->state) / 256u);
    case 6:
    case 7:
        return 0;
    default:
        return -${NAME}_NO_REGISTER;
    }
}

int ${name}_timer_write(${name}_timer *timer, uint8_t address, uint8_t value)
{
    if (!${name}_is_timer(timer))
        return -${NAME}_BAD_STATE;
    if (address > 7u)
        return -${NAME}_NO_REGISTER;
    if (address == ${NAME}_TIMER_CONTROL)
        timer->control = (uint8_t)(value & (${NAME}_TIMER_RUN | ${NAME}_TIMER_ENABLE));
    if (address == ${NAME}_TIMER_STATUS)
        timer->status = (uint8_t)(timer->status & ~(value & (${NAME}_TIMER_OVERRUN | ${NAME}_TIMER_MISSED)));
    return 0;
}

int ${name}_timer_event(${name}_timer *timer)
{
    if (!${name}_is_timer(timer))
        return -${NAME}_BAD_STATE;
    if ((timer->control & ${NAME}_TIMER_RUN) == 0u)
        return 0;
    if ((timer->status & ${NAME}_TIMER_DUE) != 0u)
        timer->status = (uint8_t)(timer->status | ${NAME}_TIMER_MISSED);
    timer->status = (uint8_t)(timer->status | ${NAME}_TIMER_DUE);
    return 0;
}

int ${name}_timer_serve(${name}_timer *timer, ${name}_entry entries[${NAME}_PLACES])
{
    int count;
    if (!${name}_is_timer(timer))
        return -${NAME}_BAD_STATE;
    if ((timer->status & ${NAME}_TIMER_DUE) == 0u)
        return 0;
    count = ${name}_next_frame(&timer->state, entries);
    if (count >= 0)
        timer->status = (uint8_t)(timer->status & ~${NAME}_TIMER_DUE);
    return count;
}

int ${name}_timer_report(${name}_timer *timer, uint8_t task, uint32_t ticks)
{
    int answer;
    if (!${name}_is_timer(timer))
        return -${NAME}_BAD_STATE;
    answer = ${name}_report(&timer->state, task, ticks);
    if (answer == 0 && ticks > ${name}_length[task])
        timer->status = (uint8_t)(timer->status | ${NAME}_TIMER_OVERRUN);
    return answer;
}

int ${name}_timer_line(const ${name}_timer *timer)
{
    if (!${name}_is_timer(timer))
        return -${NAME}_BAD_STATE;
    return (timer->control & ${NAME}_TIMER_ENABLE) != 0u && timer->status != 0u;
}

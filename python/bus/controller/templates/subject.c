/* The calls of ${name}_bus.h over the library's bytes. */
#include "${name}_bus.h"
#include "states.h"

#include <string.h>

static const uint8_t ${name}_subject_request[] = {$request_bytes};
static const uint8_t ${name}_subject_table[] = {$table_bytes};
static const uint16_t ${name}_subject_enumerators[] = {$enumerators};

static void ${name}_subject_take(${name}_timer *timer, const uint8_t *bytes)
{
    size_t task;
    timer->state.row = word_at(bytes, 0);
    timer->state.first = bytes[2];
    timer->control = bytes[64];
    timer->status = bytes[65];
    for (task = 0; task < ${NAME}_TASKS; task++)
        timer->state.overruns[task] = word_at(bytes, 3u + 2u * task);
}

static void ${name}_subject_give(const ${name}_timer *timer, uint8_t *bytes)
{
    size_t task;
    put_word(bytes, 0, timer->state.row);
    bytes[2] = timer->state.first;
    bytes[64] = timer->control;
    bytes[65] = timer->status;
    for (task = 0; task < ${NAME}_TASKS; task++)
        put_word(bytes, 3u + 2u * task, timer->state.overruns[task]);
}

static int ${name}_subject_answer(const struct call *call, ${name}_timer *timer, ${name}_entry *entries)
{
    switch (call->kind) {
    case FRESH:
        ${name}_fresh(&timer->state);
        return 0;
    case NEXT_FRAME:
        return ${name}_next_frame(&timer->state, entries);
    case REPORT:
        return ${name}_report(&timer->state, call->number, call->ticks);
    case TIMER_FRESH:
        ${name}_timer_fresh(timer);
        return 0;
    case TIMER_READ:
        return ${name}_timer_read(timer, call->number);
    case TIMER_WRITE:
        return ${name}_timer_write(timer, call->number, call->value);
    case TIMER_EVENT:
        return ${name}_timer_event(timer);
    case TIMER_SERVE:
        return ${name}_timer_serve(timer, entries);
    case TIMER_REPORT:
        return ${name}_timer_report(timer, call->number, call->ticks);
    case TIMER_LINE:
        return ${name}_timer_line(timer);
    default:
        return -1;
    }
}

/* A fresh state or timer has no bytes but those of its struct; the library sets the others to 0. */
static int32_t ${name}_subject_call(const struct call *call, uint8_t *bytes, uint8_t *entries)
{
    ${name}_entry places[${NAME}_PLACES];
    ${name}_timer timer;
    int32_t answer;
    size_t i;
    ${name}_subject_take(&timer, bytes);
    for (i = 0; i < ${NAME}_PLACES; i++) {
        places[i].task = entries[2 * i];
        places[i].job = entries[2 * i + 1];
    }
    answer = ${name}_subject_answer(call, &timer, places);
    if (call->kind == FRESH)
        memset(bytes, 0, STATE_BYTES);
    if (call->kind == TIMER_FRESH)
        memset(bytes, 0, TIMER_BYTES);
    ${name}_subject_give(&timer, bytes);
    for (i = 0; i < ${NAME}_PLACES; i++) {
        entries[2 * i] = places[i].task;
        entries[2 * i + 1] = places[i].job;
    }
    return answer;
}

const struct subject ${name}_subject = {
    "$name",
    ${name}_subject_request,
    ${name}_subject_table,
    sizeof ${name}_subject_request,
    sizeof ${name}_subject_table,
    ${name}_table,
    sizeof ${name}_table,
    ${name}_length,
    ${name}_subject_enumerators,
    ${NAME}_FRAME,
    ${NAME}_CYCLE,
    ${NAME}_ROWS,
    ${NAME}_TASKS,
    ${NAME}_SILENT,
    ${name}_subject_call,
};

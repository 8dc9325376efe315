/* The proved library's answer to a call, over the bytes of states.h. */
#ifndef LIBRARY_H
#define LIBRARY_H

#include "prototypes.h"
#include "states.h"

#include <stdlib.h>

static inline int32_t library(const struct subject *subject, const struct call *call, uint8_t *timer, uint8_t *entries)
{
    switch (call->kind) {
    case FRESH:
        return bus_fresh(timer, STATE_BYTES);
    case NEXT_FRAME:
        return bus_next_frame(subject->table, subject->table_len, timer, STATE_BYTES, entries, ENTRIES_BYTES);
    case REPORT:
        return bus_report(subject->request, subject->request_len, call->number, call->ticks, timer, STATE_BYTES);
    case TIMER_FRESH:
        return bus_timer_fresh(timer, TIMER_BYTES);
    case TIMER_READ:
        return bus_timer_read(call->number, timer, TIMER_BYTES);
    case TIMER_WRITE:
        return bus_timer_write(call->number, call->value, timer, TIMER_BYTES);
    case TIMER_EVENT:
        return bus_timer_event(timer, TIMER_BYTES);
    case TIMER_SERVE:
        return bus_timer_serve(subject->table, subject->table_len, timer, TIMER_BYTES, entries, ENTRIES_BYTES);
    case TIMER_REPORT:
        return bus_timer_report(subject->request, subject->request_len, call->number, call->ticks, timer, TIMER_BYTES);
    case TIMER_LINE:
        return bus_timer_line(timer, TIMER_BYTES);
    default:
        abort();
    }
}

#endif

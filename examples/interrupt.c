/*
 * An interrupt routine that serves the frames of a table through the registers of the bus timer. On the
 * controller board the hardware timer makes an event every 20 ticks, the length of a frame, and the routine
 * is called while the interrupt line is on. Here `main` makes the events, and holds interrupts off for one
 * of them, so that a frame is missed: it is served with the next event, and all later ones are late too.
 *
 * Build it beside the library, in the folder of the repository:
 *
 *     tools/libbus
 *     gcc -std=c99 -Wall -Wextra -I include examples/interrupt.c target/staticlib/libbus.a -o interrupt
 *
 * examples/interrupt.txt is what it prints.
 */
#include "bus.h"

#include <stdio.h>

#define FRAME_TICKS 20

/* P1 of the bench sheet: tasks of 5, 5 and 10 ticks, and their table, as `bus plan --c` prints it. */
static const uint8_t request[] = {
    0x03, 0x05, 0x00, 0x14, 0x00, 0x14, 0x00, 0x00, 0x00, 0x05, 0x00, 0x14, 0x00,
    0x14, 0x00, 0x00, 0x00, 0x0A, 0x00, 0x28, 0x00, 0x28, 0x00, 0x00, 0x00, 0x00,
};
static const uint8_t table[] = {
    0x02, 0x14, 0x00, 0x28, 0x00, 0x02, 0x00, 0x03, 0x00, 0x00, 0x01, 0x00, 0x02, 0x00, 0x02, 0x00, 0x01, 0x01, 0x01,
};

static uint8_t timer[BUS_TIMER_BYTES];
static unsigned transfers;

/* Stands for the transfer on the line, and answers the ticks that it took: the seventh is too long. */
static uint32_t transfer(uint8_t task, uint8_t job)
{
    uint32_t ticks = ++transfers == 7 ? 12 : 4;
    printf(" %u.%u", (unsigned)task, job & 0x7Fu);
    return ticks;
}

/* Runs the entries of a frame, one after the other, and reports what each took. */
static void run_frame(const uint8_t *entries, int32_t count)
{
    printf("  serves");
    for (int32_t i = 0; i < count; i++) {
        uint32_t ticks = transfer(entries[2 * i], entries[2 * i + 1]);
        (void)bus_timer_report(request, sizeof request, entries[2 * i], ticks, timer, sizeof timer);
    }
    printf("\n");
}

/* The overruns of all tasks, as registers 4 and 5 have them. */
static unsigned overruns(void)
{
    int32_t low = bus_timer_read(BUS_TIMER_SUM, timer, sizeof timer);
    int32_t high = bus_timer_read(BUS_TIMER_SUM + 1, timer, sizeof timer);
    return (unsigned)(low + 256 * high);
}

/*
 * The interrupt routine. It serves the due frame, tells what status has marked, and clears just the marks
 * that it has told: one that comes in between keeps the line on.
 */
static void on_interrupt(void)
{
    uint8_t entries[BUS_ENTRIES_BYTES];
    int32_t count, status = bus_timer_read(BUS_TIMER_STATUS, timer, sizeof timer);
    if (status & BUS_TIMER_DUE) {
        count = bus_timer_serve(table, sizeof table, timer, sizeof timer, entries, sizeof entries);
        if (count < 0) {
            printf("  refused %ld: the bus is stopped\n", -(long)count);
            (void)bus_timer_write(BUS_TIMER_CONTROL, 0, timer, sizeof timer);
            return;
        }
        run_frame(entries, count);
        status = bus_timer_read(BUS_TIMER_STATUS, timer, sizeof timer);
    }
    if (status & BUS_TIMER_OVERRUN)
        printf("  overrun: %u so far\n", overruns());
    if (status & BUS_TIMER_MISSED)
        printf("  frame missed\n");
    (void)bus_timer_write(BUS_TIMER_STATUS, (uint8_t)status, timer, sizeof timer);
}

int main(void)
{
    int32_t answer = bus_timer_fresh(timer, sizeof timer);
    if (answer == 0)
        answer = bus_timer_write(BUS_TIMER_CONTROL, BUS_TIMER_RUN | BUS_TIMER_ENABLE, timer, sizeof timer);
    for (unsigned event = 0; answer == 0 && event < 7; event++) {
        int interrupts_off = event == 3;
        answer = bus_timer_event(timer, sizeof timer);
        printf("tick %u%s\n", event * FRAME_TICKS, interrupts_off ? ", interrupts off" : "");
        if (!interrupts_off && bus_timer_line(timer, sizeof timer) == 1)
            on_interrupt();
    }
    for (unsigned task = 0; task < 3; task++)
        printf("task %u: %u overruns\n", task, (unsigned)bus_overruns(timer, task));
    return answer != 0;
}

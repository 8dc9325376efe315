/*
 * A bus controller's loop over the files that `bus c` wrote for examples/team.csv. On the board the
 * hardware timer calls `on_timer` every TEAM_FRAME ticks, and `main` sleeps until the interrupt line is
 * on. Here `main` calls it, and `transfer` stands for the transfers on the line: one of the camera's takes
 * too long.
 *
 * Build it in the folder of the repository; it needs no library:
 *
 *     ./bus c examples/team.csv -o . --name team
 *     gcc -std=c99 -Wall -Wextra -I . examples/controller.c team_bus.c -o controller
 *
 * examples/controller.txt is what it prints. The lines of the frames are those of `bus fly examples/team.csv`.
 */
#include "team_bus.h"

#include <stdio.h>

#define CYCLES 3u

static const char *const boards[TEAM_TASKS] = {
    [TEAM_TASK_GYRO] = "gyro",
    [TEAM_TASK_SUN] = "sun",
    [TEAM_TASK_STAR] = "star",
    [TEAM_TASK_MAGNET] = "magnet",
    [TEAM_TASK_HEATER] = "heater",
    [TEAM_TASK_CAMERA] = "camera",
    [TEAM_TASK_DOWNLINK] = "downlink",
};

static team_timer timer;

/* The interrupt routine and the loop both change the timer: the loop holds interrupts off during each call. */
static void hold_interrupts(void)
{
}

static void allow_interrupts(void)
{
}

/* The interrupt routine of the hardware timer: a frame begins. */
static void on_timer(void)
{
    (void)team_timer_event(&timer);
}

/* Stands for a transfer on the line, and answers the ticks that it took. */
static uint32_t transfer(uint8_t task, uint32_t cycle)
{
    return task == TEAM_TASK_CAMERA && cycle == 1u ? team_length[task] + 1u : team_length[task];
}

/* Runs one entry of a frame, and reports what it took. */
static void run_entry(team_entry entry, uint32_t frame)
{
    uint32_t cycle = frame / TEAM_ROWS - team_carried(entry);
    uint32_t ticks = transfer(entry.task, cycle);
    printf(" %s.%u@%lu", boards[entry.task], (unsigned)team_job(entry), (unsigned long)cycle);
    hold_interrupts();
    (void)team_timer_report(&timer, entry.task, ticks);
    allow_interrupts();
}

/* Serves the frame that is due. Answers 0, or the number of a refusal: then the bus is stopped. */
static int serve_frame(uint32_t frame)
{
    team_entry entries[TEAM_PLACES];
    int count, i;
    hold_interrupts();
    count = team_timer_serve(&timer, entries);
    allow_interrupts();
    if (count < 0)
        return -count;
    printf("frame %lu start %lu", (unsigned long)frame, (unsigned long)(frame * TEAM_FRAME));
    for (i = 0; i < count; i++)
        run_entry(entries[i], frame);
    printf("\n");
    return 0;
}

/* The overruns of all boards, as registers 4 and 5 have them. */
static unsigned overruns(void)
{
    int low = team_timer_read(&timer, TEAM_TIMER_SUM);
    int high = team_timer_read(&timer, TEAM_TIMER_SUM + 1u);
    return (unsigned)low + 256u * (unsigned)high;
}

/* Tells what status has marked, and clears just the marks that were told. */
static void tell_marks(void)
{
    int status;
    hold_interrupts();
    status = team_timer_read(&timer, TEAM_TIMER_STATUS);
    (void)team_timer_write(&timer, TEAM_TIMER_STATUS, (uint8_t)status);
    allow_interrupts();
    if ((unsigned)status & TEAM_TIMER_OVERRUN)
        printf("  overrun: %u so far\n", overruns());
    if ((unsigned)status & TEAM_TIMER_MISSED)
        printf("  frame missed\n");
}

int main(void)
{
    uint32_t frame;
    int refused = 0;
    unsigned task;
    team_timer_fresh(&timer);
    (void)team_timer_write(&timer, TEAM_TIMER_CONTROL, TEAM_TIMER_RUN | TEAM_TIMER_ENABLE);
    for (frame = 0; frame < CYCLES * TEAM_ROWS && refused == 0; frame++) {
        on_timer();
        if (team_timer_line(&timer) == 1)
            refused = serve_frame(frame);
        tell_marks();
    }
    for (task = 0; task < TEAM_TASKS; task++)
        printf("%s: %u overruns\n", boards[task], (unsigned)timer.state.overruns[task]);
    return refused;
}

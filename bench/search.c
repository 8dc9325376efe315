/*
 * The planner's search in C, written for speed, to be timed beside the library's: jobs in planning
 * order, frames from the earliest, lengths from the largest. Nothing is judged: the request has to
 * be one that the library plans or refuses with 9 or 10.
 *
 * What a try reads stands in one struct. The row of a frame is a running number, so that no try
 * divides; the bounds that the links set are computed once for a job. A try is then one comparison
 * with the row's kept load and two with the bounds. As in the library, each try is taken off those
 * that are left before its test, and the search ends where one more would be needed.
 */
#include "cycle.h"

enum { MOST_LINKS = 16 };

/* The jobs placed before that must not stand later (earlier) than a job. */
struct links {
    unsigned count;
    uint8_t job[MOST_LINKS];
};

static struct {
    unsigned jobs, rows, f;
    uint16_t place[MOST_JOBS];
    unsigned cost[MOST_JOBS], first[MOST_JOBS], end[MOST_JOBS], first_row[MOST_JOBS];
    unsigned load[MOST_ROWS];
    struct links not_later[MOST_JOBS], not_earlier[MOST_JOBS];
    uint64_t left;
} search;

/* How the search for one length went: ended where one more try than allowed would be needed. */
enum went { NO_PLAN, PLACED, ENDED };

static void add_link(struct links *links, unsigned y)
{
    links->job[links->count++] = (uint8_t)y;
}

/* Job a must not stand later than job b; the one that is placed last knows the other. */
static void link_jobs(unsigned a, unsigned b)
{
    if (a < b)
        add_link(&search.not_later[b], a);
    else
        add_link(&search.not_earlier[a], b);
}

static void make_links(void)
{
    for (unsigned y = 0; y < cycle.jobs; y++) {
        search.not_later[y].count = 0;
        search.not_earlier[y].count = 0;
    }
    for (unsigned u = 0; u < cycle.m; u++) {
        const struct pair pair = cycle.pair[u];
        for (unsigned j = 0; j < cycle.h / cycle.task[pair.a].t; j++)
            link_jobs(cycle.place[pair.a][j], cycle.place[pair.b][j]);
    }
}

static void begin_length(unsigned f)
{
    search.f = f;
    search.rows = cycle.h / f;
    search.jobs = cycle.jobs;
    for (unsigned y = 0; y < cycle.jobs; y++) {
        const struct job *job = &cycle.job[y];
        const struct task *task = &cycle.task[job->task];
        search.cost[y] = slot_of(task);
        search.first[y] = (job->release + f - 1) / f;
        search.end[y] = (job->release + task->d) / f;
        search.first_row[y] = search.first[y] % search.rows;
    }
    memset(search.load, 0, sizeof search.load);
}

static unsigned lower_bound(const struct links *links)
{
    unsigned low = 0;
    for (unsigned u = 0; u < links->count; u++)
        if (search.place[links->job[u]] > low)
            low = search.place[links->job[u]];
    return low;
}

static unsigned upper_bound(const struct links *links)
{
    unsigned high = UINT16_MAX;
    for (unsigned u = 0; u < links->count; u++)
        if (search.place[links->job[u]] < high)
            high = search.place[links->job[u]];
    return high;
}

/* Places job i and those after it. */
static enum went place_job(unsigned i)
{
    if (i == search.jobs)
        return PLACED;
    const unsigned low = lower_bound(&search.not_later[i]), high = upper_bound(&search.not_earlier[i]);
    const unsigned cost = search.cost[i], room = search.f - cost, rows = search.rows;
    const unsigned end = search.end[i];
    unsigned row = search.first_row[i];
    for (unsigned k = search.first[i]; k < end; k++) {
        if (search.left == 0)
            return ENDED;
        search.left--;
        if (search.load[row] <= room && low <= k && k <= high) {
            const unsigned load = search.load[row];
            search.load[row] = load + cost;
            search.place[i] = k;
            const enum went went = place_job(i + 1);
            if (went != NO_PLAN)
                return went;
            search.load[row] = load;
        }
        if (++row == rows)
            row = 0;
    }
    return NO_PLAN;
}

/*
 * The chosen plan: its frame length and the frame of each job in planning order. Answers the number
 * of jobs; or -9, -10 or -23, with `f` and `frames` as they were. `tries` gets the tries of all
 * lengths, at most the allowance.
 */
int32_t search_plan(const uint8_t *request, size_t request_len, uint64_t allowance, uint16_t *f,
                    uint16_t frames[MOST_JOBS], uint64_t *tries)
{
    bool some = false;
    enum went went = NO_PLAN;
    read_request(request, request_len);
    make_cycle();
    make_links();
    search.left = allowance;
    for (unsigned rows = 1; rows <= MOST_ROWS && went == NO_PLAN; rows++) {
        if (cycle.h % rows != 0 || !plausible(cycle.h / rows))
            continue;
        some = true;
        begin_length(cycle.h / rows);
        went = place_job(0);
    }
    *tries = allowance - search.left;
    if (went == ENDED)
        return -23;
    if (went == NO_PLAN)
        return some ? -10 : -9;
    *f = search.f;
    memcpy(frames, search.place, cycle.jobs * sizeof search.place[0]);
    return cycle.jobs;
}

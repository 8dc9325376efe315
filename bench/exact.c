/*
 * The exact planner in C, written for speed, to be timed beside the library's. First the search of
 * search.c, with few tries. Where these do not suffice it is made anew with one cut: a frame is also
 * passed over where no plan begins with the jobs as they then stand.
 *
 * The cut gives each job its domain, the frames from `low` to before `high`: one frame if it is placed,
 * else its window. The domains are tightened by the links. There is no plan in them if one is empty, or
 * if the sweep fails, which puts the jobs into rows, a row after the other. The sweep knows only jobs
 * with a side: of those whose domain goes past the end of the cycle one is taken, and both of its sides
 * are asked for. Once for each length the arcs are asked: there is no plan either if some rows that
 * follow each other must hold too much.
 *
 * A set of jobs is two words, so that a test of links is a few operations. Failed states of the sweep
 * bear the number of their sweep, so that none need be cleared.
 */
#include "cycle.h"

enum { FIRST_TRIES = 10000, MOST_LINKS = 1024, MOST_PASSES = 16, MOST_SPLITS = 16, STEPS = 4 };
enum { BY_HASH = 4096, OF_A_ROW = 4 };

int32_t search_plan(const uint8_t *request, size_t request_len, uint64_t allowance, uint16_t *f,
                    uint16_t frames[MOST_JOBS], uint64_t *tries);

/* Job y is bit y mod 64 of word y div 64. */
struct set {
    uint64_t word[2];
};

static const struct set EMPTY;

static bool has(const struct set *set, unsigned y)
{
    return set->word[y >> 6] >> (y & 63) & 1;
}

static void add(struct set *set, unsigned y)
{
    set->word[y >> 6] |= UINT64_C(1) << (y & 63);
}

static void take(struct set *set, unsigned y)
{
    set->word[y >> 6] &= ~(UINT64_C(1) << (y & 63));
}

static bool within(const struct set *some, const struct set *all)
{
    return ((some->word[0] & ~all->word[0]) | (some->word[1] & ~all->word[1])) == 0;
}

static bool meet(const struct set *one, const struct set *other)
{
    return ((one->word[0] & other->word[0]) | (one->word[1] & other->word[1])) != 0;
}

static struct set both(const struct set *one, const struct set *other)
{
    struct set set = {{one->word[0] & other->word[0], one->word[1] & other->word[1]}};
    return set;
}

/* The first job of the set from job y on, or MOST_JOBS. */
static unsigned next_in(const struct set *set, unsigned y)
{
    if (y < 64) {
        uint64_t rest = set->word[0] >> y;
        if (rest != 0)
            return y + (unsigned)__builtin_ctzll(rest);
        y = 64;
    }
    if (y < MOST_JOBS) {
        uint64_t rest = set->word[1] >> (y - 64);
        if (rest != 0)
            return y + (unsigned)__builtin_ctzll(rest);
    }
    return MOST_JOBS;
}

/* Job `early` must not be in a later frame than job `late`. */
struct link {
    uint8_t early, late;
};

struct domains {
    uint16_t low[MOST_JOBS], high[MOST_JOBS];
};

/* The jobs with their windows in frames of one length, and the search. */
static struct {
    unsigned jobs, rows, f, links;
    struct link link[MOST_LINKS];
    /* Of the jobs with a lower number those that must not be later, and earlier; of all those that must not be later. */
    struct set not_later[MOST_JOBS], not_earlier[MOST_JOBS], before[MOST_JOBS];
    /* Jobs that have some before them; jobs that one with a higher number must not be later than. */
    struct set behind, tied;
    uint32_t weight[STEPS + 1][MOST_JOBS];
    unsigned cost[MOST_JOBS], first[MOST_JOBS], end[MOST_JOBS];
    uint16_t place[MOST_JOBS];
    unsigned load[MOST_ROWS];
    /* The rows of the last sweep that did not fail: where a job is tried there, the cut is not asked for. */
    uint16_t hint[MOST_JOBS];
    bool hinted;
} plan;

struct failed {
    uint64_t sweep_and_row;
    struct set jobs;
};

static struct {
    /* Rows are counted from the side; `due` has what the jobs without a row need before each end. */
    unsigned first[MOST_JOBS], end[MOST_JOBS];
    struct set not_later[MOST_JOBS], not_earlier[MOST_JOBS], before[MOST_JOBS];
    struct set begun[MOST_ROWS];
    /* The least cost of a job that may stand in the row. */
    unsigned least[MOST_ROWS];
    unsigned due[MOST_ROWS + 1];
    /* The jobs that have a row, and their rows. */
    struct set put;
    uint16_t row[MOST_JOBS];
    uint64_t number;
    struct failed by_hash[BY_HASH], of_row[MOST_ROWS][OF_A_ROW];
} sweep;

/* Tightens the domains until nothing moves, at most MOST_PASSES times. */
static void tighten(struct domains *d)
{
    bool moved = true;
    for (unsigned pass = 0; pass < MOST_PASSES && moved; pass++) {
        moved = false;
        for (unsigned u = 0; u < plan.links; u++) {
            const unsigned a = plan.link[u].early, b = plan.link[u].late;
            if (d->low[b] < d->low[a]) {
                d->low[b] = d->low[a];
                moved = true;
            }
            if (d->high[a] > d->high[b]) {
                d->high[a] = d->high[b];
                moved = true;
            }
        }
    }
}

static bool some_empty(const struct domains *d)
{
    for (unsigned y = 0; y < plan.jobs; y++)
        if (d->high[y] <= d->low[y])
            return true;
    return false;
}

/* Whether the jobs that lie in some rows from row s on weigh more than these hold. */
static bool is_over(const struct domains *d, const uint32_t *weight, unsigned s, uint64_t room)
{
    uint32_t need[MOST_ROWS];
    const unsigned rows = plan.rows;
    memset(need, 0, rows * sizeof need[0]);
    for (unsigned y = 0; y < plan.jobs; y++) {
        unsigned from = d->low[y] >= rows ? d->low[y] - rows : d->low[y];
        from = from >= s ? from - s : from + rows - s;
        unsigned last = from + d->high[y] - 1 - d->low[y];
        need[last < rows ? last : rows - 1] += weight[y];
    }
    uint64_t sum = 0, has_room = 0;
    for (unsigned e = 0; e < rows; e++) {
        sum += need[e];
        has_room += room;
        if (sum > has_room)
            return true;
    }
    return false;
}

/* Whether an arc of rows must hold too much, by the costs or by a step function of them. */
static bool some_arc_is_over(const struct domains *d)
{
    for (unsigned k = 0; k <= STEPS; k++)
        for (unsigned s = 0; s < plan.rows; s++)
            if (is_over(d, plan.weight[k], s, (uint64_t)(k == 0 ? 1 : k) * plan.f))
                return true;
    return false;
}

static struct failed *slot(unsigned row)
{
    uint64_t h = sweep.put.word[0] * UINT64_C(0x9E3779B97F4A7C15);
    h ^= sweep.put.word[1] * UINT64_C(0xC2B2AE3D27D4EB4F) + row * UINT64_C(0x165667B19E3779F9);
    h ^= h >> 29;
    h *= UINT64_C(0xBF58476D1CE4E5B9);
    h ^= h >> 32;
    return &sweep.by_hash[h % BY_HASH];
}

/* A state fails if one of the same row did that has all its jobs and perhaps more. */
static bool covers(const struct failed *failed, uint64_t stamp)
{
    return failed->sweep_and_row == stamp && within(&sweep.put, &failed->jobs);
}

static bool known(unsigned row)
{
    const uint64_t stamp = sweep.number << 9 | row;
    if (covers(slot(row), stamp))
        return true;
    for (unsigned u = 0; u < OF_A_ROW; u++)
        if (covers(&sweep.of_row[row][u], stamp))
            return true;
    return false;
}

static void note(unsigned row)
{
    const struct failed state = {sweep.number << 9 | row, sweep.put};
    struct failed *hashed = slot(row);
    *hashed = state;
    unsigned u = 0;
    while (u < OF_A_ROW && sweep.of_row[row][u].sweep_and_row == state.sweep_and_row)
        u++;
    sweep.of_row[row][u < OF_A_ROW ? u : (unsigned)(hashed - sweep.by_hash) % OF_A_ROW] = state;
}

/*
 * Whether the jobs without a row need too much of the rows from this one on up to some row. If the jobs
 * put into the row before left no space of it, nothing is new from `reach` on, where none of them may
 * stand. The first row has no test, so the one after it is tested to the end.
 */
static bool late(unsigned row, unsigned space, unsigned reach)
{
    const unsigned stop = row > 1 && space == 0 ? reach : plan.rows;
    unsigned sum = 0, room = 0;
    for (unsigned end = row + 1; end <= stop; end++) {
        sum += sweep.due[end];
        room += plan.f;
        if (sum > room)
            return true;
    }
    return false;
}

/* Whether a job left out of the row could still be put into it. */
static bool one_more(unsigned row, unsigned room)
{
    if (room < sweep.least[row])
        return false;
    struct set free = {{sweep.begun[row].word[0] & ~sweep.put.word[0] & ~plan.tied.word[0],
                        sweep.begun[row].word[1] & ~sweep.put.word[1] & ~plan.tied.word[1]}};
    for (unsigned y = next_in(&free, 0); y < MOST_JOBS; y = next_in(&free, y + 1))
        if (plan.cost[y] <= room && within(&sweep.not_later[y], &sweep.put))
            return true;
    return false;
}

/* Whether every job that has a row has it behind those that must not be later. */
static bool all_in_order(void)
{
    const struct set linked = both(&sweep.put, &plan.behind);
    for (unsigned y = next_in(&linked, 0); y < MOST_JOBS; y = next_in(&linked, y + 1))
        if (!within(&sweep.before[y], &sweep.put))
            return false;
    return true;
}

static bool put(unsigned row, unsigned y, unsigned room, unsigned reach);

/*
 * Runs through the jobs of the row, from job y on, and through the rows after it. Answers the row where
 * there was no way on, or the number of rows.
 */
static unsigned run(unsigned row, unsigned y, unsigned room, unsigned reach)
{
    for (;;) {
        struct set waiting = {{sweep.begun[row].word[0] & ~sweep.put.word[0],
                               sweep.begun[row].word[1] & ~sweep.put.word[1]}};
        for (y = next_in(&waiting, y); y < MOST_JOBS; y = next_in(&waiting, y + 1)) {
            if (put(row, y, room, reach))
                return plan.rows;
            if (row + 1 >= sweep.end[y] || meet(&sweep.not_earlier[y], &sweep.put))
                return row;
        }
        if (row + 1 == plan.rows)
            return plan.rows;
        if (one_more(row, room))
            return row;
        row++;
        if (known(row) || late(row, room, reach))
            return row;
        y = 0;
        room = plan.f;
        reach = 0;
    }
}

/* Puts job y into the row, if it may stand there, and runs on. */
static bool put(unsigned row, unsigned y, unsigned room, unsigned reach)
{
    if (plan.cost[y] > room || !within(&sweep.not_later[y], &sweep.put))
        return false;
    add(&sweep.put, y);
    sweep.due[sweep.end[y]] -= plan.cost[y];
    sweep.row[y] = row;
    const unsigned far = sweep.end[y] > reach ? sweep.end[y] : reach;
    const unsigned end = run(row, y + 1, room - plan.cost[y], far);
    if (end == plan.rows)
        return true;
    if (row < end && all_in_order())
        note(row + 1);
    take(&sweep.put, y);
    sweep.due[sweep.end[y]] += plan.cost[y];
    return false;
}

/* The rows of the jobs with a side, and the links between jobs of the same one. Answers the first job without a side. */
static unsigned make_rows(const struct domains *d)
{
    struct set side[2] = {EMPTY, EMPTY}, sided = EMPTY;
    unsigned unsided = plan.jobs;
    memset(sweep.begun, 0, plan.rows * sizeof sweep.begun[0]);
    memset(sweep.least, 0xFF, plan.rows * sizeof sweep.least[0]);
    memset(sweep.due, 0, (plan.rows + 1) * sizeof sweep.due[0]);
    for (unsigned y = 0; y < plan.jobs; y++) {
        const bool carried = d->low[y] >= plan.rows;
        if (!carried && d->high[y] > plan.rows) {
            unsided = unsided < y ? unsided : y;
            continue;
        }
        sweep.first[y] = d->low[y] - (carried ? plan.rows : 0);
        sweep.end[y] = d->high[y] - (carried ? plan.rows : 0);
        add(&side[carried], y);
        add(&sided, y);
        add(&sweep.begun[sweep.first[y]], y);
        sweep.due[sweep.end[y]] += plan.cost[y];
        for (unsigned row = sweep.first[y]; row < sweep.end[y]; row++)
            sweep.least[row] = plan.cost[y] < sweep.least[row] ? plan.cost[y] : sweep.least[row];
    }
    for (unsigned row = 1; row < plan.rows; row++)
        for (unsigned u = 0; u < 2; u++)
            sweep.begun[row].word[u] |= sweep.begun[row - 1].word[u];
    for (unsigned y = next_in(&sided, 0); y < MOST_JOBS; y = next_in(&sided, y + 1)) {
        const struct set *own = &side[has(&side[1], y)];
        sweep.not_later[y] = both(&plan.not_later[y], own);
        sweep.not_earlier[y] = both(&plan.not_earlier[y], own);
        sweep.before[y] = both(&plan.before[y], own);
    }
    return unsided;
}

static bool sweeps(void)
{
    sweep.put = EMPTY;
    sweep.number++;
    return run(0, 0, plan.f, 0) == plan.rows;
}

/* Whether the domains may hold a plan; at most so many jobs are given a side. Only a no says anything. */
static bool may(struct domains d, unsigned splits)
{
    tighten(&d);
    if (some_empty(&d))
        return false;
    const unsigned y = make_rows(&d);
    if (!sweeps())
        return false;
    if (y == plan.jobs || splits == 0)
        return true;
    const uint16_t high = d.high[y];
    d.high[y] = plan.rows;
    if (may(d, splits - 1))
        return true;
    d.high[y] = high;
    d.low[y] = plan.rows;
    return may(d, splits - 1);
}

/* The domains with the first `placed` jobs as they stand. */
static struct domains domains_of(unsigned placed)
{
    struct domains d;
    for (unsigned y = 0; y < plan.jobs; y++) {
        d.low[y] = y < placed ? plan.place[y] : plan.first[y];
        d.high[y] = y < placed ? plan.place[y] + 1u : plan.end[y];
    }
    return d;
}

/* Whether the arcs say that no plan has this length. */
static bool too_full(void)
{
    struct domains d = domains_of(0);
    tighten(&d);
    return some_empty(&d) || some_arc_is_over(&d);
}

/* Whether no plan begins with the first `placed` jobs as they stand. */
static bool hopeless(unsigned placed)
{
    if (!may(domains_of(placed), MOST_SPLITS))
        return true;
    plan.hinted = true;
    memcpy(plan.hint, sweep.row, sizeof plan.hint);
    return false;
}

/* Places job i and those after it. */
static bool place_job(unsigned i)
{
    if (i == plan.jobs)
        return true;
    unsigned low = plan.first[i], end = plan.end[i];
    for (unsigned y = next_in(&plan.not_later[i], 0); y < MOST_JOBS; y = next_in(&plan.not_later[i], y + 1))
        low = plan.place[y] > low ? plan.place[y] : low;
    for (unsigned y = next_in(&plan.not_earlier[i], 0); y < MOST_JOBS; y = next_in(&plan.not_earlier[i], y + 1))
        end = plan.place[y] + 1u < end ? plan.place[y] + 1u : end;
    const unsigned cost = plan.cost[i], room = plan.f - cost;
    for (unsigned k = low; k < end; k++) {
        const unsigned row = k >= plan.rows ? k - plan.rows : k;
        if (plan.load[row] > room)
            continue;
        plan.place[i] = k;
        if (!(plan.hinted && plan.hint[i] == row) && hopeless(i + 1))
            continue;
        plan.load[row] += cost;
        if (place_job(i + 1))
            return true;
        plan.load[row] -= cost;
        plan.hinted = false;
    }
    return false;
}

/* Job a, of the same number as job b, must not be in a later frame. */
static void link_jobs(unsigned a, unsigned b)
{
    const struct link link = {a, b};
    if (has(&plan.before[b], a))
        return;
    plan.link[plan.links++] = link;
    add(&plan.before[b], a);
    add(&plan.behind, b);
    if (a < b)
        add(&plan.not_later[b], a);
    else {
        add(&plan.not_earlier[a], b);
        add(&plan.tied, b);
    }
}

static void make_links(void)
{
    plan.links = 0;
    plan.behind = EMPTY;
    plan.tied = EMPTY;
    for (unsigned y = 0; y < cycle.jobs; y++) {
        plan.not_later[y] = EMPTY;
        plan.not_earlier[y] = EMPTY;
        plan.before[y] = EMPTY;
    }
    for (unsigned u = 0; u < cycle.m; u++) {
        const struct pair pair = cycle.pair[u];
        for (unsigned j = 0; j < cycle.h / cycle.task[pair.a].t; j++)
            link_jobs(cycle.place[pair.a][j], cycle.place[pair.b][j]);
    }
}

/* What a cost weighs by step k: costs of at most f together weigh at most k * f (by step 0 f). */
static uint32_t weight(unsigned k, unsigned cost, unsigned f)
{
    if (k == 0)
        return cost;
    const unsigned times = (k + 1) * cost;
    return times % f == 0 ? k * cost : times / f * f;
}

static void begin_length(unsigned f)
{
    plan.f = f;
    plan.rows = cycle.h / f;
    plan.jobs = cycle.jobs;
    for (unsigned y = 0; y < cycle.jobs; y++) {
        const struct job *job = &cycle.job[y];
        const struct task *task = &cycle.task[job->task];
        plan.cost[y] = slot_of(task);
        plan.first[y] = (job->release + f - 1) / f;
        plan.end[y] = (job->release + task->d) / f;
        for (unsigned k = 0; k <= STEPS; k++)
            plan.weight[k][y] = weight(k, plan.cost[y], f);
    }
    memset(plan.load, 0, sizeof plan.load);
}

/* The answer of exact_plan, by the search with the cut alone. */
static int32_t search_with_cut(const uint8_t *request, size_t request_len, uint16_t *f, uint16_t frames[MOST_JOBS])
{
    bool some = false;
    read_request(request, request_len);
    make_cycle();
    make_links();
    for (unsigned rows = 1; rows <= MOST_ROWS; rows++) {
        if (cycle.h % rows != 0 || !plausible(cycle.h / rows))
            continue;
        some = true;
        begin_length(cycle.h / rows);
        if (too_full() || hopeless(0) || !place_job(0))
            continue;
        *f = plan.f;
        memcpy(frames, plan.place, cycle.jobs * sizeof plan.place[0]);
        return cycle.jobs;
    }
    return some ? -10 : -9;
}

/*
 * The chosen plan: its frame length and the frame of each job in planning order. Answers the number of
 * jobs; or -9 or -10, with `f` and `frames` as they were.
 */
int32_t exact_plan(const uint8_t *request, size_t request_len, uint16_t *f, uint16_t frames[MOST_JOBS])
{
    uint64_t tries;
    const int32_t answer = search_plan(request, request_len, FIRST_TRIES, f, frames, &tries);
    return answer == -23 ? search_with_cut(request, request_len, f, frames) : answer;
}

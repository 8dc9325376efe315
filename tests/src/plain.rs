//! A plain Rust version of the calls that are measured: the same search as the library's
//! (jobs in planning order, frames from the earliest, a kept load for each row, order bounds
//! from the jobs already placed, one try taken off what is allowed before each test), with nothing
//! proved and nothing allocated.

const MOST_TASKS: usize = 16;
const MOST_PAIRS: usize = 16;
const MOST_JOBS: usize = 128;
const MOST_ROWS: usize = 256;

#[derive(Clone, Copy, Default)]
struct Task {
    c: u16,
    t: u16,
    d: u16,
    p: u16,
}

struct Request {
    n: usize,
    tasks: [Task; MOST_TASKS],
    pair_count: usize,
    pairs: [(u8, u8); MOST_PAIRS],
    /// Silent ticks after every transfer.
    g: u16,
}

impl Request {
    fn tasks(&self) -> &[Task] {
        &self.tasks[..self.n]
    }

    fn pairs(&self) -> &[(u8, u8)] {
        &self.pairs[..self.pair_count]
    }

    /// What a job of the task takes of its row.
    fn slot(&self, task: &Task) -> u16 {
        task.c + self.g
    }
}

fn two_bytes(bytes: &[u8], at: usize) -> u16 {
    u16::from_le_bytes([bytes[at], bytes[at + 1]])
}

fn read_task(bytes: &[u8], at: usize) -> Result<Task, i32> {
    if at + 8 > bytes.len() {
        return Err(1);
    }
    let task = Task {
        c: two_bytes(bytes, at),
        t: two_bytes(bytes, at + 2),
        d: two_bytes(bytes, at + 4),
        p: two_bytes(bytes, at + 6),
    };
    if task.c == 0 || task.c > task.d || task.d > task.t || task.p >= task.t {
        return Err(3);
    }
    Ok(task)
}

fn read_pair(bytes: &[u8], at: usize, tasks: &[Task]) -> Result<(u8, u8), i32> {
    if at + 2 > bytes.len() {
        return Err(1);
    }
    let (a, b) = (bytes[at], bytes[at + 1]);
    let good =
        a < b && usize::from(b) < tasks.len() && tasks[usize::from(a)].t == tasks[usize::from(b)].t;
    if good {
        Ok((a, b))
    } else {
        Err(5)
    }
}

/// g of the third section, and where that ends.
fn read_silent_ticks(bytes: &[u8], at: usize) -> Result<(u16, usize), i32> {
    match bytes.get(at) {
        None => Ok((0, at)),
        Some(0) => Ok((0, at + 1)),
        Some(1) => match bytes.get(at + 1) {
            None => Err(1),
            Some(g) if *g > 15 => Err(17),
            Some(g) => Ok((u16::from(*g), at + 2)),
        },
        Some(_) => Err(17),
    }
}

fn read(bytes: &[u8]) -> Result<Request, i32> {
    let n = usize::from(*bytes.first().ok_or(1)?);
    if n == 0 || n > MOST_TASKS {
        return Err(2);
    }
    let mut request = Request {
        n,
        tasks: [Task::default(); MOST_TASKS],
        pair_count: 0,
        pairs: [(0, 0); MOST_PAIRS],
        g: 0,
    };
    let mut at = 1;
    for i in 0..n {
        request.tasks[i] = read_task(bytes, at)?;
        at += 8;
    }
    request.pair_count = usize::from(*bytes.get(at).ok_or(1)?);
    if request.pair_count > MOST_PAIRS {
        return Err(4);
    }
    at += 1;
    for i in 0..request.pair_count {
        request.pairs[i] = read_pair(bytes, at, &request.tasks[..n])?;
        at += 2;
    }
    (request.g, at) = read_silent_ticks(bytes, at)?;
    if at < bytes.len() {
        return Err(6);
    }
    Ok(request)
}

fn gcd(a: u32, b: u32) -> u32 {
    if b == 0 {
        a
    } else {
        gcd(b, a % b)
    }
}

fn hyperperiod(tasks: &[Task]) -> Result<u16, i32> {
    let mut h = 1_u32;
    for task in tasks {
        let t = u32::from(task.t);
        h = h / gcd(h, t) * t;
        if h > 10_000 {
            return Err(7);
        }
    }
    Ok(h as u16)
}

#[derive(Clone, Copy, Default)]
struct Job {
    task: u8,
    number: u8,
    release: u16,
}

struct Cycle {
    request: Request,
    h: u16,
    count: usize,
    jobs: [Job; MOST_JOBS],
}

impl Cycle {
    fn jobs(&self) -> &[Job] {
        &self.jobs[..self.count]
    }
}

fn cycle(bytes: &[u8]) -> Result<Cycle, i32> {
    let request = read(bytes)?;
    let h = hyperperiod(request.tasks())?;
    let count: usize = request
        .tasks()
        .iter()
        .map(|task| usize::from(h / task.t))
        .sum();
    if count > MOST_JOBS {
        return Err(8);
    }
    let mut jobs = [Job::default(); MOST_JOBS];
    let mut place = 0;
    for (i, task) in request.tasks().iter().enumerate() {
        for j in 0..h / task.t {
            jobs[place] = Job {
                task: i as u8,
                number: j as u8,
                release: task.p + j * task.t,
            };
            place += 1;
        }
    }
    jobs[..count].sort_unstable_by_key(|job| (job.release, job.task));
    Ok(Cycle {
        request,
        h,
        count,
        jobs,
    })
}

fn plausible(cycle: &Cycle, f: u16) -> bool {
    if f == 0 || !cycle.h.is_multiple_of(f) || usize::from(cycle.h / f) > MOST_ROWS {
        return false;
    }
    let request = &cycle.request;
    request
        .tasks()
        .iter()
        .all(|task| f >= request.slot(task) && windows_hold(task, f))
}

/// Whether each window of the task holds a whole frame, by the phase.
fn windows_hold(task: &Task, f: u16) -> bool {
    let common = gcd(u32::from(f), u32::from(task.t));
    let after = match u32::from(task.p) % common {
        0 => common,
        p => p,
    };
    2 * u32::from(f) - after <= u32::from(task.d)
}

/// A job placed earlier in a pair with a later one, and whether it must come first.
#[derive(Clone, Copy, Default)]
struct Partner {
    job: u8,
    first: bool,
}

const MOST_PARTNERS: usize = 1024;

/// For each job the partners that stand before it in planning order.
struct Partners {
    begin: [u16; MOST_JOBS + 1],
    list: [Partner; MOST_PARTNERS],
}

fn partner_of(pairs: &[(u8, u8)], earlier: Job, later: Job) -> Option<bool> {
    pairs.iter().find_map(|&(a, b)| {
        if (earlier.task, later.task) == (a, b) {
            Some(true)
        } else if (later.task, earlier.task) == (a, b) {
            Some(false)
        } else {
            None
        }
    })
}

fn partners(cycle: &Cycle) -> Partners {
    let mut found = Partners {
        begin: [0; MOST_JOBS + 1],
        list: [Partner::default(); MOST_PARTNERS],
    };
    let pairs = cycle.request.pairs();
    let mut place = 0;
    for i in 0..cycle.count {
        for x in 0..i {
            if pairs.is_empty() || cycle.jobs[x].number != cycle.jobs[i].number {
                continue;
            }
            if let Some(first) = partner_of(pairs, cycle.jobs[x], cycle.jobs[i]) {
                found.list[place] = Partner {
                    job: x as u8,
                    first,
                };
                place += 1;
            }
        }
        found.begin[i + 1] = place as u16;
    }
    found
}

/// The search for one frame length.
struct Search<'a> {
    count: usize,
    f: u16,
    rows: u16,
    cost: [u16; MOST_JOBS],
    first: [u16; MOST_JOBS],
    last: [u16; MOST_JOBS],
    place: [u16; MOST_JOBS],
    load: [u16; MOST_ROWS],
    partners: &'a Partners,
    /// The tries that are still allowed.
    left: u64,
    placings: u64,
}

/// What a search takes: tests of a job in a frame, and how many of them placed the job.
#[derive(Clone, Copy, Default)]
pub struct Effort {
    pub tries: u64,
    pub placings: u64,
}

/// How the search for one length went: one more try than allowed would be needed, or not.
#[derive(Clone, Copy, PartialEq, Eq)]
enum Went {
    Placed,
    NoPlan,
    Ended,
}

impl Search<'_> {
    /// The frames between which the partners placed before leave room for job i.
    fn order_bounds(&self, i: usize) -> (u16, u16) {
        let (mut low, mut high) = (0, u16::MAX);
        let begin = usize::from(self.partners.begin[i]);
        let end = usize::from(self.partners.begin[i + 1]);
        for partner in &self.partners.list[begin..end] {
            let k = self.place[usize::from(partner.job)];
            if partner.first {
                low = low.max(k);
            } else {
                high = high.min(k);
            }
        }
        (low, high)
    }

    /// Places job i and those after it; with PLACINGS those that were tried are counted as well.
    fn place_job<const PLACINGS: bool>(&mut self, i: usize) -> Went {
        if i == self.count {
            return Went::Placed;
        }
        let (low, high) = self.order_bounds(i);
        let cost = self.cost[i];
        let mut k = self.first[i];
        while k < self.last[i] {
            if self.left == 0 {
                return Went::Ended;
            }
            self.left -= 1;
            let row = usize::from(k % self.rows);
            let load = self.load[row];
            if load <= self.f - cost && low <= k && k <= high {
                self.load[row] = load + cost;
                self.place[i] = k;
                if PLACINGS {
                    self.placings += 1;
                }
                let went = self.place_job::<PLACINGS>(i + 1);
                if went != Went::NoPlan {
                    return went;
                }
                self.load[row] = load;
            }
            k += 1;
        }
        Went::NoPlan
    }
}

/// The window of a job as a first frame and the frame behind the last.
fn window(task: &Task, release: u16, f: u16) -> (u16, u16) {
    let first = release.div_ceil(f);
    let behind = (release + task.d) / f;
    (first, behind)
}

fn search<'a>(cycle: &Cycle, partners: &'a Partners, f: u16) -> Search<'a> {
    let mut search = Search {
        count: cycle.count,
        f,
        rows: cycle.h / f,
        cost: [0; MOST_JOBS],
        first: [0; MOST_JOBS],
        last: [0; MOST_JOBS],
        place: [0; MOST_JOBS],
        load: [0; MOST_ROWS],
        partners,
        left: 0,
        placings: 0,
    };
    for (i, job) in cycle.jobs().iter().enumerate() {
        let task = &cycle.request.tasks[usize::from(job.task)];
        search.cost[i] = cycle.request.slot(task);
        (search.first[i], search.last[i]) = window(task, job.release, f);
    }
    search
}

struct Plan {
    f: u16,
    place: [u16; MOST_JOBS],
}

/// The chosen plan, 9, 10 or 23; `effort` becomes that of all lengths.
fn choose<const PLACINGS: bool>(
    cycle: &Cycle,
    allowance: u64,
    effort: &mut Effort,
) -> Result<Plan, i32> {
    let partners = partners(cycle);
    let mut some = false;
    let mut f = cycle.h;
    while f > 0 {
        if plausible(cycle, f) {
            some = true;
            let mut search = search(cycle, &partners, f);
            (search.left, search.placings) = (allowance - effort.tries, effort.placings);
            let went = search.place_job::<PLACINGS>(0);
            (effort.tries, effort.placings) = (allowance - search.left, search.placings);
            match went {
                Went::Placed => {
                    let place = search.place;
                    return Ok(Plan { f, place });
                }
                Went::Ended => return Err(23),
                Went::NoPlan => {}
            }
        }
        f -= 1;
    }
    Err(if some { 10 } else { 9 })
}

/// The jobs of each row in task order, as one sorted list of (row, task, job byte).
fn write(cycle: &Cycle, plan: &Plan, out: &mut [u8]) -> Result<i32, i32> {
    let rows = cycle.h / plan.f;
    let length = 7 + usize::from(rows) + 2 * cycle.count;
    if out.len() < length {
        return Err(11);
    }
    let mut entries = [(0_u16, 0_u8, 0_u8); MOST_JOBS];
    for (i, job) in cycle.jobs().iter().enumerate() {
        let k = plan.place[i];
        let carry = if k >= rows { 128 } else { 0 };
        entries[i] = (k % rows, job.task, job.number + carry);
    }
    let entries = &mut entries[..cycle.count];
    entries.sort_unstable();
    out[0] = 2;
    out[1..3].copy_from_slice(&plan.f.to_le_bytes());
    out[3..5].copy_from_slice(&cycle.h.to_le_bytes());
    out[5..7].copy_from_slice(&rows.to_le_bytes());
    let (mut at, mut next) = (7, 0);
    for row in 0..rows {
        let count_at = at;
        at += 1;
        while next < entries.len() && entries[next].0 == row {
            out[at] = entries[next].1;
            out[at + 1] = entries[next].2;
            at += 2;
            next += 1;
        }
        out[count_at] = ((at - count_at) / 2) as u8;
    }
    Ok(length as i32)
}

fn answer(result: Result<i32, i32>) -> i32 {
    match result {
        Ok(value) => value,
        Err(number) => -number,
    }
}

/// The length of the chosen table, or a refusal; and the count of tries.
pub fn plan(request: &[u8], allowance: u64, out: &mut [u8], tries: &mut [u8]) -> i32 {
    let Some(count) = tries.first_chunk_mut() else {
        return -99;
    };
    let mut effort = Effort::default();
    let planned = cycle(request).and_then(|cycle| {
        let plan = choose::<false>(&cycle, allowance, &mut effort)?;
        write(&cycle, &plan, out)
    });
    *count = effort.tries.to_le_bytes();
    answer(planned)
}

/// What planning takes, if at most `allowed` tries.
pub fn effort_within(request: &[u8], allowed: u64) -> Option<Effort> {
    let mut effort = Effort::default();
    let planned = cycle(request).and_then(|cycle| choose::<true>(&cycle, allowed, &mut effort));
    (planned.err() != Some(23)).then_some(effort)
}

/// How many tests of a job in a frame planning makes, if at most `allowed`.
pub fn tries_within(request: &[u8], allowed: u64) -> Option<u64> {
    effort_within(request, allowed).map(|effort| effort.tries)
}

/// A table of the right form: where each row's count stands.
struct Table<'a> {
    bytes: &'a [u8],
    f: u16,
    h: u16,
    rows: usize,
    row_at: [u16; MOST_ROWS],
    entries: usize,
}

impl Table<'_> {
    fn row(&self, row: usize) -> &[u8] {
        let at = usize::from(self.row_at[row]);
        let count = usize::from(self.bytes[at]);
        &self.bytes[at + 1..at + 1 + 2 * count]
    }
}

/// The end of the row that begins at `at`, or nothing if it has not the form.
fn row_end(bytes: &[u8], at: usize) -> Option<usize> {
    let count = usize::from(*bytes.get(at)?);
    let end = at + 1 + 2 * count;
    if count > 16 || end > bytes.len() {
        return None;
    }
    let mut least = 0;
    for entry in bytes[at + 1..end].chunks_exact(2) {
        if entry[0] < least || entry[0] > 15 {
            return None;
        }
        least = entry[0] + 1;
    }
    Some(end)
}

fn table(bytes: &[u8]) -> Option<Table<'_>> {
    if bytes.len() < 7 || bytes[0] != 2 {
        return None;
    }
    let (f, h) = (two_bytes(bytes, 1), two_bytes(bytes, 3));
    let rows = usize::from(two_bytes(bytes, 5));
    let sizes = (1..=10_000).contains(&h) && (1..=MOST_ROWS).contains(&rows);
    if !sizes || rows * usize::from(f) != usize::from(h) {
        return None;
    }
    let mut row_at = [0; MOST_ROWS];
    let (mut at, mut entries) = (7, 0);
    for place in row_at.iter_mut().take(rows) {
        *place = at as u16;
        let end = row_end(bytes, at)?;
        entries += (end - at) / 2;
        at = end;
    }
    (at == bytes.len()).then_some(Table {
        bytes,
        f,
        h,
        rows,
        row_at,
        entries,
    })
}

/// The frame of the first entry that names the job.
fn frame_of(table: &Table, job: &Job) -> Option<u16> {
    for row in 0..table.rows {
        for entry in table.row(row).chunks_exact(2) {
            if entry[0] == job.task && entry[1] % 128 == job.number {
                let carry = if entry[1] >= 128 { table.rows } else { 0 };
                return Some((row + carry) as u16);
            }
        }
    }
    None
}

fn keeps_order(cycle: &Cycle, place: &[u16; MOST_JOBS]) -> bool {
    let pairs = cycle.request.pairs();
    if pairs.is_empty() {
        return true;
    }
    let partners = partners(cycle);
    (0..cycle.count).all(|i| {
        let begin = usize::from(partners.begin[i]);
        let end = usize::from(partners.begin[i + 1]);
        partners.list[begin..end].iter().all(|partner| {
            let other = place[usize::from(partner.job)];
            if partner.first {
                other <= place[i]
            } else {
                place[i] <= other
            }
        })
    })
}

fn keeps_capacity(cycle: &Cycle, table: &Table) -> bool {
    (0..table.rows).all(|row| {
        let load: u32 = table
            .row(row)
            .chunks_exact(2)
            .map(|entry| &cycle.request.tasks[usize::from(entry[0])])
            .map(|task| u32::from(cycle.request.slot(task)))
            .sum();
        load <= u32::from(table.f)
    })
}

/// The cycle of the request and the plan that the table describes.
fn checked(request: &[u8], bytes: &[u8]) -> Result<(Cycle, Plan), i32> {
    let cycle = cycle(request)?;
    let table = table(bytes).ok_or(12)?;
    if table.h != cycle.h || !plausible(&cycle, table.f) {
        return Err(13);
    }
    if table.entries != cycle.count {
        return Err(14);
    }
    let mut place = [0; MOST_JOBS];
    for (i, job) in cycle.jobs().iter().enumerate() {
        let k = frame_of(&table, job).ok_or(14)?;
        let task = &cycle.request.tasks[usize::from(job.task)];
        let (first, behind) = window(task, job.release, table.f);
        if k < first || k >= behind {
            return Err(14);
        }
        place[i] = k;
    }
    if keeps_capacity(&cycle, &table) && keeps_order(&cycle, &place) {
        Ok((cycle, Plan { f: table.f, place }))
    } else {
        Err(14)
    }
}

/// 0 if the table describes a plan of the request, or a refusal.
pub fn check(request: &[u8], table: &[u8]) -> i32 {
    answer(checked(request, table).map(|_| 0))
}

/// The length of the table written again, or a refusal.
pub fn rewrite(request: &[u8], table: &[u8], out: &mut [u8]) -> i32 {
    let written = checked(request, table).and_then(|(cycle, plan)| write(&cycle, &plan, out));
    answer(written)
}

fn served(bytes: &[u8], state: &mut [u8], entries: &mut [u8]) -> Result<i32, i32> {
    if state.len() < 64 || entries.len() < 32 || state[2] > 1 {
        return Err(99);
    }
    let table = table(bytes).ok_or(12)?;
    let row = usize::from(two_bytes(state, 0));
    if row >= table.rows {
        return Err(15);
    }
    let first_cycle = state[2] == 1;
    entries[..32].fill(0);
    let mut count = 0;
    for entry in table.row(row).chunks_exact(2) {
        if first_cycle && entry[1] >= 128 {
            continue;
        }
        entries[2 * count..2 * count + 2].copy_from_slice(entry);
        count += 1;
    }
    let last = row + 1 == table.rows;
    let next = if last { 0 } else { row as u16 + 1 };
    state[0..2].copy_from_slice(&next.to_le_bytes());
    if last {
        state[2] = 0;
    }
    Ok(count as i32)
}

/// The number of entries served, or a refusal.
pub fn next_frame(table: &[u8], state: &mut [u8], entries: &mut [u8]) -> i32 {
    answer(served(table, state, entries))
}

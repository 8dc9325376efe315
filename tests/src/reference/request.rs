//! Reading a request file: refusals 1 to 6 and 17.

#[derive(Clone, Copy, Debug, PartialEq, Eq)]
pub struct Task {
    /// Worst transfer time.
    pub c: i64,
    /// Period.
    pub t: i64,
    /// Deadline after release.
    pub d: i64,
    /// Phase.
    pub p: i64,
}

#[derive(Clone, Debug, PartialEq, Eq)]
pub struct Request {
    pub tasks: Vec<Task>,
    /// Task `.0` before task `.1`.
    pub pairs: Vec<(usize, usize)>,
    /// Silent ticks after every transfer.
    pub g: i64,
}

impl Request {
    /// What a job of the task takes of its row: its transfer and the silent ticks behind it.
    pub fn slot(&self, task: &Task) -> i64 {
        task.c + self.g
    }
}

/// The bytes not read yet.
struct Reader<'a> {
    rest: &'a [u8],
}

impl Reader<'_> {
    fn byte(&mut self) -> Result<i64, i32> {
        let (first, rest) = self.rest.split_first().ok_or(1)?;
        self.rest = rest;
        Ok(i64::from(*first))
    }

    fn two_bytes(&mut self) -> Result<i64, i32> {
        let low = self.byte()?;
        let high = self.byte()?;
        Ok(low + 256 * high)
    }
}

fn read_task(reader: &mut Reader) -> Result<Task, i32> {
    let c = reader.two_bytes()?;
    let t = reader.two_bytes()?;
    let d = reader.two_bytes()?;
    let p = reader.two_bytes()?;
    if 1 <= c && c <= d && d <= t && p < t {
        Ok(Task { c, t, d, p })
    } else {
        Err(3)
    }
}

fn read_pair(reader: &mut Reader, tasks: &[Task]) -> Result<(usize, usize), i32> {
    let a = reader.byte()? as usize;
    let b = reader.byte()? as usize;
    if a < b && b < tasks.len() && tasks[a].t == tasks[b].t {
        Ok((a, b))
    } else {
        Err(5)
    }
}

/// The third section; a file that ends before it means 0.
fn read_silent_ticks(reader: &mut Reader) -> Result<i64, i32> {
    if reader.rest.is_empty() {
        return Ok(0);
    }
    let count = reader.byte()?;
    if count > 1 {
        return Err(17);
    }
    let g = if count == 1 { reader.byte()? } else { 0 };
    if g > 15 {
        return Err(17);
    }
    Ok(g)
}

/// The request in the bytes, or the first number, of 1 to 6 and 17, met from the front.
pub fn read(bytes: &[u8]) -> Result<Request, i32> {
    let mut reader = Reader { rest: bytes };
    let n = reader.byte()?;
    if n == 0 || n > 16 {
        return Err(2);
    }
    let mut tasks = Vec::new();
    for _ in 0..n {
        tasks.push(read_task(&mut reader)?);
    }
    let pair_count = reader.byte()?;
    if pair_count > 16 {
        return Err(4);
    }
    let mut pairs = Vec::new();
    for _ in 0..pair_count {
        pairs.push(read_pair(&mut reader, &tasks)?);
    }
    let g = read_silent_ticks(&mut reader)?;
    if !reader.rest.is_empty() {
        return Err(6);
    }
    Ok(Request { tasks, pairs, g })
}

/// The bytes of a request (used to make inputs; nothing is judged). A g of 0 is written by leaving
/// the third section out.
pub fn write(request: &Request) -> Vec<u8> {
    let mut bytes = vec![request.tasks.len() as u8];
    for task in &request.tasks {
        for field in [task.c, task.t, task.d, task.p] {
            bytes.extend_from_slice(&(field as u16).to_le_bytes());
        }
    }
    bytes.push(request.pairs.len() as u8);
    for &(a, b) in &request.pairs {
        bytes.push(a as u8);
        bytes.push(b as u8);
    }
    if request.g != 0 {
        bytes.extend([1, request.g as u8]);
    }
    bytes
}

//! Cutting a long transfer: refusals 1 to 6 and 17 of the request, then 24, 25 and 19.

use super::request::{self, Request, Task};

/// Which task is cut, and how many ticks its first piece gets.
#[derive(Clone, Copy, Debug, PartialEq, Eq)]
pub struct Cut {
    pub task: u8,
    pub first: u16,
}

/// The two pieces of the task, or 24.
fn pieces(old: &Request, cut: Cut) -> Result<[Task; 2], i32> {
    let long = *old.tasks.get(usize::from(cut.task)).ok_or(24)?;
    let first = i64::from(cut.first);
    let rest = long.c - first;
    if first < 1 || rest < 1 {
        return Err(24);
    }
    Ok([Task { c: first, ..long }, Task { c: rest, ..long }])
}

/// The first and the last of the new tasks that come from an old one.
fn ends(origin: &[usize], old: usize) -> (usize, usize) {
    let new = (0..origin.len()).filter(|new| origin[*new] == old);
    let new: Vec<usize> = new.collect();
    (new[0], new[new.len() - 1])
}

/// The request with one task in two pieces. Of each new task is kept which old one it comes from: a
/// pair a, b is now one of the last task that comes from a and the first that comes from b.
pub fn cut(bytes: &[u8], cut: Cut) -> Result<Request, i32> {
    let old = request::read(bytes)?;
    let two = pieces(&old, cut)?;
    let long = usize::from(cut.task);
    let (mut tasks, mut origin) = (Vec::new(), Vec::new());
    for (number, task) in old.tasks.iter().enumerate() {
        let made = if number == long { &two[..] } else { &[*task] };
        tasks.extend_from_slice(made);
        origin.resize(tasks.len(), number);
    }
    if tasks.len() > 16 {
        return Err(25);
    }
    let mut pairs = vec![ends(&origin, long)];
    for (a, b) in old.pairs {
        pairs.push((ends(&origin, a).1, ends(&origin, b).0));
    }
    if pairs.len() > 16 {
        return Err(19);
    }
    let g = old.g;
    Ok(Request { tasks, pairs, g })
}

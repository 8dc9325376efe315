//! Joining two requests: refusals 1 to 6 and 17 of either, then 18, 19 and 20.

use super::request::{self, Request};

/// Whether two requests make one, by the first of the tests that fails.
fn fit(first: &Request, second: &Request) -> Result<(), i32> {
    let tests = [
        (first.tasks.len() + second.tasks.len() <= 16, 18),
        (first.pairs.len() + second.pairs.len() <= 16, 19),
        (first.g == second.g, 20),
    ];
    match tests.iter().find(|(passed, _)| !passed) {
        Some(&(_, number)) => Err(number),
        None => Ok(()),
    }
}

/// One request of the two: a task of the second has the number that it had in the second's list
/// and as many more as there are tasks in the first.
pub fn joined(first: &[u8], second: &[u8]) -> Result<Request, i32> {
    let mut whole = request::read(first)?;
    let other = request::read(second)?;
    fit(&whole, &other)?;
    let before = whole.tasks.len();
    for (a, b) in other.pairs {
        whole.pairs.push((before + a, before + b));
    }
    whole.tasks.extend(other.tasks);
    Ok(whole)
}

//! Requests whose full search makes a given number of tries, to the last one.
//!
//! The first task fills frame 0 within its deadline, which leaves one frame length. Behind it come
//! jobs that fit wherever they are tested, x1 to xn, each with a window of so many frames from frame
//! 1 on, and last a job y with one frame, which a pair holds before x1 or with it. So all placings of
//! x1 to xn are tried in which x1 stands before y's frame, and y is tried in each of them.

use crate::sheet::{request, Short};

const F: i64 = 16;
const ROWS: i64 = 250;
const WIDEST: u64 = 240;
const MOST_WINDOWS: usize = 14;

/// Windows of a1, a2 and so on, `count` of them, with a1·(1 + a2·(1 + .. an·(1 + 1))) tries.
fn windows(tries: u64, count: usize) -> Option<Vec<u64>> {
    if count == 0 {
        return (tries == 1).then(Vec::new);
    }
    (1..=WIDEST)
        .rev()
        .filter(|a| tries.is_multiple_of(*a) && tries / a > 1)
        .find_map(|a| Some([vec![a], windows(tries / a - 1, count - 1)?].concat()))
}

/// The request with these windows and y in this frame.
fn with_windows(windows: &[u64], y: u64) -> Vec<u8> {
    let h = ROWS * F;
    let mut tasks: Vec<Short> = vec![(F, h, F, 0), (1, h, F, y as i64 * F)];
    tasks.extend(windows.iter().map(|a| (1, h, *a as i64 * F, F)));
    request(&tasks, &[(1, 2)])
}

/// A request that is refused with 10 after so many tries: y's frame is behind those of x1.
pub fn refused_after(tries: u64) -> Vec<u8> {
    let found = (1..=MOST_WINDOWS).find_map(|count| windows(tries - 1, count));
    let windows = found.expect("some windows do");
    with_windows(&windows, windows[0] + 1)
}

/// A request whose plan is found with just so many tries: y's frame is the last of x1, and there the
/// first task, x1 to xn and y take a try each.
pub fn planned_after(tries: u64) -> Vec<u8> {
    let found = (1..=MOST_WINDOWS).find_map(|count| windows(tries - 2 - count as u64, count));
    let mut windows = found.expect("some windows do");
    windows[0] += 1;
    with_windows(&windows, windows[0])
}

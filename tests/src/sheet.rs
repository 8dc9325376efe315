//! Requests in short form: tasks as (C, T, D, P), and the bench sheet.

use crate::reference::request::{write, Request, Task};

pub type Short = (i64, i64, i64, i64);

/// The bytes of a request with these tasks and pairs.
pub fn request(tasks: &[Short], pairs: &[(usize, usize)]) -> Vec<u8> {
    silent_request(tasks, pairs, 0)
}

/// The bytes of a request with these tasks and pairs, and g silent ticks after every transfer.
pub fn silent_request(tasks: &[Short], pairs: &[(usize, usize)], g: i64) -> Vec<u8> {
    write(&Request {
        tasks: tasks
            .iter()
            .map(|&(c, t, d, p)| Task { c, t, d, p })
            .collect(),
        pairs: pairs.to_vec(),
        g,
    })
}

/// A request without a third section, with these bytes behind it.
pub fn with_section(mut request: Vec<u8>, section: &[u8]) -> Vec<u8> {
    request.extend(section);
    request
}

pub fn p1() -> Vec<u8> {
    request(&[(5, 20, 20, 0), (5, 20, 20, 0), (10, 40, 40, 0)], &[])
}

/// P1 with one silent tick after every transfer.
pub fn p1_silent() -> Vec<u8> {
    with_section(p1(), &[1, 1])
}

pub fn p2() -> Vec<u8> {
    request(&[(2, 6, 6, 0), (2, 8, 8, 0), (8, 24, 24, 0)], &[])
}

pub fn p3() -> Vec<u8> {
    request(
        &[(2, 6, 6, 0), (2, 8, 8, 0), (4, 24, 24, 0), (4, 24, 24, 0)],
        &[(2, 3)],
    )
}

pub fn p5() -> Vec<u8> {
    request(&[(5, 20, 20, 0), (10, 20, 20, 0), (10, 40, 40, 0)], &[])
}

pub fn p6() -> Vec<u8> {
    request(&[(14, 60, 40, 10), (15, 60, 45, 15), (5, 20, 20, 0)], &[])
}

pub fn p7() -> Vec<u8> {
    request(&[(2, 10, 9, 6)], &[])
}

pub fn p8() -> Vec<u8> {
    request(&[(1, 10, 5, 2)], &[])
}

/// P8 with C 3, for which no frame is long enough and short enough.
pub fn p8_long() -> Vec<u8> {
    request(&[(3, 10, 5, 2)], &[])
}

pub fn p9() -> Vec<u8> {
    request(&[(1, 256, 1, 0)], &[])
}

pub fn p10() -> Vec<u8> {
    request(&[(1, 257, 1, 0)], &[])
}

pub fn p11() -> Vec<u8> {
    request(&[(1, 1, 1, 0), (1, 128, 128, 0)], &[])
}

pub fn p12() -> Vec<u8> {
    request(&[(1, 10_000, 10_000, 0)], &[])
}

/// `count` jobs that take 13 ticks of their row, g of them silent, for `holes` frames of 13 ticks.
pub fn pigeons(count: usize, holes: i64, g: i64) -> Vec<u8> {
    let tasks = vec![(13 - g, 13 * holes, 13 * holes, 0); count];
    silent_request(&tasks, &[], g)
}

/// 16 short tasks of the longest period, all with one deadline and released one after the other. Each
/// phase of one of them takes a few tries.
pub fn long_periods(deadline: i64) -> Vec<u8> {
    let task = |i: i64| (4 + i, 10_000, deadline, 600 * i);
    let tasks: Vec<Short> = (0..16).map(task).collect();
    request(&tasks, &[])
}

/// P12 with T 10001.
pub fn p12_long() -> Vec<u8> {
    request(&[(1, 10_001, 10_000, 0)], &[])
}

/// The longest table that there is: 128 jobs in 256 rows.
pub fn longest_table() -> Vec<u8> {
    let tasks = [
        (1, 4, 1, 0),
        (1, 8, 1, 1),
        (1, 16, 1, 2),
        (1, 32, 1, 3),
        (1, 64, 1, 5),
        (1, 128, 1, 6),
        (1, 256, 1, 7),
        (1, 256, 1, 10),
    ];
    request(&tasks, &[])
}

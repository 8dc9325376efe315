//! Phases that are counted, and phases that are planned one by one.

use bus_tests::bus::{Bus, COUNTS_LEN, TRIES_LEN};
use bus_tests::reference::phases::with_phase;
use bus_tests::reference::request::read;

/// The four counts that a tool gives, after a look at the bytes beside them, or its refusal.
pub fn counted(bus: &dyn Bus, request: &[u8], task: u8, allowance: u64) -> Result<[u16; 4], i32> {
    let mut bytes = [0x5A; COUNTS_LEN + 3];
    let answer = bus.phases(request, task, allowance, &mut bytes);
    let written = if answer < 0 { 0 } else { COUNTS_LEN };
    assert!(bytes[written..].iter().all(|byte| *byte == 0x5A));
    if answer < 0 {
        return Err(-answer);
    }
    assert_eq!(answer, 0);
    Ok([0, 2, 4, 6].map(|at| u16::from_le_bytes([bytes[at], bytes[at + 1]])))
}

/// For each phase of the task what the tool's own planning comes to: a table as 0, or its refusal.
pub fn planned_ends(bus: &dyn Bus, request: &[u8], task: u8, allowance: u64) -> Vec<i32> {
    let task = usize::from(task);
    let period = read(request).expect("it can be read").tasks[task].t;
    let end = |phase: i64| {
        let bytes = with_phase(request, task, phase);
        let answer = bus.plan(&bytes, allowance, &mut [0; 600], &mut [0; TRIES_LEN]);
        -answer.min(0)
    };
    (0..period).map(end).collect()
}

//! Drafts and what the calls make of them, for the test files about moving jobs by hand.

use bus_tests::bus::{Bus, DRAFT_LEN};
use bus_tests::call::{Call, Outcome};
use bus_tests::lending::run;
use bus_tests::reference::draft::Draft;
use bus_tests::rounds::drafting::{call, Move};

/// A draft with these frames and loads in its first places.
pub fn draft(f: u16, frames: &[u16], loads: &[u16]) -> Draft {
    let mut made = Draft::unused(f);
    made.frames[..frames.len()].copy_from_slice(frames);
    made.loads[..loads.len()].copy_from_slice(loads);
    made
}

/// What the call comes to, with every byte beside the buffers tested.
pub fn made(bus: &dyn Bus, call: &Call) -> Outcome {
    run(bus, call).unwrap_or_else(|fault| panic!("{fault}: {}", call.describe()))
}

/// The draft that a table starts, or the refusal; a refused start leaves the bytes as they were.
pub fn started(bus: &dyn Bus, request: &[u8], table: &[u8]) -> Result<Draft, i32> {
    let before = [0xC3; DRAFT_LEN + 5];
    let outcome = made(bus, &Call::draft_start(request, table, &before));
    let after = &outcome.buffers[0];
    assert_eq!(after[DRAFT_LEN..], before[DRAFT_LEN..]);
    if outcome.answer < 0 {
        assert_eq!(after[..], before);
        return Err(-outcome.answer);
    }
    assert_eq!(outcome.answer, 0);
    Ok(Draft::read(after))
}

/// The answer to a move, the draft after it, and the bytes behind it kept.
pub fn moved(bus: &dyn Bus, request: &[u8], draft: &Draft, step: Move) -> (i32, Draft) {
    let lent = [draft.bytes(), vec![0xC3; 3]].concat();
    let outcome = made(bus, &call(request, step, &lent));
    assert_eq!(outcome.buffers[0][DRAFT_LEN..], [0xC3; 3]);
    (outcome.answer, Draft::read(&outcome.buffers[0]))
}

/// What is written of a draft into so many bytes, those behind it tested, or the refusal.
pub fn written(bus: &dyn Bus, request: &[u8], draft: &Draft, room: usize) -> Result<Vec<u8>, i32> {
    let call = Call::draft_write(request, &draft.bytes(), &vec![0x3C; room]);
    let Outcome {
        answer,
        mut buffers,
    } = made(bus, &call);
    let length = answer.max(0) as usize;
    assert!(buffers[0][length..].iter().all(|byte| *byte == 0x3C));
    buffers[0].truncate(length);
    if answer < 0 {
        return Err(-answer);
    }
    Ok(buffers.remove(0))
}

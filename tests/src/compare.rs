//! One call made by a tool and by the reference.

use crate::bus::Bus;
use crate::call::{hex, Call, Outcome, Value};
use crate::lending::run;
use crate::reference::Reference;
use crate::row::Kind;

/// The answer is one that the row names, and no byte is changed that the row does not let change.
fn keeps_to_its_row(call: &Call, outcome: &Outcome) -> Result<(), String> {
    let answer = outcome.answer;
    if answer < 0 && !call.row.refusals.contains(&-answer) {
        return Err(format!("its row has no refusal {}", -answer));
    }
    let mut after = outcome.buffers.iter();
    for (argument, value) in call.row.arguments.iter().zip(&call.values) {
        let (Kind::Write(_, change), Value::Bytes(old)) = (&argument.kind, value) else {
            continue;
        };
        let new = after.next().expect("every such buffer is in the outcome");
        let parts = change.parts(call, answer);
        if parts.iter().any(|part| part.end > new.len()) {
            return Err("the answer is longer than the buffer".to_string());
        }
        let may_change = |place: usize| parts.iter().any(|part| part.contains(&place));
        if (0..old.len()).any(|place| old[place] != new[place] && !may_change(place)) {
            return Err("bytes beside the answer were changed".to_string());
        }
    }
    Ok(())
}

/// The outcome of the call, or a description of what it did wrong by itself.
fn judged(bus: &dyn Bus, call: &Call) -> Result<Outcome, String> {
    let outcome = run(bus, call)?;
    keeps_to_its_row(call, &outcome).map(|()| outcome)
}

/// What the reference makes of the call.
pub fn expected(call: &Call) -> Result<Outcome, String> {
    judged(&Reference, call).map_err(|fault| format!("{fault}: {}", call.describe()))
}

/// Makes the call on the subject and on the reference: the same outcome, or a description.
pub fn compare(subject: &dyn Bus, call: &Call) -> Result<Outcome, String> {
    let expected = expected(call)?;
    let actual = judged(subject, call).map_err(|fault| format!("{fault}: {}", call.describe()))?;
    if actual == expected {
        return Ok(actual);
    }
    let shown = |outcome: &Outcome| outcome.buffers.iter().map(|b| hex(b)).collect::<Vec<_>>();
    Err(format!(
        "answer {} expected {}, buffers {:?} expected {:?}: {}",
        actual.answer,
        expected.answer,
        shown(&actual),
        shown(&expected),
        call.describe()
    ))
}

//! The answers that `python/tests/answers` stores are those of the reference.

use std::fs;
use std::path::PathBuf;

use bus_tests::answers::answered;

#[test]
fn stored_answers_are_the_reference_s() {
    let folder = PathBuf::from(concat!(
        env!("CARGO_MANIFEST_DIR"),
        "/../python/tests/answers"
    ));
    for name in ["plain.txt", "silent.txt", "one-off.txt", "tries.txt"] {
        let stored = fs::read_to_string(folder.join(name)).expect("it can be read");
        for (old, new) in stored.lines().zip(answered(&stored).lines()) {
            assert_eq!(old, new, "{name}");
        }
    }
}

//! Writes answers of the reference to standard output. `answers plain` and `answers silent` draw
//! requests without and with a third section, `answers one-off` one-off transfers, `answers tries`
//! requests that are planned with several numbers of tries allowed, `answers left-open` requests that
//! the tries of the programs leave open; `answers` alone answers standard input anew.

use std::env;
use std::io::{stdin, Read};

use bus_tests::answers::{answered, drawn, drawn_left_open, drawn_one_off, drawn_tries};

const SEED: u64 = 15;

fn main() {
    let text = match env::args().nth(1).as_deref() {
        Some("plain") => drawn(SEED, 90, false),
        Some("silent") => drawn(SEED, 50, true),
        Some("one-off") => drawn_one_off(SEED, 70),
        Some("tries") => drawn_tries(SEED, 40),
        Some("left-open") => drawn_left_open(240),
        _ => {
            let mut text = String::new();
            stdin().read_to_string(&mut text).expect("text");
            answered(&text)
        }
    };
    print!("{text}");
}

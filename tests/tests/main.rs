//! The tests from outside, in one program: it is linked once, and tests of several files run at the same
//! time. `cargo test cut::` runs those of one file.

mod common;

mod bench_sheet;
mod cut;
mod cut_rounds;
mod decide;
mod decide_rounds;
mod differential;
mod draft;
mod draft_rounds;
mod draft_walks;
mod exact;
mod examples;
mod exhaustive;
mod harder;
mod heater;
mod heater_rounds;
mod join;
mod join_rounds;
mod one_off;
mod one_off_rounds;
mod phases;
mod phases_rounds;
mod programs;
mod reference_itself;
mod refusals;
mod shams;
mod simulation;
mod stack;
mod stored_answers;
mod timeline;
mod timeline_rounds;
mod timer;
mod timer_rounds;
mod tries;

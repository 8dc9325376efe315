//! Tests of the bus library from outside: the calls as rows of data, a second planner, generators of
//! requests, tables and calls, and the comparison of any tool with the reference.

pub mod answers;
pub mod bus;
pub mod call;
pub mod clock;
pub mod compare;
pub mod comparison;
pub mod fuzzer;
pub mod generate;
pub mod given_tries;
pub mod hard;
pub mod left_open;
pub mod lending;
#[cfg(feature = "linked")]
pub mod library;
pub mod plain;
pub mod programs;
pub mod random;
pub mod record;
pub mod reference;
pub mod registers;
pub mod rounds;
pub mod row;
mod rows;
pub mod shams;
pub mod sheet;
pub mod simulate;
pub mod timing;

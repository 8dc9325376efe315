//! What each program writes to standard output and standard error, from docs/FORMATS.md.

use super::table::{self, Table};
use super::{checked, listing, planned_within, read_cycle, timeline, PROGRAM_TRIES};

/// What a program wrote. Every program ends with status 0; its answer is what it wrote.
#[derive(Clone, Debug, PartialEq, Eq)]
pub struct Printed {
    pub out: Vec<u8>,
    pub err: Vec<u8>,
}

impl Printed {
    fn on_output(text: String) -> Printed {
        Printed {
            out: text.into_bytes(),
            err: Vec::new(),
        }
    }
}

/// The listing of the chosen table.
fn by_plan(request: &[u8], chosen: &Result<Table, i32>) -> Printed {
    Printed::on_output(match chosen {
        Ok(table) => {
            let cycle = read_cycle(request).expect("it was planned");
            listing::of_table(&cycle, table)
        }
        Err(number) => listing::of_refusal(*number),
    })
}

/// The bytes of the chosen table; a refusal stands on standard error.
fn by_plan_table(chosen: &Result<Table, i32>) -> Printed {
    match chosen {
        Ok(chosen) => Printed {
            out: table::encode(chosen),
            err: Vec::new(),
        },
        Err(number) => Printed {
            out: Vec::new(),
            err: listing::of_refusal(*number).into_bytes(),
        },
    }
}

/// Three cycles of the chosen table.
fn by_fly(chosen: &Result<Table, i32>) -> Printed {
    Printed::on_output(match chosen {
        Ok(chosen) => listing::of_flight(chosen),
        Err(number) => listing::of_refusal(*number),
    })
}

/// Every job of the chosen table.
fn by_timeline(request: &[u8], chosen: &Result<Table, i32>) -> Printed {
    Printed::on_output(timeline::printed(request, chosen))
}

/// What the programs write that plan a request from standard input, if they come to this.
pub fn by_planners(request: &[u8], chosen: &Result<Table, i32>) -> [(&'static str, Printed); 4] {
    [
        ("plan", by_plan(request, chosen)),
        ("plan_table", by_plan_table(chosen)),
        ("fly", by_fly(chosen)),
        ("timeline", by_timeline(request, chosen)),
    ]
}

/// The same with what the second planner comes to.
pub fn by_planning(request: &[u8]) -> [(&'static str, Printed); 4] {
    by_planners(request, &planned_within(request, PROGRAM_TRIES).0)
}

/// Whether the table describes a plan of the request.
pub fn by_check_table(request: &[u8], table: &[u8]) -> Printed {
    Printed::on_output(match checked(request, table) {
        Ok(_) => "accepted\n".to_string(),
        Err(number) => listing::of_refusal(number),
    })
}

//! The built programs, started as a user starts them.

use std::env;
use std::fs::File;
use std::path::{Path, PathBuf};
use std::process::{Command, Stdio};

use crate::reference::printed::Printed;

/// The folder that holds the programs, from BUS_BIN_DIR.
fn folder() -> PathBuf {
    let name =
        env::var_os("BUS_BIN_DIR").expect("set BUS_BIN_DIR to the folder that holds the programs");
    PathBuf::from(name)
}

/// The program, not started yet.
pub fn command(program: &str) -> Command {
    Command::new(folder().join(program))
}

/// What the command writes until it ends; it must end by itself and with status 0.
pub fn printed(mut command: Command) -> Printed {
    let done = command
        .output()
        .unwrap_or_else(|reason| panic!("{command:?}: {reason}"));
    assert!(done.status.success(), "{command:?}: {}", done.status);
    Printed {
        out: done.stdout,
        err: done.stderr,
    }
}

/// The program with a file as its standard input.
pub fn fed(program: &str, input: &Path) -> Printed {
    let file = File::open(input).unwrap_or_else(|reason| panic!("{}: {reason}", input.display()));
    let mut command = command(program);
    command.stdin(Stdio::from(file));
    printed(command)
}

/// The program with files as its arguments.
pub fn given(program: &str, files: &[&Path]) -> Printed {
    let mut command = command(program);
    command.args(files).stdin(Stdio::null());
    printed(command)
}

//! With the feature `linked`, link libbus.a from the directory BUS_LIB_DIR, and the search and
//! the exact planner in C into the programs that measure.

use std::env;
use std::path::Path;
use std::process::Command;

fn link_library() {
    let dir =
        env::var("BUS_LIB_DIR").expect("set BUS_LIB_DIR to the directory that holds libbus.a");
    let archive = Path::new(&dir).join("libbus.a");
    assert!(archive.exists(), "no {} there", archive.display());
    println!("cargo:rerun-if-changed={}", archive.display());
    println!("cargo:rustc-link-search=native={dir}");
    println!("cargo:rustc-link-lib=static=bus");
}

fn link_in_c(name: &str, programs: &[&str]) {
    let source = &format!("../bench/{name}.c");
    let object = Path::new(&env::var("OUT_DIR").expect("cargo sets it")).join(format!("{name}.o"));
    // Where a function begins within a line of the cache changes its time by up to a fifth, so each
    // begins with one, whatever is linked beside it.
    let compiled = Command::new("gcc")
        .args(["-std=c99", "-O2", "-falign-functions=64"])
        .args(["-Wall", "-Wextra", "-Werror"])
        .args(["-c", source, "-o"])
        .arg(&object)
        .status()
        .expect("gcc is needed");
    assert!(compiled.success(), "{source} does not compile");
    println!("cargo:rerun-if-changed={source}");
    println!("cargo:rerun-if-changed=../bench/cycle.h");
    for program in programs {
        println!("cargo:rustc-link-arg-bin={program}={}", object.display());
    }
}

fn main() {
    println!("cargo:rerun-if-env-changed=BUS_LIB_DIR");
    if env::var_os("CARGO_FEATURE_LINKED").is_some() {
        link_library();
        link_in_c("search", &["bench", "decisions"]);
        link_in_c("exact", &["decisions"]);
    }
}

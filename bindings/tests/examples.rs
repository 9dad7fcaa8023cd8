//! The examples, built by the commands in their own first lines, print what stands beside them.

mod common;

use std::fs;
use std::process::Command;

use common::{built, printed, root};

fn read(path: &str) -> String {
    fs::read_to_string(root().join(path)).unwrap_or_else(|error| panic!("{path}: {error}"))
}

/// The arguments of a command that an example's first lines name.
fn documented(example: &str, command: &str) -> Vec<String> {
    let text = read(example);
    let line = text.lines().take(8).find_map(|line| line.split_once(&format!("   {command} ")));
    let (_, arguments) = line.unwrap_or_else(|| panic!("{example} does not say how {command} builds it"));
    arguments.split(' ').map(String::from).collect()
}

#[track_caller]
fn assert_c_prints(name: &str) {
    let mut arguments = documented(&format!("examples/{name}.c"), "cc");
    let program = built(&format!("example_{name}"));
    assert_eq!(arguments.pop().as_deref(), Some(name), "the program, after -o");
    printed(Command::new("cc").arg("-Werror").args(arguments).arg(&program));
    assert_eq!(printed(&mut Command::new(program)), read(&format!("examples/{name}.txt")));
}

#[track_caller]
fn assert_rust_prints(name: &str) {
    let arguments = documented(&format!("examples/{name}.rs"), "cargo");
    let cargo = std::env::var_os("CARGO").expect("cargo runs this test");
    let output = printed(Command::new(cargo).args(["--offline", "--locked"]).args(arguments));
    assert_eq!(output, read(&format!("examples/{name}.txt")));
}

#[test]
fn c_example_prints_the_whole_case() {
    assert_c_prints("whole_case");
}

#[test]
fn rust_example_prints_the_whole_case() {
    assert_rust_prints("whole_case");
}

#[test]
fn c_example_prints_the_journal() {
    assert_c_prints("journal");
}

#[test]
fn rust_example_prints_the_journal() {
    assert_rust_prints("journal");
}

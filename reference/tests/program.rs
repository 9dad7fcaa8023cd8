//! The script program as a process.

mod common;

use std::fs;
use std::io::Write;
use std::process::{Child, Command, Output, Stdio};

use common::{columns, printed, WHOLE_CASE};

fn start(output: Stdio) -> Child {
    Command::new(env!("CARGO_BIN_EXE_reference_desk"))
        .stdin(Stdio::piped())
        .stdout(output)
        .stderr(Stdio::piped())
        .spawn()
        .expect("the program starts")
}

/// Feeds an input that fits the pipe and waits for the end.
fn feed(mut program: Child, input: &[u8]) -> Output {
    program.stdin.take().expect("piped").write_all(input).expect("the program reads");
    program.wait_with_output().expect("the program ends")
}

#[test]
fn program_prints_what_the_script_says() {
    let (calls, _) = columns(WHOLE_CASE);
    let script = [calls.as_bytes(), b"\xff\nB 2"].concat();
    let Output { status, stdout, stderr } = feed(start(Stdio::piped()), &script);
    assert!(status.success());
    assert_eq!(String::from_utf8_lossy(&stdout), printed(&script[..]));
    assert!(stderr.is_empty());
}

#[cfg(target_os = "linux")]
#[test]
fn failing_write_ends_the_program_with_a_message_and_a_status() {
    let full = fs::OpenOptions::new().write(true).open("/dev/full").expect("Linux has it");
    let Output { status, stderr, .. } = feed(start(full.into()), b"B 0\n");
    assert!(!status.success());
    assert!(status.code().is_some(), "ended by itself");
    assert!(!stderr.is_empty());
}

/// All but what a pipe holds of the line is read by the time the whole of it is written.
#[cfg(target_os = "linux")]
#[test]
fn memory_stays_fixed_however_long_a_line_is() {
    const LINE_KIBIBYTES: usize = 64 << 10;
    let mut program = start(Stdio::piped());
    let input = program.stdin.as_mut().expect("piped");
    for _ in 0..LINE_KIBIBYTES {
        input.write_all(&[b'0'; 1 << 10]).expect("the program reads");
    }
    let peak = peak_kibibytes(program.id());
    assert!(peak < LINE_KIBIBYTES / 4, "{peak} KiB for a line of {LINE_KIBIBYTES} KiB");
    assert_eq!(feed(program, b"\n").stdout, b"unread\n");
}

/// The most memory that a running process has had resident.
#[cfg(target_os = "linux")]
fn peak_kibibytes(process: u32) -> usize {
    let status = fs::read_to_string(format!("/proc/{process}/status")).expect("the process runs");
    let peak = status.lines().find_map(|line| line.strip_prefix("VmHWM:")).expect("Linux tells it");
    peak.trim().trim_end_matches(" kB").parse().expect("a number")
}

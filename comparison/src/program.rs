//! Running a script program.

use std::env;
use std::ffi::OsStr;
use std::fs::{self, File};
use std::io::{self, Seek, SeekFrom, Write};
use std::path::{Path, PathBuf};
use std::process::{self, Child, ChildStdin, Command, Output, Stdio};
use std::sync::atomic::{AtomicUsize, Ordering};
use std::thread;

/// What a pipe holds: so much can be written before any of it is read.
pub const PIPE: usize = 1 << 16;

/// A script program that can be started.
#[derive(Clone, Debug)]
pub struct Program(PathBuf);

impl Program {
    /// The desk under test.
    pub fn lending_desk() -> Program {
        Program::found("LENDING_DESK", "../target/bin/lending_desk", "./test builds it")
    }

    /// The second implementation's.
    pub fn reference_desk() -> Program {
        let command = "cargo build --release --offline --locked --manifest-path reference/Cargo.toml builds it";
        Program::found("REFERENCE_DESK", "../reference/target/release/reference_desk", command)
    }

    pub fn both() -> [Program; 2] {
        [Program::lending_desk(), Program::reference_desk()]
    }

    fn found(variable: &str, default: &str, command: &str) -> Program {
        let default = || Path::new(env!("CARGO_MANIFEST_DIR")).join(default);
        let path = env::var_os(variable).map_or_else(default, PathBuf::from);
        let shown = path.display();
        match path.canonicalize() {
            Ok(path) if path.is_file() => Program(path),
            _ => panic!("no program at {shown}: {command} at the repository's root, or {variable} says where it is"),
        }
    }

    pub fn start(&self, input: Stdio, output: Stdio) -> Child {
        self.start_with(&[], input, output)
    }

    /// Starts it with words, a file's name among them.
    pub fn start_with(&self, words: &[&OsStr], input: Stdio, output: Stdio) -> Child {
        let mut command = Command::new(&self.0);
        command.args(words).env_clear().stdin(input).stdout(output).stderr(Stdio::piped());
        command.spawn().unwrap_or_else(|error| panic!("{} does not start: {error}", self.0.display()))
    }

    /// Where it is.
    pub fn path(&self) -> &Path {
        &self.0
    }

    /// What is printed for an input that a pipe holds. A program that stops reading shows by what it prints.
    pub fn run(&self, input: &[u8]) -> Result<Vec<u8>, String> {
        assert!(input.len() <= PIPE, "{} bytes do not fit a pipe", input.len());
        let mut program = self.start(Stdio::piped(), Stdio::piped());
        let _ = take_input(&mut program).write_all(input);
        self.printed(program)
    }

    /// What is printed for an input of any length, written while the output is read.
    pub fn run_long(&self, input: &[u8]) -> Result<Vec<u8>, String> {
        let mut program = self.start(Stdio::piped(), Stdio::piped());
        let mut pipe = take_input(&mut program);
        thread::scope(|scope| {
            scope.spawn(move || drop(pipe.write_all(input)));
            self.printed(program)
        })
    }

    /// What is printed for a file, of which the program gets as much at once as it asks for.
    pub fn run_on_file(&self, input: &[u8]) -> Result<Vec<u8>, String> {
        let file = unnamed_file(input).expect("a temporary file");
        self.printed(self.start(file.into(), Stdio::piped()))
    }

    /// What a program prints that ends well and complains of nothing.
    fn printed(&self, program: Child) -> Result<Vec<u8>, String> {
        let Output { status, stdout, stderr } = program.wait_with_output().expect("the program ends");
        if status.success() && stderr.is_empty() {
            return Ok(stdout);
        }
        let message = String::from_utf8_lossy(&stderr);
        Err(format!("{} ends with {status} and {message:?} on standard error", self.0.display()))
    }
}

pub fn take_input(program: &mut Child) -> ChildStdin {
    program.stdin.take().expect("piped")
}

/// A path in a folder that no file has.
pub fn new_path(folder: &Path, name: &str) -> PathBuf {
    static COUNT: AtomicUsize = AtomicUsize::new(0);
    let number = COUNT.fetch_add(1, Ordering::Relaxed);
    folder.join(format!("lending_desk-{}-{number}-{name}", process::id()))
}

fn unnamed_file(bytes: &[u8]) -> io::Result<File> {
    let path = new_path(&env::temp_dir(), "input");
    let mut file = File::options().read(true).write(true).create_new(true).open(&path)?;
    fs::remove_file(&path)?;
    file.write_all(bytes)?;
    file.seek(SeekFrom::Start(0))?;
    Ok(file)
}

/// Keeps bytes for whoever wants to look into a failure, and says where.
pub fn saved(name: &str, bytes: &[u8]) -> String {
    let path = new_path(&env::temp_dir(), name);
    match fs::write(&path, bytes) {
        Ok(()) => path.display().to_string(),
        Err(error) => format!("{} could not be written: {error}", path.display()),
    }
}

/// What Linux tells of a running process under a name.
#[cfg(target_os = "linux")]
fn told(process: u32, name: &str) -> Option<String> {
    let status = fs::read_to_string(format!("/proc/{process}/status")).ok()?;
    let line = status.lines().find_map(|line| line.strip_prefix(name)?.strip_prefix(':'))?;
    line.split_whitespace().next().map(String::from)
}

/// The most memory that a running process has had resident.
#[cfg(target_os = "linux")]
pub fn peak_kibibytes(process: u32) -> usize {
    told(process, "VmHWM").and_then(|number| number.parse().ok()).expect("the process runs")
}

/// Whether a process sleeps until something comes.
#[cfg(target_os = "linux")]
pub fn is_asleep(process: u32) -> bool {
    told(process, "State").as_deref() == Some("S")
}

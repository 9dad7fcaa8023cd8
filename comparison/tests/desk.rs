//! `./desk`, the command of the README.

use std::env;
use std::fs::{self, File, OpenOptions};
use std::io::{BufRead, BufReader, Write};
use std::os::unix::fs::symlink;
use std::path::{Path, PathBuf};
use std::process::{Command, Output, Stdio};

use comparison::program::Program;

fn root() -> PathBuf {
    Path::new(env!("CARGO_MANIFEST_DIR")).join("..").canonicalize().expect("the repository is there")
}

/// `./desk`, once the program is there that it runs.
fn desk() -> Command {
    Program::lending_desk();
    Command::new(root().join("desk"))
}

fn crate_file(name: &str) -> PathBuf {
    root().join("crates/lending_desk").join(name)
}

fn ended(command: &mut Command) -> Output {
    command.output().expect("./desk starts")
}

fn expected() -> Vec<u8> {
    fs::read(crate_file("stdout")).expect("the crate has its expected output")
}

/// Asserts that a command serves the crate's input, and what it says on standard error.
#[track_caller]
fn assert_serves(command: &mut Command, said: &str) {
    let Output { status, stdout, stderr } = ended(command);
    assert_eq!(String::from_utf8_lossy(&stderr), said);
    assert!(status.success());
    assert_eq!(stdout, expected());
}

/// Asserts that a command serves nothing, and what it says instead.
#[track_caller]
fn assert_serves_nothing(command: &mut Command, said: &str) {
    let Output { status, stdout, stderr } = ended(command);
    assert_eq!(String::from_utf8_lossy(&stderr), said);
    assert_eq!(status.code(), Some(2));
    assert!(stdout.is_empty());
}

#[test]
fn desk_serves_a_file() {
    assert_serves(desk().arg(crate_file("stdin")), ""); // nothing to build
}

#[test]
fn desk_serves_standard_input() {
    let input = File::open(crate_file("stdin")).expect("the crate has its input");
    assert_serves(desk().stdin(input), "");
}

// ---- Help

fn help() -> String {
    let Output { status, stdout, .. } = ended(desk().arg("--help"));
    assert!(status.success());
    String::from_utf8(stdout).expect("text")
}

#[test]
fn desk_says_the_calls_and_replies_in_thirty_lines() {
    let help = help();
    assert!(help.lines().count() <= 30);
    assert!(help.lines().all(|line| line.chars().count() <= 120));
    for letter in ["S KIND", "B HANDOUT", "I HANDOUT", "G HANDOUT", "F HANDOUT", "C HANDOUT"] {
        assert!(help.contains(&format!("  {letter}")), "{letter}");
    }
    for word in ["ok", "answer", "finished", "committed", "circle", "cancelled"] {
        assert!(help.contains(word), "{word}");
    }
    assert!(help.contains("wait COUNT OWNERS") && help.contains("refused") && help.contains("unread"));
}

#[test]
fn desk_says_which_operations_a_kind_has() {
    let help = help();
    for (kind, operations) in [
        ("stack", "1 push  2 pop  3 top"),
        ("set", "4 insert  5 delete  6 member"),
        ("table", "7 insert  8 delete  9 lookup  10 size  11 modify"),
    ] {
        let line = help.lines().find(|line| line.trim_start().starts_with(&format!("{kind} ")));
        assert!(line.map_or(false, |line| line.ends_with(&format!("  {operations}"))), "{kind}: {line:?}");
    }
}

/// In the words of the README's table, which has two numbers with their reasons in a row.
#[test]
fn desk_says_what_each_refusal_means() {
    let (readme, help) = (fs::read_to_string(root().join("README.md")).expect("the README is there"), help());
    let rows = readme.lines().skip_while(|line| !line.starts_with("| number | reason |")).skip(2);
    let cells: Vec<&str> =
        rows.take_while(|line| line.starts_with('|')).flat_map(|row| row.trim_matches('|').split('|')).collect();
    let mut numbers: Vec<u32> = Vec::new();
    for pair in cells.chunks(2).filter(|pair| !pair[0].trim().is_empty()) {
        numbers.push(pair[0].trim().parse().expect("a number"));
        let reason = format!(" {} {}", pair[0].trim(), pair[1].trim());
        let ends = |rest: &str| rest.starts_with("  ") || rest.starts_with('\n');
        assert!(help.split(&reason).skip(1).any(ends), "{reason}");
    }
    numbers.sort_unstable();
    assert!(numbers.into_iter().eq(1..=12), "the README has all of them");
    assert!(help.contains(" 13 the record cannot be read or written\n"), "which is the journal's");
    assert!(help.contains("script meets 3 and 5 to 11 only"));
}

// ---- What it cannot serve

#[test]
fn desk_refuses_what_it_cannot_serve() {
    for arguments in [
        &["no such file"][..],
        &["."],
        &["--no-such-option"],
        &["one", "two"],
        &["--journal"],
        &["--journal", ""],
        &["--journal", "one", "no such file"],
        &["--journal", "one", "--read"],
        &["--journal", "one", "two", "three"],
        &["--journal", "line\nfeed"],
        &["--read"],
        &["--read", ""],
        &["--read", "one", "two"],
        &["--read", "one", "-"],
    ] {
        let Output { status, stdout, stderr } = ended(desk().args(arguments));
        assert_eq!(status.code(), Some(2), "{arguments:?}");
        assert!(stdout.is_empty() && !stderr.is_empty(), "{arguments:?}");
    }
}

/// `./desk` as a shell's command starts it, with arguments and redirections; ended if it hangs.
fn desk_with(words: &str) -> Command {
    let mut shell = Command::new("sh");
    shell.args(["-c", &format!("exec timeout 30 \"$0\" {words}")]).arg(desk().get_program());
    shell.current_dir(crate_file(""));
    shell
}

#[test]
fn desk_says_that_standard_input_is_closed() {
    for words in ["<&-", "- <&-"] {
        assert_serves_nothing(&mut desk_with(words), "desk: standard input is closed\n");
    }
}

#[test]
fn desk_serves_a_file_without_standard_input() {
    assert_serves(&mut desk_with("stdin <&-"), "");
}

#[test]
fn desk_says_that_standard_output_is_closed() {
    for words in ["<stdin >&-", "stdin >&-", "<&- >&-", "--help >&-"] {
        assert_serves_nothing(&mut desk_with(words), "desk: standard output is closed\n");
    }
}

/// A journal would get the number of a file that is closed. Where standard error is, the message goes to standard output.
#[test]
fn desk_opens_no_journal_where_a_file_is_closed() {
    let journal = folder("closed").join("journal");
    fs::write(&journal, b"B\x05").expect("a file is written");
    for words in ["--journal", "--read"] {
        let words = format!("{words} {}", journal.display());
        for (closed, said) in [("<&-", "input"), (">&-", "output"), ("<&- >&-", "output")] {
            let said = format!("desk: standard {said} is closed\n");
            assert_serves_nothing(&mut desk_with(&format!("{words} {closed}")), &said);
        }
        for closed in ["2>&-", "<&- 2>&-"] {
            let Output { status, stdout, .. } = ended(&mut desk_with(&format!("{words} {closed}")));
            assert_eq!(String::from_utf8_lossy(&stdout), "desk: standard error is closed\n", "{words} {closed}");
            assert_eq!(status.code(), Some(2), "{words} {closed}");
        }
        for closed in [">&- 2>&-", "<&- >&- 2>&-"] {
            assert_serves_nothing(&mut desk_with(&format!("{words} {closed}")), "");
        }
    }
    assert_serves_nothing(
        &mut desk_with(&format!("--journal {} stdin <&-", journal.display())),
        "desk: standard input is closed\n",
    );
    assert_eq!(fs::read(journal).expect("it is there"), b"B\x05");
}

#[cfg(target_os = "linux")]
#[test]
fn desk_fails_where_a_write_fails() {
    let full = OpenOptions::new().write(true).open("/dev/full").expect("Linux has it");
    let Output { status, stderr, .. } = ended(desk().arg(crate_file("stdin")).stdout(full));
    assert_eq!(status.code(), Some(1));
    assert!(String::from_utf8_lossy(&stderr).contains("lending_desk: standard output"));
}

/// Nobody reads the replies any more: a failed write too, and no silent end.
#[test]
fn desk_fails_where_nobody_reads() {
    let mut running =
        desk().stdin(Stdio::piped()).stdout(Stdio::piped()).stderr(Stdio::piped()).spawn().expect("./desk starts");
    drop(running.stdout.take());
    let _ = running.stdin.take().expect("piped").write_all(b"B 0\n");
    let Output { status, stderr, .. } = running.wait_with_output().expect("./desk ends");
    assert_eq!(status.code(), Some(1));
    assert!(String::from_utf8_lossy(&stderr).contains("lending_desk: standard output"));
}

/// An empty folder for a test.
fn folder(name: &str) -> PathBuf {
    let path = Path::new(env!("CARGO_TARGET_TMPDIR")).join(name);
    let _ = fs::remove_dir_all(&path);
    fs::create_dir_all(&path).expect("a folder is made");
    path
}

// ---- The journal

/// Asserts what a command prints, what it says on standard error, and how it ends.
#[track_caller]
fn assert_prints(command: &mut Command, printed: &str, said: &str, code: i32) {
    let Output { status, stdout, stderr } = ended(command);
    assert_eq!(String::from_utf8_lossy(&stderr), said);
    assert_eq!(String::from_utf8_lossy(&stdout), printed);
    assert_eq!(status.code(), Some(code));
}

#[test]
fn desk_keeps_a_journal_and_goes_on_from_it() {
    let folder = folder("journal");
    let asked = |script: &str| {
        fs::write(folder.join("script"), script).expect("a file is written");
        let mut desk = desk();
        desk.current_dir(&folder).args(["--journal", "kept"]);
        desk
    };
    assert_prints(asked("S 1\nB 7\nX\nB 7\n").arg("script"), "ok\nok\nunread\nrefused 6\n", "", 0);
    let mut from_input = asked("I 7 0 1 9 0\nB 7");
    let input = File::open(folder.join("script")).expect("the script is there");
    assert_prints(from_input.arg("-").stdin(input), "answer 1 0\nrefused 6\n", "", 0);
    assert_prints(asked("F 7\n").stdin(File::open(folder.join("script")).expect("there")), "committed 7\n", "", 0);
    let lines = "S 1 0 0 0 0 0 0 0 0 0 0 0 0 0 0 0\tok\nB 7\tok\nI 7 0 1 9 0\tanswer 1 0\nF 7\tcommitted 7\n";
    assert_prints(desk().current_dir(&folder).args(["--read", "kept"]), lines, "", 0);
}

/// The name of the last one looks like a note's beginning.
#[test]
fn desk_says_what_is_wrong_with_a_journal() {
    let folder = folder("damaged");
    for name in ["cut", "--cut", "note: cut", "a: note: b"] {
        let path = folder.join(name);
        let asked = |word: &str| {
            let mut desk = desk();
            desk.current_dir(&folder).args([word, name]).stdin(Stdio::null());
            desk
        };
        let missing = format!("lending_desk: {name}: No such file or directory\n");
        assert_prints(&mut asked("--read"), "", &missing, 1);
        fs::write(&path, b"B\x05B").expect("a file is written");
        assert_prints(
            &mut asked("--read"),
            "B 5\tok\n",
            &format!("lending_desk: {name}: a record is cut at byte 2\n"),
            1,
        );
        let note = format!("lending_desk: {name}: note: the last record is cut, and is cut away at byte 2\n");
        assert_prints(&mut asked("--journal"), "", &note, 0);
        assert_prints(&mut asked("--read"), "B 5\tok\n", "", 0);
        fs::write(&path, b"B\x05X").expect("a file is written");
        let damage = format!("lending_desk: {name}: no call has the letter at byte 2\n");
        assert_prints(&mut asked("--read"), "B 5\tok\n", &damage, 1);
        assert_prints(&mut asked("--journal"), "", &damage, 1);
        assert_eq!(fs::read(&path).expect("it is there"), b"B\x05X");
    }
}

/// The desk waits for input meanwhile.
#[test]
fn desk_passes_on_a_note_at_once() {
    let journal = folder("note").join("journal");
    fs::write(&journal, b"B").expect("a file is written");
    let mut running = desk();
    running.arg("--journal").arg(&journal).stdin(Stdio::piped()).stdout(Stdio::piped()).stderr(Stdio::piped());
    let mut running = running.spawn().expect("./desk starts");
    let mut line = String::new();
    BufReader::new(running.stderr.take().expect("piped")).read_line(&mut line).expect("text");
    assert!(line.ends_with(": note: the last record is cut, and is cut away at byte 0\n"), "{line}");
    running.stdin.take().expect("piped").write_all(b"B 5\n").expect("./desk reads");
    let Output { status, stdout, .. } = running.wait_with_output().expect("./desk ends");
    assert!(status.success());
    assert_eq!(stdout, b"ok\n");
}

// ---- Where it stands, and what it stands beside

#[test]
fn desk_is_found_behind_links() {
    Program::lending_desk();
    let folder = folder("links");
    for (link, target) in [("root", root()), ("absolute", root().join("desk"))] {
        symlink(target, folder.join(link)).expect("a link is made");
    }
    for (link, target) in [("relative", "root/desk"), ("twice", "relative")] {
        symlink(target, folder.join(link)).expect("a link is made");
    }
    for link in ["absolute", "relative", "twice", "root/desk"] {
        assert_serves(Command::new(folder.join(link)).arg("stdin").current_dir(crate_file("")), "");
        assert_serves(Command::new("bash").args([link]).arg(crate_file("stdin")).current_dir(&folder), "");
    }
}

/// CDPATH leads a `cd` to a folder of the same name elsewhere.
#[test]
fn desk_is_found_with_cdpath_set() {
    Program::lending_desk();
    let folder = folder("cdpath");
    fs::create_dir_all(folder.join("elsewhere/root")).expect("a folder is made");
    symlink(root(), folder.join("root")).expect("a link is made");
    let mut desk = Command::new("bash");
    desk.arg("root/desk").arg(crate_file("stdin")).current_dir(&folder).env("CDPATH", folder.join("elsewhere"));
    assert_serves(&mut desk, "");
}

/// A repository with `./desk`, its program and the list of crates, in which only the commands of its folder `bin` are
/// found.
struct Repository(PathBuf);

impl Repository {
    /// Commands that `./desk` needs to serve and to build: all but `rt`.
    const COMMANDS: [&'static str; 14] = [
        "awk", "bash", "cat", "cp", "dirname", "find", "grep", "mkdir", "mktemp", "mv", "readlink", "rm", "tee",
        "touch",
    ];

    fn new(name: &str) -> Self {
        Program::lending_desk();
        let repository = Repository(folder(name));
        for name in ["bin", "crates/lending_desk/out", "target/bin", "tools"] {
            fs::create_dir_all(repository.0.join(name)).expect("a folder is made");
        }
        for name in ["desk", "crates.txt", "target/bin/lending_desk", "tools/build"] {
            fs::copy(root().join(name), repository.0.join(name)).expect("a file is copied");
        }
        let path = env::var_os("PATH").expect("commands are found");
        for name in Repository::COMMANDS {
            let found = env::split_paths(&path).map(|folder| folder.join(name)).find(|file| file.is_file());
            let found = found.unwrap_or_else(|| panic!("{name} does not run here"));
            symlink(found, repository.0.join("bin").join(name)).expect("a link is made");
        }
        repository
    }

    fn program(&self) -> PathBuf {
        self.0.join("target/bin/lending_desk")
    }

    /// Makes the program older than the sources.
    fn age_program(&self) {
        let touched = Command::new("touch").args(["-d", "2000-01-01"]).arg(self.program()).status();
        assert!(touched.expect("touch starts").success());
    }

    fn remove_program(&self) {
        fs::remove_file(self.program()).expect("the program was there");
    }

    /// Puts an `rt` there that builds the program, and speaks as the real one does.
    fn add_rt(&self) {
        fs::copy(self.program(), self.0.join("kept")).expect("a file is copied");
        self.add_command("bin/rt", "echo 'logic=proved functions=1'\ncp ../../kept out/lending_desk\n");
    }

    fn add_command(&self, name: &str, text: &str) {
        let path = self.0.join(name);
        fs::write(&path, format!("#!/usr/bin/env bash\n{text}")).expect("a file is written");
        assert!(Command::new("chmod").arg("+x").arg(path).status().expect("chmod starts").success());
    }

    fn desk(&self) -> Command {
        let mut desk = Command::new(self.0.join("desk"));
        desk.arg(crate_file("stdin")).env("PATH", self.0.join("bin"));
        desk
    }
}

#[test]
fn desk_runs_a_program_that_may_be_old_where_rt_is_missing() {
    let repository = Repository::new("no_rt");
    assert_serves(&mut repository.desk(), "");
    repository.age_program();
    let may_be_old = "desk: the program may be old: a source is newer, and rt, which builds it, does not run here\n";
    assert_serves(&mut repository.desk(), may_be_old);
}

#[test]
fn desk_says_that_rt_is_missing_where_the_program_is_too() {
    let repository = Repository::new("no_rt_and_no_program");
    repository.remove_program();
    let missing = "desk: rt does not run here: it is the Rattle toolchain's command\n";
    assert_serves_nothing(&mut repository.desk(), missing);
}

#[test]
fn desk_builds_a_program_that_is_old_or_missing() {
    let repository = Repository::new("rt");
    repository.add_rt();
    for spoil in [Repository::age_program, Repository::remove_program] {
        spoil(&repository);
        let Output { status, stdout, stderr } = ended(&mut repository.desk());
        assert!(status.success());
        assert_eq!(stdout, expected());
        assert!(String::from_utf8_lossy(&stderr).contains("crates proved"));
        assert_serves(&mut repository.desk(), ""); // nothing to build any more
    }
}

/// One that says nothing before it is killed or ends badly, or says something and then ends well.
#[test]
fn desk_fails_where_the_program_does() {
    let repository = Repository::new("failing");
    for (text, words, said) in [
        ("echo ok\nkill -KILL $$\n", &[][..], "Killed"),
        ("echo ok\nexit 3\n", &[], ""),
        ("echo ok\nprintf 'lending_desk: no line feed' >&2\n", &[], "lending_desk: no line feed\n"),
        ("echo ok\necho 'lending_desk: j: note: a' >&2\nkill -KILL $$\n", &["--journal", "j"], "note: a\n"),
        ("echo ok\necho 'lending_desk: j: note: a' >&2\necho b >&2\n", &["--journal", "j"], "note: a\nb\n"),
        ("echo ok\necho 'lending_desk: note: a' >&2\n", &["--read", "j"], "note: a\n"),
    ] {
        repository.add_command("target/bin/lending_desk", text);
        let mut desk = Command::new(repository.0.join("desk"));
        let Output { status, stdout, stderr } = ended(desk.args(words).env("PATH", repository.0.join("bin")));
        assert_eq!(status.code(), Some(1), "{text}");
        assert_eq!(stdout, b"ok\n", "{text}");
        assert!(String::from_utf8_lossy(&stderr).contains(said), "{text}");
    }
}

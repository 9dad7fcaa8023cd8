//! Files that fail beneath the desk's program, and the order of what it does with them: its calls of the C library go
//! through `faults.c`, which tells of them and lets one fail. And a device that is full.

#![cfg(target_os = "linux")]

use std::env;
use std::fs;
use std::io::{BufRead, BufReader, Read, Write};
use std::path::{Path, PathBuf};
use std::process::{Command, Output, Stdio};
use std::sync::Once;

use comparison::difference;
use comparison::journal::{starts, whole, Course, JournalFile, Told};
use comparison::program::{new_path, take_input, Program};
use reference::script::journalled;

const SCRIPT: &[u8] =
    b"S 1 2 3\nB 0\nX\nB 1\nI 0 0 1 4294967295 0\nI 1 0 1 300 0\nI 1 0 3 0 0\nB 1\nF 1\nF 0\nB 2\nC 2\n";

/// The library made of `faults.c`.
fn library() -> PathBuf {
    static BUILT: Once = Once::new();
    let library = Path::new(env!("CARGO_TARGET_TMPDIR")).join("faults.so");
    BUILT.call_once(|| {
        let mut compiler = Command::new("cc");
        compiler.args(["-Wall", "-Wextra", "-Werror", "-O1", "-shared", "-fPIC", "-o"]).arg(&library);
        let status = compiler.arg(Path::new(env!("CARGO_MANIFEST_DIR")).join("tests/faults.c")).status();
        assert!(status.expect("cc starts").success());
    });
    library
}

/// Asks a program in portions, each when the one before is answered line by line, or the program has ended.
fn talked<'a>(command: &mut Command, portions: impl Iterator<Item = &'a [u8]>) -> Told {
    let program = command.stdin(Stdio::piped()).stdout(Stdio::piped()).stderr(Stdio::piped()).spawn();
    let mut program = program.expect("the program starts");
    let (mut input, output) = (take_input(&mut program), program.stdout.take().expect("piped"));
    let (mut output, mut printed) = (BufReader::new(output), Vec::new());
    for portion in portions {
        let _ = input.write_all(portion); // a program that has ended shows by what it prints
        for _ in difference::lines(portion) {
            output.read_until(b'\n', &mut printed).expect("its output");
        }
    }
    drop(input);
    output.read_to_end(&mut printed).expect("its output");
    let Output { stderr, .. } = program.wait_with_output().expect("the program ends");
    Told { printed, said: String::from_utf8_lossy(&stderr).into_owned() }
}

/// A run of the program over a journal.
struct Run {
    told: Told,
    /// The calls that it made on files, each with the file's number.
    calls: Vec<String>,
}

impl Run {
    /// Serves lines, with a fault as `faults.c` takes it.
    fn new(file: &JournalFile, lines: &[u8], fault: &str) -> Run {
        let told = new_path(&env::temp_dir(), "told");
        let mut command = Command::new(Program::lending_desk().path());
        command.env_clear().env("LD_PRELOAD", library()).env("FAULTS_TOLD", &told).env("FAULTS", fault);
        let run = talked(command.arg("--journal").arg(file.path()), difference::lines(lines));
        let calls = fs::read_to_string(&told).expect("calls were told: the C library is linked as the program starts");
        fs::remove_file(told).expect("it was there");
        Run { told: run, calls: calls.lines().map(String::from).collect() }
    }

    fn places(&self, call: &str) -> Vec<usize> {
        (0..self.calls.len()).filter(|&place| self.calls[place] == call).collect()
    }
}

#[test]
fn records_are_on_disk_before_replies_are_printed() {
    let course = Course::of(SCRIPT);
    for fault in ["", "short 1"] {
        let file = JournalFile::none_on_disk();
        let run = Run::new(&file, SCRIPT, fault);
        run.told.check(&Told::new(&course.replies.concat(), "")).expect("served");
        assert_eq!(file.bytes(), course.journal);
        let (mut unsynced, mut kept, mut printed) = (false, 0, 0);
        for call in &run.calls {
            match call.as_str() {
                "write 3" => unsynced = true,
                "fdatasync 3" => {
                    kept += usize::from(unsynced);
                    unsynced = false;
                }
                "write 1" => {
                    printed += 1;
                    let needed = course.kept.iter().filter(|&&line| line < printed).count();
                    assert!(!unsynced && kept == needed, "reply {printed}: {:?}", run.calls);
                }
                _ => {}
            }
        }
        assert_eq!(
            (printed, kept),
            (course.lines.len(), course.kept.len()),
            "a reply is printed, a record kept at once"
        );
    }
}

/// Its name is lost otherwise when the machine goes down.
#[test]
fn folder_of_a_journal_just_made_is_on_disk_before_anything_is_asked() {
    let file = JournalFile::none_on_disk();
    let made = Run::new(&file, b"B 0\n", "");
    let first = made.places("read 0")[0];
    assert!(made.calls[..first].iter().any(|call| call.starts_with("fsync ")), "{:?}", made.calls);
    let again = Run::new(&file, b"B 1\n", "");
    assert!(!again.calls.iter().any(|call| call.starts_with("fsync ")), "{:?}", again.calls);

    let unmade = JournalFile::none_on_disk();
    let failed = Run::new(&unmade, b"B 0\n", "fsync 1");
    assert_fails(&failed, b"", unmade.path());
}

/// Asserts what was printed before something failed, and that it was said with the name given.
#[track_caller]
fn assert_fails(run: &Run, printed: &[u8], name: &Path) {
    assert_eq!(String::from_utf8_lossy(&run.told.printed), String::from_utf8_lossy(printed));
    let expected = format!("lending_desk: {}: ", name.display());
    let said = &run.told.said;
    assert!(said.starts_with(&expected) && said.lines().count() == 1, "{said:?} and not {expected:?}");
}

#[test]
fn desk_that_cannot_keep_a_record_prints_no_reply_to_it_and_no_more() {
    let course = Course::of(SCRIPT);
    let starts = starts(&course.journal);
    for (record, &line) in course.kept.iter().enumerate() {
        for (call, kept) in [("write", record), ("fdatasync", record + 1)] {
            let file = JournalFile::none_on_disk();
            let run = Run::new(&file, SCRIPT, &format!("{call} {}", record + 1));
            assert_fails(&run, &course.replies[..line].concat(), Path::new("journal"));
            assert_eq!(file.bytes(), course.journal[..starts[kept]], "{call}, record {record}");
            assert_eq!(run.places(&format!("{call} 3")).len(), record + 1, "none is tried behind it: {:?}", run.calls);
        }
    }
}

#[test]
fn desk_that_cannot_read_or_cut_its_journal_serves_nothing() {
    let (_, journal) = journalled(SCRIPT);
    let last = starts(&journal)[whole(&journal).records.len() - 1];
    for (length, fault, notes, left) in [
        (journal.len(), "read 1", 0, journal.len()),
        (journal.len(), "read 2", 0, journal.len()),
        (last + 1, "ftruncate 1", 1, last + 1),
        (last + 1, "fdatasync 1", 1, last),
    ] {
        let file = JournalFile::none_on_disk();
        file.write(&journal[..length]);
        let run = Run::new(&file, b"B 9\n", fault);
        let said: Vec<&str> = run.told.said.lines().collect();
        assert!(run.told.printed.is_empty() && said.len() == notes + 1, "{fault}: {:?}", run.told);
        let name = format!("lending_desk: {}: ", file.path().display());
        assert!(said.iter().all(|line| line.starts_with(&name)), "{fault}: {:?}", run.told);
        assert_eq!(run.places("read 0"), [], "{fault}: {:?}", run.calls);
        assert_eq!(file.bytes(), journal[..left], "{fault}");
    }
}

#[test]
fn cut_record_is_told_and_cut_away_before_anything_is_asked() {
    let (_, journal) = journalled(SCRIPT);
    let file = JournalFile::none_on_disk();
    file.write(&journal[..journal.len() - 1]);
    let run = Run::new(&file, b"B 9\n", "");
    let first = |call: &str| run.places(call)[0];
    let order = [first("write 2"), first("ftruncate 3"), first("fdatasync 3"), first("read 0"), first("write 1")];
    assert!(order.windows(2).all(|pair| pair[0] < pair[1]), "{:?}", run.calls);
}

/// A client that asks line by line, and one that asks all at once. Then desks go on elsewhere.
#[test]
fn desk_on_a_full_device_prints_no_reply_to_what_it_cannot_keep() {
    let stretch = b"B 0\nI 0 0 3 4294967295 4294967295\nB 0\nC 0\n".repeat(100);
    let course = Course::of(&[b"S 1\n", &stretch[..]].concat());
    let all = course.lines.concat();
    for portions in [vec![&all[..]], difference::lines(&all).collect()] {
        let file = JournalFile::none_on_disk();
        let mut limited = Command::new("sh");
        limited.args(["-c", "trap '' XFSZ; ulimit -f 1; exec \"$0\" --journal \"$1\""]);
        let limited = limited.arg(Program::lending_desk().path()).arg(file.path());
        let told = talked(limited, portions.iter().copied());
        assert!(told.said.starts_with("lending_desk: journal: "), "{told:?}");
        let line = course.assert_replies(0, &told.printed);
        course.assert_kept(&file, line);
        assert_eq!(line == 0, portions.len() == 1, "{told:?}");

        let from = course.next_line(&file);
        let expected = Told::new(&course.replies[from..].concat(), &file.expected_at_start(&file.bytes()));
        file.serve(&Program::lending_desk(), &course.lines[from..].concat()).check(&expected).expect("the rest");
        assert_eq!(file.bytes(), course.journal);
    }
}

// ---- Killed at each call

/// Asserts that a desk, killed at a call of its own, has left what another goes on from.
fn assert_goes_on(course: &Course, start: &[u8], fault: &str) -> bool {
    let file = JournalFile::none_on_disk();
    if !start.is_empty() {
        file.write(start);
    }
    let from = course.next_line(&file);
    let Run { told, .. } = Run::new(&file, &course.lines[from..].concat(), fault);
    let line = course.assert_replies(from, &told.printed);
    course.assert_kept(&file, line);

    let again = course.next_line(&file);
    let expected = Told::new(&course.replies[again..].concat(), &file.expected_at_start(&file.bytes()));
    file.serve(&Program::lending_desk(), &course.lines[again..].concat()).check(&expected).expect(fault);
    assert_eq!(file.bytes(), course.journal, "{fault}");
    line < course.lines.len()
}

/// Before the call, and within it, where a write has put half of its bytes.
#[test]
fn desk_killed_at_any_call_is_gone_on_from() {
    let course = Course::of(SCRIPT);
    let cut = &course.journal[..starts(&course.journal)[3] + 4];
    assert!(whole(cut).damage.is_some());
    for start in [b"", cut] {
        for word in ["before", "within"] {
            let kills = (1..).take_while(|number| assert_goes_on(&course, start, &format!("{word} {number}"))).count();
            assert!(kills >= 2 * course.kept.len(), "killed {kills} times");
        }
    }
}

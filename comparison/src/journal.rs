//! Journals in files: kept and printed by the desk's program, and read by the second implementation.

use std::env;
use std::ffi::OsStr;
use std::fs;
use std::io::{ErrorKind, Write};
use std::path::{Path, PathBuf};
use std::process::{Child, Output, Stdio};
use std::thread;

use reference::journal::{self, line, next, Cause, Damage, Record, Resumed, Said, Unserved};
use reference::script::journalled;

use crate::difference;
use crate::program::{new_path, take_input, Program};

/// What the program says of each cause.
pub const TOLD: [(Cause, &str); 8] = [
    (Cause::Cut, "a record is cut"),
    (Cause::Letter, "no call has the letter"),
    (Cause::Code, "no call of that letter gives the reply code"),
    (Cause::Owners, "an owner is above 63 or out of order"),
    (Cause::List, "a list is past 64"),
    (Cause::Batch, "a batch is past 16"),
    (Cause::LongForm, "a number has a longer form than needed"),
    (Cause::Width, "a number is past 32 bits"),
];

fn told(cause: Cause) -> &'static str {
    TOLD.iter().find(|&&(other, _)| other == cause).expect("every cause is told").1
}

/// A journal's file, which goes with the value.
#[derive(Debug)]
pub struct JournalFile(PathBuf);

impl JournalFile {
    /// One that isn't there yet: in memory where that can be, since there a program need not wait for a disk.
    pub fn none() -> JournalFile {
        let in_memory = JournalFile(new_path(Path::new("/dev/shm"), "journal"));
        match fs::write(&in_memory.0, b"").and_then(|()| fs::remove_file(&in_memory.0)) {
            Ok(()) => in_memory,
            Err(_) => JournalFile::none_on_disk(),
        }
    }

    pub fn none_on_disk() -> JournalFile {
        JournalFile(new_path(&env::temp_dir(), "journal"))
    }

    pub fn of(bytes: &[u8]) -> JournalFile {
        let file = JournalFile::none();
        file.write(bytes);
        file
    }

    pub fn path(&self) -> &Path {
        &self.0
    }

    pub fn write(&self, bytes: &[u8]) {
        fs::write(&self.0, bytes).expect("a temporary file");
    }

    /// What it holds; nothing where it isn't there.
    pub fn bytes(&self) -> Vec<u8> {
        match fs::read(&self.0) {
            Err(error) if error.kind() == ErrorKind::NotFound => Vec::new(),
            bytes => bytes.expect("a file that can be read"),
        }
    }

    /// Starts the program to serve from the journal on.
    pub fn start(&self, desk: &Program) -> Child {
        desk.start_with(&[OsStr::new("--journal"), self.0.as_ref()], Stdio::piped(), Stdio::piped())
    }

    /// Serves an input of any length from the journal on.
    pub fn serve(&self, desk: &Program, input: &[u8]) -> Told {
        let mut program = self.start(desk);
        let mut pipe = take_input(&mut program);
        thread::scope(|scope| {
            scope.spawn(move || drop(pipe.write_all(input))); // a program that stops reading shows by what it prints
            Told::by(program)
        })
    }

    /// Has the program print the journal.
    pub fn print(&self, desk: &Program) -> Told {
        Told::by(desk.start_with(&[OsStr::new("--read"), self.0.as_ref()], Stdio::null(), Stdio::piped()))
    }

    /// What the program is to say of the journal when it starts on these bytes; nothing where they are as they should be.
    pub fn expected_at_start(&self, bytes: &[u8]) -> String {
        match journal::resume(bytes) {
            Ok(Resumed { cut: false, .. }) => String::new(),
            Ok(Resumed { length, .. }) => self.told("note: the last record is cut, and is cut away", length),
            Err(Unserved::Differs { at }) => self.told("the desk gives another reply than is recorded", at),
            Err(Unserved::Damaged(Damage { cause, at })) => self.told(told(cause), at),
        }
    }

    /// What the program is to print and to say where it prints these bytes. A record that is cut is told by its start.
    pub fn expected_print(&self, bytes: &[u8]) -> Told {
        let Whole { records, length, damage } = whole(bytes);
        let said = match damage {
            None => String::new(),
            Some(Damage { cause: Cause::Cut, .. }) => self.told(told(Cause::Cut), length),
            Some(Damage { cause, at }) => self.told(told(cause), at),
        };
        Told { printed: lines(&records), said }
    }

    fn told(&self, what: &str, place: usize) -> String {
        format!("lending_desk: {}: {what} at byte {place}\n", self.0.display())
    }
}

impl Drop for JournalFile {
    fn drop(&mut self) {
        // Nothing is left to be done where a temporary file stays.
        let _ = fs::remove_file(&self.0);
    }
}

/// What a program told: its standard output, and its standard error.
#[derive(Clone, Debug, PartialEq, Eq)]
pub struct Told {
    pub printed: Vec<u8>,
    pub said: String,
}

impl Told {
    pub fn new(printed: &[u8], said: &str) -> Told {
        Told { printed: printed.to_vec(), said: said.to_string() }
    }

    /// Waits for a program that isn't killed.
    pub fn by(program: Child) -> Told {
        let Output { status, stdout, stderr } = program.wait_with_output().expect("the program ends");
        assert!(status.success(), "the program ends with {status}");
        Told { printed: stdout, said: String::from_utf8_lossy(&stderr).into_owned() }
    }

    /// How it differs from what is expected, if it does.
    pub fn check(&self, expected: &Told) -> Result<(), String> {
        if self.said != expected.said {
            return Err(format!("{:?} is said and not {:?}", self.said, expected.said));
        }
        match difference::first(&self.printed, &expected.printed) {
            None => Ok(()),
            Some(difference) => Err(format!("line {} printed: {difference}", difference.line + 1)),
        }
    }
}

/// What the second implementation reads of bytes.
#[derive(Clone, Debug)]
pub struct Whole {
    /// The records before the damage.
    pub records: Vec<Record>,
    /// The bytes that they take.
    pub length: usize,
    pub damage: Option<Damage>,
}

pub fn whole(bytes: &[u8]) -> Whole {
    let mut whole = Whole { records: Vec::new(), length: 0, damage: None };
    loop {
        match next(bytes, whole.length) {
            Ok(None) => return whole,
            Ok(Some((record, end))) => {
                whole.records.push(record);
                whole.length = end;
            }
            Err(damage) => return Whole { damage: Some(damage), ..whole },
        }
    }
}

/// Where the records of a journal start, and where it ends.
pub fn starts(bytes: &[u8]) -> Vec<usize> {
    let mut starts = vec![0];
    while let Ok(Some((_, end))) = next(bytes, starts[starts.len() - 1]) {
        starts.push(end);
    }
    starts
}

/// Records as the program prints them.
pub fn lines(records: &[Record]) -> Vec<u8> {
    records.iter().flat_map(|record| (line(record) + "\n").into_bytes()).collect()
}

/// A script, and what one desk makes of it that is never stopped.
pub struct Course {
    pub lines: Vec<Vec<u8>>,
    pub replies: Vec<Vec<u8>>,
    pub journal: Vec<u8>,
    /// The lines whose calls are accepted, and so kept.
    pub kept: Vec<usize>,
}

impl Course {
    pub fn of(input: &[u8]) -> Course {
        let (output, journal) = journalled(input);
        let lines: Vec<Vec<u8>> = difference::lines(input).map(<[u8]>::to_vec).collect();
        let replies: Vec<Vec<u8>> = difference::lines(&output).map(<[u8]>::to_vec).collect();
        let is_kept = |reply: &[u8]| !reply.starts_with(b"refused") && !reply.starts_with(b"unread");
        let kept: Vec<usize> = (0..replies.len()).filter(|&line| is_kept(&replies[line])).collect();
        assert_eq!((replies.len(), whole(&journal).records.len()), (lines.len(), kept.len()));
        Course { lines, replies, journal, kept }
    }

    /// The line behind the last one whose call a file holds: there its client goes on.
    pub fn next_line(&self, file: &JournalFile) -> usize {
        match whole(&file.bytes()).records.len() {
            0 => 0,
            records => self.kept[records - 1] + 1,
        }
    }

    /// Asserts that what was seen is a beginning of the replies from a line on, and says up to which line they go.
    #[track_caller]
    pub fn assert_replies(&self, from: usize, seen: &[u8]) -> usize {
        let expected = self.replies[from..].concat();
        assert!(expected.starts_with(seen), "from line {}: {}", from + 1, seen.escape_ascii());
        from + seen.iter().filter(|&&byte| byte == b'\n').count()
    }

    /// Asserts that a file holds a beginning of the journal, and in it all calls up to a line; says where they end.
    #[track_caller]
    pub fn assert_kept(&self, file: &JournalFile, line: usize) -> usize {
        let bytes = file.bytes();
        assert!(self.journal.starts_with(&bytes), "{:?}", whole(&bytes).damage);
        let (answered, records) = (self.kept.iter().filter(|&&kept| kept < line).count(), whole(&bytes).records.len());
        assert!(answered <= records, "{answered} calls were answered, and {records} are kept");
        starts(&bytes)[answered]
    }
}

/// Every letter with every reply that a call of it gets.
pub const REPLIES: [&str; 10] = [
    "S ok",
    "B ok",
    "I wait",
    "I answered",
    "G wait",
    "G answered",
    "F finished",
    "F committed",
    "F circle",
    "C cancelled",
];

/// The letter of a record, and its reply.
pub fn reply(record: &Record) -> String {
    let reply = match record.said {
        Said::Ok => "ok",
        Said::Wait { .. } => "wait",
        Said::Answers(_) => "answered",
        Said::Listed { code: 2, .. } => "finished",
        Said::Listed { code: 3, .. } => "committed",
        Said::Listed { code: 4, .. } => "circle",
        Said::Listed { .. } => "cancelled",
    };
    format!("{} {reply}", char::from(record.letter))
}

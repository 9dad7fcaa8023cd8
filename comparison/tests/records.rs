//! Records of a journal: the proved library and the second implementation write the same bytes or none, and read the same
//! records, or turn the same bytes away for the same cause at the same place.

use std::io::{self, Write};

use comparison::common::draws::Draws;
use comparison::journal::REPLIES;
use comparison::records::{
    cause_row, draw_changed, draw_lent, hold_file, hold_read, hold_written, Library, CAUSES, PROVED, SECOND,
};
use comparison::tally::Tally;
use comparison::threads::divided;
use lending_desk::raw;

const OFTEN_ENOUGH: u64 = 100;
/// Journals of random records, each changed in so many ways.
const FILES: usize = 4_000;
const CHANGES: usize = 30;
/// The most records of one.
const RECORDS: usize = 8;

/// Rows of records that have no bytes.
const REFUSED: [&str; 4] = ["13, Letter", "13, Code", "13, List", "13, Batch"];

/// What came of a thread's works.
#[derive(Default)]
struct Pass {
    written: Tally,
    read: Tally,
    changed: Tally,
    /// The works' places, and how the two differ there.
    differences: Vec<(usize, String)>,
}

/// Writes some records, reads them back, and reads changed and cut ones.
fn run(libraries: [Library; 2], pass: &mut Pass, seed: usize) -> Result<(), String> {
    let mut draws = Draws::new(seed as u64);
    let mut file = Vec::new();
    for _ in 0..1 + draws.below(RECORDS) {
        file.extend(hold_written(libraries, &draw_lent(&mut draws), &mut pass.written)?.unwrap_or_default());
    }
    hold_file(libraries, &file, &mut pass.read)?;
    if file.is_empty() {
        return Ok(());
    }
    for _ in 0..CHANGES {
        hold_file(libraries, &draw_changed(&mut draws, &file), &mut pass.changed)?;
        let cut = draws.below(file.len());
        hold_file(libraries, &file[..cut], &mut pass.changed)?;
        let anywhere = draws.below(file.len() + 3);
        hold_read(libraries, &file, anywhere, &mut pass.changed)?;
    }
    Ok(())
}

fn run_all(libraries: [Library; 2], works: usize) -> Pass {
    let mut total = Pass::default();
    let passes = divided(works, |pass: &mut Pass, place| {
        if let Err(what) = run(libraries, pass, place) {
            pass.differences.push((place, what));
        }
    });
    for pass in passes {
        total.written.join(&pass.written);
        total.read.join(&pass.read);
        total.changed.join(&pass.changed);
        total.differences.extend(pass.differences);
    }
    total
}

#[test]
fn random_records_are_the_same_in_both() {
    let pass = run_all([PROVED, SECOND], FILES);
    if let Some((place, first)) = pass.differences.iter().min() {
        panic!("{} files differ; the first is number {place}, the library's first: {first}", pass.differences.len());
    }
    let causes = CAUSES.map(cause_row);
    let causes: Vec<&str> = causes.iter().map(String::as_str).collect();
    let written = REPLIES.iter().chain(&REFUSED).map(|&row| ("written", row, pass.written.of(row)));
    let read = REPLIES.iter().chain(&["end"]).map(|&row| ("read", row, pass.read.of(row)));
    let changed =
        REPLIES.iter().chain(&["end"]).chain(&causes).map(|&row| ("changed or cut", row, pass.changed.of(row)));
    let rows: Vec<_> = written.chain(read).chain(changed).collect();
    let mut stderr = io::stderr().lock();
    writeln!(stderr, "\nrecords, by the proved library and by the second implementation").expect("it takes the table");
    for (what, row, times) in &rows {
        writeln!(stderr, "{what:<18}{row:<24}{times:>10}").expect("it takes the table");
    }
    for (what, row, times) in rows {
        assert!(times >= OFTEN_ENOUGH, "{what}: {row} occurred {times} times");
    }
}

/// Small records of every letter and reply, cut at every place, and each byte changed to every other.
#[test]
fn every_change_of_a_byte_is_the_same_in_both() {
    let record = |letter, code, owners, listed| {
        let mut lent = raw::Record { letter, operations: 2, code, owners, listed, ..raw::Record::default() };
        lent.arguments.iter_mut().zip([3, 128, 0, 16_384]).for_each(|(place, number)| *place = number);
        lent.numbers.iter_mut().zip([2, u32::MAX, 0, 130]).for_each(|(place, number)| *place = number);
        lent
    };
    let mut tally = Tally::default();
    for lent in [
        record(b'S', 0, 0, 0),
        record(b'B', 0, 0, 0),
        record(b'I', 0, 0b1001, 0),
        record(b'I', 1, 0, 0),
        record(b'G', 0, 1 << 63 | 2, 0),
        record(b'G', 1, 0, 0),
        record(b'F', 2, 0, 0),
        record(b'F', 3, 0, 3),
        record(b'F', 4, 0, 2),
        record(b'C', 5, 0, 4),
    ] {
        let bytes = hold_written([PROVED, SECOND], &lent, &mut tally).expect("the same").expect("a record");
        let file = [&bytes[..], b"B\x07"].concat();
        for at in 0..bytes.len() {
            hold_file([PROVED, SECOND], &bytes[..at], &mut tally).expect("cut");
            for byte in 0..=255 {
                let mut changed = file.clone();
                changed[at] = byte;
                hold_file([PROVED, SECOND], &changed, &mut tally).expect("changed");
                changed.insert(at, byte);
                hold_file([PROVED, SECOND], &changed, &mut tally).expect("put in");
            }
        }
    }
    CAUSES.iter().for_each(|&cause| assert!(tally.of(&cause_row(cause)) >= OFTEN_ENOUGH, "{cause:?}"));
}

#[test]
fn bytes_of_any_length_are_counted() {
    let mut draws = Draws::new(1);
    let mut file = Vec::new();
    while file.len() < 1 << 20 {
        let lent = draw_lent(&mut draws);
        file.extend(
            hold_written([PROVED, SECOND], &lent, &mut Tally::default()).expect("the same").unwrap_or_default(),
        );
    }
    hold_file([PROVED, SECOND], &file, &mut Tally::default()).expect("read");
    file.push(b'X');
    hold_file([PROVED, SECOND], &file, &mut Tally::default()).expect("read up to the damage");
    for at in [file.len(), file.len() + 1, usize::MAX / 2, usize::MAX] {
        assert_eq!(hold_read([PROVED, SECOND], &file, at, &mut Tally::default()), Ok(None));
    }
}

/// The second implementation's reader, but for what it says to damage of a cause.
fn taken_at(cause: u32, bytes: &[u8], at: usize) -> raw::Reading {
    let reading = (SECOND.next)(bytes, at);
    if reading.cause == cause {
        let record = raw::Record { letter: bytes[at], ..raw::Record::default() };
        return raw::Reading { found: 1, place: bytes.len(), record, ..raw::Reading::default() };
    }
    reading
}

/// The second implementation, but for one thing.
const WRONG: [(&str, Library); 15] = [
    ("takes a record that is cut", Library { next: |bytes, at| taken_at(1, bytes, at), ..SECOND }),
    ("takes any letter", Library { next: |bytes, at| taken_at(2, bytes, at), ..SECOND }),
    ("takes the reply code of another letter", Library { next: |bytes, at| taken_at(3, bytes, at), ..SECOND }),
    ("takes owners out of order", Library { next: |bytes, at| taken_at(4, bytes, at), ..SECOND }),
    ("takes a list of 65", Library { next: |bytes, at| taken_at(5, bytes, at), ..SECOND }),
    ("takes a batch of 17", Library { next: |bytes, at| taken_at(6, bytes, at), ..SECOND }),
    ("takes a longer form", Library { next: |bytes, at| taken_at(7, bytes, at), ..SECOND }),
    ("takes a number of 33 bits", Library { next: |bytes, at| taken_at(8, bytes, at), ..SECOND }),
    (
        "tells a record's start and not the number's",
        Library {
            next: |bytes, at| {
                let reading = (SECOND.next)(bytes, at);
                raw::Reading { place: if reading.refusal == 0 { reading.place } else { at }, ..reading }
            },
            ..SECOND
        },
    ),
    (
        "takes a cut record for the end",
        Library {
            next: |bytes, at| match (SECOND.next)(bytes, at) {
                raw::Reading { cause: 1, .. } => raw::Reading::default(),
                reading => reading,
            },
            ..SECOND
        },
    ),
    (
        "reads half of the owners",
        Library {
            next: |bytes, at| {
                let mut reading = (SECOND.next)(bytes, at);
                reading.record.owners &= u64::from(u32::MAX);
                reading
            },
            ..SECOND
        },
    ),
    (
        "counts the records before the damage",
        Library {
            count: |bytes| match (SECOND.count)(bytes) {
                counted if counted.refusal == 0 => counted,
                counted => raw::Counted { refusal: 0, ..counted },
            },
            ..SECOND
        },
    ),
    (
        "writes sixteen operations of more",
        Library {
            write: |lent| (SECOND.write)(&raw::Record { operations: lent.operations.min(16), ..*lent }),
            ..SECOND
        },
    ),
    (
        "writes 64 of a longer list",
        Library { write: |lent| (SECOND.write)(&raw::Record { listed: lent.listed.min(64), ..*lent }), ..SECOND },
    ),
    (
        "leaves a byte behind what is written",
        Library {
            write: |lent| {
                let mut written = (SECOND.write)(lent);
                written.bytes[487] = if written.refusal == 0 && written.count < 488 { 1 } else { written.bytes[487] };
                written
            },
            ..SECOND
        },
    ),
];

#[test]
fn wrong_libraries_are_noticed() {
    let differences = |library| run_all([library, SECOND], FILES / 10).differences;
    assert_eq!(differences(SECOND), []);
    for (what, library) in WRONG {
        assert!(!differences(library).is_empty(), "not noticed: one that {what}");
    }
}

//! The wrapper's journal: records written and read back as values of Rust, and bytes and records that are turned away.

use lending_desk::journal::{count, next, records, write, Cause, Damage, Record, Reply};
use lending_desk::{raw, Answer, Refusal, RECORD_ARGUMENTS, RECORD_BYTES};

const BAD: Result<Vec<u8>, Refusal> = Err(Refusal(13));
const YES: Answer = Answer { code: 1, value: 0 };

fn record(letter: u8, arguments: &[u32], reply: Reply) -> Record {
    Record { letter, arguments: arguments.to_vec(), reply }
}

fn ended(code: u32, list: &[u32]) -> Reply {
    Reply::Ended { code, list: list.to_vec() }
}

/// Records of every letter and reply, and their bytes.
fn samples() -> Vec<(Record, Vec<u8>)> {
    let wait = Reply::Wait { owners: 1 << 63 | 0b101 };
    let kinds = [1, 2, 3, 0, 0, 0, 0, 0, 0, 0, 0, 0, 0, 0, 0, 300];
    vec![
        (record(b'S', &kinds, Reply::Ok), b"S\x01\x02\x03\0\0\0\0\0\0\0\0\0\0\0\0\xAC\x02".to_vec()),
        (record(b'B', &[u32::MAX], Reply::Ok), b"B\xFF\xFF\xFF\xFF\x0F".to_vec()),
        (record(b'I', &[7, 1, 4, 128, 5], wait.clone()), b"I\x07\x01\x04\x80\x01\x05\0\x03\0\x02\x3F".to_vec()),
        (record(b'I', &[7, 1, 4, 3, 5], Reply::Answered(vec![YES])), b"I\x07\x01\x04\x03\x05\x01\x01\0".to_vec()),
        (record(b'G', &[7], Reply::Answered(vec![])), b"G\x07\0\x01".to_vec()),
        (
            record(b'G', &[7, 1, 4, 3, 5, 0, 3, 0, 0], Reply::Answered(vec![YES, Answer { code: 9, value: 128 }])),
            b"G\x07\x02\x01\x04\x03\x05\0\x03\0\0\x01\x01\0\x09\x80\x01".to_vec(),
        ),
        (record(b'G', &[7, 1, 4, 3, 5], wait), b"G\x07\x01\x01\x04\x03\x05\0\x03\0\x02\x3F".to_vec()),
        (record(b'F', &[7], ended(2, &[])), b"F\x07\x02\0".to_vec()),
        (record(b'F', &[7], ended(3, &[7, 9])), b"F\x07\x03\x02\x07\x09".to_vec()),
        (record(b'F', &[7], ended(4, &[9])), b"F\x07\x04\x01\x09".to_vec()),
        (record(b'C', &[7], ended(5, &[64; 64])), [&b"C\x07\x05\x40"[..], &[64; 64]].concat()),
    ]
}

#[test]
fn records_are_written_and_read_back() {
    for (record, bytes) in samples() {
        assert_eq!(write(&record).as_deref(), Ok(&bytes[..]));
        assert_eq!(next(&bytes, 0), Ok(Some((record, bytes.len()))));
        assert_eq!(count(&bytes), Ok(1));
    }
}

#[test]
fn journal_is_gone_through_in_turn() {
    let (expected, bytes): (Vec<Record>, Vec<Vec<u8>>) = samples().into_iter().unzip();
    let journal = bytes.concat();
    assert_eq!(count(&journal), Ok(expected.len()));
    assert_eq!(records(&journal).collect::<Result<Vec<_>, _>>(), Ok(expected.clone()));
    let first = bytes[0].len();
    assert_eq!(next(&journal, first), Ok(Some((expected[1].clone(), first + bytes[1].len()))));
    for place in [journal.len(), journal.len() + 1, usize::MAX] {
        assert_eq!(next(&journal, place), Ok(None));
    }
    assert_eq!((next(&[], 0), count(&[]), records(&[]).next()), (Ok(None), Ok(0), None));
}

#[test]
fn damage_has_its_cause_and_place() {
    for (bytes, cause, place) in [
        (&b"B"[..], Cause::Cut, 1),
        (b"B\x80", Cause::Cut, 1),
        (b"X", Cause::Letter, 0),
        (b"F\x02\x05", Cause::Code, 2),
        (b"G\x02\0\0\x02\x04\x04", Cause::Owners, 6),
        (b"G\x02\0\0\x01\x40", Cause::Owners, 5),
        (b"C\x02\x05\x41", Cause::List, 3),
        (b"G\x02\x11", Cause::Batch, 2),
        (b"B\x80\0", Cause::LongForm, 1),
        (b"B\x80\x80\x80\x80\x10", Cause::Width, 1),
    ] {
        assert_eq!(next(bytes, 0), Err(Damage { cause, place }), "{bytes:x?}");
        let behind = [b"B\x07", bytes].concat();
        let damage = Damage { cause, place: place + 2 };
        assert_eq!((next(&behind, 2), count(&behind)), (Err(damage), Err(damage)), "{bytes:x?}");
        let all: Vec<_> = records(&behind).collect();
        assert_eq!(all, [Ok(record(b'B', &[7], Reply::Ok)), Err(damage)], "{bytes:x?}");
    }
}

#[test]
fn records_that_could_not_be_read_back_are_refused() {
    let answered = |count: usize| Reply::Answered(vec![YES; count]);
    for bad in [
        record(b'X', &[7], Reply::Ok),
        record(b's', &[0; 16], Reply::Ok),
        record(b'S', &[0; 15], Reply::Ok),
        record(b'S', &[0; 17], Reply::Ok),
        record(b'S', &[0; 16], answered(1)),
        record(b'B', &[], Reply::Ok),
        record(b'B', &[7, 8], Reply::Ok),
        record(b'B', &[7], Reply::Wait { owners: 0 }),
        record(b'I', &[7, 0, 1, 9], answered(1)),
        record(b'I', &[7, 0, 1, 9, 0, 0], answered(1)),
        record(b'I', &[7, 0, 1, 9, 0], Reply::Ok),
        record(b'I', &[7, 0, 1, 9, 0], answered(0)),
        record(b'I', &[7, 0, 1, 9, 0], answered(2)),
        record(b'I', &[7, 0, 1, 9, 0], ended(2, &[])),
        record(b'I', &[7, 0, 1, 9, 0], ended(0, &[])),
        record(b'G', &[], answered(0)),
        record(b'G', &[7, 0, 1], answered(0)),
        record(b'G', &[7, 0, 1, 9, 0], answered(0)),
        record(b'G', &[7, 0, 1, 9, 0], answered(2)),
        record(b'G', &[7; RECORD_ARGUMENTS + 4], answered(17)),
        record(b'G', &[7; RECORD_ARGUMENTS + 400], answered(117)),
        record(b'G', &[7], ended(5, &[])),
        record(b'F', &[7], ended(5, &[])),
        record(b'F', &[7], ended(1, &[])),
        record(b'F', &[7], answered(1)),
        record(b'F', &[7], Reply::Ok),
        record(b'F', &[7], ended(3, &[7; 65])),
        record(b'C', &[7], ended(3, &[])),
        record(b'C', &[7], ended(6, &[])),
        record(b'C', &[7], ended(5, &[7; 1000])),
        record(b'C', &[7, 7], ended(5, &[])),
    ] {
        assert_eq!(write(&bad), BAD, "{bad:?}");
    }
}

/// A batch of sixteen operations whose numbers are all as long as can be, and its answers.
#[test]
fn longest_record_has_as_many_bytes_as_are_said() {
    let answer = Answer { code: u32::MAX, value: u32::MAX };
    let longest = record(b'G', &[u32::MAX; RECORD_ARGUMENTS], Reply::Answered(vec![answer; 16]));
    let bytes = write(&longest).expect("a record");
    assert_eq!(bytes.len(), RECORD_BYTES);
    assert_eq!(next(&bytes, 0), Ok(Some((longest, RECORD_BYTES))));
}

/// A program that lends the structs themselves may count what there is no place for.
#[test]
fn counts_beyond_the_arrays_are_refused() {
    let refused = raw::Written { refusal: 13, ..raw::Written::default() };
    for count in [17, 18, 1 << 31, 1 << 32, usize::MAX] {
        let batch = raw::Record { letter: b'G', operations: count, code: 1, ..raw::Record::default() };
        assert_eq!(raw::write_record(batch), refused, "{count}");
    }
    for count in [65, 66, 256, 1 << 32, usize::MAX] {
        let list = raw::Record { letter: b'F', listed: count, code: 3, ..raw::Record::default() };
        assert_eq!(raw::write_record(list), refused, "{count}");
    }
}

/// What the letter and the reply code don't need isn't looked at, and what a reply has no number for is 0.
#[test]
fn fields_that_are_not_needed() {
    let noise = raw::Record {
        letter: b'B',
        operations: usize::MAX,
        arguments: [7; RECORD_ARGUMENTS],
        code: 9,
        owners: u64::MAX,
        listed: usize::MAX,
        numbers: [7; 64],
    };
    let written = raw::write_record(noise);
    assert_eq!((written.refusal, written.count, &written.bytes[..2]), (0, 2, &b"B\x07"[..]));
    assert_eq!(written.bytes[2..], [0; RECORD_BYTES - 2]);
    let raw::Reading { refusal, found, cause, place, .. } = raw::next_record(&written.bytes[..2], 0);
    assert_eq!((refusal, found, cause, place), (0, 1, 0, 2));
    let raw::Reading { refusal, found, cause, place, .. } = raw::next_record(&written.bytes[..2], 2);
    assert_eq!((refusal, found, cause, place), (0, 0, 0, 0));
    let counted = raw::Counted { records: 1, ..raw::Counted::default() };
    assert_eq!(raw::count_records(&written.bytes[..2]), counted);
    let damaged = raw::Counted { refusal: 13, cause: 2, place: 2, records: 0 };
    assert_eq!(raw::count_records(b"B\x07X"), damaged);
}

//! The journal: its bytes by the paper, what its reader turns away and where, and journals served again.

mod common;

use std::collections::BTreeMap;

use common::draws::Draws;
use common::{assert_same_words, columns, line_of, printed, shown, Scheduler, Store, WHOLE_CASE};
use reference::call::Call;
use reference::journal::{line, next, read, resume, write, write_into};
use reference::journal::{Bad, Cause, Damage, Record, Resumed, Said, Unserved, ERROR};
use reference::script::{journalled, parse};
use reference::{Refusal, Reply};

const LETTERS: &[u8] = b"SBIGFC";
/// The edges of the lengths of numbers, with their groups.
const EDGES: [(u32, &[u8]); 12] = [
    (0, &[0]),
    (1, &[1]),
    (127, &[0x7F]),
    (128, &[0x80, 1]),
    (16_383, &[0xFF, 0x7F]),
    (16_384, &[0x80, 0x80, 1]),
    ((1 << 21) - 1, &[0xFF, 0xFF, 0x7F]),
    (1 << 21, &[0x80, 0x80, 0x80, 1]),
    ((1 << 28) - 1, &[0xFF, 0xFF, 0xFF, 0x7F]),
    (1 << 28, &[0x80, 0x80, 0x80, 0x80, 1]),
    (4_000_000_000, &[0x80, 0xD0, 0xAC, 0xF3, 0x0E]),
    (u32::MAX, &[0xFF, 0xFF, 0xFF, 0xFF, 0x0F]),
];
/// Bytes that are no number where one is wanted.
const NO_NUMBERS: [(Cause, &[u8]); 18] = [
    (Cause::LongForm, &[0x80, 0]),
    (Cause::LongForm, &[0x81, 0]),
    (Cause::LongForm, &[0xFF, 0, 0xFF]),
    (Cause::LongForm, &[0x80, 0x80, 0]),
    (Cause::LongForm, &[0xFF, 0xFF, 0xFF, 0]),
    (Cause::LongForm, &[0x80, 0x80, 0x80, 0x80, 0]),
    (Cause::LongForm, &[0xFF, 0xFF, 0xFF, 0xFF, 0]),
    (Cause::Width, &[0x80, 0x80, 0x80, 0x80, 0x10]),
    (Cause::Width, &[0xFF, 0xFF, 0xFF, 0xFF, 0x1F]),
    (Cause::Width, &[0x80, 0x80, 0x80, 0x80, 0x7F]),
    (Cause::Width, &[0x80, 0x80, 0x80, 0x80, 0x80]),
    (Cause::Width, &[0xFF, 0xFF, 0xFF, 0xFF, 0xFF]),
    (Cause::Width, &[0x80, 0x80, 0x80, 0x80, 0x80, 0]),
    (Cause::Width, &[0x81, 0x80, 0x80, 0x80, 0x80, 1]),
    (Cause::Cut, &[]),
    (Cause::Cut, &[0x80]),
    (Cause::Cut, &[0xFF, 0x80]),
    (Cause::Cut, &[0x80, 0x80, 0x80, 0xFF]),
];

fn listed(code: u32, list: &[u32]) -> Said {
    Said::Listed { code, list: list.to_vec() }
}

fn answers(numbers: &[u32]) -> Said {
    Said::Answers(numbers.to_vec())
}

fn record(letter: u8, arguments: &[u32], said: Said) -> Record {
    Record { letter, arguments: arguments.to_vec(), said }
}

/// One of each letter, and of each reply.
fn samples() -> Vec<Record> {
    vec![
        record(b'S', &[1, 2, 3, 0, 0, 0, 0, 0, 0, 0, 0, 0, 0, 0, 0, 2], Said::Ok),
        record(b'B', &[7], Said::Ok),
        record(b'I', &[7, 1, 4, 300, 5], answers(&[1, 0])),
        record(b'I', &[7, 1, 4, 300, 5], Said::Wait { owners: 1 << 63 | 0b101 }),
        record(b'G', &[7], answers(&[])),
        record(b'G', &[7, 1, 4, 5, 6, 2, 10, 0, 0], answers(&[1, 0, 1, 900])),
        record(b'G', &[7, 1, 4, 5, 6], Said::Wait { owners: 2 }),
        record(b'F', &[7], listed(2, &[])),
        record(b'F', &[7], listed(3, &[7, 9, 8])),
        record(b'F', &[7], listed(4, &[9])),
        record(b'C', &[7], listed(5, &[4, 3])),
    ]
}

/// The groups of a number, by the paper and in the plainest way.
fn groups(number: u32) -> Vec<u8> {
    match number {
        0..=127 => vec![number as u8],
        _ => [vec![128 + (number % 128) as u8], groups(number / 128)].concat(),
    }
}

/// The letter and the numbers of a record that is shown as a line, in the order in which the paper says they stand.
fn numbers_of(line: &str) -> (u8, Vec<u32>) {
    let (call, reply) = line.split_once('\t').expect("a tab");
    let parsed = |text: &str| text.split(' ').skip(1).map(|number| number.parse().expect(line)).collect::<Vec<u32>>();
    let (mut numbers, said) = (parsed(call), parsed(reply));
    if call.starts_with("G ") {
        numbers.insert(1, numbers.len() as u32 / 4);
    }
    let word = reply.split(' ').next().expect("a word");
    let code = ["wait", "answer", "finished", "committed", "circle", "cancelled"].iter().position(|&name| name == word);
    numbers.extend(code.map(|code| code as u32));
    if code >= Some(2) {
        numbers.push(said.len() as u32);
    }
    numbers.extend(said);
    (call.as_bytes()[0], numbers)
}

/// The bytes that stand for a letter and numbers.
fn bytes_of(letter: u8, numbers: &[u32]) -> Vec<u8> {
    [vec![letter], numbers.iter().copied().flat_map(groups).collect()].concat()
}

/// The file of some records.
fn file(records: &[Record]) -> Vec<u8> {
    let mut bytes = Vec::new();
    records.iter().for_each(|record| write_into(record, &mut bytes).expect("a good record"));
    bytes
}

/// Asserts that bytes are one record and no more, and what it is written as.
#[track_caller]
fn assert_reads(bytes: &[u8], expected: &Record) {
    assert_eq!(next(bytes, 0), Ok(Some((expected.clone(), bytes.len()))), "{bytes:x?}");
    assert_eq!(write(expected).as_deref(), Ok(bytes));
}

#[track_caller]
fn assert_damage(bytes: &[u8], cause: Cause, at: usize) {
    assert_eq!(next(bytes, 0), Err(Damage { cause, at }), "{bytes:x?}");
    assert_eq!(read(bytes), Err(Damage { cause, at }), "{bytes:x?}");
}

#[test]
fn numbers_are_in_as_few_groups_as_there_can_be() {
    for (number, expected) in EDGES {
        assert_eq!(groups(number), expected);
        assert_reads(&[&b"B"[..], expected].concat(), &record(b'B', &[number], Said::Ok));
    }
    for number in (0..70_000).chain((0..32).flat_map(|bit| [(1 << bit) - 1, 1 << bit, (1 << bit) + 1])) {
        assert_reads(&bytes_of(b'B', &[number]), &record(b'B', &[number], Said::Ok));
    }
}

#[test]
fn other_numbers_are_damage_where_they_start() {
    for (cause, bytes) in NO_NUMBERS {
        assert_damage(&[&b"B"[..], bytes].concat(), cause, 1);
        let second = [&b"B\x07B"[..], bytes].concat();
        assert_eq!(next(&second, 0), Ok(Some((record(b'B', &[7], Said::Ok), 2))));
        assert_eq!(next(&second, 2), Err(Damage { cause, at: 3 }));
        assert_eq!(read(&second), Err(Damage { cause, at: 3 }));
    }
    assert_eq!(ERROR, 13);
}

#[test]
fn every_number_of_every_record_is_judged_so() {
    for sample in samples() {
        let (letter, numbers) = numbers_of(&line(&sample));
        assert_eq!(write(&sample), Ok(bytes_of(letter, &numbers)));
        for place in 0..numbers.len() {
            let before = bytes_of(letter, &numbers[..place]);
            for (cause, bytes) in NO_NUMBERS {
                assert_damage(&[&before, bytes].concat(), cause, before.len());
            }
        }
    }
}

/// The paper's whole case, written by hand.
const WHOLE_JOURNAL: [(&[u8], &str); 11] = [
    (&[0x53, 1, 2, 3, 0, 0, 0, 0, 0, 0, 0, 0, 0, 0, 0, 0, 0], "S 1 2 3 0 0 0 0 0 0 0 0 0 0 0 0 0\tok"),
    (&[0x42, 0], "B 0\tok"),
    (&[0x42, 1], "B 1\tok"),
    (&[0x49, 0, 0, 1, 7, 0, 1, 1, 0], "I 0 0 1 7 0\tanswer 1 0"),
    (&[0x49, 1, 0, 1, 9, 0, 1, 1, 0], "I 1 0 1 9 0\tanswer 1 0"),
    (&[0x49, 1, 0, 3, 0, 0, 0, 1, 0], "I 1 0 3 0 0\twait 1 0"),
    (&[0x46, 1, 2, 0], "F 1\tfinished"),
    (&[0x46, 0, 3, 2, 0, 1], "F 0\tcommitted 0 1"),
    (&[0x42, 2], "B 2\tok"),
    (&[0x49, 2, 0, 2, 0, 0, 1, 1, 9], "I 2 0 2 0 0\tanswer 1 9"),
    (&[0x43, 2, 5, 0], "C 2\tcancelled"),
];

#[test]
fn whole_case_has_this_journal() {
    let (script, replies) = columns(WHOLE_CASE);
    let journal = WHOLE_JOURNAL.map(|(bytes, _)| bytes).concat();
    assert_eq!(journal.len(), 73);
    assert_eq!(journalled(script.as_bytes()), (replies.into_bytes(), journal.clone()));
    let records = read(&journal).expect("a journal");
    assert_eq!(records.iter().map(line).collect::<Vec<_>>(), WHOLE_JOURNAL.map(|(_, line)| line));
    assert_eq!(file(&records), journal);
    let mut at = 0;
    for (record, (bytes, _)) in records.into_iter().zip(WHOLE_JOURNAL) {
        assert_eq!(write(&record).as_deref(), Ok(bytes));
        assert_eq!(next(&journal, at), Ok(Some((record, at + bytes.len()))));
        at += bytes.len();
    }
}

#[test]
fn batches_have_this_journal() {
    let script = "S 1 2 3\nB 0\nB 1\nG 0 0 1 300 9 2 7 16777221 128\nG 0\nG 1 1 4 3 0 2 9 5 0 0 3 1 1\nB 1\nG 64\n";
    let expected: [&[u8]; 6] = [
        &[0x53, 1, 2, 3, 0, 0, 0, 0, 0, 0, 0, 0, 0, 0, 0, 0, 0],
        &[0x42, 0],
        &[0x42, 1],
        &[0x47, 0, 2, 0, 1, 0xAC, 2, 9, 2, 7, 0x85, 0x80, 0x80, 8, 0x80, 1, 1, 1, 0, 1, 0],
        &[0x47, 0, 0, 1],
        &[0x47, 1, 3, 1, 4, 3, 0, 2, 9, 5, 0, 0, 3, 1, 1, 0, 1, 0],
    ];
    let (printed, journal) = journalled(script.as_bytes());
    assert_eq!(printed, b"ok\nok\nok\nanswer 1 0 1 0\nanswer\nwait 1 0\nrefused 6\nrefused 5\n");
    assert_eq!(journal, expected.concat());
    assert_eq!(line(&read(&journal).unwrap()[3]), "G 0 0 1 300 9 2 7 16777221 128\tanswer 1 0 1 0");
}

#[test]
fn empty_file_is_no_records() {
    assert_eq!(read(&[]), Ok(vec![]));
    assert_eq!(journalled(b""), (vec![], vec![]));
    assert_eq!(journalled(b"X\n\nB 0 \nF 0"), (b"unread\nunread\nunread\nrefused 7\n".to_vec(), vec![]));
}

#[test]
fn journal_is_kept_of_the_lines_that_the_program_reads() {
    let long = [b"G 0".to_vec(), b" 0".repeat(100_000)].concat();
    let zeros = [b"B ".to_vec(), b"0".repeat(100_000)].concat();
    let lines: [&[u8]; 9] = [b"S", b"B 0000000001\r", &long, b"B 0000000001", &zeros, b"\xFF", b"C 1 ", b"", b"C 1"];
    let script = lines.join(&b'\n');
    let journal = [&b"S\0\0\0\0\0\0\0\0\0\0\0\0\0\0\0\0"[..], b"B\x01", b"C\x01\x05\0"].concat();
    for end in [&b""[..], b"\n"] {
        let script = [&script[..], end].concat();
        assert_eq!(journalled(&script), (printed(&script[..]).into_bytes(), journal.clone()));
    }
}

#[test]
fn places_at_the_end_or_beyond_are_the_end() {
    let bytes = file(&samples());
    for at in [bytes.len(), bytes.len() + 1, usize::MAX] {
        assert_eq!(next(&bytes, at), Ok(None));
    }
    assert_eq!(next(&[], 0), Ok(None));
}

#[test]
fn other_letters_are_turned_away() {
    for letter in (0..=255).filter(|letter| !LETTERS.contains(letter)) {
        for rest in [&[][..], &[0; 20], &[0x80; 20]] {
            assert_damage(&[&[letter][..], rest].concat(), Cause::Letter, 0);
            let second = [&b"B\x07"[..], &[letter], rest].concat();
            assert_eq!(read(&second), Err(Damage { cause: Cause::Letter, at: 2 }));
        }
        for Record { arguments, said, .. } in samples() {
            assert_eq!(write(&Record { letter, arguments, said }), Err(Bad), "{letter}");
        }
    }
}

#[test]
fn reply_codes_of_other_letters_are_turned_away() {
    let calls: [(&[u8], &[u32]); 5] = [
        (b"I\0\0\x01\x07\0", &[0, 1]),
        (b"G\0\0", &[0, 1]),
        (b"G\0\x01\0\x01\x07\0", &[0, 1]),
        (b"F\0", &[2, 3, 4]),
        (b"C\0", &[5]),
    ];
    for (call, codes) in calls {
        for code in (0..300).chain(EDGES.map(|(number, _)| number)) {
            let bytes = [call, &groups(code)].concat();
            if codes.contains(&code) {
                // More must follow, but for the answers to no operations.
                let whole = code == 1 && call == b"G\0\0";
                let cut = Err(Damage { cause: Cause::Cut, at: bytes.len() });
                assert_eq!(read(&bytes).map(drop), if whole { Ok(()) } else { cut }, "{code} after {call:?}");
            } else {
                assert_damage(&bytes, Cause::Code, call.len());
                assert_damage(&[&bytes, &[0x80; 9][..]].concat(), Cause::Code, call.len());
            }
        }
    }
}

/// Calls that may wait, with their records.
fn waiting() -> [(Vec<u8>, Record); 3] {
    let nobody = Said::Wait { owners: 0 };
    [
        (b"I\x01\0\x03\0\0\0".to_vec(), record(b'I', &[1, 0, 3, 0, 0], nobody.clone())),
        (b"G\x01\x01\0\x03\0\0\0".to_vec(), record(b'G', &[1, 0, 3, 0, 0], nobody.clone())),
        (b"G\x01\0\0".to_vec(), record(b'G', &[1], nobody)),
    ]
}

#[test]
fn owners_are_a_set_of_sixty_four() {
    for (call, mut record) in waiting() {
        for owners in [&[0][..], &[63], &[0, 63], &[1, 2, 3, 62], &[5, 6, 40]] {
            let set = owners.iter().fold(0, |set, owner| set | 1 << owner);
            record.said = Said::Wait { owners: set };
            assert_reads(&[&call[..], &[owners.len() as u8], owners].concat(), &record);
        }
        record.said = Said::Wait { owners: u64::MAX };
        let all: Vec<u8> = (0..64).collect();
        assert_reads(&[&call[..], &[64], &all].concat(), &record);
    }
}

#[test]
fn owners_above_sixty_three_or_not_ascending_are_turned_away() {
    let owners: [(&[u32], &[u8]); 10] = [
        (&[], &[64]),
        (&[], &[128, 1]),
        (&[], &[0xFF, 0xFF, 0xFF, 0xFF, 0x0F]),
        (&[0], &[0]),
        (&[0, 1], &[0]),
        (&[5], &[4]),
        (&[5, 9, 63], &[63]),
        (&[63], &[0]),
        (&[63], &[64]),
        (&[1, 2, 3], &[65]),
    ];
    for (call, _) in waiting() {
        for (good, bad) in owners {
            for more in [1, 2, 64 - good.len()] {
                let counted = [&call, &[(good.len() + more) as u8][..]].concat();
                let before = [counted, good.iter().copied().flat_map(groups).collect()].concat();
                assert_damage(&[&before, bad].concat(), Cause::Owners, before.len());
                assert_damage(&[&before, bad, &[0x80; 9]].concat(), Cause::Owners, before.len());
            }
        }
    }
}

#[test]
fn lists_past_sixty_four_are_turned_away_at_their_count() {
    let long: Vec<u32> = (0..65).collect();
    let calls: [(u8, u32); 4] = [(b'F', 2), (b'F', 3), (b'F', 4), (b'C', 5)];
    for (letter, code) in calls {
        for length in [0, 1, 63, 64] {
            let list = &long[..length];
            let bytes = bytes_of(letter, &[&[9, code, length as u32], list].concat());
            assert_reads(&bytes, &record(letter, &[9], listed(code, list)));
            assert_eq!(next(&bytes[..3], 0), Err(Damage { cause: Cause::Cut, at: 3 }));
        }
        assert_eq!(write(&record(letter, &[9], listed(code, &long))), Err(Bad));
        for count in [65, 66, 127, 128, 300, u32::MAX] {
            assert_damage(&bytes_of(letter, &[9, code, count]), Cause::List, 3);
            assert_damage(&bytes_of(letter, &[&[9, code, count], &long[..]].concat()), Cause::List, 3);
        }
    }
    for (call, _) in waiting() {
        for count in [65, 128, u32::MAX] {
            assert_damage(&[&call[..], &groups(count)].concat(), Cause::List, call.len());
            assert_damage(&[&call[..], &groups(count), &[0; 70]].concat(), Cause::List, call.len());
        }
    }
}

#[test]
fn batches_past_sixteen_are_turned_away_at_their_count() {
    for count in [0, 1, 2, 15, 16] {
        let words: Vec<u32> = (0..count * 4).map(|word| word * 100).collect();
        let given: Vec<u32> = (0..count * 2).map(|word| word * 1000).collect();
        let arguments = [&[7][..], &words].concat();
        let bytes = bytes_of(b'G', &[&[7, count], &words[..], &[1], &given[..]].concat());
        assert_reads(&bytes, &record(b'G', &arguments, answers(&given)));
    }
    for count in [17, 18, 64, 128, 1 << 30, u32::MAX] {
        assert_damage(&bytes_of(b'G', &[300, count]), Cause::Batch, 3);
        assert_damage(&bytes_of(b'G', &[&[300, count], &[0; 120][..]].concat()), Cause::Batch, 3);
    }
    let (words, given) = ([1; 1 + 17 * 4], [0; 17 * 2]);
    assert_eq!(write(&record(b'G', &words, answers(&given))), Err(Bad));
    assert_eq!(write(&record(b'G', &words, Said::Wait { owners: 1 })), Err(Bad));
}

#[test]
fn what_the_error_does_not_name_is_read() {
    let mut kinds = [4; 16];
    kinds[3] = 256;
    kinds[15] = u32::MAX;
    let every = [0, u32::MAX, 77, 16, 12];
    for strange in [
        record(b'S', &kinds, Said::Ok),
        record(b'B', &[64], Said::Ok),
        record(b'B', &[4_000_000_000], Said::Ok),
        record(b'F', &[4_000_000_000], listed(2, &[])),
        record(b'C', &[u32::MAX], listed(5, &[0; 64])),
        record(b'I', &[1, 16, 12, u32::MAX, u32::MAX], Said::Wait { owners: 0 }),
        record(b'I', &[1, 0, 1, 7, 0], Said::Wait { owners: 1 << 1 }),
        record(b'I', &every, answers(&[2, u32::MAX])),
        record(b'I', &every, answers(&[0, 5])),
        record(b'G', &every, answers(&[u32::MAX, 900])),
        record(b'G', &[99], Said::Wait { owners: u64::MAX }),
        record(b'G', &[99], Said::Wait { owners: 0 }),
        record(b'F', &[1], listed(2, &[1, 2, 1])),
        record(b'F', &[1], listed(3, &[900])),
        record(b'F', &[1], listed(3, &[])),
        record(b'F', &[1], listed(3, &[2, 2, u32::MAX])),
        record(b'F', &[1], listed(4, &[1])),
    ] {
        let bytes = write(&strange).expect("a good record");
        let (letter, numbers) = numbers_of(&line(&strange));
        assert_eq!(bytes, bytes_of(letter, &numbers));
        assert_reads(&bytes, &strange);
    }
}

#[test]
fn writer_turns_away_what_the_format_cannot_say() {
    for Record { letter, arguments, said } in samples() {
        let shorter = arguments[..arguments.len() - 1].to_vec();
        let longer = [&arguments[..], &[0]].concat();
        for wrong in [vec![], shorter, longer, vec![0; 70]] {
            assert_eq!(write(&Record { letter, arguments: wrong, said: said.clone() }), Err(Bad));
        }
        let fits = |other: &Said| match letter {
            b'S' | b'B' => *other == Said::Ok,
            b'F' => matches!(other, Said::Listed { code: 2..=4, .. }),
            b'C' => matches!(other, Said::Listed { code: 5, .. }),
            _ => matches!(other, Said::Wait { .. }),
        };
        let others = [0, 1, 2, 3, 4, 5, 6, 7, u32::MAX].map(|code| listed(code, &[]));
        for other in [Said::Ok, Said::Wait { owners: 1 }].into_iter().chain(others) {
            let written = write(&Record { letter, arguments: arguments.clone(), said: other.clone() });
            assert_eq!(written.is_ok(), fits(&other), "{letter} {other:?}");
        }
        let operations = if b"IG".contains(&letter) { arguments.len() / 4 } else { usize::MAX };
        for length in 0..=40 {
            let said = answers(&vec![1; length]);
            let written = write(&Record { letter, arguments: arguments.clone(), said });
            assert_eq!(written.is_ok(), length / 2 == operations && length % 2 == 0, "{letter} {length}");
        }
    }
}

#[test]
fn records_are_written_after_what_is_there_and_bad_ones_not_at_all() {
    let mut bytes = b"before".to_vec();
    assert_eq!(write_into(&record(b'B', &[300], Said::Ok), &mut bytes), Ok(()));
    assert_eq!(bytes, b"beforeB\xAC\x02");
    assert_eq!(write_into(&record(b'B', &[300, 1], Said::Ok), &mut bytes), Err(Bad));
    assert_eq!(write_into(&record(b'C', &[300], listed(3, &[])), &mut bytes), Err(Bad));
    assert_eq!(bytes, b"beforeB\xAC\x02");
}

/// A number of any length.
fn draw_number(draws: &mut Draws) -> u32 {
    match draws.below(4) {
        0 => draws.pick(&EDGES).0,
        1 => draws.word() >> draws.below(32),
        _ => draws.below(70) as u32,
    }
}

fn draw_numbers(draws: &mut Draws, count: usize) -> Vec<u32> {
    (0..count).map(|_| draw_number(draws)).collect()
}

/// Mostly a short count, at times any up to the limit.
fn draw_count(draws: &mut Draws, limit: usize) -> usize {
    match draws.below(8) {
        0 => limit,
        1 => draws.below(limit + 1),
        _ => draws.below(4),
    }
}

fn draw_owners(draws: &mut Draws) -> u64 {
    match draws.below(4) {
        0 => draws.pick(&[0, 1, 1 << 63, u64::MAX]),
        1 => u64::from(draws.word()) << 32 | u64::from(draws.word()),
        _ => 1 << draws.below(64) | 1 << draws.below(64),
    }
}

/// Any record that a file can say.
fn draw_record(draws: &mut Draws) -> Record {
    let letter = draws.pick(LETTERS);
    let operations = if letter == b'G' { draw_count(draws, 16) } else { 1 };
    let count = match letter {
        b'S' => 16,
        b'I' | b'G' => 1 + 4 * operations,
        _ => 1,
    };
    let arguments = draw_numbers(draws, count);
    let said = match letter {
        b'S' | b'B' => Said::Ok,
        b'I' | b'G' if draws.percent(40) => Said::Wait { owners: draw_owners(draws) },
        b'I' | b'G' => Said::Answers(draw_numbers(draws, 2 * operations)),
        _ => {
            let count = draw_count(draws, 64);
            let code = if letter == b'C' { 5 } else { draws.pick(&[2, 3, 4]) };
            Said::Listed { code, list: draw_numbers(draws, count) }
        }
    };
    Record { letter, arguments, said }
}

fn draw_records(draws: &mut Draws, most: usize) -> Vec<Record> {
    (0..draws.below(most + 1)).map(|_| draw_record(draws)).collect()
}

/// A record of any shape.
fn draw_shape(draws: &mut Draws) -> Record {
    let Record { mut letter, mut arguments, mut said } = draw_record(draws);
    if draws.percent(30) {
        letter = if draws.percent(50) { draws.pick(LETTERS) } else { draws.word() as u8 };
    }
    if draws.percent(30) {
        let count = draws.pick(&[0, 1, 2, 4, 5, 6, 9, 15, 16, 17, 65, 66, 69]);
        arguments = draw_numbers(draws, count);
    }
    if draws.percent(30) {
        let count = draws.below(70);
        said = match draws.below(4) {
            0 => Said::Ok,
            1 => Said::Wait { owners: draw_owners(draws) },
            2 => Said::Answers(draw_numbers(draws, count)),
            _ => Said::Listed { code: draws.below(7) as u32, list: draw_numbers(draws, count) },
        };
    }
    Record { letter, arguments, said }
}

#[test]
fn random_records_are_read_back() {
    let mut draws = Draws::new(1);
    for _ in 0..4_000 {
        let records = draw_records(&mut draws, 20);
        let bytes = file(&records);
        let by_the_paper = records.iter().flat_map(|record| {
            let (letter, numbers) = numbers_of(&line(record));
            bytes_of(letter, &numbers)
        });
        assert!(by_the_paper.eq(bytes.iter().copied()), "{records:?}");
        assert_eq!(read(&bytes), Ok(records));
    }
}

#[test]
fn random_shapes_are_written_exactly_where_they_are_read_back() {
    let mut draws = Draws::new(2);
    let mut bad = 0;
    for _ in 0..100_000 {
        let shape = draw_shape(&mut draws);
        match write(&shape) {
            Ok(bytes) => assert_eq!(next(&bytes, 0), Ok(Some((shape, bytes.len())))),
            Err(Bad) if LETTERS.contains(&shape.letter) => {
                let (letter, numbers) = numbers_of(&line(&shape));
                assert_ne!(read(&bytes_of(letter, &numbers)), Ok(vec![shape]));
                bad += 1;
            }
            Err(Bad) => {}
        }
    }
    assert!((20_000..80_000).contains(&bad), "{bad} bad ones");
}

/// The places where the records of a file start, and its end.
fn starts(records: &[Record]) -> Vec<usize> {
    (0..=records.len()).map(|count| file(&records[..count]).len()).collect()
}

#[test]
fn every_cut_leaves_the_whole_records_before_it() {
    let mut draws = Draws::new(3);
    for _ in 0..100 {
        let records = draw_records(&mut draws, 12);
        let (bytes, starts) = (file(&records), starts(&records));
        for length in 0..bytes.len() {
            let whole = starts.iter().filter(|&&start| start <= length).count() - 1;
            let (cut, mut at) = (&bytes[..length], 0);
            for expected in &records[..whole] {
                let (record, end) = next(cut, at).expect("a whole record").expect("one more");
                assert_eq!(record, *expected);
                at = end;
            }
            assert_eq!(at, starts[whole]);
            match next(cut, at) {
                Ok(rest) => assert!(rest.is_none() && at == length),
                Err(damage) => {
                    assert_eq!(damage.cause, Cause::Cut);
                    assert!(at < length && damage.at > at && damage.at <= length && damage.at + 5 > length);
                }
            }
        }
    }
}

/// Asserts that bytes that are read are what is written again, and that damage lies within them.
fn assert_only_file(bytes: &[u8]) -> bool {
    let outcome = read(bytes);
    match &outcome {
        Ok(records) => assert_eq!(file(records), bytes),
        Err(damage) => assert!(damage.at <= bytes.len(), "{damage:?} of {bytes:x?}"),
    }
    outcome.is_ok()
}

#[test]
fn changed_files_are_read_only_as_what_is_written_again() {
    let mut draws = Draws::new(4);
    let mut outcomes = BTreeMap::new();
    for _ in 0..4_000 {
        let bytes = file(&draw_records(&mut draws, 8));
        for _ in 0..bytes.len().min(40) {
            let mut changed = bytes.clone();
            let at = draws.below(bytes.len());
            match draws.below(6) {
                0 => changed[at] ^= 1 << draws.below(8),
                1 => changed[at] ^= 0x80,
                2 => drop(changed.remove(at)),
                3 => changed.insert(at, draws.pick(&[0, 0x80, 0xFF])),
                _ => changed[at] = draws.word() as u8,
            }
            assert_only_file(&changed);
            *outcomes.entry(read(&changed).map(drop).map_err(|damage| damage.cause)).or_insert(0) += 1;
        }
    }
    assert_eq!(outcomes.len(), 9, "read, and every cause: {outcomes:?}");
    assert!(outcomes.values().all(|&count| count >= 50), "{outcomes:?}");
}

#[test]
fn random_bytes_are_read_only_as_what_is_written_again() {
    let mut draws = Draws::new(5);
    let mut read = 0;
    for _ in 0..500_000 {
        let length = draws.below(24);
        let mut bytes: Vec<u8> = (0..length).map(|_| draws.pick(b"\0\0\x01\x01\x02\x03\x05\x80\x81\xFFBGFC")).collect();
        bytes.iter_mut().take(1).for_each(|letter| *letter = draws.pick(LETTERS));
        read += usize::from(assert_only_file(&bytes));
    }
    assert!(read >= 1000, "{read}");
}

#[test]
fn short_files_are_read_only_as_what_is_written_again() {
    let mut read = usize::from(assert_only_file(&[]));
    for first in 0..=255 {
        read += usize::from(assert_only_file(&[first]));
        for second in 0..=255 {
            read += usize::from(assert_only_file(&[first, second]));
            if LETTERS.contains(&first) {
                read += (0..=255).filter(|&third| assert_only_file(&[first, second, third])).count();
            }
        }
    }
    // Besides the empty one, each is a `B` with a number of one or two groups: no other record is as short.
    assert_eq!(read, 1 + 16_384);
}

#[test]
fn no_record_is_the_beginning_of_another() {
    let mut draws = Draws::new(6);
    let mut files: Vec<_> = (0..200_000).map(|_| write(&draw_record(&mut draws)).expect("a good record")).collect();
    files.extend(samples().iter().map(|sample| write(sample).expect("a good record")));
    files.sort();
    files.dedup();
    assert!(files.len() > 100_000);
    // Among sorted ones, those that begin with a record come next after it.
    for pair in files.windows(2) {
        assert!(!pair[1].starts_with(&pair[0]), "{pair:x?}");
    }
}

#[test]
fn record_of_a_call_has_the_arguments_as_they_were_called() {
    let mut scheduler = Scheduler::of(&[1, 2, 3]);
    let mut said = |line: &str| {
        let call = parse(line.as_bytes()).expect("a call");
        let outcome = call.serve(&mut scheduler.store, &mut scheduler.list);
        let record = Record::of(&call, outcome, &scheduler.list);
        assert!(record.iter().all(|record| record.call() == Some(call.clone())));
        record
    };
    assert_eq!(said("B 3"), Some(record(b'B', &[3], Said::Ok)));
    assert_eq!(said("B 3"), None);
    said("B 4").expect("begun");
    let insert = said("I 3 2 7 4278190085 77");
    assert_eq!(insert, Some(record(b'I', &[3, 2, 7, 4_278_190_085, 77], answers(&[1, 0]))));
    assert_eq!(said("I 3 2 10 9 8"), Some(record(b'I', &[3, 2, 10, 9, 8], answers(&[1, 1]))));
    assert_eq!(said("I 4 2 10 9 8"), Some(record(b'I', &[4, 2, 10, 9, 8], Said::Wait { owners: 8 })));
    assert_eq!(said("I 4 2 6 9 8"), None);
    assert_eq!(said("G 4"), Some(record(b'G', &[4], answers(&[]))));
    let push = [4, 0, 1, 5, 6, 0, 3, 7, 8];
    assert_eq!(said("G 4 0 1 5 6 0 3 7 8"), Some(record(b'G', &push, answers(&[1, 0, 1, 5]))));
    assert_eq!(said("G 4 0 1 5 6 2 8 5 8"), Some(record(b'G', &[4, 0, 1, 5, 6, 2, 8, 5, 8], Said::Wait { owners: 8 })));
    said("I 3 0 1 1 1").expect("pushed");
    assert_eq!(said("F 3"), Some(record(b'F', &[3], listed(2, &[]))));
    assert_eq!(said("F 3"), None);
    assert_eq!(said("C 4"), Some(record(b'C', &[4], listed(5, &[3]))));
    assert_eq!(said("C 4"), None);
    assert_eq!(said("S 4"), None);
    assert_eq!(said("S 0 1"), Some(record(b'S', &[0, 1, 0, 0, 0, 0, 0, 0, 0, 0, 0, 0, 0, 0, 0, 0], Said::Ok)));
}

#[test]
fn refused_calls_have_no_record() {
    for refusal in [Refusal::StoreLength, Refusal::ListLength, Refusal::Unsound, Refusal::Operations] {
        for call in samples().iter().filter_map(Record::call) {
            assert_eq!(Record::of(&call, Err(refusal), &[]), None);
        }
    }
    let finish = Call::Finish { transaction: 4_000_000_000 };
    let expected = record(b'F', &[4_000_000_000], listed(3, &[9, 255]));
    assert_eq!(Record::of(&finish, Ok(Reply::Committed { count: 2 }), &[9, 255, 7]), Some(expected));
}

#[test]
fn records_that_are_of_no_call() {
    let mut kinds = vec![0; 16];
    kinds[7] = 256;
    assert_eq!(record(b'S', &kinds, Said::Ok).call(), None);
    kinds[7] = 255;
    let set_up = Call::SetUp { kinds: kinds.iter().map(|&kind| kind as u8).collect() };
    assert_eq!(record(b'S', &kinds, Said::Ok).call(), Some(set_up));
    for (letter, arguments) in
        [(b'X', &[1][..]), (b'B', &[]), (b'F', &[1, 2]), (b'C', &[]), (b'I', &[1; 4]), (b'G', &[])]
    {
        assert_eq!(record(letter, arguments, Said::Ok).call(), None);
    }
}

#[test]
fn records_are_shown_as_the_script_prints_them() {
    let expected = [
        "S 1 2 3 0 0 0 0 0 0 0 0 0 0 0 0 2\tok",
        "B 7\tok",
        "I 7 1 4 300 5\tanswer 1 0",
        "I 7 1 4 300 5\twait 3 0 2 63",
        "G 7\tanswer",
        "G 7 1 4 5 6 2 10 0 0\tanswer 1 0 1 900",
        "G 7 1 4 5 6\twait 1 1",
        "F 7\tfinished",
        "F 7\tcommitted 7 9 8",
        "F 7\tcircle 9",
        "C 7\tcancelled 4 3",
    ];
    assert_eq!(samples().iter().map(line).collect::<Vec<_>>(), expected);
    assert_eq!(line(&record(b'F', &[1], listed(2, &[900, 0]))), "F 1\tfinished 900 0");
    assert_eq!(line(&record(b'F', &[1], listed(4, &[]))), "F 1\tcircle");
    assert_eq!(line(&record(b'C', &[u32::MAX], listed(5, &[]))), "C 4294967295\tcancelled");
    assert_eq!(line(&record(b'I', &[1, 0, 3, 0, 0], Said::Wait { owners: 0 })), "I 1 0 3 0 0\twait 0");
    assert_eq!(line(&record(b'C', &[1], listed(6, &[2]))), "C 1\t6 2");
}

/// A script that contends for a few objects, with lines that are refused or unread among the others.
fn draw_script(draws: &mut Draws, lines: usize) -> Vec<u8> {
    const SETS_UP: [&str; 2] = ["S 1 2 3", "S 1 2 3 0 0 0 0 0 0 0 0 0 0 0 0 3"];
    let mut script = format!("{}\n", draws.pick(&SETS_UP));
    for _ in 0..lines {
        let t = draws.below(5);
        let next = match draws.below(20) {
            0..=3 => format!("B {t}"),
            4..=5 => format!("F {t}"),
            6 => format!("C {t}"),
            7..=8 => (0..draws.below(5)).fold(format!("G {t}"), |line, _| format!("{line} {}", draw_operation(draws))),
            9 if draws.percent(10) => draws.pick(&SETS_UP).to_string(),
            9 => draws.pick(&["S 4", "B 64", "X", "", "I 0", "G 1 2", "B 4294967296", " ", "S 256"]).to_string(),
            _ => format!("I {t} {}", draw_operation(draws)),
        };
        script += &next;
        script.push('\n');
    }
    script.truncate(script.len() - draws.below(2));
    script.into_bytes()
}

/// Object, operation, key and value; the operation mostly one of the object's kind, and often one that adds.
fn draw_operation(draws: &mut Draws) -> String {
    let (object, mark) = (draws.below(3), if draws.percent(30) { draws.word() << 24 } else { 0 });
    let operation = match draws.below(20) {
        0 => draws.below(13),
        1..=9 => [1, 4, 7][object],
        _ => [1, 4, 7][object] + draws.below([3, 3, 5][object]),
    };
    format!("{object} {operation} {} {}", mark | draws.below(3) as u32, draw_number(draws))
}

/// The store after a script, and its accepted calls with their replies.
fn serve(script: &[u8]) -> (Vec<u32>, Vec<String>) {
    let mut scheduler = Scheduler::on(Store::zeros());
    let mut accepted = Vec::new();
    for call in script.split(|&byte| byte == b'\n').filter_map(parse) {
        let outcome = call.serve(&mut scheduler.store, &mut scheduler.list);
        if outcome.is_ok() {
            accepted.push(format!("{}\t{}", line_of(&call), shown(outcome, &scheduler.list)));
        }
    }
    (scheduler.store, accepted)
}

#[test]
fn journals_of_random_scripts_give_back_calls_replies_and_store() {
    let mut draws = Draws::new(7);
    let mut tally = BTreeMap::new();
    for _ in 0..1_000 {
        let script = draw_script(&mut draws, 120);
        let (store, accepted) = serve(&script);
        let (output, journal) = journalled(&script);
        assert_eq!(String::from_utf8_lossy(&output), printed(&script[..]));
        let records = read(&journal).expect("a journal");
        assert_eq!(records.iter().map(line).collect::<Vec<_>>(), accepted);
        assert_eq!(file(&records), journal);
        let resumed = resume(&journal).expect("the same replies");
        assert_same_words(&resumed.store, &store);
        assert_eq!((resumed.length, resumed.cut), (journal.len(), false));
        for line in accepted {
            let (call, reply) = line.split_once('\t').expect("a tab");
            let word = reply.split(' ').next().expect("a word").to_string();
            *tally.entry((call.as_bytes()[0], word)).or_insert(0) += 1;
        }
    }
    assert_eq!(tally.len(), 10, "every reply to every letter: {tally:?}");
    assert!(tally.values().all(|&count| count >= 50), "{tally:?}");
}

#[test]
fn cut_journals_resume_with_their_whole_records() {
    let mut draws = Draws::new(8);
    for _ in 0..10 {
        let (_, journal) = journalled(&draw_script(&mut draws, 40));
        let starts = starts(&read(&journal).expect("a journal"));
        for length in 0..=journal.len() {
            let whole = *starts.iter().rfind(|&&start| start <= length).expect("the first starts at 0");
            let expected = Resumed { cut: whole < length, ..resume(&journal[..whole]).expect("whole records") };
            assert_eq!(expected.length, whole);
            assert_eq!(resume(&journal[..length]), Ok(expected));
        }
    }
    assert_eq!(resume(&[]), Ok(Resumed { store: Store::zeros().words, length: 0, cut: false }));
}

/// Asserts that a journal of these lines, the last of which differs, is not resumed.
#[track_caller]
fn assert_differs(before: &[Record], strange: Record) {
    let at = file(before).len();
    assert!(resume(&file(before)).is_ok());
    let bytes = file(&[before, &[strange, record(b'B', &[60], Said::Ok)]].concat());
    assert_eq!(resume(&bytes), Err(Unserved::Differs { at }));
    assert_eq!(resume(&[&bytes[..], b"X"].concat()), Err(Unserved::Differs { at }), "before the damage");
    assert_eq!(resume(&[&bytes[..], b"B"].concat()), Err(Unserved::Differs { at }), "before the cut");
}

#[test]
fn journals_that_no_store_of_zeros_gives_differ_where_a_record_starts() {
    let records = read(&WHOLE_JOURNAL.map(|(bytes, _)| bytes).concat()).expect("a journal");
    let mut kinds = [0; 16];
    kinds[15] = 256;
    assert_differs(&[], record(b'S', &kinds, Said::Ok));
    kinds[15] = 4;
    assert_differs(&[], record(b'S', &kinds, Said::Ok));
    assert_differs(&[], record(b'F', &[0], listed(3, &[0])));
    assert_differs(&records[..1], record(b'B', &[64], Said::Ok));
    assert_differs(&records[..2], record(b'B', &[0], Said::Ok));
    assert_differs(&records[..3], record(b'I', &[0, 0, 1, 7, 0], answers(&[1, 1])));
    assert_differs(&records[..3], record(b'I', &[0, 0, 1, 7, 0], Said::Wait { owners: 0 }));
    assert_differs(&records[..3], record(b'G', &[0, 0, 1, 7, 0, 0, 3, 0, 0], answers(&[1, 0, 1, 8])));
    assert_differs(&records[..5], record(b'I', &[1, 0, 3, 0, 0], Said::Wait { owners: 2 }));
    assert_differs(&records[..5], record(b'I', &[1, 0, 3, 0, 0], Said::Wait { owners: 3 }));
    assert_differs(&records[..5], record(b'I', &[1, 0, 3, 0, 0], answers(&[1, 9])));
    assert_differs(&records[..6], record(b'F', &[1], listed(2, &[1])));
    assert_differs(&records[..6], record(b'F', &[1], listed(4, &[])));
    assert_differs(&records[..7], record(b'F', &[0], listed(3, &[0])));
    assert_differs(&records[..7], record(b'F', &[0], listed(3, &[1, 0])));
    assert_differs(&records[..7], record(b'F', &[0], listed(3, &[0, 257])));
    assert_differs(&records[..10], record(b'C', &[2], listed(5, &[2])));
}

#[test]
fn damaged_journals_are_not_resumed() {
    let journal = WHOLE_JOURNAL.map(|(bytes, _)| bytes).concat();
    for (end, cause, at) in [
        (&b"X"[..], Cause::Letter, 0),
        (b"B\x80\0", Cause::LongForm, 1),
        (b"B\x80\x80\x80\x80\x10", Cause::Width, 1),
        (b"F\x02\x05", Cause::Code, 2),
        (b"G\x02\x11", Cause::Batch, 2),
        (b"C\x02\x05\x41", Cause::List, 3),
        (b"G\x02\0\0\x02\x04\x03", Cause::Owners, 6),
    ] {
        let damage = Damage { cause, at: journal.len() + at };
        assert_eq!(resume(&[&journal[..], end].concat()), Err(Unserved::Damaged(damage)));
        let cut = resume(&[&journal[..], &end[..end.len() - 1]].concat()).expect("cut at most");
        assert_eq!((cut.length, cut.cut), (journal.len(), end.len() > 1));
    }
}

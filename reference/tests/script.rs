//! The script program on bytes of every kind, split and failing in every way.

mod common;

use std::cell::RefCell;
use std::io::{self, Read, Write};
use std::iter::Cycle;
use std::rc::Rc;
use std::slice::Iter;

use common::draws::Draws;
use common::{assert_printed, call_of, printed, sixteen, with_numbers};
use reference::call::Call;
use reference::script::{parse, run};

/// Lines that are calls but for one flaw, without their line feeds.
const UNREAD: &[&[u8]] = &[
    b"",
    b" ",
    b"\t",
    b"\r",
    b"\0",
    b"0",
    b"b 1",
    b"i 1 0 1 7 0",
    b"X 1",
    b"SS",
    b"BB 1",
    b"B1",
    b"B",
    b"B ",
    b"B  1",
    b" B 1",
    b"B 1 ",
    b"B 1  ",
    b"B 1 2",
    b"B\t1",
    b"B\0 1",
    b"B 1\0",
    b"B 1\r",
    b"\rB 1",
    b"B 1\x0b",
    b"B\xa01",
    b"B\xc2\xa01",
    b"\xef\xbb\xbfB 1",
    b"\xff",
    b"B \xd9\xa1",
    b"B \xff",
    b"B -1",
    b"B +1",
    b"B 1.",
    b"B 1e0",
    b"B 0x1",
    b"B 1_0",
    b"B a",
    b"B :",
    b"B /",
    b"B 4294967296",
    b"B 9999999999",
    b"B 00000000001",
    b"B 42949672950",
    b"B 18446744073709551617",
    b"C",
    b"C 1 1",
    b"F",
    b"F 1 1",
    b"F 1,1",
    b"I",
    b"I 1 0 1 7",
    b"I 1 0 1 7 ",
    b"I 1 0 1 7 0 0",
    b"I 1 0 1  7 0",
    b"I 1 0 1 7 0 ",
    b"I 1 0 1 4294967296 0",
    b"g 1",
    b"G",
    b"G ",
    b"G  1",
    b"G 1 ",
    b"G a",
    b"G 1 0",
    b"G 1 0 3",
    b"G 1 0 3 0",
    b"G 1 0 3 0 ",
    b"G 1 0 3 0 0 ",
    b"G 1  0 3 0 0",
    b"G 1 0 3  0 0",
    b"G 1 0 3 0 a",
    b"G 1 0 3 0 -1",
    b"G 1 0 3 0 4294967296",
    b"G 1 0 3 0 00000000000",
    b"G 4294967296 0 3 0 0",
    b"G 1 0 3 0 0 0",
    b"G 1 0 3 0 0 0 3",
    b"G 1 0 3 0 0 0 3 0",
    b"S ",
    b"S  1",
    b"S 1 ",
    b"S 1  1",
    b"S 256",
    b"S 4294967295",
    b"S 00000000001",
    b"S 1 1 1 1 1 1 1 1 1 1 1 1 1 1 1 1 1",
];

/// What the program prints for a line between others that tell whether it changed anything.
fn printed_between(line: &[u8]) -> String {
    printed(&[b"S 1\nB 1\n", line, b"\nB 1\nI 1 0 3 0 0\n"].concat()[..])
}

#[test]
fn flawed_lines_are_unread_and_change_nothing() {
    for &line in UNREAD {
        let shown = String::from_utf8_lossy(line);
        assert_eq!(parse(line), None, "{shown}");
        assert_eq!(printed_between(line), "ok\nok\nunread\nrefused 6\nanswer 0 0\n", "{shown}");
    }
}

#[test]
fn every_byte_instead_of_a_space_a_letter_or_a_digit() {
    for byte in (0..=u8::MAX).filter(|&byte| byte != b'\n') {
        assert_eq!(parse(&[b'B', byte, b'1']).is_some(), byte == b' ', "byte {byte} as a space");
        assert_eq!(parse(&[b'B', b' ', byte]).is_some(), byte.is_ascii_digit(), "byte {byte} as a digit");
        assert_eq!(parse(&[byte, b' ', b'1']).is_some(), b"SBGFC".contains(&byte), "byte {byte} as a letter");
        assert_eq!(parse(&[b'B', b' ', b'1', byte]).is_some(), byte.is_ascii_digit(), "byte {byte} at the end");
        assert_eq!(parse(&[byte, b'B', b' ', b'1']), None, "byte {byte} at the beginning");
    }
}

#[test]
fn lines_are_read_as_calls() {
    let operate = |transaction, key| Call::Operate { transaction, object: 2, operation: 3, key, value: 5 };
    assert_eq!(parse(b"S"), Some(Call::SetUp { kinds: vec![0; 16] }));
    assert_eq!(parse(b"S 1 2 3"), Some(Call::SetUp { kinds: sixteen(&[1, 2, 3]) }));
    assert_eq!(parse(b"S 4 255 0000000003"), Some(Call::SetUp { kinds: sixteen(&[4, 255, 3]) }));
    assert_eq!(parse(b"S 1 1 1 1 1 1 1 1 1 1 1 1 1 1 1 3"), Some(call_of("S 1 1 1 1 1 1 1 1 1 1 1 1 1 1 1 3")));
    assert_eq!(parse(b"B 0"), Some(Call::Begin { transaction: 0 }));
    assert_eq!(parse(b"B 4294967295"), Some(Call::Begin { transaction: u32::MAX }));
    assert_eq!(parse(b"I 1 2 3 4 5"), Some(operate(1, 4)));
    assert_eq!(parse(b"I 4294967295 2 3 4294967295 5"), Some(operate(u32::MAX, u32::MAX)));
    assert_eq!(parse(b"I 0000000001 02 003 0000000004 5"), Some(operate(1, 4)));
    let batch = |transaction, operations: &[u32]| Call::Batch { transaction, operations: operations.to_vec() };
    assert_eq!(parse(b"G 1"), Some(batch(1, &[])));
    assert_eq!(parse(b"G 1 2 3 4 5"), Some(batch(1, &[2, 3, 4, 5])));
    assert_eq!(
        parse(b"G 4294967295 02 3 4294967295 5 6 7 8 9"),
        Some(batch(u32::MAX, &[2, 3, u32::MAX, 5, 6, 7, 8, 9]))
    );
    assert_eq!(parse(b"F 63"), Some(Call::Finish { transaction: 63 }));
    assert_eq!(parse(b"C 1000000000"), Some(Call::Cancel { transaction: 1_000_000_000 }));
}

#[test]
fn numbers_at_their_limits() {
    assert_printed(
        "S 1 2 3 0000000001               ok
         B 0000000063                     ok
         B 4294967295                     refused 5
         B 4294967296                     unread
         I 63 0 1 4294967295 4294967295   answer 1 0
         I 63 0 3 4294967295 0            answer 1 4294967295
         I 63 0 1 4294967296 0            unread
         I 63 2 7 4294967295 4294967295   answer 1 0
         I 63 2 9 16777215 0              answer 1 4294967295
         F 0000000063                     committed 63
         S 256                            unread
         S 0000000256                     unread
         S 255                            refused 3
         S 3 3 3 3 3 3 3 3 3 3 3 3 3 3 3 3  ok",
    );
}

#[test]
fn accepted_set_up_starts_over_and_others_change_nothing() {
    assert_printed(
        "B 0          ok
         S 1          ok
         B 0          ok
         I 0 0 1 7 0  answer 1 0
         F 0          committed 0
         S 1 4        refused 3
         S 1 256      unread
         B 0          ok
         I 0 0 3 0 0  answer 1 7
         S 1          ok
         B 0          ok
         I 0 0 3 0 0  answer 0 0
         S            ok
         B 0          ok
         I 0 0 3 0 0  refused 8",
    );
}

#[test]
fn no_input_is_no_line() {
    assert_eq!(printed(&b""[..]), "");
}

#[test]
fn lone_line_feeds_are_empty_lines() {
    assert_eq!(printed(&b"\n"[..]), "unread\n");
    assert_eq!(printed(&b"\n\nB 0\n\n"[..]), "unread\nunread\nok\nunread\n");
}

#[test]
fn last_line_needs_no_line_feed() {
    assert_eq!(printed(&b"B 0\nB 0"[..]), "ok\nrefused 6\n");
    assert_eq!(printed(&b"B 0\nB 0\n"[..]), "ok\nrefused 6\n");
    assert_eq!(printed(&b"B 0\n "[..]), "ok\nunread\n");
    assert_eq!(printed(&b"B 0\r"[..]), "unread\n");
}

#[test]
fn lists_stand_after_their_words_without_spaces_to_spare() {
    assert_eq!(printed(&b"B 0\nB 1\nC 0\nF 1\n"[..]), "ok\nok\ncancelled\ncommitted 1\n");
}

#[test]
fn wait_prints_the_number_of_owners_and_then_the_owners_ascending() {
    assert_printed(
        "S 2            ok
         B 3            ok
         B 9            ok
         B 17           ok
         B 63           ok
         I 17 0 4 4 0   answer 1 0
         I 17 0 4 4 0   answer 1 0
         I 9 0 6 4 0    wait 1 17
         I 63 0 4 4 0   answer 1 0
         I 3 0 4 4 0    answer 1 0
         I 9 0 4 4 0    answer 1 0
         I 9 0 6 4 0    wait 3 3 17 63
         I 63 0 6 4 0   wait 3 3 9 17
         C 63           cancelled
         I 9 0 6 4 0    wait 2 3 17",
    );
}

#[test]
fn batch_prints_the_code_and_value_of_each_answer_on_one_line() {
    assert_printed(
        "S 1 2 3                                     ok
         B 0                                         ok
         B 1                                         ok
         G 0                                         answer
         G 0 0 1 4294967295 9 0 3 0 0 0 2 0 0        answer 1 0 1 4294967295 1 4294967295
         G 1 1 4 4 0 2 10 0 0                        answer 1 0 1 0
         G 0 2 9 16777221 7                          answer 0 0
         G 0 1 6 4 0 1 6 5 0                         wait 1 1
         G 1 0 1 5 0 1 6 4 0 0 2 0 0                 wait 1 0
         G 0 1 6 4 0 0 12 0 0                        refused 9
         F 1                                         committed 1
         G 0 1 6 4 0 1 6 5 0                         answer 1 0 0 0
         G 1                                         refused 7
         G 64 1 6 4 0                                refused 5",
    );
}

#[test]
fn batch_has_at_most_16_operations_of_four_numbers() {
    let pushes = |numbers: usize| with_numbers("G 1", [0, 1, 7, 0].iter().cycle().take(numbers));
    for numbers in 0..200 {
        let line = pushes(numbers);
        let whole = numbers % 4 == 0 && numbers <= 64;
        assert_eq!(parse(line.as_bytes()).is_some(), whole, "{numbers} numbers");
        let reply = if whole { with_numbers("answer", [1, 0].repeat(numbers / 4)) } else { "unread".to_string() };
        let top = if whole && numbers > 0 { "answer 1 7" } else { "answer 0 0" };
        assert_eq!(printed_between(line.as_bytes()), format!("ok\nok\n{reply}\nrefused 6\n{top}\n"));
    }
}

#[test]
fn batch_with_a_field_that_is_no_number_is_unread_wherever_it_stands() {
    for place in 0..65 {
        for field in ["", "x", "-1", "4294967296", "00000000000"] {
            let mut fields = vec!["1"; 65];
            fields[place] = field;
            assert_eq!(parse(with_numbers("G", fields).as_bytes()), None, "{field:?} at {place}");
        }
    }
}

#[test]
fn batch_waits_for_63_others() {
    let inserts: String = (0..64).map(|t| format!("B {t}\nI {t} 0 4 {} 0\n", t % 16)).collect();
    let batch = (0..16).fold("G 5".to_string(), |line, key| format!("{line} 0 6 {key} 0"));
    let output = printed(format!("S 2\n{inserts}{batch}").as_bytes());
    let expected = with_numbers("wait 63", (0..64).filter(|&other| other != 5));
    assert_eq!(output.lines().last(), Some(&expected[..]));
}

#[test]
fn wait_prints_all_63_others() {
    let inserts: String = (0..64).rev().map(|t| format!("B {t}\nI {t} 0 4 4 0\n")).collect();
    for transaction in [0, 1, 31, 32, 62, 63] {
        let output = printed(format!("S 2\n{inserts}I {transaction} 0 6 4 0").as_bytes());
        let others = (0..64).filter(|&other| other != transaction);
        let expected = others.fold("wait 63".to_string(), |line, other| format!("{line} {other}"));
        assert_eq!(output.lines().last(), Some(&expected[..]));
    }
}

#[test]
fn long_lines_are_one_line_each() {
    let megabytes = |byte: u8| vec![byte; 3 << 20];
    for long in [
        megabytes(b'0'),
        megabytes(b' '),
        megabytes(0xff),
        [b"B 1".to_vec(), megabytes(b' ')].concat(),
        [b"B ".to_vec(), megabytes(b'0'), b"1".to_vec()].concat(),
        [megabytes(b'\r'), b"B 1".to_vec()].concat(),
        b"B 1 ".repeat(1 << 19),
        b"S 1".to_vec().into_iter().chain(b" 1".repeat(1 << 19)).collect(),
        b"G 1".to_vec().into_iter().chain(b" 0 1 7 0".repeat(1 << 18)).collect(),
    ] {
        assert_eq!(printed_between(&long), "ok\nok\nunread\nrefused 6\nanswer 0 0\n");
        assert_eq!(printed(&long[..]), "unread\n");
    }
}

/// A long line whose every beginning or end of a power of two bytes would be a call by itself.
#[test]
fn long_lines_are_not_cut_into_calls() {
    for length in (1..18).map(|bits| 1_usize << bits).flat_map(|length| [length - 1, length, length + 1]) {
        for line in [[b"B 1".to_vec(), vec![b'x'; length]], [vec![b'x'; length], b"B 1".to_vec()]] {
            assert_eq!(printed(&[line.concat(), b"\nB 1\n".to_vec()].concat()[..]), "unread\nok\n", "{length} bytes");
        }
    }
}

#[test]
fn longest_call_is_read_and_a_byte_more_is_not() {
    let batch = [b"G".to_vec(), b" 0000000001".repeat(65)].concat();
    let set_up = [b"S".to_vec(), b" 0000000001".repeat(16)].concat();
    assert_eq!(batch.len(), 716);
    for (longest, taken) in [(batch, "refused 7\n"), (set_up, "ok\n")] {
        for (end, reply) in [(&b""[..], taken), (b"1", "unread\n"), (b" ", "unread\n"), (b"\r", "unread\n")] {
            let line = [&longest, end].concat();
            for length in [1, 100, line.len()] {
                assert_eq!(printed(Pieces::new(&line, &[length])), reply, "pieces of {length}, then {end:?}");
            }
        }
    }
}

#[test]
fn many_lines_are_answered_each() {
    let input = "S 1 2 3\nB 0\nI 0 0 1 7 0\nI 0 0 3 0 0\nF 0\nX\n".repeat(20_000);
    assert_eq!(printed(input.as_bytes()), "ok\nok\nanswer 1 0\nanswer 1 7\ncommitted 0\nunread\n".repeat(20_000));
}

/// Hands out pieces of the lengths given, over and over.
struct Pieces<'a> {
    bytes: &'a [u8],
    lengths: Cycle<Iter<'a, usize>>,
}

impl<'a> Pieces<'a> {
    fn new(bytes: &'a [u8], lengths: &'a [usize]) -> Self {
        Pieces { bytes, lengths: lengths.iter().cycle() }
    }
}

impl Read for Pieces<'_> {
    fn read(&mut self, buffer: &mut [u8]) -> io::Result<usize> {
        let length = *self.lengths.next().expect("some length");
        let (piece, rest) = self.bytes.split_at(length.min(buffer.len()).min(self.bytes.len()));
        buffer[..piece.len()].copy_from_slice(piece);
        self.bytes = rest;
        Ok(piece.len())
    }
}

/// A script of calls and of lines with a byte changed, left out or put in.
fn random_script(seed: u64, lines: usize) -> Vec<u8> {
    let mut draws = Draws::new(seed);
    let mut script = Vec::new();
    for _ in 0..lines {
        let (t, object, operation) = (draws.below(4), draws.below(4), 1 + draws.below(11));
        let line = match draws.below(8) {
            0 => format!("B {t}"),
            1 => format!("F {t}"),
            2 => format!("C {t}"),
            3 if draws.percent(20) => "S 1 2 3".to_string(),
            3 => {
                let operations = (0..draws.below(20)).flat_map(|_| [object, operation, draws.below(5), 0]);
                with_numbers(&format!("G {t}"), operations.collect::<Vec<_>>())
            }
            _ => format!("I {t} {object} {operation} {} {}", draws.below(5), draws.below(9)),
        };
        let mut line = line.into_bytes();
        if draws.percent(30) {
            let (at, byte) = (draws.below(line.len()), draws.pick(b"\n\r\0 09BSX\xff"));
            let cut = at + draws.below(2);
            line.splice(at..cut, [byte].into_iter().take(draws.below(2)));
        }
        script.extend(line);
        script.push(b'\n');
    }
    script.truncate(script.len() - draws.below(3));
    script
}

#[test]
fn each_line_gets_one_reply_line() {
    for seed in 0..200 {
        let script = random_script(seed, 60);
        let line_feeds = script.iter().filter(|&&byte| byte == b'\n').count();
        let last = usize::from(script.last() != Some(&b'\n'));
        let output = printed(&script[..]);
        assert_eq!(output.lines().count(), line_feeds + last, "seed {seed}");
        assert!(output.ends_with('\n'));
        assert!(output.lines().all(|line| line == line.trim() && !line.is_empty()));
    }
}

#[test]
fn replies_do_not_depend_on_how_input_is_split() {
    for seed in 0..100 {
        let script = random_script(seed, 60);
        let whole = printed(&script[..]);
        for lengths in [&[1][..], &[2], &[3, 1, 7], &[64], &[1, 4096]] {
            assert_eq!(printed(Pieces::new(&script, lengths)), whole, "seed {seed}, pieces of {lengths:?}");
        }
    }
}

#[test]
fn replies_to_long_input_do_not_depend_on_how_it_is_split() {
    let script = random_script(7, 20_000);
    let whole = printed(&script[..]);
    for lengths in [&[1][..], &[4095], &[4096], &[4097, 1], &[8191, 8193], &[65_535, 65_537], &[1 << 20]] {
        assert_eq!(printed(Pieces::new(&script, lengths)), whole, "pieces of {lengths:?}");
    }
}

/// What has been written, and how much of it was flushed.
#[derive(Default)]
struct Terminal {
    written: Vec<u8>,
    flushed: usize,
}

#[derive(Clone, Default)]
struct Screen(Rc<RefCell<Terminal>>);

impl Write for Screen {
    fn write(&mut self, bytes: &[u8]) -> io::Result<usize> {
        self.0.borrow_mut().written.extend(bytes);
        Ok(bytes.len())
    }

    fn flush(&mut self) -> io::Result<()> {
        let mut terminal = self.0.borrow_mut();
        terminal.flushed = terminal.written.len();
        Ok(())
    }
}

impl Screen {
    fn lines_shown(&self) -> usize {
        let terminal = self.0.borrow();
        terminal.written[..terminal.flushed].iter().filter(|&&byte| byte == b'\n').count()
    }
}

/// A person who types on only when every line typed so far has been answered on the screen.
struct Typist<'a> {
    pieces: Pieces<'a>,
    screen: Screen,
    lines_typed: usize,
}

impl Read for Typist<'_> {
    fn read(&mut self, buffer: &mut [u8]) -> io::Result<usize> {
        assert_eq!(self.screen.lines_shown(), self.lines_typed, "lines answered when asked for more input");
        let length = self.pieces.read(buffer)?;
        self.lines_typed += buffer[..length].iter().filter(|&&byte| byte == b'\n').count();
        Ok(length)
    }
}

#[test]
fn what_was_read_is_answered_before_more_is_waited_for() {
    let script = random_script(11, 500);
    for lengths in [&[1][..], &[5, 9, 2], &[40], &[1000, 3]] {
        let screen = Screen::default();
        let typist = Typist { pieces: Pieces::new(&script, lengths), screen: screen.clone(), lines_typed: 0 };
        run(typist, screen.clone()).expect("a screen takes every write");
        assert_eq!(String::from_utf8_lossy(&screen.0.borrow().written), printed(&script[..]));
        assert_eq!(screen.0.borrow().flushed, screen.0.borrow().written.len(), "flushed at the end");
    }
}

/// Takes so many bytes, a few at a time, and then fails.
struct Failing {
    room: usize,
    at_once: usize,
}

impl Write for Failing {
    fn write(&mut self, bytes: &[u8]) -> io::Result<usize> {
        if self.room == 0 {
            return Err(io::Error::new(io::ErrorKind::Other, "no room"));
        }
        let taken = bytes.len().min(self.room).min(self.at_once);
        self.room -= taken;
        Ok(taken)
    }

    fn flush(&mut self) -> io::Result<()> {
        Ok(())
    }
}

#[test]
fn failing_write_is_an_error() {
    let script = b"S 1\nB 0\nI 0 0 1 7 0\nX\nF 0\n";
    let length = printed(&script[..]).len();
    for at_once in [1, 3, 1000] {
        for room in 0..length {
            let outcome = run(&script[..], Failing { room, at_once });
            assert_eq!(outcome.map_err(|error| error.kind()), Err(io::ErrorKind::Other), "after {room} bytes");
        }
        assert!(run(&script[..], Failing { room: length + 1, at_once }).is_ok());
    }
}

#[test]
fn writer_that_takes_nothing_is_an_error() {
    let mut nothing: [u8; 0] = [];
    let outcome = run(&b"B 0\n"[..], &mut nothing[..]);
    assert_eq!(outcome.map_err(|error| error.kind()), Err(io::ErrorKind::WriteZero));
}

struct NoFlush;

impl Write for NoFlush {
    fn write(&mut self, bytes: &[u8]) -> io::Result<usize> {
        Ok(bytes.len())
    }

    fn flush(&mut self) -> io::Result<()> {
        Err(io::Error::new(io::ErrorKind::Other, "no flush"))
    }
}

#[test]
fn failing_flush_is_an_error() {
    assert!(run(&b"B 0\n"[..], NoFlush).is_err());
}

struct NoRead;

impl Read for NoRead {
    fn read(&mut self, _: &mut [u8]) -> io::Result<usize> {
        Err(io::Error::new(io::ErrorKind::Other, "no read"))
    }
}

#[test]
fn failing_read_is_an_error_after_what_was_read_is_answered() {
    let mut output = Vec::new();
    assert!(run(b"B 0\n".chain(NoRead), &mut output).is_err());
    assert_eq!(output, b"ok\n");
}

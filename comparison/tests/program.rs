//! The desk's program as a process: bytes of every kind, in every portion, and at any length.

use std::fs::OpenOptions;
use std::io::{BufRead, BufReader, Read, Write};
use std::process::{Child, ChildStdin, Stdio};
use std::sync::mpsc::{self, Receiver};
use std::thread;
use std::time::{Duration, Instant};

use comparison::common::columns;
use comparison::common::draws::Draws;
use comparison::difference;
use comparison::program::{self, take_input, Program};

/// What a program may take to answer a line or to end.
const PATIENCE: Duration = Duration::from_secs(30);
/// Lines of every letter, some unread, the last one without its line feed.
const SCRIPT: &[u8] =
    b"S 1 2 3\nB 0\nB 63\nI 0 0 1 4294967295 0\n\nG 63 0 1 9 0 2 7 16777221 3\nX\nF 63\nI 0 2 9 5 0\nB 1\n\
G 1 1 4 8 0 0 2 0 0\nG 1 0 2 0\nG 1\nF 0\nI 1 0 2 0 0\nG 1 0 2 0 0 2 9 5 0\nI 1 0 2 0 0\nC 1\nB 64";
const REPLIES: &[u8] = b"ok\nok\nok\nanswer 1 0\nunread\nanswer 1 0 1 0\nunread\nfinished\nwait 1 63\nok\n\
wait 2 0 63\nunread\nanswer\ncommitted 0 63\nanswer 1 9\nanswer 1 4294967295 1 3\nanswer 0 0\ncancelled\nrefused 5\n";

/// Asserts that both programs, each run as told, print the same and end well.
fn assert_same(run: impl Fn(&Program) -> Result<Vec<u8>, String>, what: &str) -> Vec<u8> {
    let [output, expected] = Program::both().map(|program| run(&program).expect(what));
    if let Some(difference) = difference::first(&output, &expected) {
        panic!("{what}: reply {}: {difference}", difference.line + 1);
    }
    output
}

fn line_feeds(bytes: &[u8]) -> usize {
    bytes.iter().filter(|&&byte| byte == b'\n').count()
}

#[test]
fn each_line_of_any_bytes_gets_one_reply_line() {
    for seed in 0..300 {
        let mut draws = Draws::new(seed);
        let choices: &[u8] = if draws.percent(50) { b"\n\n\nSBIGFC  0123456789" } else { b"\n\r\0B 1\xff" };
        let any = draws.percent(30);
        let draw_byte = |_| if any { draws.word() as u8 } else { draws.pick(choices) };
        let input: Vec<u8> = (0..1 + seed as usize * 10).map(draw_byte).collect();
        let output = assert_same(|program| program.run(&input), &format!("seed {seed}"));
        let lines = line_feeds(&input) + usize::from(input.last() != Some(&b'\n'));
        assert_eq!(line_feeds(&output), lines, "seed {seed}");
    }
}

#[test]
fn inputs_of_hardly_anything() {
    let desk = Program::lending_desk();
    let cases: [(&[u8], &[u8]); 8] = [
        (b"", b""),
        (b"\n", b"unread\n"),
        (b"\n\n", b"unread\nunread\n"),
        (b" ", b"unread\n"),
        (b"S", b"ok\n"),
        (b"S\n", b"ok\n"),
        (b"\0", b"unread\n"),
        (b"B 0\nB 0", b"ok\nrefused 6\n"),
    ];
    for (input, expected) in cases {
        assert_eq!(desk.run(input).as_deref(), Ok(expected), "{}", input.escape_ascii());
    }
}

/// A batch of transaction 1 with sixteen times the same operation, every number with ten digits: no call is longer.
fn longest_batch(operation: [u32; 4]) -> String {
    let numbers = [&[1], &operation.repeat(16)[..]].concat();
    let line = numbers.iter().fold("G".to_string(), |line, number| format!("{line} {number:0>10}"));
    assert_eq!(line.len(), 716);
    line
}

#[test]
fn longest_batch_is_read_and_one_longer_is_not() {
    let batch = longest_batch([0, 3, u32::MAX, u32::MAX]);
    let answers = "answer".to_string() + &" 1 4294967295".repeat(16);
    let mut input = format!("S 1\nB 1\nI 1 0 1 4294967295 0\n{batch}\n");
    let mut expected = format!("ok\nok\nanswer 1 0\n{answers}\n");
    for more in ["0", " ", "\r", "x", " 0", " 0 3 0 0"] {
        input += &format!("{batch}{more}\n");
        expected += "unread\n";
    }
    for fewer in 1..4 {
        input += &format!("{}\n", &batch[..batch.len() - 11 * fewer]);
        expected += "unread\n";
    }
    input += &format!("{}\nG 1", &batch[..batch.len() - 11 * 4]);
    expected += &format!("{}\nanswer\n", &answers[..answers.len() - 13]);
    let output = assert_same(|program| program.run(input.as_bytes()), "the longest batch");
    assert_eq!(String::from_utf8_lossy(&output), expected);
}

/// They are the longest answers there are, and fill whatever the program writes at once in every way.
#[test]
fn megabytes_of_answers_are_printed_whole() {
    const TIMES: usize = 500;
    let batch = "G 1".to_string() + &" 0 3 0 0".repeat(16) + "\n";
    let answers = "answer".to_string() + &" 1 4294967295".repeat(16) + "\n";
    let input =
        "S 1\nB 1\nI 1 0 1 4294967295 0\nF 1\n".to_string() + &format!("B 1\n{}C 1\n", batch.repeat(15)).repeat(TIMES);
    let expected = "ok\nok\nanswer 1 0\ncommitted 1\n".to_string()
        + &format!("ok\n{}cancelled\n", answers.repeat(15)).repeat(TIMES);
    let output = assert_same(|program| program.run_long(input.as_bytes()), "long output");
    assert!(output == expected.as_bytes());
}

/// The most owners that a wait can have.
#[test]
fn each_of_64_waits_for_all_others() {
    let mut transcript = "S 1  ok\n".to_string();
    (0..64).for_each(|asking| transcript += &format!("B {asking}  ok\n"));
    (0..64).for_each(|asking| transcript += &format!("I {asking} 0 1 7 0  answer 1 0\n"));
    for asking in 0..64 {
        let others: String = (0..64).filter(|&other| other != asking).map(|other| format!(" {other}")).collect();
        transcript += &format!("I {asking} 0 2 0 0  wait 63{others}\n");
    }
    let (input, expected) = columns(&transcript);
    let output = assert_same(|program| program.run(input.as_bytes()), "64 on one stack");
    assert_eq!(String::from_utf8_lossy(&output), expected);
}

#[test]
fn line_of_many_megabytes_is_one_line() {
    const LENGTH: usize = 12 << 20;
    let desk = Program::lending_desk();
    for byte in [b' ', b'0', b'\0', b'S'] {
        let mut input = vec![byte; LENGTH];
        assert_eq!(desk.run_long(&input).as_deref(), Ok(&b"unread\n"[..]), "bytes {byte}, at the end");
        input.splice(0..0, *b"S 1\nB 7\nB 8");
        input.extend(b"\nB 7\n");
        let expected = Ok(&b"ok\nok\nunread\nrefused 6\n"[..]);
        assert_eq!(desk.run_long(&input).as_deref(), expected, "bytes {byte}, between others");
    }
}

#[test]
fn many_megabytes_of_short_lines_are_answered_each() {
    let mut draws = Draws::new(1);
    let mut input = Vec::new();
    while input.len() < 8 << 20 {
        let bad: &[u8] =
            draws.pick(&[b"\n", b"B\n", b"X 1\n", b"b 0\n", b"B 4294967296\n", b"\0\xff\n", b"S 1 2 3 \n", b"G 0 1\n"]);
        input.extend(bad);
    }
    input.extend(b"S 1 2 3\nB 0\nI 0 0 1 7 0\nG 0 1 4 5 0 0 2 0 0\nG 0\nF 0\nB 1\nC 1\n".repeat(40_000));
    let output = assert_same(|program| program.run_long(&input), "long input");
    assert_eq!(line_feeds(&output), line_feeds(&input));
}

/// A program that is talked to, its output read as it comes.
struct Talk {
    program: Child,
    input: Option<ChildStdin>,
    output: Receiver<Vec<u8>>,
}

impl Talk {
    fn start() -> Self {
        let mut program = Program::lending_desk().start(Stdio::piped(), Stdio::piped());
        let input = Some(take_input(&mut program));
        let mut stdout = BufReader::new(program.stdout.take().expect("piped"));
        let (sender, output) = mpsc::channel();
        thread::spawn(move || loop {
            let mut line = Vec::new();
            match stdout.read_until(b'\n', &mut line) {
                Ok(length) if length > 0 && sender.send(line).is_ok() => {}
                _ => return,
            }
        });
        Talk { program, input, output }
    }

    fn write(&mut self, bytes: &[u8]) {
        let input = self.input.as_mut().expect("open");
        input.write_all(bytes).and_then(|()| input.flush()).expect("the program reads");
    }

    /// The next reply.
    fn read(&self) -> String {
        let line = self.output.recv_timeout(PATIENCE).expect("a reply before more is written");
        String::from_utf8(line).expect("replies are ASCII")
    }

    /// Waits until the program has read what was written and sleeps for want of more.
    #[cfg(target_os = "linux")]
    fn wait_until_asleep(&self) {
        let start = Instant::now();
        while !program::is_asleep(self.program.id()) {
            assert!(start.elapsed() < PATIENCE, "the program should wait for input");
            thread::yield_now();
        }
    }

    /// Ends the input and hands back what is still printed.
    fn end(mut self) -> Vec<u8> {
        drop(self.input.take());
        let rest = self.output.iter().flatten().collect();
        assert!(self.program.wait().expect("it ends").success());
        rest
    }
}

impl Drop for Talk {
    /// Ends a program that a failed check leaves behind.
    fn drop(&mut self) {
        let _ = self.program.kill();
        let _ = self.program.wait();
    }
}

#[test]
fn each_line_is_answered_before_more_is_waited_for() {
    let mut talk = Talk::start();
    let mut replies = difference::lines(REPLIES);
    for line in difference::lines(SCRIPT).filter(|line| line.ends_with(b"\n")) {
        talk.write(line);
        assert_eq!(talk.read().as_bytes(), replies.next().expect("a reply to each line"), "{}", line.escape_ascii());
    }
    talk.write(b"B 64");
    assert_eq!(talk.end(), b"refused 5\n");
}

#[test]
fn lines_written_at_once_are_answered_at_once() {
    let mut talk = Talk::start();
    talk.write(SCRIPT);
    let (answered, last) = REPLIES.split_at(REPLIES.len() - b"refused 5\n".len());
    for reply in difference::lines(answered) {
        assert_eq!(talk.read().as_bytes(), reply);
    }
    talk.write(b"\nB 5\n B 6\nB 5");
    let rest: Vec<String> = (0..3).map(|_| talk.read()).collect();
    assert_eq!(rest.concat(), "refused 5\nok\nunread\n");
    assert_eq!(last, b"refused 5\n");
    assert_eq!(talk.end(), b"refused 6\n");
}

#[cfg(target_os = "linux")]
#[test]
fn line_written_in_pieces_is_one_line() {
    let mut talk = Talk::start();
    for piece in [&b"S"[..], b" 1", b" ", b"2\nB", b" 000", b"0000", b"001", b"\n", b"\n", b"B 1\nI 1 0 ", b"1 7 0"] {
        talk.write(piece);
        talk.wait_until_asleep();
    }
    let replies: Vec<String> = (0..4).map(|_| talk.read()).collect();
    assert_eq!(replies.concat(), "ok\nok\nunread\nrefused 6\n");
    assert_eq!(talk.end(), b"answer 1 0\n");
}

#[cfg(target_os = "linux")]
#[test]
fn script_cut_in_two_at_any_place_prints_the_same() {
    for cut in 0..=SCRIPT.len() {
        let mut talk = Talk::start();
        talk.write(&SCRIPT[..cut]);
        talk.wait_until_asleep();
        talk.write(&SCRIPT[cut..]);
        assert_eq!(talk.end(), REPLIES, "cut before byte {cut}");
    }
}

#[cfg(target_os = "linux")]
#[test]
fn script_cut_in_small_pieces_prints_the_same() {
    for length in 1..=9 {
        let mut talk = Talk::start();
        for piece in SCRIPT.chunks(length) {
            talk.wait_until_asleep();
            talk.write(piece);
        }
        assert_eq!(talk.end(), REPLIES, "pieces of {length}");
    }
}

/// All but what a pipe holds of the line is read by the time the whole of it is written.
#[cfg(target_os = "linux")]
#[test]
fn memory_stays_fixed_however_long_a_line_is() {
    const LINE_KIBIBYTES: usize = 64 << 10;
    let mut talk = Talk::start();
    for _ in 0..LINE_KIBIBYTES {
        talk.write(&[b'0'; 1 << 10]);
    }
    let peak = program::peak_kibibytes(talk.program.id());
    assert!(peak < LINE_KIBIBYTES / 4, "{peak} KiB for a line of {LINE_KIBIBYTES} KiB");
    talk.write(b"\n");
    assert_eq!(talk.read(), "unread\n");
    assert_eq!(talk.end(), b"");
}

#[cfg(target_os = "linux")]
#[test]
fn memory_stays_fixed_however_many_lines_there_are() {
    const LINES_KIBIBYTES: usize = 8 << 10;
    let mut talk = Talk::start();
    let lines = b"S 1 2\nB 7\n\nI 7 0 1 9 0\nG 7 1 4 9 0 0 3 0 0\nX\nF 7\n ";
    let some = lines.repeat((1 << 10) / lines.len());
    let mut peaks = Vec::new();
    for kibibyte in 0..=LINES_KIBIBYTES {
        talk.write(&some);
        (0..line_feeds(&some)).for_each(|_| drop(talk.read()));
        if kibibyte == 100 || kibibyte == LINES_KIBIBYTES {
            peaks.push(program::peak_kibibytes(talk.program.id()));
        }
    }
    assert!(peaks[1] - peaks[0] < LINES_KIBIBYTES / 4, "{peaks:?} KiB for lines of {LINES_KIBIBYTES} KiB");
    assert_eq!(talk.end(), b"unread\n");
}

/// The input goes on, so that it is the failing write that ends the program.
#[cfg(target_os = "linux")]
#[test]
fn failing_write_ends_the_program_with_a_message() {
    let full = OpenOptions::new().write(true).open("/dev/full").expect("Linux has it");
    let mut program = Program::lending_desk().start(Stdio::piped(), full.into());
    let mut input = take_input(&mut program);
    let _ = input.write_all(b"B 0\n");
    let start = Instant::now();
    while program.try_wait().expect("it can be waited for").is_none() {
        if start.elapsed() > PATIENCE {
            let _ = program.kill();
            panic!("the program goes on");
        }
        thread::sleep(Duration::from_millis(1));
    }
    let mut message = String::new();
    program.stderr.take().expect("piped").read_to_string(&mut message).expect("text");
    assert!(!message.trim().is_empty(), "no message");
}

/// Sizes of blocks that a program may read or write at once.
const BLOCKS: [usize; 9] = [128, 512, 1024, 4096, 8192, 16_384, 32_768, 65_536, 131_072];

/// Before the call come lines up to the byte given: one long one, or many empty ones.
#[test]
fn calls_across_the_edges_of_blocks_are_read_whole() {
    let single = "I 1 0 1 4294967295 0\n".to_string();
    let batch = longest_batch([0, 1, u32::MAX, u32::MAX]) + "\n";
    for (call, pushes, step) in [(single, 1, 1), (batch, 16, 53)] {
        for block in BLOCKS.into_iter().filter(|block| block - block / 4 > call.len()) {
            for start in (block - call.len() - 1..=block + 2).step_by(step) {
                assert_read_at(start, &call, pushes);
            }
        }
    }
}

/// Asserts that a call of so many pushes is read where it starts at the byte given.
fn assert_read_at(start: usize, call: &str, pushes: usize) {
    let desk = Program::lending_desk();
    for padding in [b'x', b'\n'] {
        let before = [b"S 1\nB 1\n", &vec![padding; start - 9][..], b"\n"].concat();
        assert_eq!(before.len(), start);
        let (unread, answers) = ("unread\n".repeat(line_feeds(&before) - 2), " 1 0".repeat(pushes));
        let expected = format!("ok\nok\n{unread}answer{answers}\nanswer 1 4294967295\ncommitted 1\n");
        let input = [&before, call.as_bytes(), b"I 1 0 3 0 0\nF 1"].concat();
        for output in [desk.run_long(&input), desk.run_on_file(&input)] {
            assert!(output.as_deref() == Ok(expected.as_bytes()), "a call at byte {start}");
        }
    }
}

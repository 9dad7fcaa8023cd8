//! The desk's program, killed at any moment and started again on its journal: no reply is seen whose call isn't kept, and
//! what is seen in the end is what one desk says that was never killed.

use std::io::{Read, Write};
use std::process::{Child, ChildStdin};
use std::thread;
use std::time::{Duration, Instant};

use comparison::common::draws::Draws;
use comparison::drawing::draw;
use comparison::journal::{lines, whole, Course, JournalFile, Told};
use comparison::profiles::PROFILES;
use comparison::program::{take_input, Program};

/// How often desks are killed, and how long that may go on.
const KILLS: usize = 600;
const FEWEST_KILLS: usize = 300;
const LONGEST: Duration = Duration::from_secs(15);
const OFTEN_ENOUGH: usize = 100;

/// When a desk is killed.
#[derive(Clone, Copy, Debug)]
enum Moment {
    After(Duration),
    /// As soon as so many bytes of replies are seen.
    Seen(usize),
}

/// Writes lines, one by one or some at once, with pauses or without; up to a failing write.
fn ask(mut input: ChildStdin, lines: &[Vec<u8>], mut draws: Draws) {
    let (most, pause) = (draws.pick(&[1, 1, 4, 1000]), draws.pick(&[0, 0, 30, 200]));
    let mut left = lines;
    while !left.is_empty() {
        let (now, later) = left.split_at(left.len().min(1 + draws.below(most)));
        if input.write_all(&now.concat()).is_err() {
            return;
        }
        if pause > 0 {
            thread::sleep(Duration::from_micros(draws.below(pause) as u64));
        }
        left = later;
    }
}

/// What a desk prints that is killed at a moment, or ends before.
fn seen_until(moment: Moment, program: &mut Child) -> Vec<u8> {
    let mut output = program.stdout.take().expect("piped");
    let (mut seen, mut block) = (Vec::new(), [0; 4096]);
    thread::scope(|scope| {
        match moment {
            Moment::After(time) => {
                scope.spawn(move || {
                    thread::sleep(time);
                    program.kill().expect("it can be killed");
                });
            }
            Moment::Seen(bytes) => {
                while seen.len() < bytes {
                    match output.read(&mut block).expect("its output") {
                        0 => break,
                        length => seen.extend(&block[..length]),
                    }
                }
                program.kill().expect("it can be killed");
            }
        }
        output.read_to_end(&mut seen).expect("its output");
    });
    seen
}

/// Serves a script by desks that are killed, each starting on the journal that the one before has left.
fn serve_killed(desk: &Program, course: &Course, draws: &mut Draws, kills: &mut Kills) {
    let file = JournalFile::none_on_disk();
    loop {
        let from = course.next_line(&file);
        let moment = match draws.below(3) {
            0 => Moment::Seen(1 + draws.below(200)),
            _ => Moment::After(Duration::from_micros(draws.below(4_000) as u64)),
        };
        let expected = file.expected_at_start(&file.bytes());
        let mut program = file.start(desk);
        let (input, asking) = (take_input(&mut program), Draws::new(u64::from(draws.word())));
        let seen = thread::scope(|scope| {
            scope.spawn(|| ask(input, &course.lines[from..], asking));
            seen_until(moment, &mut program)
        });
        let mut said = String::new();
        program.stderr.take().expect("piped").read_to_string(&mut said).expect("text");
        assert!(expected.starts_with(&said), "{said:?} is said");
        program.wait().expect("it has ended");
        let line = course.assert_replies(from, &seen);
        let needed = course.assert_kept(&file, line);
        if line == course.lines.len() {
            assert_eq!(file.bytes(), course.journal);
            file.print(desk).check(&Told::new(&lines(&whole(&course.journal).records), "")).expect("printed");
            return;
        }
        kills.all += 1;
        kills.silent += usize::from(seen.is_empty());
        kills.unseen += usize::from(file.bytes().len() > needed);
        if draws.percent(50) {
            lose(&file, needed, draws);
        }
        kills.cut += usize::from(whole(&file.bytes()).damage.is_some());
    }
}

/// Cuts a file somewhere behind the place up to which it is needed: what wasn't brought to disk may be lost when the
/// machine goes down too.
fn lose(file: &JournalFile, needed: usize, draws: &mut Draws) {
    let bytes = file.bytes();
    if bytes.len() > needed {
        file.write(&bytes[..needed + draws.below(bytes.len() - needed)]);
    }
}

/// How often desks were killed,
#[derive(Debug, Default)]
struct Kills {
    all: usize,
    /// before any reply was seen,
    silent: usize,
    /// when a call was kept whose reply wasn't: rarely, where a disk is quick,
    unseen: usize,
    /// and a record was cut then.
    cut: usize,
}

#[test]
fn killed_desks_go_on_as_one_that_was_never_killed() {
    let (desk, start) = (Program::lending_desk(), Instant::now());
    let mut draws = Draws::new(1);
    let mut kills = Kills::default();
    while kills.all < KILLS && start.elapsed() < LONGEST {
        let course = Course::of(&draw(&PROFILES[draws.below(PROFILES.len())], u64::from(draws.word())).bytes());
        if !course.kept.is_empty() {
            serve_killed(&desk, &course, &mut draws, &mut kills);
        }
    }
    eprintln!("desks killed and started again: {kills:?}");
    assert!(kills.all >= FEWEST_KILLS, "{kills:?} in {:?}", start.elapsed());
    assert!(kills.all - kills.silent >= OFTEN_ENOUGH, "{kills:?}");
}

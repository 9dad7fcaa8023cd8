//! The desk's program over a journal: what it prints and every byte that it keeps are the second implementation's; cut
//! into parts, a script goes on as if it had never been stopped; journals that are cut or damaged.

use std::io::{self, Write};

use comparison::common::draws::Draws;
use comparison::drawing::draw;
use comparison::journal::{lines, reply, starts, whole, JournalFile, Told, REPLIES};
use comparison::profiles::{Profile, PROFILES};
use comparison::program::{saved, Program};
use comparison::records::{cause_row, CAUSES};
use comparison::tally::Tally;
use comparison::threads::divided;
use reference::journal::{self, next, Cause, Damage, Resumed, Unserved};
use reference::script::journalled;

const OFTEN_ENOUGH: u64 = 100;
/// Of the scripts of a profile, one in so many is served over a journal.
const ONE_IN: u64 = 20;
const FEWEST_SCRIPTS: u64 = 10;
const FEWEST_JOURNALS: u64 = 1_000;
/// Journals that are damaged, each in so many ways, and that are cut, each at so many places.
const DAMAGED: usize = 250;
const WAYS: usize = 6;
const CUT: usize = 100;
const PLACES: usize = 6;
/// How often a byte is changed at random until it is damage that is wanted.
const TRIES: usize = 3_000;

/// What came of a thread's works.
#[derive(Default)]
struct Pass {
    tally: Tally,
    /// The works' places, and what is wrong there.
    faults: Vec<(usize, String)>,
}

/// Does works, divided among threads: how often each row occurred. Panics where anything is wrong.
#[track_caller]
fn tallied(works: usize, work: impl Fn(&mut Tally, usize) -> Result<(), String> + Sync) -> Tally {
    let passes = divided(works, |pass: &mut Pass, place| {
        if let Err(what) = work(&mut pass.tally, place) {
            pass.faults.push((place, what));
        }
    });
    let faults = || passes.iter().flat_map(|pass| &pass.faults);
    if let Some((place, what)) = faults().min() {
        panic!("{} works at fault; the first is number {place}: {what}", faults().count());
    }
    let mut tally = Tally::default();
    passes.iter().for_each(|pass| tally.join(&pass.tally));
    tally
}

/// Asserts that each row occurred often, and prints past the test harness how often that was.
#[track_caller]
fn assert_often(what: &str, tally: &Tally, rows: &[&str]) {
    let mut stderr = io::stderr().lock();
    writeln!(stderr, "\n{what}").expect("standard error takes the table");
    for row in rows {
        writeln!(stderr, "{row:<42}{:>10}", tally.of(row)).expect("standard error takes the table");
    }
    for row in rows {
        assert!(tally.of(row) >= OFTEN_ENOUGH, "{row} occurred {} times", tally.of(row));
    }
}

fn check(is_right: bool, what: impl FnOnce() -> String) -> Result<(), String> {
    is_right.then_some(()).ok_or_else(what)
}

/// Checks what a file holds.
fn check_bytes(file: &JournalFile, expected: &[u8]) -> Result<(), String> {
    let bytes = file.bytes();
    check(bytes == expected, || {
        let difference = bytes.iter().zip(expected).position(|(one, other)| one != other);
        let place = difference.unwrap_or(bytes.len().min(expected.len()));
        let (saved, length) = (saved("journal", &bytes), expected.len());
        format!("{} bytes are kept and not {length}, other ones from byte {place} on: {saved}", bytes.len())
    })
}

/// The profile and the seed of each script that is served.
fn scripts() -> Vec<(&'static Profile, u64)> {
    let seeds = |profile: &Profile| 0..(profile.scripts / ONE_IN).max(FEWEST_SCRIPTS);
    PROFILES.iter().flat_map(|profile| seeds(profile).map(move |seed| (profile, seed))).collect()
}

/// A script drawn at random.
fn draw_script(draws: &mut Draws) -> Vec<u8> {
    draw(&PROFILES[draws.below(PROFILES.len())], u64::from(draws.word())).bytes()
}

/// The input in some parts, each of whole lines.
fn parts<'a>(draws: &mut Draws, input: &'a [u8]) -> Vec<&'a [u8]> {
    let ends: Vec<usize> = (0..input.len()).filter(|&at| input[at] == b'\n').map(|at| at + 1).collect();
    let mut cuts: Vec<usize> =
        (0..1 + draws.below(3)).filter(|_| !ends.is_empty()).map(|_| draws.pick(&ends)).collect();
    cuts.extend([0, input.len()]);
    cuts.sort_unstable();
    cuts.windows(2).map(|pair| &input[pair[0]..pair[1]]).collect()
}

// ---- Kept and printed

/// Serves a script at once and in parts, and prints the journals.
fn serve(desk: &Program, draws: &mut Draws, input: &[u8], tally: &mut Tally) -> Result<(), String> {
    let (output, journal) = journalled(input);
    let file = JournalFile::none();
    file.serve(desk, input).check(&Told::new(&output, ""))?;
    check_bytes(&file, &journal)?;
    let records = whole(&journal).records;
    records.iter().for_each(|record| tally.add(&reply(record), 1));
    file.print(desk).check(&Told::new(&lines(&records), "")).map_err(|what| format!("printed: {what}"))?;

    let (file, mut printed) = (JournalFile::none(), Vec::new());
    for part in parts(draws, input) {
        let Told { printed: more, said } = file.serve(desk, part);
        check(said.is_empty(), || format!("in parts, {said:?} is said"))?;
        printed.extend(more);
    }
    Told::new(&printed, "").check(&Told::new(&output, "")).map_err(|what| format!("in parts: {what}"))?;
    check_bytes(&file, &journal).map_err(|what| format!("in parts: {what}"))
}

#[test]
fn random_scripts_leave_the_journal_of_the_second_implementation() {
    let (desk, scripts) = (Program::lending_desk(), scripts());
    let tally = tallied(scripts.len(), |tally, place| {
        let (profile, seed) = scripts[place];
        tally.add("journals", 1);
        let served = serve(&desk, &mut Draws::new(!seed), &draw(profile, seed).bytes(), tally);
        served.map_err(|what| format!("profile {:?}, seed {seed}: {what}", profile.name))
    });
    assert_often(&format!("journals of random scripts: {}", tally.of("journals")), &tally, &REPLIES);
    assert!(tally.of("journals") >= FEWEST_JOURNALS);
}

#[test]
fn journal_of_nothing_is_empty() {
    let (desk, file) = (Program::lending_desk(), JournalFile::none());
    file.serve(&desk, b"").check(&Told::new(b"", "")).expect("nothing");
    assert!(file.path().exists() && file.bytes().is_empty());
    file.print(&desk).check(&Told::new(b"", "")).expect("nothing");
    file.serve(&desk, b"\nB 64\nF 0\nS 4")
        .check(&Told::new(b"unread\nrefused 5\nrefused 7\nrefused 3\n", ""))
        .expect("no");
    assert!(file.bytes().is_empty());
    file.serve(&desk, b"B 63").check(&Told::new(b"ok\n", "")).expect("the last line, which the end ends");
    assert_eq!(file.bytes(), b"B\x3F");
}

/// The longest record: a batch whose numbers are all as long as can be, with its answers.
#[test]
fn longest_record_is_kept() {
    let number = u32::MAX.to_string();
    let pushes = format!(" 0 1 {number} {number}").repeat(16);
    let pops = format!(" 0 2 {number} {number}").repeat(16);
    let input = format!("S 1\nB 0\nG 0{pushes}\nG 0{pops}\nF 0\n");
    let (desk, file) = (Program::lending_desk(), JournalFile::none());
    let (output, journal) = journalled(input.as_bytes());
    file.serve(&desk, input.as_bytes()).check(&Told::new(&output, "")).expect("served");
    assert_eq!(file.bytes(), journal);
    file.print(&desk).check(&file.expected_print(&journal)).expect("printed");
    file.serve(&desk, b"B 0\n").check(&Told::new(b"ok\n", "")).expect("served again");
}

// ---- Cut

/// What follows a journal where nothing else is known of it.
const MORE: &[u8] = b"B 40\nX\nI 40 0 1 5 0\nI 40 2 7 4294967295 3\nC 40\nB 41\nB 41\n";

/// Starts on bytes that are whole or cut: the cut record is cut away, and what comes then is as it would have been.
fn serve_cut(desk: &Program, bytes: &[u8]) -> Result<bool, String> {
    let Resumed { mut store, length, cut } =
        journal::resume(bytes).map_err(|what| format!("the second implementation says {what:?}"))?;
    let file = JournalFile::of(bytes);
    file.print(desk).check(&file.expected_print(bytes)).map_err(|what| format!("printed: {what}"))?;
    let (output, more) = journalled_from(&mut store, MORE);
    let expected = Told::new(&output, &file.expected_at_start(bytes));
    file.serve(desk, MORE).check(&expected)?;
    check_bytes(&file, &[&bytes[..length], &more].concat())?;
    file.serve(desk, b"").check(&Told::new(b"", "")).map_err(|what| format!("started again: {what}"))?;
    Ok(cut)
}

/// What the second implementation prints for a script from a store on, and the records that it adds.
fn journalled_from(store: &mut [u32], script: &[u8]) -> (Vec<u8>, Vec<u8>) {
    let (mut output, mut records, mut list) = (Vec::new(), Vec::new(), [0; 64]);
    for line in script.split_inclusive(|&byte| byte == b'\n') {
        let reply = match reference::script::parse(line.strip_suffix(b"\n").unwrap_or(line)) {
            None => "unread".to_string(),
            Some(call) => {
                let outcome = call.serve(store, &mut list);
                if let Some(record) = journal::Record::of(&call, outcome, &list) {
                    journal::write_into(&record, &mut records).expect("the record of a call");
                }
                comparison::common::shown(outcome, &list)
            }
        };
        output.extend((reply + "\n").into_bytes());
    }
    (output, records)
}

#[test]
fn journal_cut_at_any_place_goes_on_with_its_whole_records() {
    const SCRIPT: &[u8] =
        b"S 1 2 3\nB 0\nB 1\nI 0 0 1 4294967295 0\nI 1 0 1 300 0\nI 1 0 3 0 0\nG 1 2 7 16777216 0 0 1 9 0\n\
        B 2\nG 2 2 10 0 0 0 2 0 0\nF 1\nG 0\nF 0\nC 2\n";
    let (desk, (_, journal)) = (Program::lending_desk(), journalled(SCRIPT));
    let tally = tallied(journal.len() + 1, |tally, length| {
        let cut = serve_cut(&desk, &journal[..length]).map_err(|what| format!("cut at byte {length}: {what}"))?;
        tally.add(if cut { "cut away" } else { "whole" }, 1);
        Ok(())
    });
    let whole = starts(&journal).len() as u64;
    assert_eq!((tally.of("whole"), tally.of("cut away")), (whole, journal.len() as u64 + 1 - whole));
}

#[test]
fn journals_of_random_scripts_cut_at_random_go_on_with_their_whole_records() {
    let desk = Program::lending_desk();
    let tally = tallied(CUT, |tally, place| {
        let mut draws = Draws::new(place as u64);
        let (_, journal) = journalled(&draw_script(&mut draws));
        for _ in 0..PLACES {
            let length = draws.below(journal.len() + 1);
            let served = serve_cut(&desk, &journal[..length]);
            let cut = served.map_err(|what| format!("cut at {length}: {what}: {}", saved("journal", &journal)))?;
            tally.add(if cut { "cut away" } else { "whole" }, 1);
        }
        Ok(())
    });
    assert_often("journals of random scripts, cut", &tally, &["cut away"]);
}

// ---- Damaged

/// What is to be wrong with a journal.
#[derive(Clone, Copy, Debug, PartialEq, Eq)]
enum Wrong {
    Damaged(Cause),
    Differs,
}

impl Wrong {
    fn of(unserved: Unserved) -> Wrong {
        match unserved {
            Unserved::Damaged(Damage { cause, .. }) => Wrong::Damaged(cause),
            Unserved::Differs { .. } => Wrong::Differs,
        }
    }

    fn row(self) -> String {
        match self {
            Wrong::Damaged(cause) => cause_row(cause),
            Wrong::Differs => "differs".to_string(),
        }
    }
}

/// The causes of damage that aren't a cut.
fn damages() -> impl Iterator<Item = Cause> + Clone {
    CAUSES.into_iter().filter(|&cause| cause != Cause::Cut)
}

/// A journal with one byte changed so that this is wrong, if such a byte is found.
fn draw_wrong(draws: &mut Draws, bytes: &[u8], wanted: Wrong) -> Option<Vec<u8>> {
    let starts = starts(bytes);
    let mut changed = bytes.to_vec();
    for _ in 0..TRIES {
        let at = draws.below(bytes.len());
        let byte = match draws.below(5) {
            0 => bytes[at] ^ 1 << draws.below(8),
            1 => draws.pick(&[0, 0x0F, 0x10, 0x7F, 0x80, 0xFF]),
            2 => draws.pick(&[16, 17, 63, 64, 65]),
            _ => draws.word() as u8,
        };
        if byte == bytes[at] {
            continue;
        }
        changed[at] = byte;
        let start = starts[starts.iter().filter(|&&start| start <= at).count() - 1];
        let wrong = next(&changed, start).err().map_or(Wrong::Differs, |damage| Wrong::Damaged(damage.cause));
        if wrong == wanted && journal::resume(&changed).err().map(Wrong::of) == Some(wanted) {
            return Some(changed);
        }
        changed[at] = bytes[at];
    }
    None
}

/// Starts on bytes that can't be served again: nothing is printed, what is wrong is said, and they stay as they are.
fn refuse(desk: &Program, bytes: &[u8]) -> Result<(), String> {
    let file = JournalFile::of(bytes);
    file.serve(desk, MORE).check(&Told::new(b"", &file.expected_at_start(bytes)))?;
    check_bytes(&file, bytes)?;
    file.print(desk).check(&file.expected_print(bytes)).map_err(|what| format!("printed: {what}"))?;
    check_bytes(&file, bytes)
}

#[test]
fn damaged_journals_are_left_as_they_are() {
    let desk = Program::lending_desk();
    let all: Vec<Wrong> = damages().map(Wrong::Damaged).chain([Wrong::Differs]).collect();
    let tally = tallied(DAMAGED, |tally, place| {
        let mut draws = Draws::new(place as u64);
        let (_, journal) = journalled(&draw_script(&mut draws));
        for way in 0..WAYS {
            let wanted = all[(place + way) % all.len()];
            let drawn = if journal.is_empty() { None } else { draw_wrong(&mut draws, &journal, wanted) };
            if let Some(bytes) = drawn {
                refuse(&desk, &bytes).map_err(|what| format!("{what}: {}", saved("journal", &bytes)))?;
                tally.add(&wanted.row(), 1);
            }
        }
        Ok(())
    });
    let rows: Vec<String> = all.iter().map(|wrong| wrong.row()).collect();
    let rows: Vec<&str> = rows.iter().map(String::as_str).collect();
    assert_often("journals of random scripts, one byte changed", &tally, &rows);
}

/// The bytes of a file that was never a journal.
#[test]
fn other_files_are_left_as_they_are() {
    let desk = Program::lending_desk();
    for bytes in [&b"S 1 2 3\nB 0\nB 1\nB 2\n"[..], b"\0", b"\n", b"X", b"b\x05", b"\xFF\xFE", b"B\x05\n", &[0; 70_000]]
    {
        refuse(&desk, bytes).expect("no journal");
    }
}

// ---- Long

/// What the program reads at once.
const BLOCK: usize = 1 << 16;

/// Random scripts one after the other.
fn draw_long(draws: &mut Draws, bytes: usize) -> Vec<u8> {
    let mut input = Vec::new();
    while input.len() < bytes {
        input.extend(draw_script(draws));
        if input.last().map_or(false, |&last| last != b'\n') {
            input.push(b'\n');
        }
    }
    input
}

#[test]
fn long_scripts_leave_the_journal_of_the_second_implementation() {
    let desk = Program::lending_desk();
    let mut draws = Draws::new(1);
    for _ in 0..3 {
        let input = draw_long(&mut draws, 8 * BLOCK);
        assert!(journalled(&input).1.len() > 2 * BLOCK);
        serve(&desk, &mut draws, &input, &mut Tally::default()).expect("a long script");
    }
}

/// Their records are longer than the lines, and fill whatever the program writes at once in every way.
#[test]
fn records_longer_than_their_lines_are_kept_whole() {
    let batch = "G 1".to_string() + &" 0 3 0 0".repeat(16) + "\n";
    let stretch = format!("B 1\n{}C 1\n", batch.repeat(15));
    let input = "S 1\nB 1\nI 1 0 1 4294967295 0\nF 1\n".to_string() + &stretch.repeat(100);
    assert!(journalled(input.as_bytes()).1.len() > input.len());
    serve(&Program::lending_desk(), &mut Draws::new(2), input.as_bytes(), &mut Tally::default())
        .expect("a long script");
}

/// Whose records end with a block, or a byte sooner or later.
#[test]
fn journal_as_long_as_what_is_read_at_once_goes_on() {
    let desk = Program::lending_desk();
    let input = "S 1\nB 0\nI 0 0 3 0 0\nC 0\n".to_string() + &"B 0\nC 0\n".repeat(2 * BLOCK / 6);
    let (_, journal) = journalled(input.as_bytes());
    assert!(starts(&journal).contains(&BLOCK));
    for length in BLOCK - 4..=BLOCK + 4 {
        serve_cut(&desk, &journal[..length]).unwrap_or_else(|what| panic!("cut at byte {length}: {what}"));
    }
    let mut damaged = journal;
    for at in BLOCK - 1..=BLOCK + 1 {
        let byte = std::mem::replace(&mut damaged[at], 0xFF);
        refuse(&desk, &damaged).unwrap_or_else(|what| panic!("damaged at byte {at}: {what}"));
        damaged[at] = byte;
    }
}

/// A record lies across the end of what is read at once.
#[test]
fn long_journals_cut_or_damaged_anywhere() {
    let desk = Program::lending_desk();
    let mut draws = Draws::new(3);
    let (_, journal) = journalled(&draw_long(&mut draws, 6 * BLOCK));
    assert!(journal.len() > 2 * BLOCK);
    let places: Vec<usize> = (0..12).map(|_| draws.below(journal.len())).collect();
    tallied(places.len(), |_, place| {
        let (at, mut draws) = (places[place], Draws::new(place as u64));
        serve_cut(&desk, &journal[..at]).map_err(|what| format!("cut at byte {at}: {what}"))?;
        let cause = damages().cycle().nth(place).expect("they begin again");
        match draw_wrong(&mut draws, &journal, Wrong::Damaged(cause)) {
            Some(bytes) => refuse(&desk, &bytes).map_err(|what| format!("{what}: {}", saved("journal", &bytes))),
            None => Err("no damage was found".to_string()),
        }
    });
}

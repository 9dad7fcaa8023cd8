//! Times of the script programs, run as processes.

use std::env;
use std::fs::{self, File};
use std::path::{Path, PathBuf};
use std::process::{self, Command};
use std::time::Instant;

use crate::scripts::{Profile, LINES};
use crate::timing::median;

const ROUNDS: usize = 11;

/// Nanoseconds of a script's line, proved and second: medians of the rounds, in which the two go first in turn. Both
/// must print the same.
pub fn times(profile: &Profile) -> [f64; 2] {
    let files = Files::new(profile);
    let proved = || files.run(&mut Command::new(proved()));
    let second = || files.run(&mut Command::new(built("../reference/target/release/reference_desk")));
    alternating(profile, [&proved, &second])
}

/// Nanoseconds of a script's line by the proved program, without a journal and with one, which is made anew each time:
/// on disk and, where there is a folder for that, in memory. Both must print the same.
pub fn journal_times(profile: &Profile) -> Vec<(&'static str, [f64; 2])> {
    let places = [("on disk", env::temp_dir()), ("in memory", PathBuf::from("/dev/shm"))];
    let places = places.into_iter().filter(|(_, folder)| folder.is_dir());
    places.map(|(place, folder)| (place, journal_times_in(profile, &folder))).collect()
}

fn journal_times_in(profile: &Profile, folder: &Path) -> [f64; 2] {
    let files = Files::new(profile);
    let journal = Temporary::new(folder, "journal");
    let without = || files.run(&mut Command::new(proved()));
    let with = || {
        let _ = fs::remove_file(&journal.0); // in the first round there is none
        files.run(Command::new(proved()).arg("--journal").arg(&journal.0))
    };
    alternating(profile, [&without, &with])
}

/// Medians of the rounds, for a line. A run hands back its nanoseconds and what was printed.
fn alternating(profile: &Profile, runs: [&dyn Fn() -> (f64, Vec<u8>); 2]) -> [f64; 2] {
    let mut rounds = [Vec::new(), Vec::new()];
    for round in 0..ROUNDS {
        let mut printed = [Vec::new(), Vec::new()];
        for side in [round % 2, (round + 1) % 2] {
            let (time, bytes) = runs[side]();
            rounds[side].push(time);
            printed[side] = bytes;
        }
        assert!(printed[0] == printed[1], "{}: the programs print different bytes", profile.name);
    }
    rounds.map(|times| median(times) / LINES as f64)
}

fn built(program: &str) -> PathBuf {
    Path::new(env!("CARGO_MANIFEST_DIR")).join(program)
}

fn proved() -> PathBuf {
    built("../target/bin/lending_desk")
}

/// A file that goes with the value.
struct Temporary(PathBuf);

impl Temporary {
    fn new(folder: &Path, name: &str) -> Temporary {
        Temporary(folder.join(format!("lending_desk-{}-{name}", process::id())))
    }
}

impl Drop for Temporary {
    fn drop(&mut self) {
        // Nothing is left to be done where a temporary file stays.
        let _ = fs::remove_file(&self.0);
    }
}

struct Files {
    script: Temporary,
    printed: Temporary,
}

impl Files {
    fn new(profile: &Profile) -> Files {
        let file = |name| Temporary::new(&env::temp_dir(), name);
        let files = Files { script: file("script"), printed: file("printed") };
        fs::write(&files.script.0, profile.drawn()).expect("a temporary file");
        files
    }

    /// Nanoseconds of a run from the script to what is printed, and that.
    fn run(&self, program: &mut Command) -> (f64, Vec<u8>) {
        let input = File::open(&self.script.0).expect("the script");
        let output = File::create(&self.printed.0).expect("a temporary file");
        let start = Instant::now();
        let status = program.env_clear().stdin(input).stdout(output).status();
        let time = start.elapsed();
        assert!(status.map_or(false, |status| status.success()), "{program:?} fails");
        (time.as_nanos() as f64, fs::read(&self.printed.0).expect("what was printed"))
    }
}

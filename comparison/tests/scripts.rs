//! Random scripts, each run once by both programs: both must print the same bytes, and what the desk under test prints
//! must be a serial history by itself.

use std::io::{self, Write};
use std::sync::{Arc, Mutex};

use comparison::difference;
use comparison::drawing::draw;
use comparison::profiles::{self, Profile};
use comparison::program::{saved, Program, PIPE};
use comparison::script::Script;
use comparison::serial::{self, Served};
use comparison::tally::{Tally, ROWS};
use comparison::threads::divided;

const FEWEST_SCRIPTS: usize = 20_000;
const OFTEN_ENOUGH: u64 = 100;
const FEWEST_SERVED: Served = Served { histories: 20_000, times: 50_000, operations: 500_000, sets: 200_000 };

/// A script that shows a fault.
#[derive(Clone)]
struct Fault {
    /// The script's place among all.
    place: usize,
    text: String,
    /// The script as far as it is needed.
    beginning: Vec<u8>,
}

/// What one check found.
#[derive(Clone, Default)]
struct Findings {
    faults: usize,
    first: Option<Fault>,
}

impl Findings {
    fn add(&mut self, fault: Fault) {
        self.join(Findings { faults: 1, first: Some(fault) });
    }

    fn join(&mut self, other: Findings) {
        self.faults += other.faults;
        let both = self.first.take().into_iter().chain(other.first);
        self.first = both.min_by_key(|fault| fault.place);
    }

    fn assert_none(&self) {
        if let Some(Fault { place, text, beginning }) = &self.first {
            let path = saved("script", beginning);
            panic!("{} scripts at fault; the first is number {place}, {text}; up to there: {path}", self.faults);
        }
    }
}

/// What came of running every script.
#[derive(Clone, Default)]
struct Pass {
    scripts: usize,
    tally: Tally,
    served: Served,
    differences: Findings,
    broken: Findings,
}

impl Pass {
    fn join(&mut self, other: Pass) {
        self.scripts += other.scripts;
        self.tally.join(&other.tally);
        self.served.join(other.served);
        self.differences.join(other.differences);
        self.broken.join(other.broken);
    }

    fn run(&mut self, place: usize, profile: &Profile, seed: u64, [desk, reference]: &[Program; 2]) {
        let script = draw(profile, seed);
        let input = script.bytes();
        assert!(input.len() <= PIPE, "profile {:?}, seed {seed}: {} bytes", profile.name, input.len());
        let fault = |line: usize, what: &str| Fault {
            place,
            text: format!("profile {:?}, seed {seed}: line {}, {}: {what}", profile.name, line + 1, script.shown(line)),
            beginning: script.beginning(line + 1),
        };
        self.scripts += 1;
        match [desk, reference].map(|program| program.run(&input)) {
            [Ok(output), Ok(expected)] => {
                if let Some(difference) = difference::first(&output, &expected) {
                    self.differences.add(fault(difference.line, &difference.to_string()));
                }
                self.serve(&script, &output, seed, fault);
            }
            [Err(what), _] | [_, Err(what)] => self.differences.add(fault(script.lines.len(), &what)),
        }
    }

    fn serve(&mut self, script: &Script, output: &[u8], seed: u64, fault: impl Fn(usize, &str) -> Fault) {
        self.tally.count(script, output);
        match serial::check(script, output, seed) {
            Ok(served) => self.served.join(served),
            Err(broken) => self.broken.add(fault(broken.line, &broken.what)),
        }
    }
}

/// Runs every script, divided among threads.
fn run_all() -> Pass {
    let programs = Program::both();
    let scripts = profiles::scripts();
    let run = |pass: &mut Pass, place: usize| {
        let (profile, seed) = scripts[place];
        pass.run(place, profile, seed, &programs);
    };
    let mut total = Pass::default();
    divided(scripts.len(), run).into_iter().for_each(|pass| total.join(pass));
    total
}

/// What came of running every script: they are run once, by the test that comes first.
fn pass() -> Arc<Pass> {
    static PASS: Mutex<Option<Arc<Pass>>> = Mutex::new(None);
    let mut pass = PASS.lock().expect("the scripts were not all run; see above");
    let run = || {
        let pass = run_all();
        print_tables(&pass).expect("standard error takes the tables");
        Arc::new(pass)
    };
    Arc::clone(pass.get_or_insert_with(run))
}

/// Prints past the test harness, which would keep the tables to itself.
fn print_tables(pass: &Pass) -> io::Result<()> {
    let Served { histories, times, operations, sets } = pass.served;
    let served = [
        ("histories begun by a set up", histories),
        ("times a history was served", times),
        ("operations answered", operations),
        ("sets of live ones dropped", sets),
    ];
    let mut stderr = io::stderr().lock();
    writeln!(stderr, "\nrandom scripts, run by both programs: {}", pass.scripts)?;
    let rows = ROWS.iter().map(|&row| (row, pass.tally.of(row))).chain(served);
    rows.into_iter().try_for_each(|(row, count)| writeln!(stderr, "{row:<42}{count:>10}"))
}

#[test]
fn random_scripts_print_the_same() {
    let pass = pass();
    pass.differences.assert_none();
    assert!(pass.scripts >= FEWEST_SCRIPTS, "{} scripts", pass.scripts);
}

#[test]
fn random_scripts_serve_as_their_serial_histories() {
    let pass = pass();
    pass.broken.assert_none();
    let Served { histories, times, operations, sets } = pass.served;
    assert!(histories >= FEWEST_SERVED.histories, "{histories} histories");
    assert!(times >= FEWEST_SERVED.times, "served {times} times");
    assert!(operations >= FEWEST_SERVED.operations, "{operations} operations");
    assert!(sets >= FEWEST_SERVED.sets, "{sets} sets dropped");
}

#[test]
fn every_reply_occurs_often() {
    let pass = pass();
    for row in ROWS {
        assert!(pass.tally.of(row) >= OFTEN_ENOUGH, "{row} occurred {} times", pass.tally.of(row));
    }
}

//! Records of a journal, written and read by both implementations: those of a script, some of them in turn.

use std::hint::black_box;
use std::time::Instant;

use lending_desk::raw;
use reference::journal::{self, Record};
use reference::script;

use crate::scripts::PROFILES;
use crate::timing::median;

const ROUNDS: usize = 151;
/// How many records there are, and how often each is written or read in a round.
const RECORDS: usize = 256;
const TIMES: usize = 20;

/// What is done with all records, by the proved library and by the second implementation.
pub struct Row {
    pub name: &'static str,
    pub sides: [fn(&Sample); 2],
}

pub const ROWS: [Row; 2] = [
    Row { name: "record, written", sides: [write_proved, write_second] },
    Row { name: "record, read", sides: [read_proved, read_second] },
];

/// The rows that have `part` in their names.
pub fn named(part: &str) -> impl Iterator<Item = &'static Row> + '_ {
    ROWS.iter().filter(move |row| row.name.contains(part))
}

/// Records as either implementation has them, and their bytes.
pub struct Sample {
    proved: Vec<raw::Record>,
    second: Vec<Record>,
    bytes: Vec<u8>,
}

impl Sample {
    /// The records of the script with short logs, one in so many; both implementations must read and write the same.
    pub fn drawn() -> Sample {
        let (_, journal) = script::journalled(&PROFILES[0].drawn());
        let all = journal::read(&journal).expect("a journal");
        let second: Vec<Record> = all.iter().step_by(all.len() / RECORDS).take(RECORDS).cloned().collect();
        let mut sample = Sample { proved: Vec::new(), second, bytes: Vec::new() };
        for record in &sample.second {
            let bytes = journal::write(record).expect("a record");
            let reading = raw::next_record(&bytes, 0);
            assert_eq!((reading.found, reading.place), (1, bytes.len()), "{record:?}");
            let written = raw::write_record(reading.record);
            assert_eq!(written.bytes[..written.count], bytes, "{record:?}");
            sample.proved.push(reading.record);
            sample.bytes.extend(bytes);
        }
        assert_eq!(raw::count_records(&sample.bytes).records, RECORDS);
        sample
    }
}

fn write_proved(sample: &Sample) {
    for record in &sample.proved {
        black_box(raw::write_record(*black_box(record)));
    }
}

fn write_second(sample: &Sample) {
    for record in &sample.second {
        black_box(journal::write(black_box(record)).is_ok());
    }
}

fn read_proved(sample: &Sample) {
    let mut at = 0;
    loop {
        let reading = raw::next_record(black_box(&sample.bytes), at);
        if black_box(&reading).found == 0 {
            return;
        }
        at = reading.place;
    }
}

fn read_second(sample: &Sample) {
    let mut at = 0;
    while let Ok(Some((record, behind))) = journal::next(black_box(&sample.bytes), at) {
        black_box(record);
        at = behind;
    }
}

/// Nanoseconds of a record, proved and second: medians of the rounds, in which the two go first in turn.
pub fn times(row: &Row, sample: &Sample) -> [f64; 2] {
    let mut rounds = [Vec::new(), Vec::new()];
    for round in 0..ROUNDS {
        for side in [round % 2, (round + 1) % 2] {
            let start = Instant::now();
            (0..TIMES).for_each(|_| row.sides[side](sample));
            rounds[side].push(start.elapsed().as_nanos() as f64);
        }
    }
    rounds.map(|times| median(times) / (RECORDS * TIMES) as f64)
}

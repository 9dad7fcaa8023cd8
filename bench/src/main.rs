//! The proved library and the second implementation side by side. `bench/run` builds and runs it.

use std::{env, process};

mod books;
mod calls;
#[path = "../../reference/tests/common/draws.rs"]
mod draws;
mod programs;
mod records;
mod rows;
mod scripts;
mod stack;
mod timing;

use rows::{Prepared, Row};
use timing::Times;

fn main() {
    let arguments: Vec<String> = env::args().skip(1).collect();
    let arguments: Vec<&str> = arguments.iter().map(String::as_str).collect();
    match arguments[..] {
        ["--times", part] => times(part),
        ["--stack", part] => stack(part),
        ["--names", part] => rows::named(part).for_each(|row| println!("{}", row.name)),
        ["--calls", side, name, number] => make_calls(side, name, number.parse().expect("a number of calls")),
        _ => panic!("bench/run runs this"),
    }
}

/// The table of times, in nanoseconds of a call or of a script's line, and what the proved one is in passes over a book.
fn times(part: &str) {
    let rows: Vec<_> = rows::named(part).collect();
    let prepared: Vec<_> = rows.iter().map(|row| row.prepared()).collect();
    let Times { calls, pass } = timing::times([calls::proved, calls::second], &prepared);
    let mut ratios = Vec::new();
    let mut print = |name: &str, [proved, second]: [f64; 2]| {
        let (ratio, passes) = (proved / second, proved / pass);
        println!("{name:36}{proved:10.0}{second:10.0}{ratio:8.2}{passes:8.1}");
        ratios.push(ratio);
    };
    println!("{:36}{:>10}{:>10}{:>8}{:>8}", "nanoseconds", "proved", "second", "ratio", "passes");
    for (row, times) in rows.iter().zip(calls) {
        print(&row.name, times);
    }
    if records::named(part).count() > 0 {
        let sample = records::Sample::drawn();
        records::named(part).for_each(|row| print(row.name, records::times(row, &sample)));
    }
    let profiles = || scripts::PROFILES.iter().filter(|profile| profile.name.contains(part));
    for profile in profiles() {
        print(profile.name, programs::times(profile));
    }
    if ratios.is_empty() {
        eprintln!("bench: no row has '{part}' in its name");
        process::exit(2);
    }
    let worst = ratios.iter().copied().fold(0.0, f64::max);
    let mean = (ratios.iter().map(|ratio| ratio.ln()).sum::<f64>() / ratios.len() as f64).exp();
    println!("worst ratio {worst:.2}, mean ratio {mean:.2}; one pass {pass:.0}");
    batches_beside_singles(rows.iter().zip(prepared).filter(|(row, _)| row.is_for_singles()));
    profiles().for_each(journal_added);
}

/// What the journal adds to a script that the proved program serves. On disk it is waited for at each block of input.
fn journal_added(profile: &scripts::Profile) {
    for (place, [without, with]) in programs::journal_times(profile) {
        let (name, ratio) = (profile.name, with / without);
        println!("{name}: {without:.0}, with a journal {place}, fdatasync among it, {with:.0}, ratio {ratio:.2}");
    }
}

/// What a batch costs beside its operations made singly on the same book, both by the proved library.
fn batches_beside_singles<'a>(rows: impl Iterator<Item = (&'a Row, Prepared)>) {
    let (rows, prepared): (Vec<_>, Vec<_>) = rows.unzip();
    let Times { calls, .. } = timing::times([calls::proved, calls::singly], &prepared);
    for (row, [batch, singles]) in rows.iter().zip(calls) {
        let ratio = batch / singles;
        println!("{}: {batch:.0}, its operations singly {singles:.0}, ratio {ratio:.2}", row.name);
    }
}

/// The table of stack used, in bytes. The header says how much a call takes at the most.
fn stack(part: &str) {
    println!("{:36}{:>10}{:>10}", "bytes of stack", "proved", "second");
    for row in rows::named(part) {
        let [proved, second] = stack::used(&row.prepared());
        println!("{:36}{proved:10}{second:10}", row.name);
        assert!(proved <= lending_desk::FRAME, "{}: more stack than the header says", row.name);
    }
    if records::named(part).count() > 0 {
        let sample = records::Sample::drawn();
        for row in records::named(part) {
            let [proved, second] = row.sides.map(|side| stack::used_by(|| side(&sample)));
            println!("{:36}{proved:10}{second:10}", row.name);
            assert!(proved <= lending_desk::FRAME, "{}: more stack than the header says", row.name);
        }
    }
}

/// Makes calls of one implementation, or of none, for a profiler to count.
fn make_calls(side: &str, name: &str, number: usize) {
    let serve: calls::Serve = match side {
        "proved" => calls::proved,
        "second" => calls::second,
        _ => calls::nothing,
    };
    let row = rows::named(name).find(|row| row.name == name).expect("a row's name");
    timing::timed(serve, &row.prepared(), number);
}

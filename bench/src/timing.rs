//! Times of calls, of both implementations in turn.

use std::hint::black_box;
use std::time::Instant;

use crate::books::WORDS;
use crate::calls::{self, Serve};
use crate::rows::Prepared;

/// How many rounds there are, and how many nanoseconds the calls of a row take in one.
const ROUNDS: usize = 151;
const ROUND: f64 = 1e6;

/// How many passes over a book are timed together, since one takes only a few of the clock's steps.
const PASSES: usize = 64;

/// Nanoseconds: of a call of each row, by either side, and of one pass over a book.
pub struct Times {
    pub calls: Vec<[f64; 2]>,
    pub pass: f64,
}

/// Medians of the rounds, in which the two sides go first in turn. A round times every row, so that a while in which
/// the machine is slow is no row's alone. The clock's own time is taken off.
pub fn times(sides: [Serve; 2], rows: &[Prepared]) -> Times {
    let calls: Vec<usize> =
        rows.iter().map(|row| (ROUND / median(timed(sides[0], row, 100))).ceil() as usize).collect();
    let mut rounds = vec![[Vec::new(), Vec::new()]; rows.len()];
    let mut clock = vec![Vec::new(); rows.len()];
    let (book, mut passes) = (vec![0; WORDS], Vec::new());
    for round in 0..ROUNDS {
        passes.push(pass(&book));
        for (number, row) in rows.iter().enumerate() {
            clock[number].push(median(timed(calls::nothing, row, calls[number])));
            for side in [round % 2, (round + 1) % 2] {
                rounds[number][side].push(median(timed(sides[side], row, calls[number])));
            }
        }
    }
    let clock = clock.into_iter().map(median);
    let calls = rounds.into_iter().zip(clock).map(|(times, clock)| times.map(|times| median(times) - clock)).collect();
    Times { calls, pass: median(passes) }
}

/// Nanoseconds of a plain sum of a book's words: what any check of the whole book takes at the least.
fn pass(book: &[u32]) -> f64 {
    let start = Instant::now();
    for _ in 0..PASSES {
        black_box(black_box(book).iter().fold(0u32, |sum, word| sum.wrapping_add(*word)));
    }
    start.elapsed().as_nanos() as f64 / PASSES as f64
}

/// Nanoseconds of each of so many calls, on a fresh copy of the book that is made before the clock is read.
pub fn timed(serve: Serve, row: &Prepared, calls: usize) -> Vec<f64> {
    let (mut book, mut list) = (row.book.clone(), [0; 64]);
    let mut times = Vec::with_capacity(calls);
    for _ in 0..calls {
        book.copy_from_slice(&row.book);
        let start = Instant::now();
        let said = serve(&row.call, &mut book, &mut list);
        times.push(start.elapsed().as_nanos() as f64);
        assert_eq!(said.refusal, 0);
    }
    times
}

pub fn median(mut numbers: Vec<f64>) -> f64 {
    numbers.sort_by(f64::total_cmp);
    numbers[numbers.len() / 2]
}

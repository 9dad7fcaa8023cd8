//! Long scripts, the same at every run. The second implementation follows as one is drawn, so that handouts can be
//! aimed at.

use reference::script;

use crate::books::{status, KINDS, WORDS};
use crate::draws::Draws;

pub const LINES: usize = 100_000;
/// How many lines there are from one set up to the next.
const STRETCH: usize = 2_000;

/// What a script is drawn from.
pub struct Profile {
    pub name: &'static str,
    /// How many numbers of handouts are in use.
    handouts: u32,
    /// How many entries the log holds before handouts are ended and no more served.
    entries: u32,
    keys: usize,
}

pub const PROFILES: [Profile; 2] = [
    Profile { name: "script, short logs", handouts: 6, entries: 12, keys: 6 },
    Profile { name: "script, long logs", handouts: 24, entries: 240, keys: 40 },
];

impl Profile {
    pub fn drawn(&self) -> Vec<u8> {
        let mut drawing = Drawing { profile: self, draws: Draws::new(2), book: vec![0; WORDS] };
        (0..LINES).map(|number| drawing.line(number) + "\n").collect::<String>().into_bytes()
    }
}

struct Drawing<'a> {
    profile: &'a Profile,
    draws: Draws,
    book: Vec<u32>,
}

impl Drawing<'_> {
    fn line(&mut self, number: usize) -> String {
        let line = if number % STRETCH == 0 { set_up() } else { self.drawn_line() };
        if let Some(call) = script::parse(line.as_bytes()) {
            // What is refused is part of the script.
            let _ = call.serve(&mut self.book, &mut [0; 64]);
        }
        line
    }

    /// Mostly a call that can be served. Of a hundred lines one is no call, and two have a number from anywhere.
    fn drawn_line(&mut self) -> String {
        let [absent, open] = [0, 1].map(|word| self.with_status(word));
        let full = self.book[0] >= self.profile.entries;
        match self.draws.below(100) {
            0 => "I 0 0 1 7".to_string(),
            1 => format!("F {}", self.anything()),
            2..=12 if !absent.is_empty() => format!("B {}", self.draws.pick(&absent)),
            _ if open.is_empty() => format!("B {}", self.draws.pick(&absent)),
            13..=15 => self.end(&open),
            _ if full => self.end(&open),
            16..=19 => self.batch(&open),
            _ => format!("I {} {}", self.draws.pick(&open), self.operation()),
        }
    }

    fn with_status(&self, word: u32) -> Vec<u32> {
        (0..self.profile.handouts).filter(|&handout| self.book[status(handout)] == word).collect()
    }

    fn anything(&mut self) -> u32 {
        self.draws.word() >> self.draws.below(32)
    }

    fn end(&mut self, open: &[u32]) -> String {
        let letter = if self.draws.percent(80) { 'F' } else { 'C' };
        format!("{letter} {}", self.draws.pick(open))
    }

    fn batch(&mut self, open: &[u32]) -> String {
        let line = format!("G {}", self.draws.pick(open));
        (0..2 + self.draws.below(7)).fold(line, |line, _| line + " " + &self.operation())
    }

    /// An operation's four numbers.
    fn operation(&mut self) -> String {
        let object = self.draws.below(KINDS.len());
        let (first, weights): (usize, &[usize]) = match KINDS[object] {
            1 => (1, &[60, 25, 15]),
            2 => (4, &[35, 25, 40]),
            _ => (7, &[20, 15, 35, 5, 25]),
        };
        let operation = first + self.draws.weighted(weights);
        let key = if self.draws.percent(1) { self.anything() } else { self.draws.below(self.profile.keys) as u32 };
        format!("{object} {operation} {key} {}", self.draws.word())
    }
}

fn set_up() -> String {
    KINDS.iter().fold("S".to_string(), |line, kind| format!("{line} {kind}"))
}

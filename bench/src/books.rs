//! Books to make calls on, each built by calls alone and so sound.
//!
//! Sixteen objects of the three kinds with 32 committed rows each, and eight handouts whose operations overlap. 1 to 4
//! are finished and commit as soon as 0 ends, on which they depend; 0 and 5 to 7 are open, and 7 depends on 0. Where a
//! circle is asked for, 0 depends on 7 too, and 7 is finished. A crowded book has 64 handouts instead, all open.

use reference::{calls, rules, Reply};

use crate::draws::Draws;

pub const WORDS: usize = 3937;
pub const KINDS: [u8; 16] = [1, 2, 3, 1, 2, 3, 1, 2, 3, 1, 2, 3, 1, 2, 3, 1];
/// The object that entries are on where they are on one.
pub const TABLE: u32 = 2;
const HANDOUTS: u32 = 8;
const CROWD: u32 = 64;
/// The handout that operations are asked for.
pub const ASKING: u32 = 5;
const ROWS: usize = 32;
/// Rows that an object has space for.
const SPACE: usize = 64;

pub const PUSH: u32 = 1;
const SET_INSERT: u32 = 4;
pub const INSERT: u32 = 7;
pub const LOOKUP: u32 = 9;
pub const MODIFY: u32 = 11;

/// Keys of the table that no drawn operation names. The last isn't in it.
const CHAINED: u32 = 100;
const SHARED: u32 = 101;
pub const MODIFIED: u32 = 102;
pub const NEW: u32 = 103;

/// Where a handout's status stands.
pub fn status(handout: u32) -> usize {
    1 + handout as usize
}

/// The operation that adds a row to an object of a kind.
pub fn adding(kind: u8) -> u32 {
    [PUSH, SET_INSERT, INSERT][usize::from(kind) - 1]
}

/// What the log of a book holds.
#[derive(Clone, Copy, Debug, Default)]
pub struct Log {
    pub entries: usize,
    /// Whether they are spread over all objects.
    pub spread: bool,
    pub circle: bool,
    /// Whether every handout but the one that asks has an entry that makes it wait.
    pub crowded: bool,
    /// Pushes or modifies alone.
    pub rewriting: Option<Rewriting>,
}

/// Pushes over the stacks, or modifies of keys that the table has.
#[derive(Clone, Copy, Debug)]
pub struct Rewriting {
    pub operation: u32,
    /// Whether all have one item, or one value.
    pub equal: bool,
}

impl Log {
    pub fn built(self) -> Vec<u32> {
        let mut desk = Desk::set_up();
        desk.commit_rows();
        let handouts = if self.crowded { CROWD } else { HANDOUTS };
        (0..handouts).for_each(|handout| desk.begin(handout));
        if let Some(rewriting) = self.rewriting {
            desk.rewrite(self.entries, rewriting);
        } else if self.crowded {
            desk.crowd(self.entries);
        } else if self.entries > 0 {
            desk.fill(self);
        }
        desk.book
    }
}

struct Desk {
    book: Vec<u32>,
    draws: Draws,
}

impl Desk {
    fn set_up() -> Desk {
        let mut book = vec![0; WORDS];
        calls::set_up(&mut book, &KINDS).expect("kinds up to 3");
        Desk { book, draws: Draws::new(1) }
    }

    fn begin(&mut self, handout: u32) {
        calls::begin(&mut self.book, handout).expect("an absent handout");
    }

    fn finish(&mut self, handout: u32) -> Reply {
        calls::finish(&mut self.book, handout, &mut [0; 64]).expect("an open handout")
    }

    /// Makes an operation, and says whether it was answered.
    fn operate(&mut self, handout: u32, object: u32, operation: u32, key: u32) -> bool {
        let value = self.draws.word();
        self.operate_with(handout, object, operation, key, value)
    }

    fn operate_with(&mut self, handout: u32, object: u32, operation: u32, key: u32, value: u32) -> bool {
        let outcome = calls::operate(&mut self.book, handout, object, operation, key, value);
        matches!(outcome, Ok(Reply::Answer { .. }))
    }

    /// Gives every object even keys or items, and those that no drawn operation names.
    fn commit_rows(&mut self) {
        let named = [CHAINED, SHARED, MODIFIED];
        for (object, &kind) in (0..).zip(&KINDS) {
            let operation = adding(kind);
            self.begin(0);
            for key in (0..).step_by(2).take(ROWS - named.len()).chain(named) {
                assert!(self.operate(0, object, operation, key));
            }
            assert_eq!(self.finish(0), Reply::Committed { count: 1 });
        }
    }

    fn fill(&mut self, log: Log) {
        assert!(self.operate(0, TABLE, LOOKUP, MODIFIED));
        (0..=4).for_each(|handout| assert!(self.operate(handout, TABLE, MODIFY, CHAINED)));
        while self.entries().len() < log.entries - 3 {
            self.draw_entry(log);
        }
        assert!(self.operate(7, TABLE, MODIFY, MODIFIED));
        assert!(self.operate(7, TABLE, LOOKUP, SHARED));
        assert!(self.operate(if log.circle { 0 } else { 7 }, TABLE, MODIFY, SHARED));
        for handout in [4, 2, 3, 1] {
            assert_eq!(self.finish(handout), Reply::Finished);
        }
        if log.circle {
            assert_eq!(self.finish(7), Reply::Finished);
        }
        assert_eq!(self.entries().len(), log.entries);
    }

    /// Has all but the one that asks modify the same key, in turn.
    fn crowd(&mut self, entries: usize) {
        let others = (0..CROWD).filter(|&handout| handout != ASKING);
        for handout in others.cycle().take(entries) {
            assert!(self.operate(handout, TABLE, MODIFY, MODIFIED));
        }
        let asked = calls::operate(&mut self.book, ASKING, TABLE, LOOKUP, MODIFIED, 0);
        assert!(matches!(asked, Ok(Reply::Wait { count, .. }) if count == CROWD - 1));
    }

    /// Has all handouts rewrite, in turn.
    fn rewrite(&mut self, entries: usize, Rewriting { operation, equal }: Rewriting) {
        let stacks: Vec<u32> = (0..).zip(&KINDS).filter(|(_, &kind)| kind == 1).map(|(object, _)| object).collect();
        for turn in 0..entries {
            let handout = turn as u32 % HANDOUTS;
            let drawn = if equal { 7 } else { self.draws.word() };
            let key = 2 * self.draws.below(16) as u32;
            assert!(match operation {
                PUSH => self.operate_with(handout, stacks[turn % stacks.len()], PUSH, drawn, 0),
                _ => self.operate_with(handout, TABLE, MODIFY, key, drawn),
            });
        }
    }

    fn entries(&self) -> Vec<&[u32]> {
        self.book[2145..].chunks_exact(7).take(self.book[0] as usize).collect()
    }

    /// Tries an operation of a handout whose turn is now, has just been or comes soon.
    fn draw_entry(&mut self, log: Log) {
        let count = self.entries().len();
        let turn = count * HANDOUTS as usize / log.entries;
        let handout = (turn + self.draws.below(5)).saturating_sub(2).min(HANDOUTS as usize - 1);
        let object = if log.spread { count % KINDS.len() } else { TABLE as usize };
        let (first, weights): (u32, &[usize]) = match KINDS[object] {
            1 => (PUSH, &[70, 20, 10]),
            2 => (SET_INSERT, &[35, 25, 40]),
            _ => (INSERT, &[10, 10, 45, 3, 32]),
        };
        let operation = first + self.draws.weighted(weights) as u32;
        let key = self.draws.below(64) as u32;
        let before = self.book.clone();
        if self.operate(handout as u32, object as u32, operation, key) && !self.newest_fits() {
            self.book = before;
        }
    }

    /// Whether the newest entry makes its handout depend on no higher one, and leaves the table room for an insert.
    fn newest_fits(&self) -> bool {
        let log = self.entries();
        let newest = log[log.len() - 1];
        let mut higher = log.iter().filter(|entry| entry[1] == newest[1] && entry[0] > newest[0]);
        let inserts = log.iter().filter(|entry| entry[1] == TABLE && entry[2] == INSERT).count();
        let operation = |entry: &[u32]| (entry[2], entry[3], entry[4]);
        higher.all(|entry| rules::commutes(operation(newest), operation(entry))) && ROWS + inserts < SPACE
    }
}

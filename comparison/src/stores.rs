//! Stores to try calls on besides those that calls reach: with a few words damaged, of random words, of wrong lengths.

use crate::common::draws::Draws;
use crate::common::{
    entry_word, kind_word, row_count_word, row_word, status_word, LOG_LIMIT, ROW_LIMIT, UNREDUCED, WORDS,
};

/// Lengths at and around the parts of a store.
const LENGTHS: [usize; 12] = [0, 1, 2, 64, 65, 2144, 2145, WORDS - 7, WORDS - 1, WORDS + 1, WORDS + 7, 2 * WORDS];
/// Words at the limits of something.
const LIMITS: [u32; 14] = [0, 1, 2, 3, 4, 15, 16, 63, 64, 65, 256, 257, UNREDUCED, u32::MAX];

/// A store of another length: the one given, cut or lengthened.
pub fn of_wrong_length(draws: &mut Draws, store: &[u32]) -> Vec<u32> {
    let length = match draws.below(3) {
        0 => draws.below(WORDS),
        1 => WORDS + 1 + draws.below(WORDS),
        _ => draws.pick(&LENGTHS),
    };
    let more = if draws.percent(50) { 0 } else { draws.word() };
    let mut words = store.to_vec();
    words.resize(length, more);
    words
}

/// A store of random words: of any, of small ones, of a few among zeros, or with every number in its range.
pub fn random(draws: &mut Draws) -> Vec<u32> {
    match draws.below(4) {
        0 => (0..WORDS).map(|_| draws.word()).collect(),
        1 => {
            let bound = draws.pick(&[2, 3, 4, 65, 257]);
            (0..WORDS).map(|_| draws.below(bound) as u32).collect()
        }
        2 => {
            let mut words = vec![0; WORDS];
            for _ in 0..1 + draws.below(40) {
                words[draws.below(WORDS)] = draws.below(4) as u32;
            }
            words
        }
        _ => in_ranges(draws),
    }
}

/// A store whose numbers are in their ranges and whose unused words are 0.
fn in_ranges(draws: &mut Draws) -> Vec<u32> {
    let mut words = vec![0; WORDS];
    for transaction in 0..64 {
        words[status_word(transaction)] = draws.pick(&[0, 0, 1, 1, 1, 2, 3]);
    }
    for object in 0..16 {
        let kind = draws.below(4) as u32;
        let rows = if kind == 0 { 0 } else { draws.below(4) };
        words[kind_word(object)] = kind;
        words[row_count_word(object)] = rows as u32;
        for row in 0..rows {
            words[row_word(object, row)] = (row + draws.below(3)) as u32;
            words[row_word(object, row) + 1] = if kind == 3 { draws.below(3) as u32 } else { 0 };
        }
    }
    let entries = draws.below(4);
    words[0] = entries as u32;
    for entry in 0..entries {
        for (word, bound) in [64, 16, 12, 3, 2, 2, 2].into_iter().enumerate() {
            words[entry_word(entry) + word] = draws.below(bound) as u32;
        }
    }
    words
}

/// The store with so many words changed, mostly so that it stays sound or breaks a single clause.
pub fn damaged(draws: &mut Draws, store: &[u32], count: usize) -> Vec<u32> {
    let mut words = store.to_vec();
    let mut changed = 0;
    while changed < count {
        let changes = Stroke { draws, words: &words }.draw();
        let before: Changes = changes.iter().map(|&(index, _)| (index, words[index])).collect();
        write(&mut words, &changes);
        let now = words.iter().zip(store).filter(|(word, was)| word != was).count();
        if now > count {
            write(&mut words, &before);
        } else {
            changed = now;
        }
    }
    words
}

/// Words' indices, each once, and what they become.
type Changes = Vec<(usize, u32)>;

fn write(words: &mut [u32], changes: &[(usize, u32)]) {
    changes.iter().for_each(|&(index, word)| words[index] = word);
}

const OWNER: usize = 0;
const OBJECT: usize = 1;
const OPERATION: usize = 2;
const KEY: usize = 3;
const VALUE: usize = 4;
const CODE: usize = 5;

/// Draws one change of words, whatever they are; it may be none.
struct Stroke<'a> {
    draws: &'a mut Draws,
    words: &'a [u32],
}

impl Stroke<'_> {
    fn draw(&mut self) -> Changes {
        match self.draws.below(24) {
            0 => self.change_any_word(),
            1..=3 => self.change_status(),
            4 | 5 => self.swap_statuses(),
            6 => self.change_kind(),
            7 => self.change_row_count(),
            8 | 9 => self.add_row(),
            10 => self.drop_row(),
            11 | 12 => self.change_row(),
            13 => self.swap_rows(),
            14 | 15 => self.change_owner(),
            16 => self.change_object(),
            17 => self.change_operation(),
            18 | 19 => self.change_arguments(),
            20 => self.change_answer(),
            21 => self.add_entry(),
            22 => self.drop_entry(),
            _ => self.change_log_length(),
        }
    }

    fn change_any_word(&mut self) -> Changes {
        let index = self.draws.below(WORDS);
        vec![(index, self.draw_word(self.words[index]))]
    }

    /// A word near another, or at a limit, or one from elsewhere.
    fn draw_word(&mut self, word: u32) -> u32 {
        match self.draws.below(6) {
            0 => word.wrapping_add(1),
            1 => word.wrapping_sub(1),
            2 => word ^ 1 << self.draws.below(32),
            3 => self.words[self.draws.below(WORDS)],
            4 => self.draws.pick(&LIMITS),
            _ => self.draws.word(),
        }
    }

    /// A transaction, mostly a live one.
    fn draw_transaction(&mut self) -> usize {
        let live: Vec<usize> = (0..64).filter(|&transaction| self.words[status_word(transaction)] != 0).collect();
        if live.is_empty() || self.draws.percent(15) {
            self.draws.below(64)
        } else {
            self.draws.pick(&live)
        }
    }

    /// To absent, to active, to the next rank, to one that another has, or to a word near.
    fn change_status(&mut self) -> Changes {
        let index = status_word(self.draw_transaction());
        let ranks = (0..64).filter(|&transaction| self.words[status_word(transaction)] > 1).count() as u32;
        let status = match self.draws.below(8) {
            0 => 0,
            1 | 2 => 1,
            3..=5 => 2 + ranks,
            6 => 1 + ranks,
            _ => self.draw_word(self.words[index]),
        };
        vec![(index, status)]
    }

    fn swap_statuses(&mut self) -> Changes {
        let [one, other] = [(); 2].map(|()| status_word(self.draw_transaction()));
        self.swap(one, other)
    }

    fn swap(&self, one: usize, other: usize) -> Changes {
        vec![(one, self.words[other]), (other, self.words[one])]
    }

    /// An object, mostly one with a kind.
    fn draw_object(&mut self) -> usize {
        let with_kind: Vec<usize> = (0..16).filter(|&object| self.words[kind_word(object)] != 0).collect();
        if with_kind.is_empty() || self.draws.percent(15) {
            self.draws.below(16)
        } else {
            self.draws.pick(&with_kind)
        }
    }

    fn change_kind(&mut self) -> Changes {
        let object = if self.draws.percent(50) { self.draws.below(16) } else { self.draw_object() };
        let kind = if self.draws.percent(80) { self.draws.below(5) as u32 } else { self.draw_word(3) };
        vec![(kind_word(object), kind)]
    }

    fn rows(&self, object: usize) -> usize {
        (self.words[row_count_word(object)] as usize).min(ROW_LIMIT)
    }

    fn change_row_count(&mut self) -> Changes {
        let index = row_count_word(self.draw_object());
        let count = self.words[index];
        vec![(index, if self.draws.percent(50) { count.wrapping_add(1) } else { self.draw_word(count) })]
    }

    /// A row more, its key mostly above the others.
    fn add_row(&mut self) -> Changes {
        let object = self.draw_object();
        let rows = self.rows(object);
        if rows == ROW_LIMIT {
            return vec![(row_count_word(object), rows as u32 + 1)];
        }
        let last = if rows == 0 { 0 } else { self.words[row_word(object, rows - 1)] };
        let key = last.wrapping_add(self.draws.below(5) as u32);
        let value = if self.words[kind_word(object)] == 3 { self.draws.below(3) as u32 } else { 0 };
        let row = row_word(object, rows);
        vec![(row_count_word(object), rows as u32 + 1), (row, key), (row + 1, value)]
    }

    fn drop_row(&mut self) -> Changes {
        let object = self.draw_object();
        match self.rows(object).checked_sub(1) {
            Some(last) => {
                let row = row_word(object, last);
                vec![(row_count_word(object), last as u32), (row, 0), (row + 1, 0)]
            }
            None => Changes::new(),
        }
    }

    /// A row's key or item, or its other word.
    fn change_row(&mut self) -> Changes {
        let object = self.draw_object();
        let rows = self.rows(object);
        if rows == 0 {
            return Changes::new();
        }
        let row = row_word(object, self.draws.below(rows));
        if self.draws.percent(30) {
            let value = self.draws.below(3) as u32;
            return vec![(row + 1, value)];
        }
        let key = self.draw_key(self.words[row]);
        vec![(row, key)]
    }

    fn swap_rows(&mut self) -> Changes {
        let object = self.draw_object();
        match self.rows(object).checked_sub(1) {
            Some(last) if last > 0 => {
                let row = self.draws.below(last);
                self.swap(row_word(object, row), row_word(object, row + 1))
            }
            _ => Changes::new(),
        }
    }

    /// A key near another, the same with a maker's mark, or a small one.
    fn draw_key(&mut self, key: u32) -> u32 {
        match self.draws.below(6) {
            0 => key.wrapping_add(1),
            1 => key.wrapping_sub(1),
            2 => key.wrapping_add(UNREDUCED),
            3 => self.draw_word(key),
            _ => self.draws.below(4) as u32,
        }
    }

    fn entries(&self) -> usize {
        (self.words[0] as usize).min(LOG_LIMIT)
    }

    /// The words of an entry, those late in the log more often.
    fn draw_entry(&mut self) -> Option<usize> {
        let entries = self.entries();
        if entries == 0 {
            return None;
        }
        let back = self.draws.below(entries).min(self.draws.below(entries));
        Some(entry_word(entries - 1 - back))
    }

    fn change_entry(&mut self, word: usize, draw: impl Fn(&mut Self, u32) -> u32) -> Changes {
        match self.draw_entry() {
            Some(start) => vec![(start + word, draw(self, self.words[start + word]))],
            None => Changes::new(),
        }
    }

    fn change_owner(&mut self) -> Changes {
        self.change_entry(OWNER, |stroke, owner| {
            if stroke.draws.percent(90) {
                stroke.draw_transaction() as u32
            } else {
                stroke.draw_word(owner)
            }
        })
    }

    fn change_object(&mut self) -> Changes {
        self.change_entry(OBJECT, |stroke, object| {
            if stroke.draws.percent(90) {
                stroke.draw_object() as u32
            } else {
                stroke.draw_word(object)
            }
        })
    }

    fn change_operation(&mut self) -> Changes {
        self.change_entry(OPERATION, |stroke, operation| match stroke.draws.below(4) {
            0 => operation.wrapping_add(1),
            1 => operation.wrapping_sub(1),
            2 => stroke.draws.below(13) as u32,
            _ => stroke.draw_word(operation),
        })
    }

    fn change_arguments(&mut self) -> Changes {
        match self.draws.below(10) {
            0..=4 => self.change_entry(KEY, Self::draw_key),
            5..=7 => self.change_entry(VALUE, |stroke, _| stroke.draws.below(4) as u32),
            _ => self.copy_arguments(),
        }
    }

    /// An entry's key and value to those of another.
    fn copy_arguments(&mut self) -> Changes {
        match (self.draw_entry(), self.draw_entry()) {
            (Some(to), Some(from)) => [KEY, VALUE].map(|word| (to + word, self.words[from + word])).to_vec(),
            _ => Changes::new(),
        }
    }

    fn change_answer(&mut self) -> Changes {
        let word = CODE + self.draws.below(2);
        self.change_entry(word, |stroke, number| match stroke.draws.below(3) {
            0 => number ^ 1,
            1 => stroke.draws.below(4) as u32,
            _ => stroke.draw_word(number),
        })
    }

    /// An entry more: few of its words may be other than 0, so that few are changed.
    fn add_entry(&mut self) -> Changes {
        let entries = self.entries();
        if entries == LOG_LIMIT {
            return vec![(0, LOG_LIMIT as u32 + 1)];
        }
        let object = if self.draws.percent(50) { 0 } else { self.draw_object() };
        let operations: &[u32] = match self.words[kind_word(object)] {
            1 => &[1, 2, 3],
            2 => &[4, 5, 6],
            _ => &[7, 8, 9, 10, 11],
        };
        let owner = self.draw_transaction() as u32;
        let (operation, code) = (self.draws.pick(operations), self.draws.below(2) as u32);
        let start = entry_word(entries);
        vec![
            (0, entries as u32 + 1),
            (start + OWNER, owner),
            (start + OBJECT, object as u32),
            (start + OPERATION, operation),
            (start + CODE, code),
        ]
    }

    fn drop_entry(&mut self) -> Changes {
        match self.entries().checked_sub(1) {
            Some(last) => {
                let start = entry_word(last);
                [(0, last as u32)].into_iter().chain((start..start + 7).map(|index| (index, 0))).collect()
            }
            None => Changes::new(),
        }
    }

    fn change_log_length(&mut self) -> Changes {
        let length = self.words[0];
        vec![(0, if self.draws.percent(50) { length.wrapping_add(1) } else { self.draw_word(length) })]
    }
}

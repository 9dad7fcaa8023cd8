//! An object's rows where they stand among its words, changed so that unused words stay 0.

use crate::layout::{ObjectWords, ROWS, ROWS_START, ROW_COUNT, ROW_WORDS};

/// The rows of an object whose row count is at most `ROWS`.
pub struct Rows<'a> {
    count: &'a mut u32,
    words: &'a mut [u32],
}

impl Rows<'_> {
    pub fn of(object: &mut ObjectWords) -> Rows<'_> {
        let (head, words) = object.split_at_mut(ROWS_START);
        Rows { count: &mut head[ROW_COUNT], words }
    }

    pub fn count(&self) -> usize {
        *self.count as usize
    }

    /// The first word of the last row: a stack's top.
    pub fn last(&self) -> Option<u32> {
        self.count().checked_sub(1).map(|at| self.words[at * ROW_WORDS])
    }

    pub fn remove_last(&mut self) {
        if let Some(at) = self.count().checked_sub(1) {
            self.remove(at);
        }
    }

    /// The value under a key.
    pub fn get(&self, key: u32) -> Option<u32> {
        self.find(key).ok().map(|at| self.words[at * ROW_WORDS + 1])
    }

    /// Adds a row unless the key is there, and says whether it did.
    pub fn add(&mut self, key: u32, value: u32) -> bool {
        self.find(key).map_err(|at| self.insert(at, [key, value])).is_err()
    }

    /// Removes the key's row, and says whether it was there.
    pub fn delete(&mut self, key: u32) -> bool {
        self.find(key).map(|at| self.remove(at)).is_ok()
    }

    /// Replaces the value under a key, and says whether it was there.
    pub fn replace(&mut self, key: u32, value: u32) -> bool {
        self.find(key).map(|at| self.words[at * ROW_WORDS + 1] = value).is_ok()
    }

    /// Puts a row before the one at `at`. There is space for it.
    pub fn insert(&mut self, at: usize, row: [u32; ROW_WORDS]) {
        debug_assert!(self.count() < ROWS);
        let start = at * ROW_WORDS;
        self.words.copy_within(start..self.count() * ROW_WORDS, start + ROW_WORDS);
        self.words[start..start + ROW_WORDS].copy_from_slice(&row);
        *self.count += 1;
    }

    fn remove(&mut self, at: usize) {
        let end = self.count() * ROW_WORDS;
        self.words.copy_within((at + 1) * ROW_WORDS..end, at * ROW_WORDS);
        self.words[end - ROW_WORDS..end].fill(0);
        *self.count -= 1;
    }

    /// Where the key's row is, or else where it would stand: keys ascend, so as many stand before it as are less.
    fn find(&self, key: u32) -> Result<usize, usize> {
        let rows = self.words[..self.count() * ROW_WORDS].chunks_exact(ROW_WORDS);
        let at = rows.map(|row| u32::from(row[0] < key)).sum::<u32>() as usize;
        if at < self.count() && self.words[at * ROW_WORDS] == key {
            Ok(at)
        } else {
            Err(at)
        }
    }
}

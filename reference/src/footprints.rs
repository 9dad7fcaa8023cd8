//! Who has logged what where, so that a new entry meets sets of owners instead of every earlier entry.

use std::mem;

use crate::layout::ENTRIES;
use crate::log::Entry;
use crate::operations::{Operation, Request};
use crate::rules::{Row, Rule};
use crate::transactions::{only, TransactionSet};

/// The owners of logged entries, one set for each operation of the object's kind.
#[derive(Clone, Copy, Default)]
pub(crate) struct Owners {
    of: [TransactionSet; Operation::MOST_OF_A_KIND],
    /// Those who own unequal ones of one operation: pushes on any key (an item), or modifies of the same key.
    several: TransactionSet,
}

impl Owners {
    pub fn add(&mut self, operation: Operation, transaction: usize) {
        self.of[operation.index()] |= only(transaction);
    }

    fn of(&self, operation: Operation) -> TransactionSet {
        self.of[operation.index()]
    }

    /// The owners of entries of one operation that are not equal to a new one, given its owner and those of its equals.
    /// Who owns an equal entry may own another too.
    pub fn unequal(&mut self, operation: Operation, transaction: usize, equal: TransactionSet) -> TransactionSet {
        self.several |= self.of(operation) & !equal & only(transaction);
        self.of(operation) & (!equal | self.several)
    }

    /// The owners of entries that a requested operation's row of rules says no to whether or not they are equal, out of
    /// the owners of entries on the same key and on any key of the object.
    pub fn disallowed(rules: &Row, same_key: &Owners, any_key: &Owners) -> TransactionSet {
        let where_so = |so: bool| TransactionSet::from(so).wrapping_neg(); // without a branch for each rule
        let logged = same_key.of.iter().zip(&any_key.of);
        let disallowed = rules.iter().zip(logged).map(|(rule, (same_key, any_key))| {
            same_key & where_so(*rule == Rule::Apart) | any_key & where_so(*rule == Rule::Never)
        });
        disallowed.fold(0, |owners, more| owners | more)
    }
}

/// Slots of a hash table: a power of two, and at most half of them taken.
const SLOTS: usize = 2 * ENTRIES;
const FREE: u16 = u16::MAX;

/// What is known of places, at most one for each log entry, found by hashing.
struct Places<T> {
    slots: [u16; SLOTS],
    places: Vec<(u64, T)>,
}

impl<T: Copy + Default> Places<T> {
    fn new(entries: usize) -> Self {
        Places { slots: [FREE; SLOTS], places: Vec::with_capacity(entries) }
    }

    /// Where a place stands among the others, last if it is new.
    fn index(&mut self, place: u64) -> usize {
        let slot = self.slot(place);
        if self.slots[slot] == FREE {
            self.slots[slot] = self.places.len() as u16;
            self.places.push((place, T::default()));
        }
        usize::from(self.slots[slot])
    }

    /// What is known of a place, by default where it was never asked for.
    fn get(&self, place: u64) -> T {
        let slot = self.slot(place);
        self.places.get(usize::from(self.slots[slot])).map_or_else(T::default, |&(_, known)| known)
    }

    /// The slot of a place: the free one that it would take where it has none.
    fn slot(&self, place: u64) -> usize {
        let mut slot = (place.wrapping_mul(0x9E37_79B9_7F4A_7C15) >> (u64::BITS - SLOTS.trailing_zeros())) as usize;
        while self.slots[slot] != FREE && self.places[usize::from(self.slots[slot])].0 != place {
            slot = (slot + 1) % SLOTS;
        }
        slot
    }
}

/// An object's key, or the value that a key is modified to, as one number.
fn place(number: usize, word: u32) -> u64 {
    (number as u64) << u32::BITS | u64::from(word)
}

/// The owners for each key of each object in a log, and for each value that a key is modified to.
pub(crate) struct Footprints {
    keys: Places<Owners>,
    /// By where the key stands among `keys`; none before the first modify.
    values: Option<Places<TransactionSet>>,
    entries: usize,
}

impl Footprints {
    /// For a log of so many entries.
    pub fn new(entries: usize) -> Footprints {
        Footprints { keys: Places::new(entries), values: None, entries }
    }

    /// The owners for the key of a new entry, and those of entries that don't commute with it since they are not equal,
    /// given the owners for any key of the object; asked for once for each entry, in order.
    #[inline] // into the loop over the log
    pub fn enter(&mut self, entry: &Entry, any_key: &mut Owners) -> (&mut Owners, TransactionSet) {
        let Entry { transaction, object, request: Request { operation, key, value }, .. } = *entry;
        let index = self.keys.index(place(object, key));
        let same_key = &mut self.keys.places[index].1;
        let unequal = match operation {
            Operation::Push => any_key.unequal(operation, transaction, same_key.of(operation)),
            Operation::Modify => {
                let values = self.values.get_or_insert_with(|| Places::new(self.entries));
                let value = values.index(place(index, value));
                let same_value = &mut values.places[value].1;
                let equal = mem::replace(same_value, *same_value | only(transaction));
                same_key.unequal(operation, transaction, equal)
            }
            _ => 0,
        };
        (same_key, unequal)
    }

    /// The owners for a key, nobody where no entry has it.
    pub fn get(&self, object: usize, key: u32) -> Owners {
        self.keys.get(place(object, key))
    }
}

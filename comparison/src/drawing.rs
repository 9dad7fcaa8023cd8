//! Drawing random scripts, each the same from the same profile and seed.
//!
//! The second implementation follows as a script is drawn, so that transactions and objects can be aimed at.

use std::collections::BTreeSet;

use reference::call::Call;
use reference::{script, Reply};

use crate::batches::{self, OPERATION};
use crate::common::draws::Draws;
use crate::common::{
    kind_word, row_count_word, sixteen, status_word, BATCH_LIMIT, LIST_LENGTH, LOG_LIMIT, UNREDUCED, WORDS,
};
use crate::damage;
use crate::profiles::Profile;
use crate::script::{Line, Script};

const ABSENT: u32 = 0;
const ACTIVE: u32 = 1;

/// Numbers whose high bits count, or must not.
const HIGH: [u32; 9] =
    [5, UNREDUCED + 5, 0xFF00_0005, UNREDUCED, UNREDUCED - 1, 0x8000_0000, 0x7FFF_FFFF, u32::MAX - 1, u32::MAX];
/// Numbers at the limits of something.
const LIMITS: [u32; 10] = [15, 16, 63, 64, 65, 255, 256, 257, UNREDUCED, u32::MAX];

/// Items and values of which most are equal, and one is so but for its high bits.
const MOSTLY_EQUAL: [u32; 6] = [5, 5, 5, 5, 6, UNREDUCED + 5];

/// The script of a profile and a seed.
pub fn draw(profile: &Profile, seed: u64) -> Script {
    let mut drawing = Drawing::new(profile, seed);
    if drawing.draws.percent(profile.set_up_first) {
        drawing.write(Call::SetUp { kinds: sixteen(profile.kinds) });
    }
    let (fewest, more) = profile.lines;
    for _ in 0..fewest + drawing.draws.below(more + 1) {
        drawing.draw_line();
    }
    for _ in 0..profile.rings {
        drawing.draw_ring();
    }
    if drawing.draws.percent(profile.reading) {
        drawing.read_at_the_end();
    }
    drawing.finished()
}

/// Two operations on an object of a kind: the second may run beside the first and comes to depend on it. Push and push
/// of another item, member and insert, modify and modify with another value.
pub fn beside(kind: u32) -> (u32, u32) {
    match kind {
        0 | 1 => (1, 1),
        2 => (6, 4),
        _ => (11, 11),
    }
}

/// Transactions in an order that is drawn.
pub fn shuffled(draws: &mut Draws, transactions: impl Iterator<Item = u32>) -> Vec<u32> {
    let mut transactions: Vec<u32> = transactions.collect();
    for last in (1..transactions.len()).rev() {
        transactions.swap(last, draws.below(last + 1));
    }
    transactions
}

struct Drawing<'a> {
    profile: &'a Profile,
    draws: Draws,
    /// What the second implementation's store holds after the lines so far.
    store: Vec<u32>,
    /// The numbers of transactions in use.
    numbers: Vec<u32>,
    /// Whose operations were answered, in order, those that have ended among them.
    answered: Vec<u32>,
    /// Objects and reduced keys that were asked for.
    keys: BTreeSet<(u32, u32)>,
    script: Script,
}

impl<'a> Drawing<'a> {
    fn new(profile: &'a Profile, seed: u64) -> Self {
        let mut draws = Draws::new(seed);
        let mut numbers = shuffled(&mut draws, 0..64);
        numbers.truncate(profile.transactions);
        let store = vec![0; WORDS];
        let (answered, keys, script) = (Vec::new(), BTreeSet::new(), Script::default());
        Drawing { profile, draws, store, numbers, answered, keys, script }
    }

    /// The script, its last line now and then without a line feed.
    fn finished(mut self) -> Script {
        let ends_in_something = self.script.lines.last().map_or(false, |line| !line.bytes.is_empty());
        self.script.open_end = ends_in_something && self.draws.percent(10);
        self.script
    }

    /// Writes a call as a line.
    fn write(&mut self, call: Call) {
        let bytes = damage::written(&mut self.draws, &call);
        self.push(bytes, Some(call));
    }

    fn push(&mut self, bytes: Vec<u8>, call: Option<Call>) {
        if let Some(call) = &call {
            self.follow(call);
        }
        self.script.lines.push(Line { bytes, call });
    }

    fn follow(&mut self, call: &Call) {
        let outcome = call.serve(&mut self.store, &mut [0; LIST_LENGTH]);
        match (call, outcome) {
            (&Call::Operate { transaction, object, key, .. }, Ok(Reply::Answer { .. })) => {
                self.note(transaction, object, key);
            }
            (&Call::Batch { transaction, ref operations }, Ok(Reply::Answers(_))) => {
                operations.chunks_exact(OPERATION).for_each(|words| self.note(transaction, words[0], words[2]));
            }
            (&Call::Batch { transaction, ref operations }, outcome)
                if batches::together(&self.store, transaction, operations, outcome) =>
            {
                self.script.together.insert(self.script.lines.len());
            }
            _ => {}
        }
    }

    /// Notes an operation that was answered.
    fn note(&mut self, transaction: u32, object: u32, key: u32) {
        self.answered.push(transaction);
        self.keys.insert((object, key % UNREDUCED));
    }

    fn draw_line(&mut self) {
        let call = self.draw_call();
        if !self.draws.percent(self.profile.damaged) {
            return self.write(call);
        }
        let line = damage::written(&mut self.draws, &call);
        if self.draws.percent(20) {
            let line = damage::mutated(&mut self.draws, &line);
            let call = script::parse(&line);
            self.push(line, call);
        } else {
            let line = damage::damaged(&mut self.draws, &line);
            self.push(line, None);
        }
    }

    fn draw_call(&mut self) -> Call {
        if self.draws.percent(self.profile.set_ups) {
            return self.draw_set_up();
        }
        let call = match self.draw_letter() {
            0 => Call::Begin { transaction: self.draw_transaction(ABSENT) },
            1 if self.draws.percent(self.profile.batched) => self.draw_batch(),
            1 => self.draw_operation(),
            2 => Call::Finish { transaction: self.draw_finishing() },
            _ => Call::Cancel { transaction: self.draw_transaction(ACTIVE) },
        };
        if self.draws.percent(self.profile.wild) {
            self.made_wild(call)
        } else {
            call
        }
    }

    /// Begin, operate, finish or cancel: mostly begin where nobody is active, and not where nobody is absent.
    fn draw_letter(&mut self) -> usize {
        let letter = self.draws.weighted(&self.profile.weights);
        if self.draws.percent(30) {
            letter
        } else if self.with_status(&self.numbers, ACTIVE).is_empty() {
            0
        } else if self.with_status(&self.numbers, ABSENT).is_empty() {
            letter.max(1)
        } else {
            letter
        }
    }

    fn draw_set_up(&mut self) -> Call {
        let mut kinds = sixteen(self.profile.kinds);
        if self.draws.percent(30) {
            kinds = sixteen(&(0..self.draws.below(17)).map(|_| self.draws.below(4) as u8).collect::<Vec<_>>());
        }
        if self.draws.percent(50) {
            kinds[self.draws.below(16)] = self.draws.pick(&[4, 5, 127, 128, 255]);
        }
        Call::SetUp { kinds }
    }

    fn with_status(&self, transactions: &[u32], status: u32) -> Vec<u32> {
        let fits = |&transaction: &u32| self.store[status_word(transaction as usize)] == status;
        transactions.iter().copied().filter(fits).collect()
    }

    /// A transaction, mostly one of the status given.
    fn draw_transaction(&mut self, status: u32) -> u32 {
        let fitting = self.with_status(&self.numbers, status);
        if fitting.is_empty() || self.draws.percent(10) {
            self.draws.pick(&self.numbers)
        } else {
            self.draws.pick(&fitting)
        }
    }

    /// A transaction to finish, often the one answered last: it finishes before those that it depends on.
    fn draw_finishing(&mut self) -> u32 {
        match self.with_status(&self.answered, ACTIVE).last() {
            Some(&last) if self.draws.percent(self.profile.last_first) => last,
            _ => self.draw_transaction(ACTIVE),
        }
    }

    fn kind(&self, object: u32) -> u32 {
        self.store[kind_word(object as usize)]
    }

    fn objects(&self) -> Vec<u32> {
        (0..16).filter(|&object| self.kind(object) != 0).collect()
    }

    fn draw_operation(&mut self) -> Call {
        let transaction = self.draw_transaction(ACTIVE);
        let object = self.draw_object();
        let [object, operation, key, value] = self.draw_words(object);
        Call::Operate { transaction, object, operation, key, value }
    }

    /// A batch; some have all operations on one object.
    fn draw_batch(&mut self) -> Call {
        let transaction = self.draw_transaction(ACTIVE);
        let count = self.draw_count();
        let one = self.draws.percent(30).then(|| self.draw_object());
        let mut operations = Vec::new();
        for _ in 0..count {
            let object = one.unwrap_or_else(|| self.draw_object());
            operations.extend(self.draw_words(object));
        }
        Call::Batch { transaction, operations }
    }

    /// How many operations a batch has: a few, or any number up to all that it may have. Where the log is nearly full,
    /// often as many as it has space for, or one more.
    fn draw_count(&mut self) -> usize {
        let space = LOG_LIMIT.saturating_sub(self.store[0] as usize);
        match self.draws.below(4) {
            0 | 1 if (1..BATCH_LIMIT).contains(&space) => space + self.draws.below(2),
            0 => self.draws.below(2),
            1 | 2 => 2 + self.draws.below(3),
            _ => self.draws.below(BATCH_LIMIT + 1),
        }
    }

    fn draw_object(&mut self) -> u32 {
        let objects = self.objects();
        if objects.is_empty() {
            self.draws.below(17) as u32
        } else {
            self.draws.pick(&objects)
        }
    }

    /// The words of an operation on an object.
    fn draw_words(&mut self, object: u32) -> [u32; OPERATION] {
        if self.draws.percent(self.profile.equal) {
            match self.kind(object.min(15)) {
                1 => return [object, 1, self.draws.pick(&MOSTLY_EQUAL), 0],
                3 => return [object, 11, self.draw_key(), self.draws.pick(&MOSTLY_EQUAL)],
                _ => {}
            }
        }
        let (adding, others): (u32, &[u32]) = match self.kind(object.min(15)) {
            0 | 1 => (1, &[2, 3]),
            2 => (4, &[5, 6]),
            _ => (7, &[8, 9, 10, 11]),
        };
        let operation = if self.draws.percent(self.profile.adding) { adding } else { self.draws.pick(others) };
        [object, operation, self.draw_key(), self.draw_value()]
    }

    fn draw_key(&mut self) -> u32 {
        match self.profile.keys {
            0 => self.draws.pick(&HIGH),
            keys => self.draws.below(keys) as u32 | self.draw_mark(),
        }
    }

    /// The maker's mark, mostly none.
    fn draw_mark(&mut self) -> u32 {
        if self.draws.percent(25) {
            self.draws.word() << 24
        } else {
            0
        }
    }

    fn draw_value(&mut self) -> u32 {
        if self.draws.percent(10) {
            self.draws.pick(&HIGH)
        } else {
            self.draws.below(4) as u32
        }
    }

    /// The call with some of its arguments from anywhere.
    fn made_wild(&mut self, mut call: Call) -> Call {
        match &mut call {
            Call::SetUp { .. } => {}
            Call::Begin { transaction } | Call::Finish { transaction } | Call::Cancel { transaction } => {
                *transaction = self.draw_anything();
            }
            Call::Operate { transaction, object, operation, key, value } => {
                self.make_wild([transaction, object, operation, key, value]);
            }
            Call::Batch { transaction, operations } => {
                self.make_wild([transaction]);
                for _ in 0..operations.len().min(2) {
                    let place = self.draws.below(operations.len() / OPERATION);
                    self.make_wild(&mut operations[place * OPERATION..][..OPERATION]);
                }
            }
        }
        call
    }

    fn make_wild<'b>(&mut self, arguments: impl IntoIterator<Item = &'b mut u32>) {
        for argument in arguments {
            if self.draws.percent(25) {
                *argument = self.draw_anything();
            }
        }
    }

    fn draw_anything(&mut self) -> u32 {
        match self.draws.below(3) {
            0 => self.draws.below(20) as u32,
            1 => self.draws.pick(&LIMITS),
            _ => self.draws.word(),
        }
    }

    /// Begins transactions, makes each depend on the next and the last on the first, and finishes them in any order.
    /// Now and then something else is called instead of making one depend.
    fn draw_ring(&mut self) {
        let absent = self.with_status(&self.numbers, ABSENT).into_iter();
        let ring = shuffled(&mut self.draws, absent);
        ring.iter().for_each(|&transaction| self.write(Call::Begin { transaction }));
        for (place, &transaction) in ring.iter().enumerate() {
            match self.draws.below(10) {
                0 => self.draw_line(),
                _ => self.draw_dependence(transaction, ring[(place + 1) % ring.len()], place),
            }
        }
        for transaction in shuffled(&mut self.draws, ring.into_iter()) {
            self.write(Call::Finish { transaction });
        }
    }

    /// Makes a transaction depend on another, where there is an object: the place decides which, and which key.
    fn draw_dependence(&mut self, transaction: u32, on: u32, place: usize) {
        let objects = self.objects();
        if let Some(&object) = objects.get(place % objects.len().max(1)) {
            let kind = self.kind(object);
            let (first, second) = beside(kind);
            for (transaction, operation) in [(on, first), (transaction, second)] {
                let key = if kind == 1 { transaction } else { place as u32 };
                self.write(Call::Operate { transaction, object, operation, key, value: transaction });
            }
        }
    }

    /// Mostly ends those who are active; then a fresh transaction reads what is there, and ends.
    fn read_at_the_end(&mut self) {
        if self.draws.percent(85) {
            self.end_the_active();
        }
        let absent = self.with_status(&(0..64).collect::<Vec<_>>(), ABSENT);
        if absent.is_empty() {
            return;
        }
        let transaction = self.draws.pick(&absent);
        self.write(Call::Begin { transaction });
        for object in self.objects() {
            self.read(transaction, object);
        }
        self.end(transaction);
    }

    /// Ends one after the other; so many times at most, should the second implementation end none.
    fn end_the_active(&mut self) {
        for _ in 0..64 {
            let active = self.with_status(&(0..64).collect::<Vec<_>>(), ACTIVE);
            if active.is_empty() {
                return;
            }
            let transaction = self.draws.pick(&active);
            self.end(transaction);
        }
    }

    fn end(&mut self, transaction: u32) {
        let finishes = self.draws.percent(70);
        self.write(if finishes { Call::Finish { transaction } } else { Call::Cancel { transaction } });
    }

    /// Pops until the stack is empty, or asks for every key in use.
    fn read(&mut self, transaction: u32, object: u32) {
        let rows = self.store[row_count_word(object as usize)];
        let keys: Vec<u32> = self.keys.range((object, 0)..(object + 1, 0)).map(|&(_, key)| key).collect();
        let questions: Vec<(u32, u32)> = match self.kind(object) {
            1 => [3].into_iter().chain((0..=rows).map(|_| 2)).map(|operation| (operation, 0)).collect(),
            2 => keys.into_iter().map(|key| (6, key)).collect(),
            _ => [(10, 0)].into_iter().chain(keys.into_iter().map(|key| (9, key))).collect(),
        };
        for (operation, key) in questions {
            let key = key | self.draw_mark();
            self.write(Call::Operate { transaction, object, operation, key, value: 0 });
        }
    }
}

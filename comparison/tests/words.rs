//! The proved library and the second implementation, each called on its own copy of one store: replies, every word and
//! every byte must be the same, whatever is lent.

use std::collections::HashSet;
use std::io::{self, Write};
use std::iter;
use std::sync::{Arc, Mutex};

use comparison::batches::{together, OPERATION};
use comparison::call_lists::call_list;
use comparison::common::draws::Draws;
use comparison::common::graph::{Live, ACTIVE_BETWEEN, CIRCLE, FAR_CIRCLE, SETS_APART};
use comparison::common::{entry_word, kind_word, sixteen, status_word, BATCH_LIMIT, LIST_LENGTH, LOG_LIMIT, WORDS};
use comparison::equals::{self, AFTER_ANOTHER, AFTER_MODIFY, AFTER_PUSH, NO_CIRCLE};
use comparison::profiles::{Profile, PROFILES};
use comparison::stores;
use comparison::tally::Tally;
use comparison::threads::divided;
use comparison::words::{hold, hold_singly, proved, second, AnyCall, Desk, Left, Numbers, Served};
use lending_desk::raw;
use reference::call::Call;
use reference::{calls, Outcome, Refusal, Reply};

const FEWEST_CALLS: u64 = 400_000;
const FEWEST_BOOKS: usize = 10_000;
const OFTEN_ENOUGH: u64 = 100;
/// Of the scripts of a profile, one in so many is walked.
const ONE_IN: u64 = 10;
const FEWEST_WALKS: u64 = 24;
/// A call tried on another store is mostly one of so many that come next.
const COMING: usize = 8;
/// The longest list that is lent.
const LONGEST_LIST: usize = 80;
/// Numbers in and out of range, for a transaction or an object.
const ANYTHING: [u32; 10] = [0, 15, 16, 17, 63, 64, 65, 255, 1 << 31, u32::MAX];

/// What the columns of the table of replies count.
const CALLS: [&str; 7] = ["set up", "begin", "operate", "batch", "finish", "cancel", "contents"];
/// Every reply, some of them told apart further, and which calls say it, by their places in `CALLS`.
const REPLIES: [(&str, &[usize]); 42] = [
    ("ok", &[0, 1]),
    ("wait for one", &[2, 3]),
    ("wait for more than one", &[2, 3]),
    ("wait, together", &[3]),
    ("answer, code 0", &[2]),
    ("answer, code 1", &[2]),
    ("no answers", &[3]),
    ("one answer", &[3]),
    ("several answers", &[3]),
    ("finished", &[4]),
    ("committed alone", &[4]),
    ("committed with others", &[4]),
    ("circle alone", &[4]),
    ("circle with others", &[4]),
    (CIRCLE, &[4]),
    (FAR_CIRCLE, &[4]),
    (ACTIVE_BETWEEN, &[4]),
    (SETS_APART, &[4]),
    (AFTER_PUSH, &[4]),
    (AFTER_MODIFY, &[4]),
    (AFTER_ANOTHER, &[4]),
    (NO_CIRCLE, &[4]),
    ("cancelled alone", &[5]),
    ("cancelled with others", &[5]),
    ("no rows", &[6]),
    ("rows", &[6]),
    ("refused 1", &[0, 1, 2, 3, 4, 5, 6]),
    ("refused 2", &[4, 5]),
    ("refused 3", &[0]),
    ("refused 4", &[1, 2, 3, 4, 5, 6]),
    ("refused 5", &[1, 2, 3, 4, 5]),
    ("refused 6", &[1]),
    ("refused 7", &[2, 3, 4, 5]),
    ("refused 8", &[2, 3, 6]),
    ("refused 9", &[2, 3]),
    ("refused 10", &[2, 3]),
    ("refused 10, together", &[3]),
    ("refused 11", &[2, 3]),
    ("refused 11, together", &[3]),
    ("refused 12, too many", &[3]),
    ("refused 12, a part", &[3]),
    ("in all", &[0, 1, 2, 3, 4, 5, 6]),
];

/// Where a store comes from.
#[derive(Clone, Copy, Debug, PartialEq, Eq)]
enum Origin {
    /// A list of calls.
    Reached,
    /// One reached, with so many words damaged.
    Damaged(usize),
    Random,
    WrongLength,
}

const ORIGINS: [(Origin, &str); 7] = [
    (Origin::Reached, "reached by calls"),
    (Origin::Damaged(1), "one word damaged"),
    (Origin::Damaged(2), "two words damaged"),
    (Origin::Damaged(3), "three words damaged"),
    (Origin::Damaged(4), "four words damaged"),
    (Origin::Random, "random words"),
    (Origin::WrongLength, "wrong length"),
];

impl Origin {
    fn place(self) -> usize {
        ORIGINS.iter().position(|&(origin, _)| origin == self).expect("every origin is listed")
    }
}

/// Different stores of one origin, each by a hash of its words.
#[derive(Clone, Debug, Default)]
struct Books {
    /// Those that some call refused with 4.
    refused: HashSet<u64>,
    /// The others.
    taken: HashSet<u64>,
}

/// What came of all walks.
#[derive(Clone, Default)]
struct Pass {
    calls: u64,
    replies: [Tally; CALLS.len()],
    books: [Books; ORIGINS.len()],
    /// The walks' places, and how the desks differ there.
    differences: Vec<(usize, String)>,
}

impl Pass {
    fn join(&mut self, other: Pass) {
        self.calls += other.calls;
        self.replies.iter_mut().zip(&other.replies).for_each(|(tally, other)| tally.join(other));
        for (books, other) in self.books.iter_mut().zip(other.books) {
            books.refused.extend(other.refused);
            books.taken.extend(other.taken);
        }
        self.differences.extend(other.differences);
    }

    fn count(&mut self, call: &AnyCall, store: &[u32], numbers: &Numbers) {
        let column = match call {
            AnyCall::Lettered(Call::SetUp { .. }) => 0,
            AnyCall::Lettered(Call::Begin { .. }) => 1,
            AnyCall::Lettered(Call::Operate { .. }) => 2,
            AnyCall::Lettered(Call::Batch { .. }) => 3,
            AnyCall::Lettered(Call::Finish { .. }) => 4,
            AnyCall::Lettered(Call::Cancel { .. }) => 5,
            AnyCall::Contents { .. } => 6,
        };
        self.calls += 1;
        let replies = &mut self.replies[column];
        rows(call, store, numbers).iter().for_each(|row| replies.add(row, 1));
        replies.add("in all", 1);
    }

    fn count_book(&mut self, origin: Origin, store: &[u32], refused: bool) {
        let Books { refused: unsound, taken } = &mut self.books[origin.place()];
        let books = if refused { unsound } else { taken };
        books.insert(hash(store));
    }

    /// How many different ones there are of the origins given.
    fn books(&self, counted: fn(&Books) -> &HashSet<u64>, origins: fn(Origin) -> bool) -> usize {
        let books = ORIGINS.iter().zip(&self.books).filter(|((origin, _), _)| origins(*origin));
        books.flat_map(|(_, books)| counted(books)).collect::<HashSet<_>>().len()
    }

    fn refused(&self, origins: fn(Origin) -> bool) -> usize {
        self.books(|books| &books.refused, origins)
    }

    fn taken(&self, origins: fn(Origin) -> bool) -> usize {
        self.books(|books| &books.taken, origins)
    }
}

/// The rows of a reply to a call on a store.
fn rows(call: &AnyCall, store: &[u32], numbers: &Numbers) -> Vec<String> {
    let row = numbers.row();
    let (transaction, operations) = match call {
        AnyCall::Lettered(Call::Batch { transaction, operations }) => (*transaction, operations),
        AnyCall::Lettered(Call::Finish { transaction }) if numbers.refusal() == 0 => {
            let finishes = finishes(&Live::of(store), *transaction, numbers);
            return iter::once(row).chain(finishes.map(String::from)).collect();
        }
        _ => return vec![row],
    };
    let outcome = calls::batch(&mut store.to_vec(), transaction, operations);
    match numbers.refusal() {
        12 if operations.len() % OPERATION > 0 => vec!["refused 12, a part".to_string()],
        12 => vec!["refused 12, too many".to_string()],
        _ if !together(store, transaction, operations, outcome) => vec![row],
        0 => vec![row, "wait, together".to_string()],
        _ => vec![format!("{row}, together"), row],
    }
}

/// What a finish with this reply is worth counting as.
fn finishes(live: &Live, transaction: u32, numbers: &Numbers) -> impl Iterator<Item = &'static str> {
    let [commits, circle] = [COMMITTED, IS_CIRCLE].map(|code| is_ended(numbers, code));
    live.finishes(transaction, circle).chain(equals::finishes(live, transaction, commits, circle))
}

fn is_ended(numbers: &Numbers, with: u32) -> bool {
    matches!(*numbers, Numbers::Ended(raw::Ended { code, .. }) if code == with)
}

fn hash(store: &[u32]) -> u64 {
    let mix = |hash: u64, &word: &u32| (hash.rotate_left(5) ^ u64::from(word)).wrapping_mul(0x9E37_79B9_7F4A_7C15);
    store.iter().fold(store.len() as u64, mix)
}

/// A script's calls made one after the other, and between them calls on other stores.
struct Walk<'a> {
    desks: [Desk; 2],
    pass: &'a mut Pass,
    draws: Draws,
    store: Vec<u32>,
}

impl Walk<'_> {
    fn run(desks: [Desk; 2], pass: &mut Pass, profile: &Profile, seed: u64) -> Result<(), String> {
        let mut draws = Draws::new(!seed);
        let calls = call_list(&mut draws, profile, seed);
        let mut walk = Walk { desks, pass, draws, store: vec![0; WORDS] };
        for (index, call) in calls.iter().enumerate() {
            let coming = &calls[index..calls.len().min(index + COMING)];
            let step = walk.step(call).and_then(|()| walk.try_others(coming));
            step.map_err(|what| format!("profile {:?}, seed {seed}: after {index} calls, {what}", profile.name))?;
        }
        Ok(())
    }

    /// Makes a call, first with a list that may be too short.
    fn step(&mut self, call: &Call) -> Result<(), String> {
        let call = AnyCall::Lettered(call.clone());
        let store = self.store.clone();
        let length = self.draws.below(LONGEST_LIST + 1);
        let mut left = self.hold(Origin::Reached, &call, &store, length)?;
        if left.served.numbers.refusal() == 2 {
            let length = LIST_LENGTH + self.draws.below(LONGEST_LIST - LIST_LENGTH + 1);
            left = self.hold(Origin::Reached, &call, &store, length)?;
        }
        self.pass.count_book(Origin::Reached, &store, left.served.numbers.refusal() == 4);
        self.store = left.store().to_vec();
        Ok(())
    }

    /// Makes calls on stores made of the one reached.
    fn try_others(&mut self, coming: &[Call]) -> Result<(), String> {
        let draws = &mut self.draws;
        let (origin, store) = match draws.below(20) {
            0 => (Origin::Reached, self.store.clone()),
            1 => (Origin::Random, stores::random(draws)),
            2 => (Origin::WrongLength, stores::of_wrong_length(draws, &self.store)),
            3..=13 => {
                let count = 1 + draws.below(4);
                (Origin::Damaged(count), stores::damaged(draws, &self.store, count))
            }
            _ => return Ok(()),
        };
        self.try_store(origin, &store, coming)
    }

    /// Makes contents, which tells whether the store is sound, and another call or two, each on the same store.
    fn try_store(&mut self, origin: Origin, store: &[u32], coming: &[Call]) -> Result<(), String> {
        let object = self.draw_object();
        let left = self.hold(origin, &AnyCall::Contents { object }, store, 0)?;
        self.pass.count_book(origin, store, left.served.numbers.refusal() == 4);
        for _ in 0..1 + self.draws.below(2) {
            let (call, length) = (self.draw_call(coming), self.draw_length());
            self.hold(origin, &AnyCall::Lettered(call), store, length)?;
        }
        Ok(())
    }

    /// Makes a call by both desks, with a list of the length given.
    fn hold(&mut self, origin: Origin, call: &AnyCall, store: &[u32], length: usize) -> Result<Left, String> {
        let list: Vec<u8> = (0..length).map(|_| self.draws.word() as u8).collect();
        let left = hold(self.desks, call, store, &list).map_err(|difference| {
            let (origin, damage) = (ORIGINS[origin.place()].1, self.damage(origin, store));
            format!("{origin}{damage}; {call} with a list of {length}: {difference}")
        })?;
        hold_singly(self.desks[0], call, store, &left).map_err(|difference| format!("{call}: {difference}"))?;
        self.pass.count(call, store, &left.served.numbers);
        Ok(left)
    }

    /// The words in which a damaged store is another than the one reached.
    fn damage(&self, origin: Origin, store: &[u32]) -> String {
        let damaged = matches!(origin, Origin::Damaged(_));
        let words = (0..WORDS).filter(|&index| damaged && store[index] != self.store[index]);
        words.map(|index| format!(", word {index} from {} to {}", self.store[index], store[index])).collect()
    }

    fn draw_length(&mut self) -> usize {
        let shortest = if self.draws.percent(85) { LIST_LENGTH } else { 0 };
        shortest + self.draws.below(LONGEST_LIST - shortest + 1)
    }

    /// A call that the store reached may serve, or one that it refuses.
    fn draw_call(&mut self, coming: &[Call]) -> Call {
        match self.draws.below(8) {
            0 => Call::SetUp { kinds: self.draw_kinds() },
            1 => Call::Begin { transaction: self.draw_transaction(0) },
            2 => Call::Finish { transaction: self.draw_transaction(1) },
            3 => Call::Cancel { transaction: self.draw_transaction(1) },
            4 | 5 => Call::Batch { transaction: self.draw_transaction(1), operations: self.draw_operations() },
            _ => coming[self.draws.below(coming.len())].clone(),
        }
    }

    /// The words of up to one operation more than a batch may have, at times with a part of another.
    fn draw_operations(&mut self) -> Vec<u32> {
        let space = LOG_LIMIT.saturating_sub(self.store[0] as usize);
        let count = match self.draws.below(4) {
            0 | 1 if (1..BATCH_LIMIT).contains(&space) => space + self.draws.below(2),
            0 | 1 => self.draws.below(4),
            _ => self.draws.below(BATCH_LIMIT + 2),
        };
        let one = self.draws.percent(30).then(|| self.draw_object());
        let mut words = Vec::new();
        for _ in 0..count {
            let object = one.unwrap_or_else(|| self.draw_object());
            words.extend(self.draw_operation(object));
        }
        if self.draws.percent(20) {
            let part = 1 + self.draws.below(OPERATION - 1);
            words.extend(&self.draw_operation(0)[..part]);
        }
        words
    }

    /// The words of an operation on an object, mostly one of its kind.
    fn draw_operation(&mut self, object: u32) -> [u32; OPERATION] {
        let operations: &[u32] = match self.store[kind_word(object.min(15) as usize)] {
            _ if self.draws.percent(3) => &[0, 1, 4, 7, 12, u32::MAX],
            1 => &[1, 1, 2, 3],
            2 => &[4, 4, 5, 6],
            _ => &[7, 7, 8, 9, 10, 11],
        };
        [object, self.draws.pick(operations), self.draws.below(4) as u32, self.draws.below(3) as u32]
    }

    fn draw_kinds(&mut self) -> Vec<u8> {
        let length = if self.draws.percent(70) { 16 } else { self.draws.below(33) };
        let highest = if self.draws.percent(70) { 3 } else { self.draws.pick(&[4, 5, 255]) };
        let kinds: Vec<u8> = (0..length).map(|_| self.draws.below(highest + 1) as u8).collect();
        if length < 16 && self.draws.percent(50) {
            sixteen(&kinds)
        } else {
            kinds
        }
    }

    /// A transaction, mostly one of the status given.
    fn draw_transaction(&mut self, status: u32) -> u32 {
        let fitting: Vec<u32> = (0..64).filter(|&t| self.store[status_word(t as usize)] == status).collect();
        match self.draws.below(10) {
            0 => self.draws.pick(&ANYTHING),
            1 => self.draws.below(64) as u32,
            _ if fitting.is_empty() => self.draws.below(64) as u32,
            _ => self.draws.pick(&fitting),
        }
    }

    /// An object, mostly one with a kind.
    fn draw_object(&mut self) -> u32 {
        let with_kind: Vec<u32> = (0..16).filter(|&object| self.store[kind_word(object as usize)] != 0).collect();
        match self.draws.below(20) {
            0 => self.draws.pick(&ANYTHING),
            1 => self.draws.below(16) as u32,
            _ if with_kind.is_empty() => self.draws.below(16) as u32,
            _ => self.draws.pick(&with_kind),
        }
    }
}

/// Every walk's profile and seed.
fn walks() -> Vec<(&'static Profile, u64)> {
    let seeds = |profile: &Profile| 0..(profile.scripts / ONE_IN).max(FEWEST_WALKS);
    PROFILES.iter().flat_map(|profile| seeds(profile).map(move |seed| (profile, seed))).collect()
}

/// Walks through every script, divided among threads.
fn walk_all() -> Pass {
    let walks = walks();
    let walk = |pass: &mut Pass, place: usize| {
        let (profile, seed) = walks[place];
        if let Err(what) = Walk::run([proved, second], pass, profile, seed) {
            pass.differences.push((place, what));
        }
    };
    let mut total = Pass::default();
    divided(walks.len(), walk).into_iter().for_each(|pass| total.join(pass));
    total
}

/// What came of all walks: they are made once, by the test that comes first.
fn pass() -> Arc<Pass> {
    static PASS: Mutex<Option<Arc<Pass>>> = Mutex::new(None);
    let mut pass = PASS.lock().expect("the walks were not all made; see above");
    let walk = || {
        let pass = walk_all();
        print_tables(&pass).expect("standard error takes the tables");
        Arc::new(pass)
    };
    Arc::clone(pass.get_or_insert_with(walk))
}

/// Prints past the test harness, which would keep the tables to itself.
fn print_tables(pass: &Pass) -> io::Result<()> {
    let mut stderr = io::stderr().lock();
    writeln!(
        stderr,
        "\ncalls on two copies of one book, by the proved library and by the second implementation: {}",
        pass.calls
    )?;
    write!(stderr, "{:<42}", "")?;
    CALLS.iter().try_for_each(|call| write!(stderr, "{call:>10}"))?;
    writeln!(stderr)?;
    for (reply, calls) in REPLIES {
        write!(stderr, "{reply:<42}")?;
        for (call, tally) in pass.replies.iter().enumerate() {
            let times = if calls.contains(&call) { tally.of(reply).to_string() } else { String::new() };
            write!(stderr, "{times:>10}")?;
        }
        writeln!(stderr)?;
    }
    writeln!(stderr, "{:<42}{:>20}{:>20}", "different books", "refused with 4", "not refused with 4")?;
    for ((_, origin), Books { refused, taken }) in ORIGINS.iter().zip(&pass.books) {
        writeln!(stderr, "{origin:<42}{:>20}{:>20}", refused.len(), taken.len())?;
    }
    writeln!(stderr, "{:<42}{:>20}{:>20}", "in all", pass.refused(|_| true), pass.taken(|_| true))
}

#[test]
fn both_desks_leave_the_same() {
    let pass = pass();
    if let Some((_, first)) = pass.differences.iter().min() {
        panic!(
            "{} walks at fault; the first, the library's numbers before the others: {first}",
            pass.differences.len()
        );
    }
    assert!(pass.calls >= FEWEST_CALLS, "{} calls", pass.calls);
}

#[test]
fn many_books_are_refused_with_4_and_many_are_not() {
    let pass = pass();
    let of_right_length = |origin| origin != Origin::WrongLength;
    let damaged = |origin| matches!(origin, Origin::Damaged(_));
    for (what, books) in [
        ("refused with 4", pass.refused(of_right_length)),
        ("not refused with 4", pass.taken(of_right_length)),
        ("damaged and refused with 4", pass.refused(damaged)),
        ("damaged and not refused with 4", pass.taken(damaged)),
    ] {
        assert!(books >= FEWEST_BOOKS, "{books} books {what}");
    }
}

#[test]
fn every_reply_to_every_call_occurs_often() {
    let pass = pass();
    for (reply, calls) in REPLIES {
        for (call, tally) in pass.replies.iter().enumerate() {
            let (times, name) = (tally.of(reply), CALLS[call]);
            assert!(calls.contains(&call) || times == 0, "{name}: {reply}");
            assert!(!calls.contains(&call) || times >= OFTEN_ENOUGH, "{name}: {reply} occurred {times} times");
        }
    }
}

/// The second implementation with a change to what it replies to operations; the change is told who asks, as a set.
fn with_operated(
    call: &AnyCall,
    store: &mut [u32],
    list: &mut [u8],
    change: impl Fn(&mut raw::Operated, u64),
) -> Served {
    let mut served = second(call, store, list);
    if let (Numbers::Operated(operated), AnyCall::Lettered(Call::Operate { transaction, .. })) =
        (&mut served.numbers, call)
    {
        change(operated, 1 << (transaction % 64));
    }
    served
}

/// A batch, and the store that it is made on.
struct Asked<'a> {
    store: Vec<u32>,
    transaction: u32,
    operations: &'a [u32],
}

impl Asked<'_> {
    /// What the second implementation says to each of the operations alone.
    fn alone(&self) -> impl DoubleEndedIterator<Item = Outcome> + '_ {
        self.operations.chunks_exact(OPERATION).map(|words| operate(&mut self.store.clone(), self.transaction, words))
    }

    /// The answers to the operations, each alone; none where one is refused or waits.
    fn answers_alone(&self) -> Option<Vec<raw::Answer>> {
        let answer = |outcome| match outcome {
            Ok(Reply::Answer { code, value }) => Some(raw::Answer { code, value }),
            _ => None,
        };
        self.alone().map(answer).collect()
    }

    /// What the second implementation replies to so many of the words, on the store given.
    fn cut(&self, words: usize, store: &mut [u32]) -> raw::Batched {
        let operations = self.operations[..words].to_vec();
        let call = AnyCall::Lettered(Call::Batch { transaction: self.transaction, operations });
        match second(&call, store, &mut []).numbers {
            Numbers::Batched(batched) => batched,
            other => panic!("{other:?} to a batch"),
        }
    }
}

fn operate(store: &mut [u32], transaction: u32, words: &[u32]) -> Outcome {
    calls::operate(store, transaction, words[0], words[1], words[2], words[3])
}

/// The second implementation with a change to what it replies to batches, and to what it leaves.
fn with_batched(
    call: &AnyCall,
    store: &mut [u32],
    list: &mut [u8],
    change: impl Fn(&mut raw::Batched, &mut [u32], &Asked),
) -> Served {
    let before = store.to_vec();
    let mut served = second(call, store, list);
    if let (Numbers::Batched(batched), AnyCall::Lettered(Call::Batch { transaction, operations })) =
        (&mut served.numbers, call)
    {
        change(batched, store, &Asked { store: before, transaction: *transaction, operations });
    }
    served
}

/// Gives a batch these answers.
fn answer(batched: &mut raw::Batched, answers: &[raw::Answer]) {
    *batched = raw::Batched { code: 1, count: answers.len() as u32, ..raw::Batched::default() };
    batched.answers[..answers.len()].copy_from_slice(answers);
}

/// The second implementation, but for one thing that it does with batches.
const WRONG_WITH_BATCHES: [(&str, Desk); 13] = [
    ("answers the operations before the first that waits", |call, store, list| {
        with_batched(call, store, list, |batched, store, asked| {
            if batched.refusal == 0 && batched.code == 0 {
                let mut operations = asked.operations.chunks_exact(OPERATION);
                let _ = operations
                    .find(|words| !matches!(operate(store, asked.transaction, words), Ok(Reply::Answer { .. })));
            }
        })
    }),
    ("holds each operation alone to the limits", |call, store, list| {
        with_batched(call, store, list, |batched, _, asked| {
            if let (10 | 11, Some(answers)) = (batched.refusal, asked.answers_alone()) {
                answer(batched, &answers);
            }
        })
    }),
    ("lets no operation see those before it", |call, store, list| {
        with_batched(call, store, list, |batched, _, asked| {
            if let (1, Some(answers)) = (batched.code, asked.answers_alone()) {
                answer(batched, &answers);
            }
        })
    }),
    ("names the owners of the first operation that waits", |call, store, list| {
        with_batched(call, store, list, |batched, _, asked| {
            let wait = |outcome| matches!(outcome, Ok(Reply::Wait { .. })).then_some(outcome);
            if let (0, 0, Some(Ok(Reply::Wait { owners, count }))) =
                (batched.refusal, batched.code, asked.alone().find_map(wait))
            {
                (batched.owners, batched.count) = (owners, count);
            }
        })
    }),
    ("tests 12 after 7", |call, store, list| {
        with_batched(call, store, list, |batched, _, asked| {
            if batched.refusal == 12 && asked.store[status_word(asked.transaction as usize)] != 1 {
                batched.refusal = 7;
            }
        })
    }),
    ("tells an empty batch to wait", |call, store, list| {
        with_batched(call, store, list, |batched, _, asked| {
            if asked.operations.is_empty() {
                batched.code = 0;
            }
        })
    }),
    ("refuses an empty batch where the log is full", |call, store, list| {
        with_batched(call, store, list, |batched, _, asked| {
            if batched.code == 1 && asked.operations.is_empty() && asked.store[0] == LOG_LIMIT as u32 {
                *batched = raw::Batched { refusal: 10, ..raw::Batched::default() };
            }
        })
    }),
    ("leaves out a part of an operation", |call, store, list| {
        with_batched(call, store, list, |batched, store, asked| {
            let part = asked.operations.len() % OPERATION;
            if batched.refusal == 12 && part > 0 {
                *batched = asked.cut(asked.operations.len() - part, store);
            }
        })
    }),
    ("serves the first sixteen of more", |call, store, list| {
        with_batched(call, store, list, |batched, store, asked| {
            if batched.refusal == 12 && asked.operations.len() == (BATCH_LIMIT + 1) * OPERATION {
                *batched = asked.cut(BATCH_LIMIT * OPERATION, store);
            }
        })
    }),
    ("goes by the last operation with an 8 or 9 of its own", |call, store, list| {
        with_batched(call, store, list, |batched, _, asked| {
            let own = |outcome: Outcome| outcome.err().map(Refusal::number).filter(|number| [8, 9].contains(number));
            if let (8 | 9, Some(number)) = (batched.refusal, asked.alone().rev().find_map(own)) {
                batched.refusal = number;
            }
        })
    }),
    ("tests 10 before 8 and 9", |call, store, list| {
        with_batched(call, store, list, |batched, _, asked| {
            let entries = asked.store.first().map_or(0, |&entries| entries as usize);
            if [8, 9].contains(&batched.refusal) && entries + asked.operations.len() / OPERATION > LOG_LIMIT {
                batched.refusal = 10;
            }
        })
    }),
    ("has an answer to no operation", |call, store, list| {
        with_batched(call, store, list, |batched, _, _| {
            if batched.code == 1 && batched.count < BATCH_LIMIT as u32 {
                batched.answers[BATCH_LIMIT - 1].code = 1;
            }
        })
    }),
    ("counts a batch's words", |call, store, list| {
        with_batched(call, store, list, |batched, _, _| {
            batched.count *= if batched.code == 1 { OPERATION as u32 } else { 1 };
        })
    }),
];

const FINISHED: u32 = 2;
const COMMITTED: u32 = 3;
const IS_CIRCLE: u32 = 4;

/// The second implementation, but that finishes of one kind have this reply code instead.
fn mistaking(kind: &str, code: u32, call: &AnyCall, store: &mut [u32], list: &mut [u8]) -> Served {
    let (before, bytes) = (store.to_vec(), list.to_vec());
    let served = second(call, store, list);
    let transaction = match *call {
        AnyCall::Lettered(Call::Finish { transaction }) if served.numbers.refusal() == 0 => transaction,
        _ => return served,
    };
    let live = Live::of(&before);
    if finishes(&live, transaction, &served.numbers).all(|finish| finish != kind) {
        return served;
    }
    store.copy_from_slice(&before);
    list.copy_from_slice(&bytes);
    match code {
        FINISHED => {
            store[status_word(transaction as usize)] = 2 + live.pseudo_committed.len() as u32;
            return ended_with(raw::Ended { code, ..raw::Ended::default() });
        }
        COMMITTED => {
            put_first(store, transaction);
            return second(call, store, list);
        }
        _ => {}
    }
    match second(&AnyCall::Lettered(Call::Cancel { transaction }), store, list).numbers {
        Numbers::Ended(cancelled) => ended_with(raw::Ended { code, ..cancelled }),
        other => panic!("{other:?} to a cancel"),
    }
}

/// Puts a transaction's entries before all others, so that it depends on nobody.
fn put_first(store: &mut [u32], transaction: u32) {
    let log = entry_word(0)..entry_word(store[0] as usize);
    let mut entries: Vec<Vec<u32>> = store[log.clone()].chunks(entry_word(1) - entry_word(0)).map(Vec::from).collect();
    entries.sort_by_key(|entry| entry[0] != transaction);
    store[log].copy_from_slice(&entries.concat());
}

fn ended_with(ended: raw::Ended) -> Served {
    Served { numbers: Numbers::Ended(ended), rows: Vec::new() }
}

/// The second implementation, but for what it takes for a circle, or whom for one to depend on.
const WRONG_AT_FINISH: [(&str, Desk); 8] = [
    ("calls no circle", |call, store, list| mistaking(CIRCLE, FINISHED, call, store, list)),
    ("looks for a circle at near ones alone", |call, store, list| mistaking(FAR_CIRCLE, FINISHED, call, store, list)),
    ("calls a circle through an open one", |call, store, list| mistaking(ACTIVE_BETWEEN, IS_CIRCLE, call, store, list)),
    ("calls a circle where two sets don't meet", |call, store, list| {
        mistaking(SETS_APART, IS_CIRCLE, call, store, list)
    }),
    ("has equal pushes in order", |call, store, list| mistaking(AFTER_PUSH, FINISHED, call, store, list)),
    ("has equal modifies in order", |call, store, list| mistaking(AFTER_MODIFY, FINISHED, call, store, list)),
    ("calls a circle of equal ones", |call, store, list| mistaking(NO_CIRCLE, IS_CIRCLE, call, store, list)),
    ("takes an owner of equal ones for one of no others", |call, store, list| {
        mistaking(AFTER_ANOTHER, COMMITTED, call, store, list)
    }),
];

/// The second implementation, but for one thing.
const WRONG_DESKS: [(&str, Desk); 14] = [
    ("writes a byte past the count", |call, store, list| {
        let served = second(call, store, list);
        if let Numbers::Ended(raw::Ended { refusal: 0, count, .. }) = served.numbers {
            list[count as usize] = 64;
        }
        served
    }),
    ("clears a list that is too short", |call, store, list| {
        let served = second(call, store, list);
        if served.numbers.refusal() == 2 {
            list.fill(0);
        }
        served
    }),
    ("repairs a word of what it refuses with 4", |call, store, list| {
        let served = second(call, store, list);
        if served.numbers.refusal() == 4 {
            store[0] = 0;
        }
        served
    }),
    ("leaves the last word at set up", |call, store, list| {
        let last = store.last().copied();
        let served = second(call, store, list);
        if let (Numbers::Accepted(raw::Accepted { refusal: 0 }), Some(word)) = (served.numbers, store.last_mut()) {
            *word = last.unwrap_or(0);
        }
        served
    }),
    ("closes ranks up from 1", |call, store, list| {
        let served = second(call, store, list);
        if let Numbers::Ended(raw::Ended { refusal: 0, code: 3..=5, .. }) = served.numbers {
            (0..64).map(status_word).for_each(|index| store[index] += u32::from(store[index] > 1));
        }
        served
    }),
    ("has a number in a refusal's reply code", |call, store, list| {
        let mut served = second(call, store, list);
        if let Numbers::Ended(ended) = &mut served.numbers {
            ended.code = ended.code.max(2);
        }
        served
    }),
    ("names an owner where it answers", |call, store, list| {
        with_operated(call, store, list, |operated, own| operated.owners |= u64::from(operated.code) * own)
    }),
    ("counts an owner where it answers", |call, store, list| {
        with_operated(call, store, list, |operated, _| operated.count += operated.code)
    }),
    ("names the lowest owner alone", |call, store, list| {
        with_operated(call, store, list, |operated, _| {
            operated.owners &= operated.owners.wrapping_neg();
            operated.count = operated.count.min(1);
        })
    }),
    ("names the one that asks among the owners", |call, store, list| {
        with_operated(call, store, list, |operated, own| {
            if operated.count > 0 {
                operated.owners |= own;
                operated.count += 1;
            }
        })
    }),
    ("counts one owner of more", |call, store, list| {
        with_operated(call, store, list, |operated, _| operated.count = operated.count.min(1))
    }),
    ("has 32 bits for owners", |call, store, list| {
        with_operated(call, store, list, |operated, _| operated.owners &= u64::from(u32::MAX))
    }),
    ("has a start where contents is refused", |call, store, list| {
        let mut served = second(call, store, list);
        if let (Numbers::Part(part), &AnyCall::Contents { object }) = (&mut served.numbers, call) {
            part.start = 67 + 130 * (object % 16);
        }
        served
    }),
    ("hands back the rows of the object before", |call, store, list| match *call {
        AnyCall::Contents { object } if second(call, store, list).numbers.refusal() == 0 => Served {
            rows: second(&AnyCall::Contents { object: object.saturating_sub(1) }, store, list).rows,
            ..second(call, store, list)
        },
        _ => second(call, store, list),
    }),
];

#[test]
fn wrong_desks_are_noticed() {
    let walk = |desk, profile, seed| Walk::run([desk, second], &mut Pass::default(), profile, seed);
    for profile in &PROFILES {
        assert_eq!(walk(second, profile, 0), Ok(()));
    }
    for (what, desk) in WRONG_DESKS.into_iter().chain(WRONG_WITH_BATCHES).chain(WRONG_AT_FINISH) {
        let mut walks = (0..FEWEST_WALKS).flat_map(|seed| PROFILES.iter().map(move |profile| (profile, seed)));
        let noticed = walks.find_map(|(profile, seed)| walk(desk, profile, seed).err());
        let noticed = noticed.unwrap_or_else(|| panic!("not noticed: one that {what}"));
        assert!(!noticed.contains("panics"), "one that {what}: {noticed}");
    }
}

//! Random call lists made for contention. After every call: demand 3 by the serial history, the reply by the protocol
//! in the paper's words, soundness, ranks in order of finishing, nobody pseudo-committed where nobody is active, and
//! nothing touched by a refusal or a wait.

mod common;

use std::collections::{BTreeMap, BTreeSet};
use std::io::{self, Write};
use std::thread;

use common::draws::Draws;
use common::{
    assert_same_words, entry_word, kind_word, line_of, protocol, row_count_word, row_word, shown, sixteen, status_word,
    Scheduler, LOG_LIMIT, WORDS,
};
use reference::call::Call;
use reference::calls::{contents, contents_count, operate};
use reference::history::History;
use reference::soundness::sound;
use reference::{Answer, Outcome, Refusal, Reply};

/// What a call list is drawn from.
struct Profile {
    name: &'static str,
    kinds: &'static [u8],
    transactions: usize,
    keys: usize,
    /// Begin, operate, batch, finish, cancel.
    weights: [usize; 5],
    /// Of a hundred operations, how many push or insert.
    adding: usize,
    /// Of a hundred calls, how many have arguments from anywhere.
    wild: usize,
    calls: usize,
    lists: u64,
}

const PROFILES: [Profile; 10] = [
    Profile {
        name: "stacks, for cycles",
        kinds: &[1, 1, 1],
        transactions: 5,
        keys: 3,
        weights: [25, 60, 10, 13, 2],
        adding: 90,
        wild: 2,
        calls: 80,
        lists: 2400,
    },
    Profile {
        name: "one object of each kind",
        kinds: &[1, 2, 3],
        transactions: 6,
        keys: 3,
        weights: [25, 60, 12, 11, 4],
        adding: 50,
        wild: 4,
        calls: 100,
        lists: 1800,
    },
    Profile {
        name: "tables",
        kinds: &[3, 3],
        transactions: 8,
        keys: 2,
        weights: [25, 62, 12, 10, 3],
        adding: 35,
        wild: 2,
        calls: 100,
        lists: 1000,
    },
    Profile {
        name: "sets",
        kinds: &[2, 2],
        transactions: 7,
        keys: 3,
        weights: [25, 60, 12, 12, 3],
        adding: 50,
        wild: 2,
        calls: 100,
        lists: 750,
    },
    Profile {
        name: "numbers used again",
        kinds: &[1, 2, 3],
        transactions: 2,
        keys: 2,
        weights: [30, 45, 10, 18, 7],
        adding: 40,
        wild: 2,
        calls: 120,
        lists: 750,
    },
    Profile {
        name: "bad arguments",
        kinds: &[1, 0, 2, 0, 3],
        transactions: 6,
        keys: 3,
        weights: [25, 60, 20, 10, 5],
        adding: 50,
        wild: 60,
        calls: 100,
        lists: 500,
    },
    Profile {
        name: "batches",
        kinds: &[1, 2, 3, 2],
        transactions: 5,
        keys: 5,
        weights: [25, 10, 60, 14, 5],
        adding: 40,
        wild: 4,
        calls: 80,
        lists: 700,
    },
    Profile {
        name: "many live",
        kinds: &[1, 2, 3, 1],
        transactions: 64,
        keys: 6,
        weights: [30, 50, 10, 18, 2],
        adding: 60,
        wild: 1,
        calls: 250,
        lists: 200,
    },
    Profile {
        name: "full objects",
        kinds: &[1, 2, 3],
        transactions: 4,
        keys: 100,
        weights: [12, 60, 30, 1, 0],
        adding: 92,
        wild: 1,
        calls: 400,
        lists: 100,
    },
    Profile {
        name: "full log",
        kinds: &[1, 2, 3, 1, 2, 3, 1, 2, 3, 1, 2, 3, 1, 2, 3],
        transactions: 5,
        keys: 40,
        weights: [9, 15, 75, 1, 0],
        adding: 50,
        wild: 1,
        calls: 600,
        lists: 40,
    },
];

/// Where more are live, so many sets of them are drawn to be dropped.
const ALL_SETS_UP_TO: usize = 8;
const SETS_DRAWN: usize = 16;

const CIRCLE_WITH_COMMITS: &str = "circle that commits others";
const CASCADE: &str = "two or more others committed";
const WAIT_FOR_SEVERAL: &str = "wait for two or more";
const WAIT_FOR_PSEUDO_COMMITTED: &str = "wait for a pseudo-committed one";
const WAIT_FOR_TRANSACTION_63: &str = "wait for transaction 63";
const EMPTY_BATCH: &str = "empty batch answered";
const SEVERAL_ANSWERED: &str = "batch of several answered";
const SIXTEEN_ANSWERED: &str = "batch of sixteen answered";
const OWNERS_JOINED: &str = "batch that joins owners";
const LATE_WAIT: &str = "batch whose first would not wait";
const LATE_10: &str = "batch whose first has no 10";
const LATE_11: &str = "batch whose first has no 11";
const LATE_OWN: &str = "batch whose first has no 8 or 9";

/// The rows of the table that the run prints; each must occur often enough.
const ROWS: [&str; 32] = [
    "ok",
    "answer",
    "wait",
    "finished",
    "committed",
    "circle",
    "cancelled",
    "refused 1",
    "refused 2",
    "refused 3",
    "refused 4",
    "refused 5",
    "refused 6",
    "refused 7",
    "refused 8",
    "refused 9",
    "refused 10",
    "refused 11",
    "refused 12",
    CIRCLE_WITH_COMMITS,
    CASCADE,
    WAIT_FOR_SEVERAL,
    WAIT_FOR_PSEUDO_COMMITTED,
    WAIT_FOR_TRANSACTION_63,
    EMPTY_BATCH,
    SEVERAL_ANSWERED,
    SIXTEEN_ANSWERED,
    OWNERS_JOINED,
    LATE_WAIT,
    LATE_10,
    LATE_11,
    LATE_OWN,
];
const FIRST_REFUSAL_ROW: usize = 7;
const OFTEN_ENOUGH: u64 = 100;

/// How often each row occurred.
#[derive(Default)]
struct Tally(BTreeMap<&'static str, u64>);

impl Tally {
    fn of(&self, row: &str) -> u64 {
        self.0.get(row).copied().unwrap_or(0)
    }

    fn add(&mut self, row: &'static str, times: u64) {
        *self.0.entry(row).or_default() += times;
    }

    fn count(&mut self, outcome: Outcome) {
        let (row, others) = match outcome {
            Ok(Reply::Ok) => ("ok", 0),
            Ok(Reply::Answer { .. } | Reply::Answers(_)) => ("answer", 0),
            Ok(Reply::Wait { .. }) => ("wait", 0),
            Ok(Reply::Finished) => ("finished", 0),
            Ok(Reply::Committed { count }) => ("committed", count - 1),
            Ok(Reply::Circle { count }) => ("circle", count),
            Ok(Reply::Cancelled { count }) => ("cancelled", count),
            Err(refusal) => (ROWS[FIRST_REFUSAL_ROW + refusal.number() as usize - 1], 0),
        };
        self.add(row, 1);
        self.add(CIRCLE_WITH_COMMITS, u64::from(row == "circle" && others > 0));
        self.add(CASCADE, u64::from(others >= 2));
    }
}

/// How many transactions stand in the list.
fn listed_count(outcome: Outcome) -> usize {
    match outcome {
        Ok(Reply::Committed { count } | Reply::Circle { count } | Reply::Cancelled { count }) => count,
        _ => 0,
    }
}

/// Whether store and history are the same after a call as before.
fn changes_nothing(outcome: Outcome) -> bool {
    matches!(outcome, Err(_) | Ok(Reply::Wait { .. }))
}

/// Makes a call, and checks what it says by the protocol, that the list keeps its bytes past the count, and that a
/// refusal or a wait leaves the store as it was.
fn serve_checked(call: &Call, store: &mut [u32], list: &mut [u8]) -> Outcome {
    let (store_before, list_before) = (store.to_vec(), list.to_vec());
    let outcome = call.serve(store, list);
    let expected = protocol::expected(&store_before, call, list.len());
    let said = shown(outcome, list);
    assert!(said == expected || expected == "answer" && said.starts_with("answer "), "{said}, not {expected}");
    let count = listed_count(outcome);
    assert_eq!(list[count..], list_before[count..], "the list past the count");
    if changes_nothing(outcome) {
        assert_same_words(store, &store_before);
    }
    outcome
}

/// Makes a batch's operations singly, each after the one before, up to the first that isn't answered; asserts that this
/// agrees with what was said to the batch, and says what was said to the operations.
fn serve_singly(call: &Call, outcome: Outcome, before: &[u32], after: &[u32]) -> Vec<Outcome> {
    let (transaction, operations) = match call {
        Call::Batch { transaction, operations } => (*transaction, operations),
        _ => return Vec::new(),
    };
    let mut store = before.to_vec();
    let mut said = Vec::new();
    for words in operations.chunks_exact(4) {
        said.push(operate(&mut store, transaction, words[0], words[1], words[2], words[3]));
        if !matches!(said.last(), Some(Ok(Reply::Answer { .. }))) {
            break;
        }
    }
    if let Ok(Reply::Answers(answers)) = outcome {
        let answers = answers.as_slice().iter().map(|&Answer { code, value }| Ok(Reply::Answer { code, value }));
        assert!(answers.eq(said.iter().copied()), "singly: {said:?}");
        assert_same_words(after, &store);
    } else if let Some(&last) = said.last() {
        assert!(agree(outcome, last), "singly: {said:?}");
    }
    said
}

/// Whether what is said to a batch that isn't answered goes with what is said to the first of its operations that isn't
/// when each is made singly.
fn agree(batch: Outcome, single: Outcome) -> bool {
    let full_or_wait = matches!(single, Err(Refusal::LogFull | Refusal::RowsFull) | Ok(Reply::Wait { .. }));
    match (batch, single) {
        (Ok(Reply::Wait { owners: joined, .. }), Ok(Reply::Wait { owners, .. })) => owners & !joined == 0,
        (Err(Refusal::Operations), _) => true,
        (Err(Refusal::LogFull | Refusal::RowsFull), _) => full_or_wait,
        (Err(Refusal::Object | Refusal::Operation), _) => full_or_wait || batch == single,
        _ => batch == single,
    }
}

/// The calls of a list that were not refused, and the one being made; printed when a check fails.
struct Trail {
    profile: &'static str,
    seed: u64,
    calls: Vec<Call>,
    list_length: usize,
}

impl Drop for Trail {
    fn drop(&mut self) {
        if thread::panicking() {
            let lines: Vec<String> = self.calls.iter().map(line_of).collect();
            let Trail { profile, seed, list_length, .. } = self;
            eprintln!("profile {profile:?}, seed {seed}; the last call with a list of {list_length}:");
            eprintln!("{}", lines.join("\n"));
        }
    }
}

/// A call list being made.
struct Run<'a> {
    profile: &'a Profile,
    draws: Draws,
    store: Vec<u32>,
    history: History,
    /// Pseudo-committed, in order of finishing.
    finished: Vec<u32>,
    trail: Trail,
    tally: Tally,
}

fn run_list(profile: &'static Profile, seed: u64) -> Tally {
    let kinds = sixteen(profile.kinds);
    let calls = vec![Call::SetUp { kinds: kinds.clone() }];
    let mut run = Run {
        profile,
        draws: Draws::new(seed),
        store: Scheduler::of(&kinds).store,
        history: History::new(&kinds),
        finished: Vec::new(),
        trail: Trail { profile: profile.name, seed, calls, list_length: 0 },
        tally: Tally::default(),
    };
    run.check();
    for _ in 0..profile.calls {
        run.make_call();
        if run.draws.percent(15) {
            run.try_copy();
        }
    }
    run.tally
}

impl Run<'_> {
    fn make_call(&mut self) {
        let call = self.draw_call();
        let mut list = self.draw_list();
        self.trail.calls.push(call.clone());
        self.trail.list_length = list.len();

        let before = self.store.clone();
        let outcome = serve_checked(&call, &mut self.store, &mut list);
        self.tally.count(outcome);
        self.count_owners(outcome);
        self.count_batch(&call, outcome, &serve_singly(&call, outcome, &before, &self.store));
        let listed = &list[..listed_count(outcome)];
        let mut transactions = listed.iter().copied().map(u32::from);
        assert!(transactions.all(|transaction| self.history.live().contains(&transaction)), "not live: {listed:?}");
        self.note_finishing(&call, outcome, listed);
        self.history.record(&call, outcome, &list);
        if changes_nothing(outcome) {
            self.trail.calls.pop(); // what was checked before holds of the same store and history still
        } else {
            self.check();
        }
    }

    /// Counts what is told of the owners that a wait names.
    fn count_owners(&mut self, outcome: Outcome) {
        if let Ok(Reply::Wait { owners, count }) = outcome {
            let named = |&transaction: &u32| owners >> transaction & 1 == 1;
            self.tally.add(WAIT_FOR_SEVERAL, u64::from(count >= 2));
            self.tally.add(WAIT_FOR_PSEUDO_COMMITTED, u64::from(self.finished.iter().any(named)));
            self.tally.add(WAIT_FOR_TRANSACTION_63, u64::from(named(&63)));
        }
    }

    /// Counts what is told of a batch, whose operations were told so when made singly.
    fn count_batch(&mut self, call: &Call, outcome: Outcome, singly: &[Outcome]) {
        let joined = matches!((outcome, singly.last()), (Ok(Reply::Wait { .. }), Some(&last)) if last != outcome);
        self.tally.add(OWNERS_JOINED, u64::from(joined));
        let row = match (call, outcome) {
            (Call::Batch { .. }, Ok(Reply::Answers(answers))) => match answers.as_slice().len() {
                0 => EMPTY_BATCH,
                1 => return,
                16 => SIXTEEN_ANSWERED,
                _ => SEVERAL_ANSWERED,
            },
            (Call::Batch { .. }, Ok(Reply::Wait { .. })) if singly.len() > 1 => LATE_WAIT,
            (Call::Batch { .. }, Err(Refusal::LogFull)) if singly.len() > 1 => LATE_10,
            (Call::Batch { .. }, Err(Refusal::RowsFull)) if singly.len() > 1 => LATE_11,
            (Call::Batch { .. }, Err(Refusal::Object | Refusal::Operation)) if singly.len() > 1 => LATE_OWN,
            _ => return,
        };
        self.tally.add(row, 1);
    }

    /// Keeps the pseudo-committed ones in order of finishing.
    fn note_finishing(&mut self, call: &Call, outcome: Outcome, listed: &[u8]) {
        if let (&Call::Finish { transaction }, Ok(Reply::Finished)) = (call, outcome) {
            self.finished.push(transaction);
        }
        self.finished.retain(|&transaction| !listed.contains(&(transaction as u8)));
    }

    fn check(&mut self) {
        assert!(sound(&self.store), "unsound");
        self.check_statuses();
        self.check_history();
    }

    fn check_statuses(&self) {
        let statuses = &self.store[status_word(0)..=status_word(63)];
        let active = statuses.contains(&1);
        assert!(active || statuses.iter().all(|&status| status == 0), "pseudo-committed ones, none active");
        let live = (0..64).filter(|&transaction| statuses[transaction as usize] != 0);
        assert!(live.eq(self.history.live().iter().copied()), "live by the store, and by the history");
        assert_eq!(protocol::pseudo_committed(&self.store), self.finished, "in order of finishing");
    }

    /// Demand 3 in its three parts.
    fn check_history(&mut self) {
        let committed = self.history.serve_committed().unwrap_or_else(|altered| panic!("committed: {altered}"));
        for object in (0..16).filter(|&object| self.store[kind_word(object as usize)] != 0) {
            let rows = committed.rows(object);
            assert_eq!(contents(&self.store, object), rows, "contents of object {object}");
            assert_eq!(contents_count(&self.store, object), Ok(rows.len() / 2), "count of object {object}");
        }
        for dropped in self.sets_to_drop() {
            let served = self.history.serve_dropping(&committed, &dropped);
            served.unwrap_or_else(|altered| panic!("dropping {dropped:?}: {altered}"));
        }
    }

    /// Every set of live transactions, or some where there are many.
    fn sets_to_drop(&mut self) -> Vec<BTreeSet<u32>> {
        let live: Vec<u32> = self.history.live().iter().copied().collect();
        let draws = &mut self.draws;
        if live.len() <= ALL_SETS_UP_TO {
            let chosen = |bits: usize| (0..live.len()).filter(move |index| bits >> index & 1 == 1);
            (0..1 << live.len()).map(|bits| chosen(bits).map(|index| live[index]).collect()).collect()
        } else {
            (0..SETS_DRAWN).map(|_| live.iter().copied().filter(|_| draws.percent(50)).collect()).collect()
        }
    }

    /// Makes a call, outside the history, on a copy that is cut or lengthened, or has words changed at random.
    fn try_copy(&mut self) {
        let mut copy = self.store.clone();
        if self.draws.percent(50) {
            copy.resize(self.draw_length(), 0);
        } else {
            self.damage(&mut copy);
        }
        let was_sound = sound(&copy);
        let outcome = serve_checked(&self.draw_call(), &mut copy, &mut self.draw_list());
        if let Err(Refusal::StoreLength | Refusal::Unsound) = outcome {
            self.tally.count(outcome); // the others are counted in the call lists alone
        }
        assert_eq!(sound(&copy), was_sound, "sound after the call, and before");
        let object = self.draw_anything();
        assert_eq!(contents(&copy, object).len(), 2 * contents_count(&copy, object).unwrap_or(0));
    }

    fn draw_length(&mut self) -> usize {
        match self.draws.below(4) {
            0 => self.draws.below(WORDS),
            1 => WORDS + 1 + self.draws.below(WORDS),
            _ => self.draws.pick(&[0, 1, 64, 65, WORDS - 1, WORDS + 1]),
        }
    }

    fn damage(&mut self, words: &mut [u32]) {
        for _ in 0..1 + self.draws.below(3) {
            let index = self.draw_index();
            words[index] = self.draw_damage(words[index]);
        }
    }

    fn draw_list(&mut self) -> Vec<u8> {
        let length = if self.draws.percent(95) { 64 + self.draws.below(17) } else { self.draws.below(64) };
        let byte = self.draws.word() as u8;
        (0..length).map(|place| byte.wrapping_add(place as u8)).collect()
    }

    fn draw_call(&mut self) -> Call {
        if self.draws.percent(2) {
            return self.draw_refused_set_up();
        }
        let call = match self.draws.weighted(&self.profile.weights) {
            0 => Call::Begin { transaction: self.draw_transaction(0) },
            1 => self.draw_operation(),
            2 => self.draw_batch(),
            3 => Call::Finish { transaction: self.draw_transaction(1) },
            _ => Call::Cancel { transaction: self.draw_transaction(1) },
        };
        if self.draws.percent(self.profile.wild) {
            self.made_wild(call)
        } else {
            call
        }
    }

    /// A transaction, mostly one of the status given.
    fn draw_transaction(&mut self, status: u32) -> u32 {
        let fitting: Vec<usize> = (0..self.profile.transactions)
            .filter(|&transaction| self.store[status_word(transaction)] == status)
            .collect();
        let transaction = if fitting.is_empty() || self.draws.percent(10) {
            self.draws.below(self.profile.transactions)
        } else {
            self.draws.pick(&fitting)
        };
        transaction as u32
    }

    fn draw_operation(&mut self) -> Call {
        let transaction = self.draw_transaction(1);
        let [object, operation, key, value] = self.draw_words();
        Call::Operate { transaction, object, operation, key, value }
    }

    /// A batch, mostly a short one.
    fn draw_batch(&mut self) -> Call {
        let transaction = self.draw_transaction(1);
        let count = match self.draws.below(20) {
            0 => 0,
            1 => 16,
            2 | 3 => 1 + self.draws.below(16),
            _ => 1 + self.draws.below(4),
        };
        Call::Batch { transaction, operations: (0..count).flat_map(|_| self.draw_words()).collect() }
    }

    /// An operation with its object, key and value.
    fn draw_words(&mut self) -> [u32; 4] {
        let object = self.draws.below(self.profile.kinds.len());
        let operation = self.draw_operation_of(self.profile.kinds[object]);
        let mark = if self.draws.percent(25) { self.draws.word() << 24 } else { 0 };
        let key = self.draws.below(self.profile.keys) as u32 | mark;
        let value = self.draws.below(4) as u32;
        [object as u32, operation, key, value]
    }

    fn draw_operation_of(&mut self, kind: u8) -> u32 {
        let (adding, others): (u32, &[u32]) = match kind {
            1 => (1, &[2, 3]),
            2 => (4, &[5, 6]),
            _ => (7, &[8, 9, 10, 11]),
        };
        if self.draws.percent(self.profile.adding) {
            adding
        } else {
            self.draws.pick(others)
        }
    }

    fn draw_refused_set_up(&mut self) -> Call {
        let mut kinds: Vec<u8> = (0..16).map(|_| self.draws.below(4) as u8).collect();
        if self.draws.percent(50) {
            kinds[self.draws.below(16)] = 4 + self.draws.below(252) as u8;
        } else {
            kinds.resize(self.draws.pick(&[0, 1, 15, 17, 32]), 0);
        }
        Call::SetUp { kinds }
    }

    /// The call with some of its arguments from anywhere.
    fn made_wild(&mut self, mut call: Call) -> Call {
        match &mut call {
            Call::SetUp { .. } => {}
            Call::Begin { transaction } | Call::Finish { transaction } | Call::Cancel { transaction } => {
                *transaction = self.draw_anything();
            }
            Call::Operate { transaction, object, operation, key, value } => {
                self.make_wild(25, [transaction, object, operation, key, value]);
            }
            Call::Batch { transaction, operations } => {
                self.make_wild(10, [transaction]);
                self.make_wild(5, operations.iter_mut());
                if self.draws.percent(30) {
                    operations.resize(self.draws.below(80), 1);
                }
            }
        }
        call
    }

    /// Has each of the arguments come from anywhere, with such a chance.
    fn make_wild<'a>(&mut self, chance: usize, arguments: impl IntoIterator<Item = &'a mut u32>) {
        for argument in arguments {
            if self.draws.percent(chance) {
                *argument = self.draw_anything();
            }
        }
    }

    fn draw_anything(&mut self) -> u32 {
        match self.draws.below(3) {
            0 => self.draws.below(20) as u32,
            1 => self.draws.pick(&[15, 16, 63, 64, 65, 255, 256, 257, 1 << 24, u32::MAX]),
            _ => self.draws.word(),
        }
    }

    /// A word of the store, mostly one in use.
    fn draw_index(&mut self) -> usize {
        let object = self.draws.below(self.profile.kinds.len());
        match self.draws.below(8) {
            0 => 0,
            1 => status_word(self.draws.below(self.profile.transactions)),
            2 => kind_word(object),
            3 => row_count_word(object),
            4 => row_word(object, 0) + self.draws.below(2 + 2 * self.store[row_count_word(object)] as usize).min(127),
            5 | 6 => entry_word(0) + self.draws.below(7 * (self.store[0] as usize + 1).min(LOG_LIMIT)),
            _ => self.draws.below(WORDS),
        }
    }

    fn draw_damage(&mut self, word: u32) -> u32 {
        match self.draws.below(5) {
            0 => word.wrapping_add(1),
            1 => word.wrapping_sub(1),
            2 => word ^ 1 << self.draws.below(32),
            3 => self.store[self.draws.below(WORDS)],
            _ => self.draw_anything(),
        }
    }
}

/// Makes every call list, divided among threads.
fn run_all() -> Tally {
    let lists: Vec<(&'static Profile, u64)> =
        PROFILES.iter().flat_map(|profile| (0..profile.lists).map(move |seed| (profile, seed))).collect();
    let threads = thread::available_parallelism().map_or(2, usize::from);
    let mut total = Tally::default();
    thread::scope(|scope| {
        let share = |first| lists.iter().skip(first).step_by(threads);
        let workers: Vec<_> = (0..threads)
            .map(|first| scope.spawn(move || share(first).map(|&(profile, seed)| run_list(profile, seed)).collect()))
            .collect();
        for worker in workers {
            let tallies: Vec<Tally> = worker.join().expect("a call list failed; see above");
            tallies.into_iter().flat_map(|tally| tally.0).for_each(|(row, count)| total.add(row, count));
        }
    });
    total
}

/// Prints past the test harness, which would keep the table to itself.
fn print_table(tally: &Tally) -> io::Result<()> {
    let mut stderr = io::stderr().lock();
    writeln!(stderr, "\nrandom call lists: {}", PROFILES.iter().map(|profile| profile.lists).sum::<u64>())?;
    ROWS.iter().try_for_each(|row| writeln!(stderr, "{row:<32}{:>10}", tally.of(row)))
}

#[test]
fn random_call_lists_serve_as_their_serial_histories() {
    let tally = run_all();
    print_table(&tally).expect("standard error takes the table");
    for row in ROWS {
        assert!(tally.of(row) >= OFTEN_ENOUGH, "{row} occurred {} times", tally.of(row));
    }
}

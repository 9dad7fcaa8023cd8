//! Whether words are a sound store, and what finding that out brings to light.

use crate::footprints::{Footprints, Owners};
use crate::layout::{self, ObjectWords, Words, ENTRY_WORDS, KIND, OBJECTS, ROWS, ROWS_START, ROW_COUNT, ROW_WORDS};
use crate::log::{self, Entry};
use crate::operations::{reduced, Answer, Kind, Operation, Request};
use crate::rules::{COMMUTING, RECOVERABLE};
use crate::transactions::{members, only, Dependencies, Statuses, TransactionSet};

/// Whether `words`, of any number and contents, are a sound store.
pub fn sound(words: &[u32]) -> bool {
    <&Words>::try_from(words).map_or(false, |store| Analysis::of(store).is_some())
}

/// What the check of a sound store has computed, for the calls to use.
pub(crate) struct Analysis {
    pub statuses: Statuses,
    pub dependencies: Dependencies,
}

impl Analysis {
    /// None where the store isn't sound.
    pub fn of(store: &Words) -> Option<Analysis> {
        Analysis::with_traces(store, &mut Traces::none())
    }

    /// As `of`, and leaves the traces of the log in `traces`, which has none yet.
    pub fn with_traces(store: &Words, traces: &mut Traces) -> Option<Analysis> {
        let statuses = Statuses::read(layout::statuses(store))?;
        let (log, unused) = log::split(store)?;
        let objects_sound = (0..OBJECTS).all(|object| object_sound(layout::object(store, object)));
        if !objects_sound || !zeros(unused) {
            return None;
        }
        let mut analysis = Analysis { statuses, dependencies: Dependencies::none() };
        if !log.is_empty() {
            analysis.replay(store, log, traces)?;
        }
        analysis.pseudo_commits_sound().then_some(analysis)
    }

    /// Replays a log; none at the first entry that breaks soundness.
    fn replay(&mut self, store: &Words, log: &[u32], traces: &mut Traces) -> Option<()> {
        let Traces { replays, footprints } = traces;
        replays.reserve(OBJECTS);
        let footprints = footprints.insert(Footprints::new(log.len() / ENTRY_WORDS));
        log::read(log).try_for_each(|entry| {
            let entry = entry?;
            let replay = replays.of(store, entry.object);
            let (same_key, unequal) = footprints.enter(&entry, &mut replay.owners);
            self.admit(entry, same_key, unequal, replay)
        })
    }

    /// Replays one entry after those before it, given the owners for its key and those of entries that don't commute
    /// with it since they are not equal; none where it breaks soundness.
    fn admit(
        &mut self,
        entry: Entry,
        same_key: &mut Owners,
        unequal: TransactionSet,
        replay: &mut Replay,
    ) -> Option<()> {
        let Entry { transaction, request, answer, .. } = entry;
        let operation = request.operation;
        let live = self.statuses.live() & only(transaction) != 0;
        if !live || replay.kind() != Some(operation.kind()) || !replay.has_room_for(operation) {
            return None;
        }
        let disallowed = |rules| Owners::disallowed(rules, same_key, &replay.owners);
        let others = !only(transaction);
        let recoverable = disallowed(RECOVERABLE.row(operation)) & others == 0;
        self.dependencies.add(transaction, (disallowed(COMMUTING.row(operation)) | unequal) & others);
        same_key.add(operation, transaction);
        replay.owners.add(operation, transaction);
        (recoverable && replay.run(request) == answer).then_some(())
    }

    /// Whether pseudo-committed transactions form no cycle and each depends on a live one. Since every log entry is
    /// a live transaction's, to depend on anybody is to depend on a live one.
    fn pseudo_commits_sound(&self) -> bool {
        let pseudo_committed = self.statuses.pseudo_committed;
        members(pseudo_committed).all(|transaction| self.dependencies.of(transaction) != 0)
            && !self.dependencies.cyclic(pseudo_committed)
    }
}

/// What the replay of a log leaves behind, for requests to run and be tried against.
pub(crate) struct Traces {
    pub replays: Replays,
    /// None where the log is empty.
    footprints: Option<Footprints>,
}

impl Traces {
    pub fn none() -> Traces {
        Traces { replays: Replays::none(), footprints: None }
    }

    /// The owners of all entries of other transactions on the object that the request isn't recoverable against.
    pub fn conflicting_owners(
        &mut self,
        store: &Words,
        transaction: usize,
        object: usize,
        request: Request,
    ) -> TransactionSet {
        let Traces { replays, footprints } = self;
        let owners = footprints.as_ref().map_or(0, |footprints| {
            let same_key = footprints.get(object, request.key);
            Owners::disallowed(RECOVERABLE.row(request.operation), &same_key, &replays.of(store, object).owners)
        });
        owners & !only(transaction)
    }
}

/// Objects as the log leaves them: those that it touches, copied from the store when first asked for.
pub(crate) struct Replays {
    touched: Vec<Replay>,
    /// Where each object stands among the touched.
    places: [Option<u8>; OBJECTS],
}

impl Replays {
    pub fn none() -> Replays {
        Replays { touched: Vec::new(), places: [None; OBJECTS] }
    }

    /// Makes space for the objects that so many more requests touch.
    pub fn reserve(&mut self, requests: usize) {
        let untouched = OBJECTS - self.touched.len();
        self.touched.reserve_exact(requests.min(untouched));
    }

    #[inline] // into the loop over the log
    pub fn of(&mut self, store: &Words, object: usize) -> &mut Replay {
        let Replays { touched, places } = self;
        let place = *places[object].get_or_insert_with(|| {
            let place = touched.len();
            touched.push(Replay::new(layout::object(store, object)));
            place as u8
        });
        &mut touched[usize::from(place)]
    }
}

/// An object as its rows, its log entries so far and what is run after them leave it.
pub(crate) struct Replay {
    words: ObjectWords,
    /// Rows plus pushes and inserts that ran.
    claimed: usize,
    owners: Owners,
}

impl Replay {
    fn new(object: &ObjectWords) -> Replay {
        Replay { words: *object, claimed: object[ROW_COUNT] as usize, owners: Owners::default() }
    }

    fn kind(&self) -> Option<Kind> {
        Kind::from_number(self.words[KIND])
    }

    /// Whether rows and pushes and inserts before it leave space for what the operation may add.
    pub fn has_room_for(&self, operation: Operation) -> bool {
        !operation.adds() || self.claimed < ROWS
    }

    /// Runs a request of the object's kind that there is room for.
    pub fn run(&mut self, request: Request) -> Answer {
        self.claimed += usize::from(request.operation.adds());
        request.run(&mut self.words)
    }
}

/// Whether an object's kind, row count, rows and unused words are as they must be.
fn object_sound(object: &ObjectWords) -> bool {
    let count = object[ROW_COUNT] as usize;
    if count > ROWS {
        return false;
    }
    let (rows, unused) = object[ROWS_START..].split_at(count * ROW_WORDS);
    let rows_sound = match Kind::from_number(object[KIND]) {
        None => object[KIND] == 0 && count == 0,
        Some(Kind::Stack) => values_zero(rows),
        Some(Kind::Set) => values_zero(rows) && keys_sound(rows),
        Some(Kind::Table) => keys_sound(rows),
    };
    rows_sound && zeros(unused)
}

/// Whether the second word of every row is 0.
fn values_zero(rows: &[u32]) -> bool {
    rows.chunks_exact(ROW_WORDS).fold(0, |all, row| all | row[1]) == 0
}

/// Whether keys are reduced and strictly ascend: each is at least one more than the one before.
fn keys_sound(rows: &[u32]) -> bool {
    let mut keys = rows.chunks_exact(ROW_WORDS).map(|row| row[0]);
    keys.try_fold(0, |least, key| (key >= least && key == reduced(key)).then(|| key + 1)).is_some()
}

/// Whether all words are 0, without a branch for each.
fn zeros(words: &[u32]) -> bool {
    words.iter().fold(0, |all, word| all | word) == 0
}

//! Demand 3 tried from outside: what a program itself has printed, kept as a serial history and served again.

use std::collections::BTreeSet;

use reference::call::Call;
use reference::history::History;
use reference::{Outcome, Refusal, Reply};

use crate::batches::OPERATION;
use crate::common::draws::Draws;
use crate::difference::lines;
use crate::replies::{self, Printed};
use crate::script::{Line, Script};

/// A history is served after every so many lines, besides where it ends.
const SERVED_EVERY: usize = 32;
/// Where more are live, so many sets of them are drawn to be dropped, besides none and all.
const ALL_SETS_UP_TO: usize = 3;
const SETS_DRAWN: usize = 8;

/// How much was served.
#[derive(Clone, Copy, Debug, Default, PartialEq, Eq)]
pub struct Served {
    /// Histories that an accepted set up began.
    pub histories: u64,
    /// How often a history was served, whole or as far as it had come.
    pub times: u64,
    /// Operations answered.
    pub operations: u64,
    /// Sets of live transactions dropped.
    pub sets: u64,
}

impl Served {
    pub fn join(&mut self, other: Served) {
        self.histories += other.histories;
        self.times += other.times;
        self.operations += other.operations;
        self.sets += other.sets;
    }
}

/// What is wrong with an output by itself.
#[derive(Clone, Debug, PartialEq, Eq)]
pub struct Broken {
    /// The index, from 0, of the line of input after which it shows.
    pub line: usize,
    pub what: String,
}

/// Checks that an output has a reply of the paper's to each line of its script, and that the answers in it are those of
/// a serial history. Nothing is compared with another desk.
pub fn check(script: &Script, output: &[u8], seed: u64) -> Result<Served, Broken> {
    let mut desk = PlainDesk::new(seed);
    let mut replies = lines(output);
    for (index, line) in script.lines.iter().enumerate() {
        let taken = match replies.next().and_then(|reply| reply.strip_suffix(b"\n")) {
            Some(reply) => desk.take(line, reply),
            None => Err("no reply that a line feed ends".to_string()),
        };
        let due = (index + 1) % SERVED_EVERY == 0 || index + 1 == script.lines.len();
        let served = taken.and_then(|()| if due { desk.serve() } else { Ok(()) });
        served.map_err(|what| Broken { line: index, what })?;
    }
    match replies.next() {
        Some(_) => Err(Broken { line: script.lines.len(), what: "a reply to no line".to_string() }),
        None => Ok(desk.served),
    }
}

/// The desk that keeps the serial history. It begins as a bare `S` would leave it.
struct PlainDesk {
    history: History,
    draws: Draws,
    served: Served,
}

impl PlainDesk {
    fn new(seed: u64) -> Self {
        PlainDesk { history: History::new(&[]), draws: Draws::new(seed), served: Served::default() }
    }

    fn take(&mut self, line: &Line, reply: &[u8]) -> Result<(), String> {
        match (&line.call, replies::read(reply, line.is_batch())) {
            (None, Some(Printed::Unread)) => Ok(()),
            (Some(call), Some(Printed::Said(outcome, list))) if self.fits(call, outcome, &list) => {
                self.enter(call, outcome, &list)
            }
            _ => Err(format!("\"{}\" is no reply to this line here", reply.escape_ascii())),
        }
    }

    fn enter(&mut self, call: &Call, outcome: Outcome, list: &[u8]) -> Result<(), String> {
        if matches!((call, outcome), (Call::SetUp { .. }, Ok(_))) {
            self.serve()?;
            self.served.histories += 1;
        }
        self.served.operations += match outcome {
            Ok(Reply::Answer { .. }) => 1,
            Ok(Reply::Answers(answers)) => answers.as_slice().len() as u64,
            _ => 0,
        };
        self.history.record(call, outcome, list);
        Ok(())
    }

    /// Whether the call has such replies, and those whom this one names are live.
    fn fits(&self, call: &Call, outcome: Outcome, list: &[u8]) -> bool {
        let live = |transaction| self.history.live().contains(&transaction);
        match (call, outcome) {
            (_, Err(Refusal::StoreLength | Refusal::ListLength | Refusal::Unsound | Refusal::Operations)) => false,
            (Call::SetUp { .. }, Ok(Reply::Ok) | Err(Refusal::Kinds)) => true,
            (Call::SetUp { .. }, _) | (_, Err(Refusal::Kinds)) => false,
            (_, Err(_)) => true,
            (&Call::Begin { transaction }, Ok(Reply::Ok)) => transaction < 64 && !live(transaction),
            (&Call::Operate { transaction, .. }, Ok(Reply::Answer { .. })) => live(transaction),
            (Call::Batch { transaction, operations }, Ok(Reply::Answers(answers))) => {
                live(*transaction) && operations.len() == OPERATION * answers.as_slice().len()
            }
            (Call::Batch { operations, .. }, Ok(Reply::Wait { .. })) if operations.is_empty() => false,
            (&Call::Operate { transaction, .. } | &Call::Batch { transaction, .. }, Ok(Reply::Wait { owners, .. })) => {
                let mut owners = (0..64).filter(|owner| owners >> owner & 1 == 1);
                live(transaction) && owners.all(|owner| live(owner) && owner != transaction)
            }
            (&Call::Finish { transaction }, Ok(Reply::Finished)) => live(transaction),
            (&Call::Finish { transaction }, Ok(Reply::Committed { .. })) => {
                list.first().map(|&first| u32::from(first)) == Some(transaction) && self.may_commit(list)
            }
            (&Call::Finish { transaction }, Ok(Reply::Circle { .. }))
            | (&Call::Cancel { transaction }, Ok(Reply::Cancelled { .. })) => {
                live(transaction) && self.may_commit(&[&[transaction as u8], list].concat())
            }
            _ => false,
        }
    }

    /// Whether those who end are live, each named once.
    fn may_commit(&self, list: &[u8]) -> bool {
        let named: BTreeSet<u32> = list.iter().copied().map(u32::from).collect();
        named.len() == list.len() && named.is_subset(self.history.live())
    }

    /// Serves the committed ones alone, and then with the live ones but for those dropped.
    fn serve(&mut self) -> Result<(), String> {
        let committed = self.history.serve_committed().map_err(|altered| format!("committed: {altered}"))?;
        self.served.times += 1;
        for dropped in self.sets_to_drop() {
            let served = self.history.serve_dropping(&committed, &dropped);
            served.map_err(|altered| format!("dropping {dropped:?}: {altered}"))?;
            self.served.sets += 1;
        }
        Ok(())
    }

    /// Every set of live transactions, or none, all and some where there are many.
    fn sets_to_drop(&mut self) -> Vec<BTreeSet<u32>> {
        let live: Vec<u32> = self.history.live().iter().copied().collect();
        let draws = &mut self.draws;
        if live.len() <= ALL_SETS_UP_TO {
            let chosen = |bits: usize| (0..live.len()).filter(move |index| bits >> index & 1 == 1);
            return (0..1 << live.len()).map(|bits| chosen(bits).map(|index| live[index]).collect()).collect();
        }
        let drawn = |chance| live.iter().copied().filter(|_| draws.percent(chance)).collect();
        [0, 100].into_iter().chain([50; SETS_DRAWN]).map(drawn).collect()
    }
}

//! The rows of the table: a call, and the book that it is made on.

use crate::books::{adding, Log, Rewriting, ASKING, INSERT, KINDS, LOOKUP, MODIFIED, MODIFY, NEW, PUSH, TABLE};
use crate::calls::{self, Call};

/// A call on a book.
pub struct Row {
    pub name: String,
    log: Log,
    call: Call,
    /// The code that the reply is to have.
    code: u32,
}

/// A row with its book built.
pub struct Prepared {
    pub call: Call,
    pub book: Vec<u32>,
}

impl Row {
    /// Builds the book, and makes sure that both implementations reply the same and leave the same words and bytes.
    pub fn prepared(&self) -> Prepared {
        let book = self.log.built();
        let outcome = |serve: calls::Serve| {
            let (mut book, mut list) = (book.clone(), [0xA5; 64]);
            (serve(&self.call, &mut book, &mut list), book, list)
        };
        let (one, other) = (outcome(calls::proved), outcome(calls::second));
        assert!(one == other, "{}: the replies are {:?} and {:?}", self.name, one.0, other.0);
        assert_eq!((one.0.refusal, one.0.code), (0, self.code), "{}", self.name);
        if self.is_answered_batch() {
            let singly = outcome(calls::singly);
            assert!(one == singly, "{}: singly the reply is {:?} and not {:?}", self.name, singly.0, one.0);
        }
        Prepared { call: self.call.clone(), book }
    }

    fn is_answered_batch(&self) -> bool {
        matches!(self.call, Call::Batch { .. }) && self.code == 1
    }

    /// Whether the row is one at which a batch is held to its operations made singly.
    pub fn is_for_singles(&self) -> bool {
        self.is_answered_batch() && self.log.entries == 64
    }
}

/// The rows that have `part` in their names.
pub fn named(part: &str) -> impl Iterator<Item = Row> + '_ {
    rows().into_iter().filter(move |row| row.name.contains(part))
}

/// Sixteen operations of the one that asks: on the table an insert, and modifies and lookups that see those before
/// them; on eight other objects a push or insert each. The last may be one that waits.
fn batch(waits: bool) -> Call {
    let table = [INSERT, LOOKUP, MODIFY, LOOKUP, MODIFY, LOOKUP, MODIFY, LOOKUP];
    let on_table = table.into_iter().zip(9..).map(|(operation, value)| [TABLE, operation, NEW, value]);
    let others = (TABLE + 1..).zip(&KINDS[TABLE as usize + 1..]).take(8);
    let others = others.map(|(object, &kind)| [object, adding(kind), NEW, 9]);
    let mut operations: Vec<[u32; 4]> = on_table.chain(others).collect();
    if waits {
        operations[15] = [TABLE, LOOKUP, MODIFIED, 0];
    }
    Call::Batch { handout: ASKING, operations: operations.concat() }
}

/// Each call at each log at which it can get that reply.
fn rows() -> Vec<Row> {
    let operate = |operation, key| Call::Operate { handout: ASKING, object: TABLE, operation, key, value: 9 };
    let calls = [
        ("set up", Call::SetUp { kinds: KINDS }, 0),
        ("begin", Call::Begin { handout: 40 }, 0),
        ("operate, answered", operate(INSERT, NEW), 1),
        ("operate, wait", operate(LOOKUP, MODIFIED), 0),
        ("operate, wait for 63", operate(LOOKUP, MODIFIED), 0),
        ("batch of 16, answered", batch(false), 1),
        ("batch of 16, wait", batch(true), 0),
        ("finish, committed", Call::Finish { handout: 0 }, 3),
        ("finish, finished", Call::Finish { handout: 7 }, 2),
        ("finish, circle", Call::Finish { handout: 0 }, 4),
        ("cancel", Call::Cancel { handout: 0 }, 5),
        ("contents", Call::Contents { object: TABLE }, 0),
    ];
    let mut rows = Vec::new();
    for (name, call, code) in calls {
        let crowded = name == "operate, wait for 63";
        let needs_entries =
            crowded || name.ends_with(", wait") || ["finish, finished", "finish, circle"].contains(&name);
        for (entries, spread) in [(0, false), (64, false), (256, false), (64, true), (256, true)] {
            let entries = match call {
                Call::Operate { .. } => entries.min(255), // at 256 it is refused
                Call::Batch { .. } => entries.min(240),   // and so is this above 240
                _ => entries,
            };
            if entries == 0 && needs_entries || spread && crowded {
                continue;
            }
            let place = match (entries, spread) {
                (0, _) => "empty log".to_string(),
                (_, false) => format!("{entries} on one"),
                (_, true) => format!("{entries} over 16"),
            };
            let log = Log { entries, spread, circle: code == 4, crowded, rewriting: None };
            rows.push(Row { name: format!("{name}, {place}"), log, call: call.clone(), code });
        }
    }
    rows.extend(rewriting_rows());
    rows
}

/// A begin where the log has pushes alone, or modifies, all different or all equal.
fn rewriting_rows() -> impl Iterator<Item = Row> {
    let kinds = [(PUSH, "pushes over 6", 128), (MODIFY, "modifies on one", 256)];
    let both = kinds.into_iter().flat_map(|kind| [(kind, false), (kind, true)]);
    both.map(|((operation, place, entries), equal)| {
        let which = if equal { "equal" } else { "different" };
        let log = Log { entries, rewriting: Some(Rewriting { operation, equal }), ..Log::default() };
        Row { name: format!("begin, {entries} {which} {place}"), log, call: Call::Begin { handout: 40 }, code: 0 }
    })
}

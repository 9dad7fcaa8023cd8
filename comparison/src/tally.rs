//! How often each reply occurred.

use std::collections::BTreeMap;

use reference::call::Call;
use reference::Reply;

use crate::common::graph::{Live, ACTIVE_BETWEEN, CIRCLE, FAR_CIRCLE, SETS_APART};
use crate::difference;
use crate::equals::{self, AFTER_ANOTHER, AFTER_MODIFY, AFTER_PUSH, NO_CIRCLE};
use crate::replies::{self, Printed};
use crate::script::{Line, Script};

const CASCADE: &str = "list with two or more others";
const UNREAD_BATCH: &str = "batch: unread";

/// Every reply that a script can reach, those to batches apart, and the finishes that tell a right test for a circle
/// and right tables from wrong ones. It can't reach 1, 2 and 4: the program lends a whole book and a whole list, and
/// every call leaves a sound book. Nor can it reach 12: too many numbers, or too few, are `unread`.
pub const ROWS: [&str; 45] = [
    "ok",
    "answer, code 0",
    "answer, code 1",
    "wait for one",
    "wait for more than one",
    "committed alone",
    "committed with others",
    "finished",
    "circle alone",
    "circle with others",
    "cancelled alone",
    "cancelled with others",
    CASCADE,
    CIRCLE,
    FAR_CIRCLE,
    ACTIVE_BETWEEN,
    SETS_APART,
    AFTER_PUSH,
    AFTER_MODIFY,
    AFTER_ANOTHER,
    NO_CIRCLE,
    "refused 3",
    "refused 5",
    "refused 6",
    "refused 7",
    "refused 8",
    "refused 9",
    "refused 10",
    "refused 11",
    "unread",
    "batch: no answers",
    "batch: one answer",
    "batch: several answers",
    "batch: wait for one",
    "batch: wait for more than one",
    "batch: wait for more than one, together",
    "batch: refused 5",
    "batch: refused 7",
    "batch: refused 8",
    "batch: refused 9",
    "batch: refused 10",
    "batch: refused 10, together",
    "batch: refused 11",
    "batch: refused 11, together",
    UNREAD_BATCH,
];

#[derive(Clone, Debug, Default)]
pub struct Tally(BTreeMap<String, u64>);

impl Tally {
    pub fn of(&self, row: &str) -> u64 {
        self.0.get(row).copied().unwrap_or(0)
    }

    /// Counts the lines of a script's output; those that cannot be read are left to the checks.
    pub fn count(&mut self, script: &Script, output: &[u8]) {
        let mut live = Live::default();
        for (index, (line, reply)) in script.lines.iter().zip(difference::lines(output)).enumerate() {
            let reply = reply.strip_suffix(b"\n").unwrap_or(reply);
            if let Some(printed) = replies::read(reply, line.is_batch()) {
                self.count_line(line, &printed, script.together.contains(&index));
                self.count_finish(line, &printed, &mut live);
            }
        }
    }

    fn count_line(&mut self, line: &Line, printed: &Printed, together: bool) {
        let of = if line.is_batch() { "batch: " } else { "" };
        let row = format!("{of}{}", row(printed));
        self.add(&row, 1);
        if together {
            self.add(&format!("{row}, together"), 1);
        }
        self.add(CASCADE, u64::from(others(printed) >= 2));
        self.add(UNREAD_BATCH, u64::from(*printed == Printed::Unread && line.bytes.starts_with(b"G ")));
    }

    /// Counts a finish by those who are live, as the lines and replies before tell; then they follow this one.
    fn count_finish(&mut self, line: &Line, printed: &Printed, live: &mut Live) {
        if let (Some(call), Printed::Said(outcome, list)) = (&line.call, printed) {
            if let (&Call::Finish { transaction }, Ok(reply)) = (call, outcome) {
                let [commits, circle] =
                    [matches!(reply, Reply::Committed { .. }), matches!(reply, Reply::Circle { .. })];
                let equals = equals::finishes(live, transaction, commits, circle);
                live.finishes(transaction, circle).chain(equals).for_each(|row| self.add(row, 1));
            }
            live.record(call, *outcome, list);
        }
    }

    pub fn join(&mut self, other: &Tally) {
        other.0.iter().for_each(|(row, &times)| self.add(row, times));
    }

    pub fn add(&mut self, row: &str, times: u64) {
        match self.0.get_mut(row) {
            Some(count) => *count += times,
            None => drop(self.0.insert(row.to_string(), times)),
        }
    }
}

fn row(printed: &Printed) -> String {
    let company = if others(printed) == 0 { "alone" } else { "with others" };
    match *printed {
        Printed::Unread => "unread".to_string(),
        Printed::Said(Err(refusal), _) => format!("refused {}", refusal.number()),
        Printed::Said(Ok(reply), _) => match reply {
            Reply::Ok => "ok".to_string(),
            Reply::Answer { code, .. } => format!("answer, code {code}"),
            Reply::Answers(answers) => answers_row(answers.as_slice().len()).to_string(),
            Reply::Wait { count: 1, .. } => "wait for one".to_string(),
            Reply::Wait { .. } => "wait for more than one".to_string(),
            Reply::Finished => "finished".to_string(),
            Reply::Committed { .. } => format!("committed {company}"),
            Reply::Circle { .. } => format!("circle {company}"),
            Reply::Cancelled { .. } => format!("cancelled {company}"),
        },
    }
}

/// The row of so many answers to a batch.
pub fn answers_row(count: usize) -> &'static str {
    match count {
        0 => "no answers",
        1 => "one answer",
        _ => "several answers",
    }
}

/// How many transactions were committed because another ended.
fn others(printed: &Printed) -> usize {
    match *printed {
        Printed::Said(Ok(Reply::Committed { count }), _) => count.saturating_sub(1),
        Printed::Said(Ok(Reply::Circle { count } | Reply::Cancelled { count }), _) => count,
        _ => 0,
    }
}

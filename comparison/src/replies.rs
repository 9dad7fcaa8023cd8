//! Replies as a program prints them, read to the letter.

use reference::{Answer, Answers, Outcome, Refusal, Reply};

use crate::common::{shown, BATCH_LIMIT};

/// Every reason for saying no.
const REFUSALS: [Refusal; 12] = [
    Refusal::StoreLength,
    Refusal::ListLength,
    Refusal::Kinds,
    Refusal::Unsound,
    Refusal::TransactionNumber,
    Refusal::Live,
    Refusal::NotActive,
    Refusal::Object,
    Refusal::Operation,
    Refusal::LogFull,
    Refusal::RowsFull,
    Refusal::Operations,
];

/// What a line of output says of its line of input.
#[derive(Clone, Debug, PartialEq, Eq)]
pub enum Printed {
    Unread,
    /// An outcome, with the transactions that stand after it where it counts some.
    Said(Outcome, Vec<u8>),
}

/// Reads a line of output without its line feed, printed for a batch or not; none where it is not, byte by byte, one
/// that the paper has.
pub fn read(line: &[u8], batch: bool) -> Option<Printed> {
    let line = std::str::from_utf8(line).ok()?;
    if line == "unread" {
        return Some(Printed::Unread);
    }
    let mut words = line.split(' ');
    let word = words.next()?;
    let numbers: Vec<u32> = words.map(|number| number.parse().ok()).collect::<Option<_>>()?;
    let outcome = outcome(word, &numbers, batch)?;
    let list = listed(outcome, &numbers)?;
    (shown(outcome, &list) == line).then_some(Printed::Said(outcome, list))
}

fn outcome(word: &str, numbers: &[u32], batch: bool) -> Option<Outcome> {
    let count = numbers.len();
    let reply = match (word, numbers) {
        ("refused", &[number]) => return REFUSALS.into_iter().find(|refusal| refusal.number() == number).map(Err),
        ("ok", []) => Reply::Ok,
        ("answer", numbers) if batch => Reply::Answers(answers(numbers)?),
        ("answer", &[code, value]) => Reply::Answer { code, value },
        ("wait", &[count, ref owners @ ..]) => Reply::Wait { owners: owner_set(count, owners)?, count },
        ("finished", []) => Reply::Finished,
        ("committed", _) => Reply::Committed { count },
        ("circle", _) => Reply::Circle { count },
        ("cancelled", _) => Reply::Cancelled { count },
        _ => return None,
    };
    Some(Ok(reply))
}

/// The answers to a batch; none where there are too many, or a code without its value.
fn answers(numbers: &[u32]) -> Option<Answers> {
    if numbers.len() > 2 * BATCH_LIMIT || numbers.len() % 2 > 0 {
        return None;
    }
    let mut answers = Answers::none();
    numbers.chunks_exact(2).for_each(|pair| answers.push(Answer { code: pair[0], value: pair[1] }));
    Some(answers)
}

/// The owners of a wait as a set; none unless they ascend, are below 64, and are as many as it says, at least one.
fn owner_set(count: u32, owners: &[u32]) -> Option<u64> {
    let ascend = owners.windows(2).all(|pair| pair[0] < pair[1]) && owners.iter().all(|&owner| owner < 64);
    let counted = count > 0 && count as usize == owners.len();
    (ascend && counted).then(|| owners.iter().fold(0, |set, owner| set | 1 << owner))
}

/// The transactions in the list; none where one of them is no byte.
fn listed(outcome: Outcome, numbers: &[u32]) -> Option<Vec<u8>> {
    match outcome {
        Ok(Reply::Committed { .. } | Reply::Circle { .. } | Reply::Cancelled { .. }) => {
            numbers.iter().map(|&number| number.try_into().ok()).collect()
        }
        _ => Some(Vec::new()),
    }
}

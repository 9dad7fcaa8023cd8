//! The serial history by itself: what it keeps, and that it tells when an answer is altered.

mod common;

use std::collections::BTreeSet;

use common::{call_of, Scheduler, Store, WHOLE_CASE};
use reference::calls::contents;
use reference::history::{Altered, History, Objects};
use reference::{Answer, Answers, Outcome, Refusal, Reply};

/// The answers that printed codes and values stand for.
fn answers_of(numbers: &[u32]) -> Answers {
    let mut answers = Answers::none();
    numbers.chunks(2).for_each(|pair| answers.push(Answer { code: pair[0], value: pair[1] }));
    answers
}

/// The outcome and the list of a line's printed reply.
fn outcome_of(line: &str, reply: &str) -> (Outcome, Vec<u8>) {
    let mut words = reply.split(' ');
    let word = words.next().expect("a reply");
    let numbers: Vec<u32> = words.map(|number| number.parse().expect(reply)).collect();
    let count = numbers.len();
    let outcome = match (word, &numbers[..]) {
        ("ok", []) => Ok(Reply::Ok),
        ("answer", numbers) if line.starts_with('G') => Ok(Reply::Answers(answers_of(numbers))),
        ("answer", &[code, value]) => Ok(Reply::Answer { code, value }),
        ("wait", &[count, ref owners @ ..]) => {
            Ok(Reply::Wait { owners: owners.iter().fold(0, |set, owner| set | 1 << owner), count })
        }
        ("finished", []) => Ok(Reply::Finished),
        ("committed", _) => Ok(Reply::Committed { count }),
        ("circle", _) => Ok(Reply::Circle { count }),
        ("cancelled", _) => Ok(Reply::Cancelled { count }),
        ("refused", _) => Err(Refusal::NotActive),
        _ => panic!("no reply: {reply}"),
    };
    let mut list: Vec<u8> = numbers.iter().map(|&number| number as u8).collect();
    list.resize(64, 3);
    (outcome, list)
}

/// The history of a transcript, whether or not a right scheduler would reply so.
fn history_of(transcript: &str) -> History {
    let mut history = History::new(&[]);
    for (line, reply) in common::transcript_lines(transcript) {
        let (outcome, list) = outcome_of(line, reply);
        history.record(&call_of(line), outcome, &list);
    }
    history
}

/// The history of a transcript that the calls reply to so; contents must be what it serves.
fn history_kept(transcript: &str) -> History {
    let mut scheduler = Scheduler::on(Store::zeros());
    scheduler.follow(transcript);
    let history = history_of(transcript);
    let served = history.serve_committed().expect("nothing altered among the committed");
    (0..16).for_each(|object| assert_eq!(contents(&scheduler.store, object), served.rows(object), "object {object}"));
    history
}

fn dropping(history: &History, dropped: &[u32]) -> Result<(), Altered> {
    let committed = history.serve_committed().expect("nothing altered among the committed");
    history.serve_dropping(&committed, &dropped.iter().copied().collect::<BTreeSet<u32>>())
}

fn live(history: &History) -> Vec<u32> {
    history.live().iter().copied().collect()
}

#[test]
fn whole_case_is_kept_and_served() {
    let (before, _) = WHOLE_CASE.split_once("C 2 ").expect("handout 2 is cancelled");
    let history = history_of(before);
    assert_eq!(live(&history), [2]);
    assert_eq!(history.serve_committed().unwrap().rows(0), [7, 0, 9, 0]);
    assert_eq!(dropping(&history, &[]), Ok(()));
    assert_eq!(dropping(&history, &[2]), Ok(()));
    assert_eq!(live(&history_of(WHOLE_CASE)), []);
}

#[test]
fn objects_answer_by_the_paper() {
    let mut objects = Objects::new(&[1, 2, 3]);
    for (object, operation, key, value, answer) in [
        (0, 2, 0, 0, (0, 0)),
        (0, 3, 0, 0, (0, 0)),
        (0, 1, 16_777_221, 0, (1, 0)),
        (0, 3, 0, 0, (1, 16_777_221)),
        (0, 1, 6, 0, (1, 0)),
        (0, 2, 0, 0, (1, 6)),
        (1, 5, 4, 0, (0, 0)),
        (1, 6, 4, 0, (0, 0)),
        (1, 4, 16_777_220, 0, (1, 0)),
        (1, 4, 4, 0, (1, 0)),
        (1, 6, 4, 0, (1, 0)),
        (1, 4, 3, 0, (1, 0)),
        (1, 5, 16_777_219, 0, (1, 0)),
        (2, 11, 5, 1, (0, 0)),
        (2, 8, 5, 0, (0, 0)),
        (2, 9, 5, 0, (0, 0)),
        (2, 10, 0, 0, (1, 0)),
        (2, 7, 5, 50, (1, 0)),
        (2, 7, 16_777_221, 51, (0, 0)),
        (2, 9, 5, 0, (1, 50)),
        (2, 11, 5, 52, (1, 0)),
        (2, 7, 4, 40, (1, 0)),
        (2, 7, 6, 60, (1, 0)),
        (2, 10, 0, 0, (1, 3)),
        (2, 8, 6, 0, (1, 0)),
    ] {
        assert_eq!(objects.serve(object, operation, key, value), Some(answer), "{object} {operation} {key} {value}");
    }
    assert_eq!(objects.rows(0), [16_777_221, 0]);
    assert_eq!(objects.rows(1), [4, 0]);
    assert_eq!(objects.rows(2), [4, 40, 5, 52]);
}

#[test]
fn objects_without_such_an_operation_answer_nothing() {
    let mut objects = Objects::new(&[1, 2, 3, 9]);
    for (object, operation) in [(0, 4), (0, 0), (1, 3), (1, 7), (2, 6), (2, 12), (3, 1), (4, 1), (16, 1), (u32::MAX, 1)]
    {
        assert_eq!(objects.serve(object, operation, 0, 0), None, "{operation} on {object}");
    }
    assert_eq!(objects.rows(16), []);
}

#[test]
fn objects_have_no_limits() {
    let mut objects = Objects::new(&[1]);
    assert!((0..1000).all(|item| objects.serve(0, 1, item, 0) == Some((1, 0))));
    assert_eq!(objects.rows(0).len(), 2000);
}

#[test]
fn answer_that_serial_service_belies_is_told() {
    let history = history_of(
        "S 1          ok
         B 0          ok
         B 1          ok
         I 0 0 1 7 0  answer 1 0
         I 1 0 3 0 0  answer 1 7
         F 1          committed 1
         F 0          committed 0",
    );
    let altered = history.serve_committed().unwrap_err();
    assert_eq!(altered.instead, Some((0, 0)));
    assert_eq!((altered.answered.transaction, altered.answered.operation), (1, 3));
    assert_eq!(altered.to_string(), "I 1 0 3 0 0 was answered 1 7, but gets 0 0");
}

#[test]
fn order_of_commitment_counts_and_not_that_of_answers() {
    let served = |list: &str| {
        let history = history_of(&format!(
            "S 1          ok
             B 0          ok
             B 1          ok
             I 0 0 1 7 0  answer 1 0
             I 1 0 1 8 0  answer 1 0
             I 0 0 1 9 0  answer 1 0
             F 0          committed {list}"
        ));
        assert!(history.live().is_empty());
        history.serve_committed().unwrap().rows(0)
    };
    assert_eq!(served("0 1"), [7, 0, 9, 0, 8, 0]);
    assert_eq!(served("1 0"), [8, 0, 7, 0, 9, 0]);
}

/// 2 commits before those whose equal entries come earlier, 1 must follow 0 for the item 8, and 0 follows nobody.
#[test]
fn equal_entries_commit_in_the_order_of_finishing() {
    let before = "S 1 3           ok
         B 3             ok
         I 3 1 7 12 1    answer 1 0
         F 3             committed 3
         B 0             ok
         B 1             ok
         B 2             ok
         I 0 0 1 7 0     answer 1 0
         I 0 1 11 12 3   answer 1 0
         I 1 0 1 7 0     answer 1 0
         I 2 0 1 7 0     answer 1 0
         I 1 0 1 8 0     answer 1 0
         I 2 1 11 12 3   answer 1 0
         I 2 1 10 0 0    answer 1 1
         F 2             committed 2
         F 1             finished";
    let history = history_kept(before);
    for dropped in [&[][..], &[0], &[1], &[0, 1]] {
        assert_eq!(dropping(&history, dropped), Ok(()), "{dropped:?}");
    }
    let served = |end: &str| history_kept(&format!("{before}\n{end}")).serve_committed().unwrap();
    let committed = served("F 0  committed 0 1");
    assert_eq!((committed.rows(0), committed.rows(1)), (vec![7, 0, 7, 0, 7, 0, 8, 0], vec![12, 3]));
    assert_eq!(served("C 0  cancelled 1").rows(0), [7, 0, 7, 0, 8, 0]);
}

#[test]
fn answer_that_dropping_another_alters_is_told() {
    let history = history_of(
        "S 3           ok
         B 0           ok
         B 1           ok
         B 2           ok
         I 0 0 7 5 50  answer 1 0
         I 1 0 9 6 0   answer 0 0
         I 2 0 9 5 0   answer 1 50",
    );
    assert_eq!(dropping(&history, &[]), Ok(()));
    assert_eq!(dropping(&history, &[1]), Ok(()));
    assert_eq!(dropping(&history, &[0, 2]), Ok(()));
    assert_eq!(dropping(&history, &[0]).unwrap_err().instead, Some((0, 0)));
    assert_eq!(dropping(&history, &[0, 1]).unwrap_err().answered.transaction, 2);
}

#[test]
fn aborted_ones_are_struck_out() {
    for end in ["C 0  cancelled 1", "F 0  circle 1"] {
        let history = history_of(&format!(
            "S 1          ok
             B 0          ok
             B 1          ok
             I 0 0 1 7 0  answer 1 0
             I 1 0 1 8 0  answer 1 0
             F 1          finished
             {end}"
        ));
        assert!(history.live().is_empty());
        assert_eq!(history.serve_committed().unwrap().rows(0), [8, 0]);
    }
}

#[test]
fn waits_refusals_and_finishing_change_nothing() {
    let history = history_of(
        "S 1          ok
         B 0          ok
         B 1          refused 7
         I 0 0 1 7 0  wait 1 1
         I 0 0 2 0 0  wait 3 1 2 63
         I 0 0 1 7 0  refused 7
         S 2          refused 7
         C 0          refused 7
         F 0          finished
         F 0          refused 7",
    );
    assert_eq!(live(&history), [0]);
    assert_eq!(history.serve_committed().unwrap(), Objects::new(&[1]));
}

#[test]
fn batch_is_its_operations_singly_in_order() {
    let singly = history_of(
        "S 1 3            ok
         B 0              ok
         B 1              ok
         I 1 0 1 6 0      answer 1 0
         I 0 0 1 7 0      answer 1 0
         I 0 1 7 5 50     answer 1 0
         I 0 1 9 5 0      answer 1 50
         I 1 1 7 6 60     answer 1 0
         I 1 1 9 6 0      answer 1 60
         F 0              finished
         F 1              committed 1 0",
    );
    let batches = history_of(
        "S 1 3                                        ok
         B 0                                          ok
         B 1                                          ok
         G 1 0 1 6 0                                  answer 1 0
         G 0 0 1 7 0 1 7 16777221 50 1 9 33554437 0   answer 1 0 1 0 1 50
         G 1 1 7 6 60 1 9 6 0                         answer 1 0 1 60
         F 0                                          finished
         F 1                                          committed 1 0",
    );
    let served = batches.serve_committed().unwrap();
    assert_eq!(served, singly.serve_committed().unwrap());
    assert_eq!(served.rows(0), [6, 0, 7, 0]);
    assert_eq!(served.rows(1), [5, 50, 6, 60]);
}

#[test]
fn live_batch_is_dropped_whole_and_its_altered_answer_told() {
    let history = history_of(
        "S 1                    ok
         B 0                    ok
         B 1                    ok
         G 0 0 1 7 0 0 1 8 0    answer 1 0 1 0
         G 1 0 1 9 0 0 2 0 0    answer 1 0 1 9
         G 1 0 3 0 0            answer 1 8",
    );
    assert_eq!(dropping(&history, &[]), Ok(()));
    assert_eq!(dropping(&history, &[1]), Ok(()));
    let altered = dropping(&history, &[0]).unwrap_err();
    assert_eq!(altered.to_string(), "I 1 0 3 0 0 was answered 1 8, but gets 0 0");
}

#[test]
fn answer_within_a_batch_that_serial_service_belies_is_told() {
    let history = history_of(
        "S 2                           ok
         B 0                           ok
         G 0 0 4 4 0 0 5 4 0 0 6 4 0   answer 1 0 1 0 1 0
         F 0                           committed 0",
    );
    let altered = history.serve_committed().unwrap_err();
    assert_eq!(altered.to_string(), "I 0 0 6 4 0 was answered 1 0, but gets 0 0");
}

#[test]
fn batches_empty_waiting_or_refused_change_nothing() {
    let history = history_of(
        "S 1                   ok
         B 0                   ok
         G 0                   answer
         G 0 0 1 7 0 0 2 0 0   wait 2 1 3
         G 0 0 1 7 0 0 2 0 0   refused 7
         F 0                   committed 0",
    );
    assert!(history.live().is_empty());
    assert_eq!(history.serve_committed().unwrap(), Objects::new(&[1]));
}

#[test]
fn number_used_again_is_a_new_transaction() {
    let history = history_of(
        "S 1          ok
         B 0          ok
         I 0 0 1 7 0  answer 1 0
         C 0          cancelled
         B 0          ok
         I 0 0 1 8 0  answer 1 0
         F 0          committed 0
         B 0          ok
         I 0 0 2 0 0  answer 1 8",
    );
    assert_eq!(live(&history), [0]);
    assert_eq!(history.serve_committed().unwrap().rows(0), [8, 0]);
    assert_eq!(dropping(&history, &[]), Ok(()));
}

#[test]
fn accepted_set_up_starts_a_new_history() {
    let history = history_of(
        "S 1          ok
         B 0          ok
         I 0 0 1 7 0  answer 1 0
         F 0          committed 0
         B 1          ok
         S 2          ok",
    );
    assert!(history.live().is_empty());
    assert_eq!(history.serve_committed().unwrap(), Objects::new(&[2]));
}

#[test]
fn answers_of_operations_no_rule_knows_are_altered() {
    let history = history_of(
        "S 1          ok
         B 0          ok
         I 0 1 1 7 0  answer 1 0
         F 0          committed 0",
    );
    assert_eq!(history.serve_committed().unwrap_err().instead, None);
}

//! Each refusal in its order: whichever reasons hold together, the first is given and nothing is touched.

mod common;

use std::ops::RangeInclusive;

use common::{assert_printed, assert_same_words, Scheduler, Store, BLANK, LIST_LENGTH, WORDS};
use reference::call::Call;
use reference::calls::{contents, contents_count};

/// How a store is spoilt.
#[derive(Clone, Copy, Debug, PartialEq, Eq)]
enum Spoilt {
    No,
    /// Its last word is changed.
    Unsound,
    /// So many words are left, or zeros added.
    Length(usize),
    /// Both.
    UnsoundLength(usize),
}

const SPOILT: [Spoilt; 10] = [
    Spoilt::No,
    Spoilt::Unsound,
    Spoilt::Length(0),
    Spoilt::Length(1),
    Spoilt::Length(WORDS - 1),
    Spoilt::Length(WORDS + 1),
    Spoilt::Length(2 * WORDS),
    Spoilt::UnsoundLength(65),
    Spoilt::UnsoundLength(WORDS - 1),
    Spoilt::UnsoundLength(WORDS + 1),
];

impl Spoilt {
    fn store(self, words: &[u32]) -> Vec<u32> {
        let mut words = words.to_vec();
        if matches!(self, Spoilt::Unsound | Spoilt::UnsoundLength(_)) {
            words[WORDS - 1] += 1;
        }
        if let Spoilt::Length(length) | Spoilt::UnsoundLength(length) = self {
            words.resize(length, 0);
        }
        words
    }

    fn has_length(self) -> bool {
        matches!(self, Spoilt::No | Spoilt::Unsound)
    }

    fn is_sound(self) -> bool {
        self == Spoilt::No
    }
}

/// The first reason that applies, of those given in order with whether they do.
fn first_of(reasons: &[(u32, bool)]) -> Option<u32> {
    reasons.iter().find(|&&(_, applies)| applies).map(|&(number, _)| number)
}

/// Makes a call on a store and a list, and asserts the reason it is refused for, and that nothing is touched then.
fn assert_refusal(call: &Call, store: &[u32], list_length: usize, expected: Option<u32>, case: &str) {
    let mut words = store.to_vec();
    let mut list = vec![BLANK; list_length];
    let outcome = call.serve(&mut words, &mut list);
    assert_eq!(outcome.err().map(|refusal| refusal.number()), expected, "{call:?}, {list_length} bytes, {case}");
    if expected.is_some() {
        assert_same_words(&words, store);
        assert_eq!(list, vec![BLANK; list_length]);
    }
}

/// Objects 0 to 2 are a stack, a set and a table, 3 is a stack on which 1 depends on 0, 4 has no kind. 0 is active, 1
/// pseudo-committed, the others absent.
fn scheduler() -> Scheduler {
    let mut scheduler = Scheduler::of(&[1, 2, 3, 1]);
    scheduler.follow(
        "B 0          ok
         B 1          ok
         I 0 3 1 7 0  answer 1 0
         I 1 3 1 8 0  answer 1 0
         F 1          finished",
    );
    scheduler
}

const ACTIVE: u32 = 0;
const PSEUDO_COMMITTED: u32 = 1;
const TRANSACTIONS: [u32; 7] = [ACTIVE, PSEUDO_COMMITTED, 2, 63, 64, 256, u32::MAX];
const OBJECTS_REFUSED: [u32; 6] = [4, 15, 16, 17, 256, u32::MAX];

#[test]
fn numbers_are_those_of_the_paper() {
    use reference::Refusal::*;
    let refusals = [
        StoreLength,
        ListLength,
        Kinds,
        Unsound,
        TransactionNumber,
        Live,
        NotActive,
        Object,
        Operation,
        LogFull,
        RowsFull,
        Operations,
    ];
    assert!(refusals.into_iter().map(|refusal| refusal.number()).eq(1..=12));
}

#[test]
fn set_up_tries_1_3() {
    let scheduler = scheduler();
    let kinds = |length: usize, odd: u8| {
        let mut kinds = vec![1; length];
        if let Some(last) = kinds.last_mut() {
            *last = odd;
        }
        kinds
    };
    for spoilt in SPOILT {
        let store = spoilt.store(&scheduler.store);
        for length in [0, 1, 15, 16, 17, 64] {
            for odd in [0, 3, 4, 255] {
                let call = Call::SetUp { kinds: kinds(length, odd) };
                let expected = first_of(&[(1, !spoilt.has_length()), (3, length != 16 || odd > 3)]);
                assert_refusal(&call, &store, LIST_LENGTH, expected, &format!("{spoilt:?}"));
            }
        }
    }
}

#[test]
fn begin_tries_1_4_5_6() {
    let scheduler = scheduler();
    for spoilt in SPOILT {
        let store = spoilt.store(&scheduler.store);
        for transaction in TRANSACTIONS {
            let expected = first_of(&[
                (1, !spoilt.has_length()),
                (4, !spoilt.is_sound()),
                (5, transaction > 63),
                (6, transaction == ACTIVE || transaction == PSEUDO_COMMITTED),
            ]);
            assert_refusal(&Call::Begin { transaction }, &store, 0, expected, &format!("{spoilt:?}"));
        }
    }
}

#[test]
fn finish_and_cancel_try_1_2_4_5_7() {
    let scheduler = scheduler();
    for spoilt in SPOILT {
        let store = spoilt.store(&scheduler.store);
        for list_length in [0, 1, 63, 64, 65, 80] {
            for transaction in TRANSACTIONS {
                let expected = first_of(&[
                    (1, !spoilt.has_length()),
                    (2, list_length < 64),
                    (4, !spoilt.is_sound()),
                    (5, transaction > 63),
                    (7, transaction != ACTIVE),
                ]);
                for call in [Call::Finish { transaction }, Call::Cancel { transaction }] {
                    assert_refusal(&call, &store, list_length, expected, &format!("{spoilt:?}"));
                }
            }
        }
    }
}

/// A scheduler on which the log, objects 0 to 2, or both are full or not; all by transaction 0.
fn scheduler_filled(log_full: bool, objects_full: bool) -> Scheduler {
    let mut scheduler = scheduler();
    if objects_full {
        (0..3).for_each(|object| scheduler.fill_object(0, object));
    }
    if log_full {
        scheduler.fill_log(0, 0);
    }
    scheduler
}

/// The operation numbers of an object of `scheduler`, and which of them adds.
fn operations(object: u32) -> (RangeInclusive<u32>, u32) {
    match object {
        0 => (1..=3, 1),
        1 => (4..=6, 4),
        _ => (7..=11, 7),
    }
}

#[test]
fn operate_tries_1_4_5_7_8_9_10_11() {
    for (log_full, objects_full) in [(false, false), (false, true), (true, false), (true, true)] {
        let scheduler = scheduler_filled(log_full, objects_full);
        for spoilt in SPOILT {
            let store = spoilt.store(&scheduler.store);
            for transaction in TRANSACTIONS {
                for object in (0..3).chain(OBJECTS_REFUSED) {
                    let (own, adding) = operations(object);
                    for operation in (0..=12).chain([257, 263, u32::MAX]) {
                        let expected = first_of(&[
                            (1, !spoilt.has_length()),
                            (4, !spoilt.is_sound()),
                            (5, transaction > 63),
                            (7, transaction != ACTIVE),
                            (8, object > 3),
                            (9, !own.contains(&operation)),
                            (10, log_full),
                            (11, objects_full && operation == adding),
                        ]);
                        let call = Call::Operate { transaction, object, operation, key: 5, value: 0 };
                        assert_refusal(&call, &store, 0, expected, &format!("{spoilt:?}, log full: {log_full}"));
                    }
                }
            }
        }
    }
}

/// A scheduler whose objects 0 to 2 have space for so many rows more, and whose log for so many entries at most; all by
/// transaction 0.
fn scheduler_with_space(entries: usize, rows: usize) -> Scheduler {
    let mut scheduler = scheduler();
    for object in 0..3 {
        let (_, adding) = operations(object);
        (rows..64).for_each(|key| scheduler.follow(&format!("I 0 {object} {adding} {key} 0  answer 1 0")));
    }
    for _ in scheduler.store[0] as usize..256 - entries {
        scheduler.follow("I 0 1 6 99 0  answer 0 0");
    }
    scheduler
}

/// Batches of two operations out of these: all on one object, one of them perhaps with an 8 or a 9 of its own.
fn pairs_of_operations() -> Vec<[[u32; 4]; 2]> {
    let mut pairs = Vec::new();
    for object in 0..3 {
        let (own, adding) = operations(object);
        let add = [object, adding, 5, 0];
        let look = [object, own.start() + 2, 5, 0];
        let bad_object = [4, adding, 5, 0];
        let bad_operation = [object, 12, 5, 0];
        let each = [add, look, bad_object, bad_operation];
        pairs.extend(each.iter().flat_map(|&first| each.map(|second| [first, second])));
    }
    pairs
}

/// The number of the first operation that has an 8 or a 9 of its own.
fn first_own(pair: &[[u32; 4]]) -> Option<u32> {
    pair.iter().find_map(|&[object, operation, ..]| first_of(&[(8, object > 3), (9, operation == 12)]))
}

#[test]
fn batch_tries_1_4_5_12_7_8_9_10_11() {
    for (entries, rows) in [(2, 2), (2, 1), (1, 2), (1, 1)] {
        let scheduler = scheduler_with_space(entries, rows);
        for spoilt in SPOILT {
            let store = spoilt.store(&scheduler.store);
            for transaction in TRANSACTIONS {
                for pair in pairs_of_operations() {
                    let adds_two = pair[0] == pair[1] && [1, 4, 7].contains(&pair[0][1]);
                    let own = first_own(&pair);
                    for words_more in [0, 1, 2, 3, 57, 60, 64, 1000] {
                        let expected = first_of(&[
                            (1, !spoilt.has_length()),
                            (4, !spoilt.is_sound()),
                            (5, transaction > 63),
                            (12, words_more != 0),
                            (7, transaction != ACTIVE),
                            (own.unwrap_or(8), own.is_some()),
                            (10, entries < 2),
                            (11, rows < 2 && adds_two),
                        ]);
                        let mut operations = pair.concat();
                        operations.resize(8 + words_more, 3);
                        let call = Call::Batch { transaction, operations };
                        assert_refusal(&call, &store, 0, expected, &format!("{spoilt:?}, {entries} entries"));
                    }
                }
            }
        }
    }
}

#[test]
fn empty_batch_tries_1_4_5_7() {
    for full in [false, true] {
        let scheduler = scheduler_filled(full, full);
        for spoilt in SPOILT {
            let store = spoilt.store(&scheduler.store);
            for transaction in TRANSACTIONS {
                let expected = first_of(&[
                    (1, !spoilt.has_length()),
                    (4, !spoilt.is_sound()),
                    (5, transaction > 63),
                    (7, transaction != ACTIVE),
                ]);
                let call = Call::Batch { transaction, operations: Vec::new() };
                assert_refusal(&call, &store, 0, expected, &format!("{spoilt:?}, full: {full}"));
            }
        }
    }
}

/// Every operation has an 8 or a 9 of its own, is answered or would wait; the first 8 or 9 alone counts.
#[test]
fn batch_is_refused_for_the_first_operation_with_an_8_or_9_of_its_own() {
    let mut scheduler = scheduler();
    scheduler.follow("B 2  ok");
    let operations =
        [("0 1 7 0", None), ("3 2 0 0", None), ("4 1 7 0", Some(8)), ("0 4 7 0", Some(9)), ("16 0 0 0", Some(8))];
    for (first, own_first) in operations {
        for (second, own_second) in operations {
            for (third, own_third) in operations {
                let said = scheduler.say(&format!("G 2 {first} {second} {third}"));
                match own_first.or(own_second).or(own_third) {
                    Some(number) => assert_eq!(said, format!("refused {number}"), "{first}, {second}, {third}"),
                    None => assert!(!said.starts_with("refused"), "{first}, {second}, {third}: {said}"),
                }
            }
        }
    }
}

/// One of them would wait, another has a reason of its own, in either order.
#[test]
fn wait_of_a_batch_is_decided_after_all_refusals() {
    let mut scheduler = scheduler();
    scheduler.follow("B 2  ok\n G 2 3 2 0 0  wait 2 0 1");
    scheduler.follow(
        "G 2 3 2 0 0 4 1 0 0   refused 8
         G 2 4 1 0 0 3 2 0 0   refused 8
         G 2 3 2 0 0 0 4 0 0   refused 9
         G 2 0 4 0 0 3 2 0 0   refused 9",
    );
    scheduler_with_space(3, 1).follow(
        "B 2                              ok
         G 2 3 2 0 0                      wait 2 0 1
         G 2 3 2 0 0 1 4 70 0             wait 2 0 1
         G 2 3 2 0 0 1 4 70 0 1 4 71 0    refused 11
         G 2 1 4 70 0 1 4 71 0 3 2 0 0    refused 11
         G 2 1 4 70 0 3 2 0 0 1 4 71 0    refused 11",
    );
    scheduler_with_space(1, 1).follow(
        "B 2                              ok
         G 2 3 2 0 0                      wait 2 0 1
         G 2 3 2 0 0 1 6 70 0             refused 10
         G 2 3 2 0 0 1 4 70 0 1 4 71 0    refused 10
         G 2 1 4 70 0 1 4 71 0 0 12 0 0   refused 9",
    );
}

#[test]
fn contents_and_its_twin_try_1_4_8() {
    let scheduler = scheduler();
    for spoilt in SPOILT {
        let store = spoilt.store(&scheduler.store);
        for object in (0..4).chain(OBJECTS_REFUSED) {
            let expected = first_of(&[(1, !spoilt.has_length()), (4, !spoilt.is_sound()), (8, object > 3)]);
            let count = contents_count(&store, object);
            assert_eq!(count.err().map(|refusal| refusal.number()), expected, "{spoilt:?}, object {object}");
            assert_eq!(contents(&store, object), [], "nothing is committed");
        }
    }
}

#[test]
fn contents_refused_is_empty_though_there_are_rows() {
    let store = Store::of(&[1]).rows(0, &[[7, 0]]).words;
    assert_eq!(contents(&store, 0), [7, 0]);
    for spoilt in SPOILT.into_iter().filter(|&spoilt| spoilt != Spoilt::No) {
        assert_eq!(contents(&spoilt.store(&store), 0), [], "{spoilt:?}");
    }
    assert_eq!(contents(&store, 1), []);
    assert_eq!(contents(&store, 16), []);
}

#[test]
fn wait_is_decided_after_refusal_10() {
    let mut scheduler = scheduler();
    scheduler.follow("B 2  ok\n I 0 0 1 7 0  answer 1 0\n I 2 0 2 0 0  wait 1 0");
    scheduler.fill_log(0, 0);
    scheduler.follow("I 2 0 2 0 0  refused 10");
}

#[test]
fn wait_is_decided_after_refusal_11() {
    let mut scheduler = scheduler();
    scheduler.follow("B 2  ok\n I 0 2 7 5 1  answer 1 0\n I 2 2 7 5 2  wait 1 0");
    scheduler.fill_object(0, 2);
    scheduler.follow("I 2 2 7 5 2  refused 11\n I 2 2 9 5 0  wait 1 0");
}

#[test]
fn refusal_11_holds_where_the_key_is_there() {
    let rows: Vec<[u32; 2]> = (0..64).map(|key| [key, 0]).collect();
    for (kind, insert, look) in [(2, 4, 6), (3, 7, 9)] {
        let mut scheduler = Scheduler::on(Store::of(&[kind]).rows(0, &rows).active(&[0]));
        scheduler.follow(&format!("I 0 0 {insert} 5 0  refused 11"));
        assert!(scheduler.say(&format!("I 0 0 {look} 5 0")).starts_with("answer 1 "));
    }
}

#[test]
fn refusal_11_counts_pushes_and_inserts_whatever_became_of_them() {
    for (kind, add, take) in [(1, 1, 2), (2, 4, 5), (3, 7, 8)] {
        let mut scheduler = Scheduler::of(&[kind]);
        scheduler.follow("B 0  ok\n B 1  ok");
        for _ in 0..32 {
            scheduler.follow(&format!("I 0 0 {add} 5 0  answer 1 0"));
            assert!(scheduler.say(&format!("I 0 0 {take} 5 0")).starts_with("answer 1 "));
        }
        for _ in 0..32 {
            assert!(scheduler.say(&format!("I 1 0 {add} 6 0")).starts_with("answer "));
        }
        scheduler.follow(&format!("I 0 0 {add} 7 0  refused 11\n I 1 0 {add} 8 0  refused 11"));
        scheduler.follow(&format!("C 0  cancelled\n I 1 0 {add} 8 0  answer 1 0"));
    }
}

#[test]
fn refusal_11_ends_when_rows_are_taken_away_and_committed() {
    let mut scheduler = Scheduler::on(Store::of(&[1]).rows(0, &[[7, 0]; 64]).active(&[0]));
    scheduler.follow(
        "I 0 0 1 9 0  refused 11
         I 0 0 2 0 0  answer 1 7
         I 0 0 1 9 0  refused 11
         F 0          committed 0
         B 0          ok
         I 0 0 1 9 0  answer 1 0
         I 0 0 1 9 0  refused 11",
    );
}

#[test]
fn refusal_10_ends_when_entries_leave_the_log() {
    let mut scheduler = scheduler();
    scheduler.follow("B 2  ok\n I 2 1 6 9 0  answer 0 0");
    scheduler.fill_log(0, 0);
    scheduler.follow(
        "I 0 0 3 0 0  refused 10
         C 2          cancelled
         I 0 0 3 0 0  answer 0 0
         I 0 0 3 0 0  refused 10",
    );
}

#[test]
fn refusal_6_ends_with_the_transaction() {
    let mut scheduler = scheduler();
    scheduler.follow("B 0  refused 6\n C 0  cancelled 1\n C 1  refused 7\n B 0  ok\n B 1  ok");
}

#[test]
fn script_reaches_3_and_5_to_9() {
    assert_printed(
        "S 1 2 3 4        refused 3
         S 255            refused 3
         B 0              ok
         I 0 0 1 7 0      refused 8
         S 1 2 3          ok
         B 0              ok
         B 64             refused 5
         I 64 16 0 0 0    refused 5
         G 64 16 0 0 0    refused 5
         G 64             refused 5
         F 64             refused 5
         C 4294967295     refused 5
         B 0              refused 6
         I 1 16 0 0 0     refused 7
         G 1 16 0 0 0     refused 7
         G 1              refused 7
         F 1              refused 7
         C 1              refused 7
         I 0 16 0 0 0     refused 8
         I 0 3 1 0 0      refused 8
         I 0 0 4 0 0      refused 9
         I 0 1 3 0 0      refused 9
         I 0 2 12 0 0     refused 9
         I 0 0 0 0 0      refused 9
         G 0 0 0 0 0      refused 9
         G 0 3 1 0 0      refused 8
         S 1 2 3 255      refused 3
         I 0 0 1 7 0      answer 1 0",
    );
}

#[test]
fn script_reaches_10_and_11() {
    let pushes = "I 0 0 1 7 0  answer 1 0\n".repeat(64);
    let tops = "I 0 0 3 0 0  answer 1 7\n".repeat(192);
    assert_printed(&format!(
        "S 1          ok
         B 0          ok
         {pushes}
         I 0 0 1 7 0  refused 11
         {tops}
         I 0 0 3 0 0  refused 10
         I 0 0 1 7 0  refused 10
         G 0 0 1 7 0  refused 10
         G 0          answer
         I 0 0 4 7 0  refused 9",
    ));
}

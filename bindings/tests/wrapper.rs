//! The wrapper: each reply and refusal of the library as a value of Rust, and the part of the book that contents is.

use lending_desk::{
    batch, begin, cancel, contents, finish, operate, raw, set_up, Answer, Answers, Batched, Ended, Operated, Operation,
    Owners, Refusal, BATCH, LIST, OBJECTS, OPERATION_WORDS, WORDS,
};

const PUSH: u32 = 1;
const POP: u32 = 2;
const TOP: u32 = 3;
const INSERT: u32 = 4;
const MEMBER: u32 = 6;
/// What lists hold before calls, to see which bytes are written.
const BLANK: u8 = 0xA5;
const YES: Result<Operated, Refusal> = Ok(Operated::Answered { code: 1, value: 0 });

/// An empty book with stacks 0 and 1 and set 2, and these handouts open.
fn book(open: &[u32]) -> Vec<u32> {
    let mut book = vec![u32::MAX; WORDS];
    let mut kinds = [0; OBJECTS];
    kinds[..3].copy_from_slice(&[1, 1, 2]);
    assert_eq!(set_up(&mut book, &kinds), Ok(()));
    open.iter().for_each(|&handout| assert_eq!(begin(&mut book, handout), Ok(())));
    book
}

fn push(book: &mut [u32], handout: u32, object: u32, item: u32) {
    assert_eq!(operate(book, handout, object, PUSH, item, 0), YES);
}

/// The owners that a pop waits for.
#[track_caller]
fn pop_waits(book: &mut [u32], handout: u32, object: u32) -> Owners {
    match operate(book, handout, object, POP, 0, 0) {
        Ok(Operated::Wait(owners)) => owners,
        other => panic!("{other:?} and no wait"),
    }
}

// ---- Operations

#[test]
fn operate_answers_or_waits() {
    let mut book = book(&[4, 5]);
    push(&mut book, 4, 0, u32::MAX);
    assert_eq!(operate(&mut book, 4, 0, TOP, 0, 0), Ok(Operated::Answered { code: 1, value: u32::MAX }));
    assert_eq!(operate(&mut book, 4, 1, TOP, 0, 0), Ok(Operated::Answered { code: 0, value: 0 }));
    assert!(matches!(operate(&mut book, 5, 0, TOP, 0, 0), Ok(Operated::Wait(_))));
}

#[test]
fn wait_has_every_owner_once() {
    let mut book = book(&[0, 9, 17, 63]);
    push(&mut book, 63, 0, 1);
    let one = pop_waits(&mut book, 9, 0);
    assert_eq!((one.count(), one.set()), (1, 1 << 63));
    for handout in [17, 9, 0, 63, 17] {
        push(&mut book, handout, 0, 2);
    }
    let three = pop_waits(&mut book, 9, 0);
    assert_eq!((three.count(), three.set()), (3, 1 | 1 << 17 | 1 << 63));
    assert_eq!(three, pop_waits(&mut book, 9, 0));
    assert_ne!(three, one);
}

#[test]
fn owners_can_be_asked_for_and_iterated() {
    let mut book = book(&(0..64).collect::<Vec<_>>());
    [40, 3, 63].iter().for_each(|&handout| push(&mut book, handout, 0, 1));
    let owners = pop_waits(&mut book, 5, 0);
    assert!([3, 40, 63].iter().all(|&handout| owners.contains(handout)));
    assert!(![0, 5, 62, 64, 67, u32::MAX].iter().any(|&handout| owners.contains(handout)));
    let mut ascending = owners.into_iter();
    for (left, handout) in [(3, 3), (2, 40), (1, 63)] {
        assert_eq!((ascending.len(), ascending.next()), (left, Some(handout)));
    }
    assert_eq!((ascending.len(), ascending.next(), ascending.next()), (0, None, None));
}

#[test]
fn wait_may_be_for_all_others() {
    let mut book = book(&(0..64).collect::<Vec<_>>());
    (0..64).for_each(|handout| push(&mut book, handout, 1, handout));
    for handout in [0, 31, 63] {
        let owners = pop_waits(&mut book, handout, 1);
        assert_eq!((owners.count(), owners.set()), (63, !(1 << handout)));
        assert!(owners.into_iter().eq((0..64).filter(|&other| other != handout)));
    }
}

// ---- Batches

/// An operation that has a key or an item, and another number for its value.
fn asked(object: u32, operation: u32, key: u32) -> Operation {
    Operation { object, operation, key, value: 9 }
}

#[track_caller]
fn answered(book: &mut [u32], handout: u32, operations: &[Operation]) -> Answers {
    match batch(book, handout, operations) {
        Ok(Batched::Answered(answers)) => answers,
        other => panic!("{other:?} and no answers"),
    }
}

/// The answers to a batch, each a code and a value.
#[track_caller]
fn answers(book: &mut [u32], handout: u32, operations: &[Operation]) -> Vec<(u32, u32)> {
    answered(book, handout, operations).iter().map(|&Answer { code, value }| (code, value)).collect()
}

/// The words that the library is lent for operations.
fn words(operations: &[Operation]) -> Vec<u32> {
    operations.iter().flat_map(|one| [one.object, one.operation, one.key, one.value]).collect()
}

#[test]
fn batch_is_answered_in_order_each_seeing_those_before_it() {
    let mut book = book(&[4, 5]);
    let operations = [asked(0, PUSH, 7), asked(0, PUSH, u32::MAX), asked(0, POP, 0), asked(2, INSERT, 3)];
    assert_eq!(answers(&mut book, 4, &operations), [(1, 0), (1, 0), (1, u32::MAX), (1, 0)]);
    let operations = [asked(2, MEMBER, 3), asked(2, MEMBER, 4), asked(0, TOP, 0), asked(1, TOP, 0)];
    assert_eq!(answers(&mut book, 4, &operations), [(1, 0), (0, 0), (1, 7), (0, 0)]);
}

#[test]
fn batch_leaves_the_book_that_its_operations_leave_one_by_one() {
    let operations: Vec<Operation> = (0..BATCH as u32).map(|item| asked(item % 2, 1 + item % 3, 100 + item)).collect();
    let (mut together, mut singly) = (book(&[4]), book(&[4]));
    let said = answers(&mut together, 4, &operations);
    assert_eq!(said.len(), BATCH);
    for (&Operation { object, operation, key, value }, (code, given)) in operations.iter().zip(said) {
        let answered = operate(&mut singly, 4, object, operation, key, value);
        assert_eq!(answered, Ok(Operated::Answered { code, value: given }));
    }
    assert!(together == singly);
}

#[test]
fn answers_are_a_slice() {
    let mut book = book(&[0]);
    let pushes = [asked(0, PUSH, 7); BATCH];
    let [none, two, all] = [0, 2, BATCH].map(|count| answered(&mut book, 0, &pushes[..count]));
    assert_eq!((none.len(), two.len(), all.len()), (0, 2, BATCH));
    assert_eq!(two[..], [Answer { code: 1, value: 0 }; 2]);
    assert_eq!(two.last(), all.first());
    assert_ne!(none, two);
}

#[test]
fn empty_batch_is_answered_with_no_answers() {
    let mut book = book(&[0, 1]);
    push(&mut book, 1, 0, 7);
    let before = book.clone();
    assert_eq!(answers(&mut book, 0, &[]), []);
    assert!(book == before, "the book is changed");
}

#[test]
fn batch_waits_for_the_owners_of_all_its_operations() {
    let mut book = book(&[0, 9, 17, 63]);
    push(&mut book, 63, 0, 1);
    push(&mut book, 9, 1, 2);
    push(&mut book, 17, 1, 3);
    push(&mut book, 0, 1, 4);
    let before = book.clone();
    let waits = |operations: &[Operation], book: &mut [u32]| match batch(book, 0, operations) {
        Ok(Batched::Wait(owners)) => owners.into_iter().collect::<Vec<_>>(),
        other => panic!("{other:?} and no wait"),
    };
    assert_eq!(waits(&[asked(0, PUSH, 5), asked(0, TOP, 0)], &mut book), [63]);
    assert_eq!(waits(&[asked(1, POP, 0), asked(2, INSERT, 1)], &mut book), [9, 17]);
    assert_eq!(waits(&[asked(1, POP, 0), asked(2, INSERT, 1), asked(0, POP, 0)], &mut book), [9, 17, 63]);
    assert!(book == before, "the book is changed");
}

#[test]
fn more_than_sixteen_operations_are_refused_whatever_their_number() {
    let before = book(&[0]);
    for count in [17, 18, 32, 1000] {
        assert_refused(&before, 12, |book, _| batch(book, 0, &vec![asked(0, PUSH, 7); count]).map(drop));
    }
    assert_refused(&before, 12, |book, _| batch(book, 1, &[asked(0, PUSH, 7); 17]).map(drop));
    assert_refused(&before, 12, |book, _| batch(book, 0, &[asked(16, 0, 0); 17]).map(drop));
    assert_refused(&before, 5, |book, _| batch(book, 64, &[asked(0, PUSH, 7); 17]).map(drop));
}

/// The wrapper lends whole operations only; a program that lends words may lend a part of one.
#[test]
fn part_of_an_operation_is_refused() {
    let operations = words(&[asked(0, PUSH, 7); BATCH + 4]);
    let before = book(&[0]);
    for length in 0..=operations.len() {
        let mut book = before.clone();
        let reply = raw::batch(&mut book, 0, &operations[..length]);
        let taken = length % OPERATION_WORDS == 0 && length <= BATCH * OPERATION_WORDS;
        assert_eq!(reply.refusal, if taken { 0 } else { 12 }, "{length} words");
        if !taken {
            assert_eq!(reply, raw::Batched { refusal: 12, ..raw::Batched::default() }, "{length} words");
            assert!(book == before, "the book is changed");
        }
    }
    assert_eq!(raw::batch(&mut before.clone(), 1, &operations[..3]).refusal, 12);
    assert_eq!(raw::batch(&mut before.clone(), 64, &operations[..3]).refusal, 5);
}

#[test]
fn what_a_batch_has_no_number_for_is_0() {
    let mut book = book(&[0, 63]);
    let answered = raw::batch(&mut book, 63, &words(&[asked(0, PUSH, 7), asked(0, TOP, 0)]));
    let mut expected = raw::Batched { code: 1, count: 2, ..raw::Batched::default() };
    expected.answers[..2].copy_from_slice(&[Answer { code: 1, value: 0 }, Answer { code: 1, value: 7 }]);
    assert_eq!(answered, expected);
    let wait = raw::batch(&mut book, 0, &words(&[asked(1, PUSH, 7), asked(0, TOP, 0)]));
    assert_eq!(wait, raw::Batched { owners: 1 << 63, count: 1, ..raw::Batched::default() });
    let refused = raw::batch(&mut book, 0, &words(&[asked(1, PUSH, 7), asked(2, TOP, 0)]));
    assert_eq!(refused, raw::Batched { refusal: 9, ..raw::Batched::default() });
    assert_eq!(raw::batch(&mut book, 0, &[]), raw::Batched { code: 1, ..raw::Batched::default() });
}

// ---- Endings

#[test]
fn finish_says_finished_then_committed_with_the_list() {
    let mut book = book(&[0, 1]);
    push(&mut book, 0, 0, 7);
    push(&mut book, 1, 0, 9);
    let mut list = [BLANK; LIST + 1];
    assert_eq!(finish(&mut book, 1, &mut list), Ok(Ended::Finished));
    assert_eq!(list, [BLANK; LIST + 1]);
    assert_eq!(finish(&mut book, 0, &mut list), Ok(Ended::Committed { count: 2 }));
    assert_eq!(list[..3], [0, 1, BLANK]);
}

#[test]
fn finish_says_circle_with_the_list() {
    let mut book = book(&[0, 1]);
    for (handout, object) in [(0, 0), (1, 0), (1, 1), (0, 1)] {
        push(&mut book, handout, object, handout);
    }
    let mut list = [BLANK; LIST];
    assert_eq!(finish(&mut book, 0, &mut list), Ok(Ended::Finished));
    assert_eq!(finish(&mut book, 1, &mut list), Ok(Ended::Circle { count: 1 }));
    assert_eq!(list[..2], [0, BLANK]);
}

#[test]
fn cancel_says_cancelled_with_the_list() {
    let mut book = book(&[2, 3, 4]);
    let mut list = [BLANK; LIST];
    assert_eq!(cancel(&mut book, 4, &mut list), Ok(Ended::Cancelled { count: 0 }));
    push(&mut book, 2, 0, 7);
    push(&mut book, 3, 0, 9);
    assert_eq!(finish(&mut book, 3, &mut list), Ok(Ended::Finished));
    assert_eq!(cancel(&mut book, 2, &mut list), Ok(Ended::Cancelled { count: 1 }));
    assert_eq!(list[..2], [3, BLANK]);
}

// ---- Contents

#[test]
fn contents_is_the_part_of_the_book_itself() {
    let mut book = book(&[0]);
    push(&mut book, 0, 1, 7);
    push(&mut book, 0, 1, 9);
    assert_eq!(finish(&mut book, 0, &mut [0; LIST]), Ok(Ended::Committed { count: 1 }));
    let rows = contents(&book, 1).expect("object 1 is a stack");
    assert_eq!(rows, [7, 0, 9, 0]);
    assert_eq!(rows.as_ptr(), book[65 + 130 + 2..].as_ptr());
    assert_eq!(contents(&book, 0), Ok(&[][..]));
    assert_eq!(contents(&book, 3), Err(Refusal(8)));
}

// ---- Refusals

#[test]
fn each_refusal_has_its_number_and_changes_nothing() {
    let mut full = book(&[0, 1]);
    (0..64).for_each(|item| push(&mut full, 0, 0, item));
    let mut full_log = book(&[0]);
    (0..256).for_each(|_| assert!(operate(&mut full_log, 0, 0, TOP, 0, 0).is_ok()));
    let mut unsound = book(&[]);
    unsound[WORDS - 1] = 1;

    assert_refused(&book(&[]), 1, |book, _| begin(&mut book[1..], 0));
    assert_refused(&book(&[0]), 2, |book, list| finish(book, 0, &mut list[1..]).map(drop));
    assert_refused(&book(&[0]), 2, |book, list| cancel(book, 0, &mut list[1..]).map(drop));
    assert_refused(&book(&[]), 3, |book, _| set_up(book, &[1; OBJECTS - 1]));
    assert_refused(&book(&[]), 3, |book, _| set_up(book, &[4; OBJECTS]));
    assert_refused(&unsound, 4, |book, _| begin(book, 0));
    assert_refused(&unsound, 4, |book, _| contents(book, 0).map(drop));
    assert_refused(&book(&[]), 5, |book, _| begin(book, 64));
    assert_refused(&book(&[3]), 6, |book, _| begin(book, 3));
    assert_refused(&book(&[]), 7, |book, list| cancel(book, 0, list).map(drop));
    assert_refused(&book(&[0]), 8, |book, _| operate(book, 0, 16, PUSH, 0, 0).map(drop));
    assert_refused(&book(&[0]), 9, |book, _| operate(book, 0, 0, MEMBER, 0, 0).map(drop));
    assert_refused(&full_log, 10, |book, _| operate(book, 0, 0, TOP, 0, 0).map(drop));
    assert_refused(&full, 11, |book, _| operate(book, 1, 0, PUSH, 0, 0).map(drop));
}

/// The limits count a batch together; of several operations the first with an 8 or 9 of its own gives the number.
#[test]
fn each_refusal_of_a_batch_has_its_number_and_changes_nothing() {
    let mut near_full = book(&[0, 1]);
    (0..62).for_each(|item| push(&mut near_full, 0, 0, item));
    let mut near_full_log = book(&[0]);
    (0..254).for_each(|_| assert!(operate(&mut near_full_log, 0, 0, TOP, 0, 0).is_ok()));
    let mut unsound = book(&[0]);
    unsound[WORDS - 1] = 1;
    let (pushed, no_object, wrong) = (asked(0, PUSH, 7), asked(16, PUSH, 0), asked(0, MEMBER, 0));

    assert_refused(&book(&[0]), 1, |book, _| batch(&mut book[1..], 0, &[pushed]).map(drop));
    assert_refused(&unsound, 4, |book, _| batch(book, 0, &[]).map(drop));
    assert_refused(&book(&[]), 5, |book, _| batch(book, 64, &[]).map(drop));
    assert_refused(&book(&[]), 7, |book, _| batch(book, 0, &[]).map(drop));
    assert_refused(&book(&[0]), 8, |book, _| batch(book, 0, &[pushed, no_object, wrong]).map(drop));
    assert_refused(&book(&[0]), 9, |book, _| batch(book, 0, &[pushed, wrong, no_object]).map(drop));
    assert_refused(&near_full_log, 10, |book, _| batch(book, 0, &[pushed; 3]).map(drop));
    assert_refused(&near_full, 11, |book, _| batch(book, 1, &[pushed; 3]).map(drop));
    assert_eq!(answers(&mut near_full_log, 0, &[pushed; 2]), [(1, 0); 2]);
    assert_eq!(answers(&mut near_full, 1, &[pushed; 2]), [(1, 0); 2]);
    assert_eq!(answers(&mut near_full_log, 0, &[]), []);
}

#[track_caller]
fn assert_refused(book: &[u32], number: u32, call: impl Fn(&mut [u32], &mut [u8]) -> Result<(), Refusal>) {
    let (mut after, mut list) = (book.to_vec(), [BLANK; LIST]);
    assert_eq!(call(&mut after, &mut list), Err(Refusal(number)));
    assert!(after == book, "the book is changed");
    assert_eq!(list, [BLANK; LIST]);
}

#[test]
fn nothing_may_be_lent() {
    assert_eq!(set_up(&mut [], &[]), Err(Refusal(1)));
    assert_eq!(begin(&mut [], 0), Err(Refusal(1)));
    assert_eq!(operate(&mut [], 0, 0, PUSH, 0, 0), Err(Refusal(1)));
    assert_eq!(batch(&mut [], 0, &[]), Err(Refusal(1)));
    assert_eq!(finish(&mut [], 0, &mut []), Err(Refusal(1)));
    assert_eq!(cancel(&mut [], 0, &mut []), Err(Refusal(1)));
    assert_eq!(contents(&[], 0), Err(Refusal(1)));
    assert_eq!(set_up(&mut book(&[]), &[]), Err(Refusal(3)));
    assert_eq!(finish(&mut book(&[0]), 0, &mut []), Err(Refusal(2)));
}

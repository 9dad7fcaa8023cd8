//! The paper's whole case, its samples that are only run, samples of batches, and table 1 of the article on
//! recoverability, on both programs.

use std::fs;

use comparison::common::{columns, EQUAL_ITEMS, TABLE_1, TWO_STACKS, WHOLE_CASE};
use comparison::difference;
use comparison::program::{saved, Program};

/// Lines of input, and the lines of output that the paper gives for them.
type Sample = (String, String);

/// On one stack, transaction 0's line is taken so many times and then refused.
fn taken(line: &str, answer: &str, times: usize, refusal: &str) -> Sample {
    let taken = format!("{line}  {answer}\n").repeat(times);
    columns(&format!("S 1  ok\n B 0  ok\n {taken} {line}  {refusal}\n"))
}

fn whole_case() -> Sample {
    columns(WHOLE_CASE)
}

fn last_handout() -> Sample {
    columns(
        "S     ok
         B 63  ok
         B 64  refused 5",
    )
}

fn full_log() -> Sample {
    taken("I 0 0 3 0 0", "answer 0 0", 256, "refused 10")
}

fn full_stack() -> Sample {
    taken("I 0 0 1 7 0", "answer 1 0", 64, "refused 11")
}

fn circle() -> Sample {
    columns(TWO_STACKS)
}

fn equal_items() -> Sample {
    columns(EQUAL_ITEMS)
}

/// A leader draws from two racks and marks it in the list, all in one go; another's waits for both handouts that
/// stand in its way, and goes when they have ended.
fn batches() -> Sample {
    columns(
        "S 1 1 2                              ok
         B 0                                  ok
         G 0 0 1 7 0 0 1 8 0 1 1 9 0          answer 1 0 1 0 1 0
         F 0                                  committed 0
         B 1                                  ok
         B 2                                  ok
         B 3                                  ok
         G 1 0 2 0 0 0 2 0 0 2 4 8 0          answer 1 8 1 7 1 0
         G 2 1 2 0 0 1 2 0 0 2 4 9 0          answer 1 9 0 0 1 0
         G 3 2 4 5 0 0 3 0 0 1 3 0 0          wait 2 1 2
         G 3                                  answer
         G 3 2 4 5 0 2 6 5 0 16 1 0 0         refused 8
         G 3 2 4 5 0 0 4 5 0 16 1 0 0         refused 9
         C 1                                  cancelled
         G 3 2 4 5 0 0 3 0 0 1 3 0 0          wait 1 2
         F 2                                  committed 2
         G 3 2 4 5 0 0 3 0 0 1 3 0 0          answer 1 0 1 8 0 0
         G 3 2 6 8 0 2 6 9 0 2 5 5 0 2 6 5 0  answer 0 0 1 0 1 0 0 0
         F 3                                  committed 3
         G 3                                  refused 7
         G 64                                 refused 5
         G 3 0 1 7                            unread",
    )
}

/// On one stack, fifteen batches of sixteen are taken, and of what the log has space for then no more than that.
fn full_log_by_batches() -> Sample {
    let looks = |count| (" 0 3 0 0".repeat(count), " 0 0".repeat(count));
    let ((sixteen, answers), (last, last_answers), (one, _)) = (looks(16), looks(15), looks(1));
    let taken = format!("G 0{sixteen}  answer{answers}\n").repeat(15);
    let beyond = format!("I 0 0 3 0 0  answer 0 0\nG 0{sixteen}  refused 10\n");
    columns(&format!(
        "S 1  ok\n B 0  ok\n {taken}{beyond}G 0{last}  answer{last_answers}\nG 0{one}  refused 10\nG 0  answer"
    ))
}

/// The same with pushes, and the stack's rows.
fn full_stack_by_batches() -> Sample {
    let pushes = |count| (" 0 1 7 0".repeat(count), " 1 0".repeat(count));
    let ((sixteen, answers), (last, last_answers), (one, _)) = (pushes(16), pushes(15), pushes(1));
    let taken = format!("G 0{sixteen}  answer{answers}\n").repeat(3);
    let beyond = format!("I 0 0 1 7 0  answer 1 0\nG 0{sixteen}  refused 11\n");
    columns(&format!(
        "S 1  ok\n B 0  ok\n {taken}{beyond}G 0{last}  answer{last_answers}\nG 0{one}  refused 11\nG 0  answer"
    ))
}

/// Samples in one script; each begins with a set up of its own.
fn all() -> Sample {
    [whole_case(), last_handout(), full_log(), full_stack(), circle(), equal_items(), batches()].into_iter().unzip()
}

fn assert_printed((input, expected): Sample) {
    for program in Program::both() {
        let output = program.run(input.as_bytes()).expect("the program ends well");
        if let Some(difference) = difference::first(&output, expected.as_bytes()) {
            let line = input.lines().nth(difference.line).unwrap_or("no line");
            panic!("{program:?}: line {}, {line}: {difference}", difference.line + 1);
        }
    }
}

#[test]
fn whole_case_is_printed() {
    assert_printed(whole_case());
}

#[test]
fn handout_63_is_taken_and_64_refused() {
    assert_printed(last_handout());
}

#[test]
fn log_entry_256_is_taken_and_the_next_refused() {
    assert_printed(full_log());
}

#[test]
fn push_64_is_taken_and_the_next_refused() {
    assert_printed(full_stack());
}

#[test]
fn circle_over_two_stacks_ends_the_one_that_closes_it() {
    assert_printed(circle());
}

#[test]
fn equal_items_on_two_stacks_commit_in_the_order_of_finishing() {
    assert_printed(equal_items());
}

/// What each finish finds is in the second implementation's samples.
#[test]
fn table_1_is_printed() {
    assert_printed(columns(TABLE_1));
}

#[test]
fn batches_are_answered_entirely_or_not_at_all() {
    assert_printed(batches());
}

#[test]
fn log_entry_256_of_a_batch_is_taken_and_the_next_refused() {
    assert_printed(full_log_by_batches());
}

#[test]
fn push_64_of_a_batch_is_taken_and_the_next_refused() {
    assert_printed(full_stack_by_batches());
}

#[test]
fn all_samples_in_one_script_are_printed() {
    assert_printed(all());
}

/// The crate of the program is run on a file of its own, whose output is in another.
#[test]
fn files_of_the_program_hold_these_samples() {
    let (input, output) = all();
    for (name, expected) in [("stdin", input), ("stdout", output)] {
        let path = concat!(env!("CARGO_MANIFEST_DIR"), "/../crates/lending_desk/").to_string() + name;
        let same = fs::read(&path).map_or(false, |bytes| bytes == expected.as_bytes());
        assert!(same, "{path} should be as {}", saved(name, expected.as_bytes()));
    }
}

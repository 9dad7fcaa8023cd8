//! The checks notice what wrong desks would print, by comparison and, where demand 3 is broken, by the history alone.

use comparison::common::{call_of, printed, transcript_lines, EQUAL_ITEMS};
use comparison::difference;
use comparison::drawing::draw;
use comparison::profiles::PROFILES;
use comparison::script::{Line, Script};
use comparison::serial::{self, Broken};
use reference::script::parse;

/// A script, and what is printed for it.
struct Case {
    script: Script,
    replies: Vec<String>,
}

impl Case {
    /// A case written as in the paper: on each line a call, two spaces or more, what is said to it.
    fn of(transcript: &str) -> Self {
        let (lines, replies) = transcript_lines(transcript)
            .map(|(call, reply)| (Line { bytes: call.into(), call: Some(call_of(call)) }, reply.to_string()))
            .unzip();
        Case { script: Script { lines, ..Script::default() }, replies }
    }

    /// The case with another reply to one of its lines.
    fn with(mut self, line: usize, from: &str, to: &str) -> Self {
        assert_eq!(self.replies[line], from);
        self.replies[line] = to.to_string();
        self
    }

    fn output(&self) -> Vec<u8> {
        self.replies.iter().flat_map(|reply| [reply.as_bytes(), b"\n"].concat()).collect()
    }

    /// What the comparison says, the second implementation being right.
    fn difference(&self) -> Option<usize> {
        let expected = printed(&self.script.bytes()[..]);
        difference::first(&self.output(), expected.as_bytes()).map(|difference| difference.line)
    }

    /// What the history alone says.
    fn broken(&self) -> Option<Broken> {
        serial::check(&self.script, &self.output(), 0).err()
    }

    fn assert_right(&self) {
        assert_eq!(self.difference(), None);
        assert_eq!(self.broken(), None);
    }

    fn assert_noticed_by_both(&self, what: &str) {
        assert!(self.difference().is_some(), "comparison: {what}");
        assert!(self.broken().is_some(), "history: {what}");
    }
}

/// Three push, two of them finished first; a fourth reads what they have left.
fn chain() -> Case {
    Case::of(
        "S 1             ok
         B 5             ok
         B 3             ok
         B 4             ok
         I 5 0 1 7 0     answer 1 0
         I 3 0 1 8 0     answer 1 0
         I 4 0 1 9 0     answer 1 0
         F 3             finished
         F 4             finished
         F 5             committed 5 3 4
         B 0             ok
         I 0 0 2 0 0     answer 1 9
         I 0 0 2 0 0     answer 1 8
         I 0 0 3 0 0     answer 1 7
         F 0             committed 0",
    )
}

/// Two have inserted a key, one of them twice; a third, who has too, asks for it and waits for both.
fn crowd() -> Case {
    Case::of(
        "S 2             ok
         B 5             ok
         B 3             ok
         B 4             ok
         I 5 0 4 7 0     answer 1 0
         I 4 0 4 7 0     answer 1 0
         I 3 0 4 7 0     answer 1 0
         I 5 0 4 7 0     answer 1 0
         I 4 0 6 7 0     wait 2 3 5",
    )
}

/// The crowd with another reply to the one that waits.
fn crowd_with(to: &str) -> Case {
    crowd().with(8, "wait 2 3 5", to)
}

/// Batches that are answered, whole and empty, wait for one or two, and are refused.
fn group() -> Case {
    Case::of(
        "S 1 2                            ok
         B 5                              ok
         B 3                              ok
         B 4                              ok
         G 5 0 1 7 0 1 4 8 0 0 3 0 0      answer 1 0 1 0 1 7
         I 3 1 4 9 0                      answer 1 0
         G 4                              answer
         G 4 0 1 6 0 1 6 8 0 1 6 9 0      wait 2 3 5
         G 4 0 1 6 0 0 3 0 0              wait 1 5
         G 4 0 1 6 0 16 0 0 0 0 4 0 0     refused 8
         F 5                              committed 5
         G 4 0 1 6 0 1 6 8 0              answer 1 0 1 0
         I 4 0 2 0 0                      answer 1 6
         F 4                              committed 4",
    )
}

#[test]
fn right_output_passes() {
    chain().assert_right();
    crowd().assert_right();
    group().assert_right();
}

#[test]
fn changed_replies_are_noticed() {
    for (line, from, to) in [
        (0, "ok", "unread"),
        (0, "ok", "refused 5"),
        (1, "ok", "refused 3"),
        (4, "answer 1 0", "answer 1 7"),
        (4, "answer 1 0", "answer 0 0"),
        (4, "answer 1 0", "wait 1 5"),
        (4, "answer 1 0", "wait 1 9"),
        (4, "answer 1 0", "wait 2 3 9"),
        (4, "answer 1 0", "ok"),
        (7, "finished", "committed 3"),
        (7, "finished", "circle"),
        (9, "committed 5 3 4", "committed 5 4 3"),
        (9, "committed 5 3 4", "committed 3 5 4"),
        (9, "committed 5 3 4", "committed 5 3"),
        (9, "committed 5 3 4", "committed 5 3 4 4"),
        (9, "committed 5 3 4", "committed 5 3 4 2"),
        (9, "committed 5 3 4", "committed"),
        (9, "committed 5 3 4", "finished"),
        (9, "committed 5 3 4", "circle 3 4"),
        (11, "answer 1 9", "answer 1 8"),
        (11, "answer 1 9", "answer 0 0"),
        (12, "answer 1 8", "answer 1 4294967295"),
        (14, "committed 0", "cancelled"),
        (14, "committed 0", "refused 4"),
    ] {
        chain().with(line, from, to).assert_noticed_by_both(&format!("line {line}: {to} and not {from}"));
    }
}

#[test]
fn replies_not_to_the_letter_are_noticed() {
    for to in ["committed 5 3 04", "committed 5 3 4 ", "committed  5 3 4", "Committed 5 3 4", "committed 5 3 +4", ""] {
        chain().with(9, "committed 5 3 4", to).assert_noticed_by_both(to);
    }
    for to in ["answer 1", "answer 1 0 0", "answer 1 4294967296", "answer 2 0", "refused 0", "refused 13", "ok\r"] {
        chain().with(4, "answer 1 0", to).assert_noticed_by_both(to);
    }
    for to in ["wait", "wait 2", "wait 2 3", "wait 2 3 3", "wait 2 3 64", "wait 2 3 05", "wait 2 3 5 ", "wait +2 3 5"] {
        crowd_with(to).assert_noticed_by_both(to);
    }
}

#[test]
fn changed_replies_to_batches_are_noticed() {
    for (line, from, to) in [
        (4, "answer 1 0 1 0 1 7", "answer 1 0 1 0"),
        (4, "answer 1 0 1 0 1 7", "answer 1 0 1 0 1 7 1 0"),
        (4, "answer 1 0 1 0 1 7", "answer 1 0 1 0 1"),
        (4, "answer 1 0 1 0 1 7", "answer 1 0 1 0 1 07"),
        (4, "answer 1 0 1 0 1 7", "answer 1 0  1 0 1 7"),
        (4, "answer 1 0 1 0 1 7", "answer 1 7 1 0 1 0"),
        (4, "answer 1 0 1 0 1 7", "answer 1 0"),
        (4, "answer 1 0 1 0 1 7", "answer 1 0 2 0 1 7"),
        (4, "answer 1 0 1 0 1 7", "answer"),
        (4, "answer 1 0 1 0 1 7", "ok"),
        (4, "answer 1 0 1 0 1 7", "unread"),
        (4, "answer 1 0 1 0 1 7", "wait 1 5"),
        (4, "answer 1 0 1 0 1 7", "refused 12"),
        (5, "answer 1 0", "answer"),
        (5, "answer 1 0", "answer 1 0 1 0"),
        (6, "answer", "answer "),
        (6, "answer", "answer 0 0"),
        (6, "answer", "wait 0"),
        (7, "wait 2 3 5", "wait 3 3 4 5"),
        (7, "wait 2 3 5", "wait 2 5 3"),
        (7, "wait 2 3 5", "wait 2 0 3"),
        (7, "wait 2 3 5", "wait 3 3 5 5"),
        (9, "refused 8", "refused 12"),
    ] {
        group().with(line, from, to).assert_noticed_by_both(&format!("line {line}: {to} and not {from}"));
    }
}

#[test]
fn missing_and_surplus_lines_are_noticed() {
    for right in [chain, group] {
        for line in 0..right().replies.len() {
            let mut case = right();
            case.replies.remove(line);
            case.assert_noticed_by_both("one missing");
            let mut case = right();
            case.replies.insert(line, case.replies[line].clone());
            case.assert_noticed_by_both("one too many");
        }
    }
}

#[test]
fn missing_last_line_feed_is_noticed() {
    let (script, mut output) = (chain().script, chain().output());
    output.pop();
    let expected = chain().output();
    assert!(difference::first(&output, &expected).is_some());
    assert!(serial::check(&script, &output, 0).is_err());
}

/// Another answer to an operation is noticed by the history alone, wherever it stands.
#[test]
fn changed_answers_in_random_scripts_are_noticed() {
    let mut changed = 0;
    for seed in 0..60 {
        for profile in PROFILES.iter().filter(|profile| profile.lines.0 < 100) {
            let script = draw(profile, seed);
            let output = printed(&script.bytes()[..]);
            let mut case = Case { script, replies: output.lines().map(String::from).collect() };
            case.assert_right();
            let answers = |(_, reply): &(usize, &String)| reply.starts_with("answer ");
            if let Some((last, _)) = case.replies.iter().enumerate().rfind(answers) {
                let struck_out = case.replies[last..].iter().any(|reply| reply.starts_with('c'));
                case.replies[last].push('1');
                assert!(case.difference().is_some());
                assert!(struck_out || case.broken().is_some(), "{:?}, seed {seed}", profile.name);
                changed += usize::from(!struck_out);
            }
        }
    }
    assert!(changed >= 100, "{changed} changed");
}

/// The generator knows what its lines are.
#[test]
fn lines_of_random_scripts_are_the_calls_they_are_said_to_be() {
    for profile in &PROFILES {
        for seed in 0..profile.scripts.min(40) {
            for Line { bytes, call } in draw(profile, seed).lines {
                assert_eq!(parse(&bytes), call, "{}", bytes.escape_ascii());
            }
        }
    }
}

// What a desk would print that took one of the paper's plausible shortcuts.

#[test]
fn desk_that_cancels_by_putting_back_saved_rows_is_noticed() {
    let case = Case::of(
        "S 2             ok
         B 0             ok
         B 1             ok
         I 0 0 4 4 0     answer 1 0
         I 1 0 4 5 0     answer 1 0
         F 1             committed 1
         C 0             cancelled
         B 2             ok
         I 2 0 6 5 0     answer 0 0",
    );
    case.assert_noticed_by_both("the row of 5 is lost");
}

#[test]
fn desk_that_looks_at_the_newest_entry_alone_is_noticed() {
    let case = Case::of(
        "S 2             ok
         B 0             ok
         B 1             ok
         B 2             ok
         I 0 0 4 4 0     answer 1 0
         I 1 0 4 5 0     answer 1 0
         I 2 0 6 4 0     answer 1 0",
    );
    case.assert_noticed_by_both("2 should wait for 0");
}

#[test]
fn desk_that_cancels_the_finished_with_those_they_depend_on_is_noticed() {
    let case = Case::of(
        "S 1             ok
         B 0             ok
         B 1             ok
         I 0 0 1 7 0     answer 1 0
         I 1 0 1 9 0     answer 1 0
         F 1             finished
         C 0             cancelled
         B 2             ok
         I 2 0 2 0 0     answer 0 0",
    );
    case.assert_noticed_by_both("1 should be committed");
}

/// Demand 3 lets it through: who is cancelled too soon alters nobody's answer.
#[test]
fn desk_that_calls_a_circle_through_an_open_handout_is_noticed_by_comparison() {
    let case = Case::of(
        "S 1 1           ok
         B 0             ok
         B 1             ok
         I 0 0 1 1 0     answer 1 0
         I 1 0 1 2 0     answer 1 0
         I 1 1 1 3 0     answer 1 0
         I 0 1 1 4 0     answer 1 0
         F 0             circle
         F 1             committed 1",
    );
    assert_eq!(case.difference(), Some(7));
    assert_eq!(case.broken(), None);
}

/// Three of whom each has looked for a key that another then inserts: 1 depends on 0, 2 on 1 and 0 on 2, so that no two
/// depend on each other but through the third. They finish, the last one with the reply given.
fn circle_of_three(reply: &str) -> Case {
    Case::of(&format!(
        "S 2             ok
         B 0             ok
         B 1             ok
         B 2             ok
         I 0 0 6 1 0     answer 0 0
         I 1 0 4 1 0     answer 1 0
         I 1 0 6 2 0     answer 0 0
         I 2 0 4 2 0     answer 1 0
         I 2 0 6 3 0     answer 0 0
         I 0 0 4 3 0     answer 1 0
         F 0             finished
         F 1             finished
         F 2             {reply}"
    ))
}

/// Whichever order it commits them in, somebody's key is there already.
#[test]
fn desk_that_misses_a_circle_of_far_ones_and_commits_is_noticed() {
    circle_of_three("circle 0 1").assert_right();
    for reply in ["committed 2 0 1", "committed 2 1 0", "committed 2 0", "committed 2 1", "committed 2"] {
        let case = circle_of_three(reply);
        assert_eq!(case.difference(), Some(12), "{reply}");
        assert!(case.broken().is_some(), "{reply}");
    }
}

/// Demand 3 lets it through: who stays finished for ever alters nobody's answer.
#[test]
fn desk_that_misses_a_circle_of_far_ones_and_commits_nobody_is_noticed_by_comparison() {
    let case = circle_of_three("finished");
    assert_eq!(case.difference(), Some(12));
    assert_eq!(case.broken(), None);
}

/// Demand 3 lets it through: who is cancelled for nothing alters nobody's answer.
#[test]
fn desk_that_calls_a_circle_where_two_sets_do_not_meet_is_noticed_by_comparison() {
    let case = Case::of(
        "S 1             ok
         B 0             ok
         B 1             ok
         B 2             ok
         B 3             ok
         I 0 0 1 1 0     answer 1 0
         I 1 0 1 2 0     answer 1 0
         I 2 0 1 3 0     answer 1 0
         I 3 0 1 4 0     answer 1 0
         F 1             finished
         F 3             finished
         F 2             circle",
    );
    assert_eq!(case.difference(), Some(11));
    assert_eq!(case.broken(), None);
}

/// Demand 3 lets it through: those that are ready at once commute.
#[test]
fn desk_that_commits_by_number_is_noticed_by_comparison() {
    let case = Case::of(
        "S 1 1           ok
         B 0             ok
         B 1             ok
         B 2             ok
         I 0 0 1 1 0     answer 1 0
         I 0 1 1 2 0     answer 1 0
         I 1 0 1 3 0     answer 1 0
         I 2 1 1 4 0     answer 1 0
         F 2             finished
         F 1             finished
         F 0             committed 0 1 2",
    );
    assert_eq!(case.difference(), Some(10));
    assert_eq!(case.broken(), None);
}

// What a desk would print that takes other entries for commuting.

/// Two push on a stack, or modify one key of a table; 1 finishes before 0, with the reply given, and 2 reads.
fn finished_before(of_0: &[&str], of_1: &str, reply: &str, read: &[&str]) -> Case {
    let of_0: String = of_0.iter().map(|operation| format!("I 0 {operation}  answer 1 0\n")).collect();
    let read: String = read.iter().map(|read| format!("I 2 {read}\n")).collect();
    Case::of(&format!(
        "S 1 3           ok
         B 2             ok
         I 2 1 7 5 50    answer 1 0
         F 2             committed 2
         B 0             ok
         B 1             ok
         {of_0}
         I 1 {of_1}      answer 1 0
         F 1             {reply}
         F 0             committed 0{}
         B 2             ok
         {read}",
        if reply == "finished" { " 1" } else { "" }
    ))
}

/// What 0 does, what 1 does then, and what is read afterwards if 0 commits first, as it must.
const IN_ORDER: [(&str, &[&str], &str, &[&str]); 5] = [
    ("any pushes commute", &["0 1 7 0"], "0 1 8 0", &["0 2 0 0  answer 1 8"]),
    ("any modifies of a key commute", &["1 11 5 51"], "1 11 5 52", &["1 9 5 0  answer 1 52"]),
    ("an owner of an equal push has no other", &["0 1 7 0", "0 1 8 0"], "0 1 7 0", &["0 2 0 0  answer 1 7"]),
    ("an owner of an equal modify has no other", &["1 11 5 51", "1 11 5 52"], "1 11 5 51", &["1 9 5 0  answer 1 51"]),
    (
        "an owner's newest entry alone counts",
        &["0 1 8 0", "0 1 7 0"],
        "0 1 7 0",
        &["0 2 0 0  answer 1 7", "0 2 0 0  answer 1 7", "0 2 0 0  answer 1 8"],
    ),
];

/// Each commits 1 first and takes the rows to be the same either way.
#[test]
fn desks_for_which_more_commutes_are_noticed() {
    for (what, of_0, of_1, read) in IN_ORDER {
        finished_before(of_0, of_1, "finished", read).assert_right();
        finished_before(of_0, of_1, "committed 1", read).assert_noticed_by_both(what);
    }
}

/// Demand 3 lets it through as long as nobody reads, or the rows follow the order of commitment.
#[test]
fn desks_for_which_more_commutes_are_noticed_before_anybody_reads_by_comparison() {
    for (what, of_0, of_1, _) in IN_ORDER {
        let case = finished_before(of_0, of_1, "committed 1", &[]);
        assert_eq!(case.difference(), Some(7 + of_0.len()), "{what}");
        assert_eq!(case.broken(), None, "{what}");
    }
}

/// Demand 3 lets it through: who waits for nothing alters nobody's answer.
#[test]
fn desk_for_which_equal_entries_have_an_order_is_noticed_by_comparison() {
    for operation in ["0 1 7 0", "1 11 5 51"] {
        finished_before(&[operation], operation, "committed 1", &[]).assert_right();
        let case = finished_before(&[operation], operation, "finished", &[]);
        assert_eq!(case.difference(), Some(8));
        assert_eq!(case.broken(), None);
    }
}

/// The same where it calls a circle.
#[test]
fn desk_that_calls_a_circle_of_equal_items_is_noticed_by_comparison() {
    let right = Case::of(EQUAL_ITEMS);
    right.assert_right();
    let case = right.with(7, "committed 1", "finished").with(8, "committed 0", "circle 1");
    assert_eq!(case.difference(), Some(7));
    assert_eq!(case.broken(), None);
}

// What a desk would print that does not name all whom an operation waits for, and them alone.

/// Demand 3 lets it through: who waits changes nothing, whomever it waits for.
#[test]
fn desk_that_names_one_owner_alone_is_noticed_by_comparison() {
    for to in ["wait 1 5", "wait 1 3"] {
        let case = crowd_with(to);
        assert_eq!(case.difference(), Some(8));
        assert_eq!(case.broken(), None);
    }
}

#[test]
fn desk_that_names_the_one_that_asks_is_noticed() {
    crowd_with("wait 3 3 4 5").assert_noticed_by_both("4 should not wait for itself");
}

#[test]
fn desk_that_counts_entries_and_not_owners_is_noticed() {
    crowd_with("wait 3 3 5").assert_noticed_by_both("5 has two entries");
    crowd_with("wait 3 3 5 5").assert_noticed_by_both("5 has two entries");
}

#[test]
fn desk_that_names_owners_in_another_order_is_noticed() {
    crowd_with("wait 2 5 3").assert_noticed_by_both("3 should stand before 5");
}

#[test]
fn desk_that_waits_for_nobody_is_noticed() {
    crowd_with("wait 0").assert_noticed_by_both("4 should wait for 3 and 5");
}

// What a desk would print that serves a batch otherwise than entirely, in order, or not at all.

#[test]
fn desk_that_answers_half_of_a_batch_that_waits_is_noticed() {
    let case = Case::of(
        "S 1 2                        ok
         B 0                          ok
         B 1                          ok
         I 0 1 4 8 0                  answer 1 0
         G 1 0 1 6 0 1 6 8 0          wait 1 0
         C 0                          cancelled
         I 1 0 2 0 0                  answer 1 6",
    );
    case.assert_noticed_by_both("the push of a batch that waits is entered");
}

#[test]
fn desk_that_shows_no_operation_those_before_it_is_noticed() {
    let line = "answer 1 0 1 0 1 7";
    group().with(4, line, "answer 1 0 1 0 0 0").assert_noticed_by_both("top should see the push before it");
}

#[test]
fn desk_that_serves_a_batch_from_its_end_is_noticed() {
    let case = Case::of(
        "S 1                          ok
         B 0                          ok
         G 0 0 1 6 0 0 1 7 0          answer 1 0 1 0
         I 0 0 2 0 0                  answer 1 6",
    );
    case.assert_noticed_by_both("7 should lie on top");
}

#[test]
fn desk_that_tells_an_empty_batch_to_wait_is_noticed() {
    group().with(6, "answer", "wait 1 5").assert_noticed_by_both("no operation waits");
}

/// Demand 3 lets it through: who waits changes nothing, whomever it waits for.
#[test]
fn desk_that_names_the_owners_of_one_operation_alone_is_noticed_by_comparison() {
    for to in ["wait 1 5", "wait 1 3"] {
        let case = group().with(7, "wait 2 3 5", to);
        assert_eq!(case.difference(), Some(7));
        assert_eq!(case.broken(), None);
    }
}

/// Demand 3 lets it through: a refusal changes nothing, whatever its number.
#[test]
fn desk_that_goes_by_the_last_bad_operation_is_noticed_by_comparison() {
    let case = group().with(9, "refused 8", "refused 9");
    assert_eq!(case.difference(), Some(9));
    assert_eq!(case.broken(), None);
}

/// Demand 3 lets it through: a history is served without limits.
#[test]
fn desk_that_holds_each_operation_alone_to_the_limits_is_noticed_by_comparison() {
    let taken = |line: &str, answer: &str, times: usize| format!("{line}  {answer}\n").repeat(times);
    let pushes = taken("I 0 0 1 7 0", "answer 1 0", 63);
    let looks = taken("I 0 0 3 0 0", "answer 1 7", 192);
    for (calls, batch, answers) in [
        (pushes.clone(), "G 0 0 1 8 0 0 1 9 0", "answer 1 0 1 0"),
        (pushes + &looks, "G 0 0 3 0 0 0 3 0 0", "answer 1 7 1 7"),
    ] {
        let case = Case::of(&format!("S 1  ok\nB 0  ok\n{calls}{batch}  {answers}\n"));
        assert_eq!(case.difference(), Some(case.replies.len() - 1));
        assert_eq!(case.broken(), None);
    }
}

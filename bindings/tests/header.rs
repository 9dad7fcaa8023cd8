//! The header, in C and in C++: its numbers are the paper's, and its structs are laid out as the wrapper's.

mod common;

use std::fmt::Write;
use std::mem::size_of;
use std::process::{Command, Output};
use std::ptr::addr_of;

use common::{built, printed, run};
use lending_desk::journal::Cause;
use lending_desk::raw::{Accepted, Answer, Batched, Counted, Ended, Operated, Part, Reading, Record, Written};

const NUMBERS: [(&str, usize); 53] = [
    ("VERSION", lending_desk::VERSION as usize),
    ("WORDS", lending_desk::WORDS),
    ("HANDOUTS", lending_desk::HANDOUTS),
    ("OBJECTS", lending_desk::OBJECTS),
    ("LIST", lending_desk::LIST),
    ("BATCH", lending_desk::BATCH),
    ("OPERATION_WORDS", lending_desk::OPERATION_WORDS),
    ("RECORD_ARGUMENTS", lending_desk::RECORD_ARGUMENTS),
    ("RECORD_BYTES", lending_desk::RECORD_BYTES),
    ("FRAME", lending_desk::FRAME),
    ("NONE", 0),
    ("STACK", 1),
    ("SET", 2),
    ("TABLE", 3),
    ("PUSH", 1),
    ("POP", 2),
    ("TOP", 3),
    ("SET_INSERT", 4),
    ("SET_DELETE", 5),
    ("SET_MEMBER", 6),
    ("TABLE_INSERT", 7),
    ("TABLE_DELETE", 8),
    ("TABLE_LOOKUP", 9),
    ("TABLE_SIZE", 10),
    ("TABLE_MODIFY", 11),
    ("WAIT", 0),
    ("ANSWERED", 1),
    ("FINISHED", 2),
    ("COMMITTED", 3),
    ("CIRCLE", 4),
    ("CANCELLED", 5),
    ("ACCEPTED", 0),
    ("BOOK_LENGTH", 1),
    ("LIST_LENGTH", 2),
    ("BAD_KINDS", 3),
    ("UNSOUND", 4),
    ("HANDOUT_NUMBER", 5),
    ("HANDOUT_LIVE", 6),
    ("NOT_OPEN", 7),
    ("NO_OBJECT", 8),
    ("WRONG_OPERATION", 9),
    ("LOG_FULL", 10),
    ("NO_ROOM", 11),
    ("BATCH_LENGTH", 12),
    ("BAD_RECORD", 13),
    ("CUT", Cause::Cut as usize),
    ("BAD_LETTER", Cause::Letter as usize),
    ("BAD_CODE", Cause::Code as usize),
    ("BAD_OWNERS", Cause::Owners as usize),
    ("BAD_LIST", Cause::List as usize),
    ("BAD_BATCH", Cause::Batch as usize),
    ("LONG_FORM", Cause::LongForm as usize),
    ("BAD_WIDTH", Cause::Width as usize),
];

/// A struct of the wrapper: the header's name for it, its size, and the offsets of its fields.
type Layout = (&'static str, usize, Vec<(&'static str, usize)>);

macro_rules! layout {
    ($name:literal, $type:ident { $($field:ident),* }) => {{
        let value = $type::default();
        let $type { $($field: _),* } = value; // these are all of its fields
        let offsets = vec![$((stringify!($field), addr_of!(value.$field) as usize - addr_of!(value) as usize)),*];
        ($name, size_of::<$type>(), offsets)
    }};
}

fn layouts() -> [Layout; 10] {
    [
        layout!("lending_desk_accepted", Accepted { refusal }),
        layout!("lending_desk_operated", Operated { refusal, code, owners, count, answer, value }),
        layout!("lending_desk_answer", Answer { code, value }),
        layout!("lending_desk_batched", Batched { refusal, code, owners, count, answers }),
        layout!("lending_desk_ended", Ended { refusal, code, count }),
        layout!("lending_desk_part", Part { refusal, start, rows }),
        layout!("lending_desk_record", Record { letter, operations, arguments, code, owners, listed, numbers }),
        layout!("lending_desk_written", Written { refusal, count, bytes }),
        layout!("lending_desk_reading", Reading { refusal, found, cause, place, record }),
        layout!("lending_desk_counted", Counted { refusal, cause, place, records }),
    ]
}

/// Where the last parts of arrays stand. Before the first answer to a batch are 20 bytes; before a record's first argument
/// 16, before its first number 296; before the record of a reading 24; before the first byte written 16.
const LAST: [(&str, usize); 7] = [
    ("lending_desk_batched, answers[LENDING_DESK_BATCH - 1].code", 20 + 15 * 8),
    ("lending_desk_batched, answers[LENDING_DESK_BATCH - 1].value", 20 + 15 * 8 + 4),
    ("lending_desk_record, arguments[LENDING_DESK_RECORD_ARGUMENTS - 1]", 16 + 64 * 4),
    ("lending_desk_record, numbers[63]", 296 + 63 * 4),
    ("lending_desk_reading, record.letter", 24),
    ("lending_desk_reading, record.numbers[63]", 24 + 296 + 63 * 4),
    ("lending_desk_written, bytes[LENDING_DESK_RECORD_BYTES - 1]", 16 + 487),
];

/// Expressions of C, and what they must be when compiled.
fn expectations() -> Vec<(String, usize)> {
    let mut expected = vec![("sizeof(size_t)".to_string(), size_of::<usize>())];
    expected.extend(NUMBERS.map(|(name, number)| (format!("LENDING_DESK_{name}"), number)));
    expected.extend(LAST.map(|(place, offset)| (format!("offsetof({place})"), offset)));
    for (name, size, offsets) in layouts() {
        expected.push((format!("sizeof({name})"), size));
        expected.extend(offsets.into_iter().map(|(field, offset)| (format!("offsetof({name}, {field})"), offset)));
    }
    expected
}

/// A program that compiles only where the expectations hold, and ends well where a batch of two is answered, and its record
/// is written and read back.
fn program(expectations: &[(String, usize)]) -> String {
    let mut text = "#include \"lending_desk.h\"\n#if LENDING_DESK_VERSION < 1\n#error no version\n#endif\n".to_string();
    for (number, (expression, expected)) in expectations.iter().enumerate() {
        writeln!(text, "typedef char expectation_{number}[({expression}) == {expected} ? 1 : -1];").expect("a string");
    }
    text + "static uint32_t book[LENDING_DESK_WORDS];\n\
        static const uint8_t kinds[LENDING_DESK_OBJECTS] = {1, 2, 3};\n\
        static const uint32_t operations[2 * LENDING_DESK_OPERATION_WORDS] = {0, 1, 7, 0, 0, 3, 0, 0};\n\
        static lending_desk_record record;\n\
        static int answered(void) {\n\
            lending_desk_batched reply;\n\
            lending_desk_set_up(book, LENDING_DESK_WORDS, kinds, LENDING_DESK_OBJECTS);\n\
            lending_desk_begin(book, LENDING_DESK_WORDS, 63);\n\
            reply = lending_desk_batch(book, LENDING_DESK_WORDS, 63, operations, 2 * LENDING_DESK_OPERATION_WORDS);\n\
            return reply.refusal == 0 && reply.code == LENDING_DESK_ANSWERED && reply.owners == 0 &&\n\
                   reply.count == 2 && reply.answers[0].code == 1 && reply.answers[0].value == 0 &&\n\
                   reply.answers[1].code == 1 && reply.answers[1].value == 7 && reply.answers[15].code == 0;\n\
        }\n\
        static int read_back(void) {\n\
            lending_desk_written written;\n\
            lending_desk_reading reading;\n\
            lending_desk_counted counted;\n\
            int i;\n\
            record.letter = 'G';\n\
            record.operations = 2;\n\
            record.arguments[0] = 63;\n\
            for (i = 0; i < 8; i++) record.arguments[1 + i] = operations[i];\n\
            record.code = LENDING_DESK_ANSWERED;\n\
            record.numbers[0] = 1;\n\
            record.numbers[2] = 1;\n\
            record.numbers[3] = 300;\n\
            written = lending_desk_write_record(record);\n\
            reading = lending_desk_next_record(written.bytes, written.count, 0);\n\
            counted = lending_desk_count_records(written.bytes, written.count - 1);\n\
            return written.refusal == 0 && written.count == 17 && written.bytes[16] == 2 && reading.refusal == 0 &&\n\
                   reading.found == 1 && reading.place == 17 && reading.record.letter == 'G' &&\n\
                   reading.record.operations == 2 && reading.record.arguments[8] == 0 &&\n\
                   reading.record.arguments[0] == 63 && reading.record.numbers[3] == 300 &&\n\
                   counted.refusal == LENDING_DESK_BAD_RECORD && counted.cause == LENDING_DESK_CUT &&\n\
                   counted.place == 15 && lending_desk_count_records(written.bytes, written.count).records == 1;\n\
        }\n\
        int main(void) {\n\
            return !(answered() && read_back());\n\
        }\n"
}

/// Compiles and links a program with every warning an error.
fn compile(compiler: &str, standard: &str, name: &str, expectations: &[(String, usize)]) -> Output {
    let source = built(&format!("{name}.c"));
    std::fs::write(&source, program(expectations)).expect("the source is written");
    let mut command = Command::new(compiler);
    command.args([standard, "-Wall", "-Wextra", "-pedantic", "-Werror", "-Iinclude"]);
    if compiler == "g++" {
        command.args(["-x", "c++"]).arg(source).args(["-x", "none"]);
    } else {
        command.arg(source);
    }
    run(command.args(["target/staticlib/libcapi.a", "-o"]).arg(built(name)))
}

#[track_caller]
fn assert_header_serves(compiler: &str, standard: &str, name: &str) {
    let Output { status, stderr, .. } = compile(compiler, standard, name, &expectations());
    assert!(status.success(), "{}", String::from_utf8_lossy(&stderr));
    printed(&mut Command::new(built(name)));
}

#[test]
fn header_serves_c() {
    assert_header_serves("cc", "-std=c99", "header_c99");
}

#[test]
fn header_serves_cpp() {
    if Command::new("g++").arg("--version").output().is_err() {
        return eprintln!("no g++ here: the header is not tried in C++");
    }
    assert_header_serves("g++", "-std=c++11", "header_cpp11");
}

/// Some at a time, since compilers don't tell of more than so many errors.
#[test]
fn every_wrong_number_and_layout_is_noticed() {
    const AT_ONCE: usize = 15;
    let right = expectations();
    for first in (0..right.len()).step_by(AT_ONCE) {
        let places = first..right.len().min(first + AT_ONCE);
        let mut wrong = right.clone();
        wrong[places.clone()].iter_mut().for_each(|(_, number)| *number += 1);
        let Output { status, stderr, .. } = compile("cc", "-std=c99", "header_wrong", &wrong);
        let told = String::from_utf8_lossy(&stderr);
        assert!(!status.success());
        for place in places {
            assert!(told.contains(&format!("expectation_{place}[")), "{:?}: {told}", wrong[place]);
        }
    }
}

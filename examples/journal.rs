//! A journal of some calls: each call's record is written, then all are read back and printed, as in `journal.txt`.
//!
//!     tools/build library
//!     cargo run --manifest-path bindings/Cargo.toml --example journal

use lending_desk::journal::{next, write, Record, Reply};
use lending_desk::{begin, finish, operate, set_up, Answer, Ended, Operated, Refusal, LIST, OBJECTS, WORDS};

const PUSH: u32 = 1;

/// Makes some calls, and writes their records one behind the other.
fn serve() -> Result<Vec<u8>, Refusal> {
    let (mut book, mut list, mut journal) = ([0; WORDS], [0; LIST], Vec::new());
    let mut keep = |letter, arguments: &[u32], reply| {
        let record = Record { letter, arguments: arguments.to_vec(), reply };
        write(&record).map(|bytes| journal.extend(bytes))
    };
    let mut kinds = [0; OBJECTS];
    kinds[0] = 1;
    set_up(&mut book, &kinds)?;
    keep(b'S', &kinds.map(u32::from), Reply::Ok)?;

    begin(&mut book, 7)?;
    keep(b'B', &[7], Reply::Ok)?;

    let reply = match operate(&mut book, 7, 0, PUSH, 300, 0)? {
        Operated::Wait(owners) => Reply::Wait { owners: owners.set() },
        Operated::Answered { code, value } => Reply::Answered(vec![Answer { code, value }]),
    };
    keep(b'I', &[7, 0, PUSH, 300, 0], reply)?;

    let (code, count) = match finish(&mut book, 7, &mut list)? {
        Ended::Finished => (2, 0),
        Ended::Committed { count } => (3, count),
        Ended::Circle { count } => (4, count),
        Ended::Cancelled { count } => (5, count),
    };
    keep(b'F', &[7], Reply::Ended { code, list: list[..count].iter().copied().map(u32::from).collect() })?;
    Ok(journal)
}

/// Prints a record's bytes in a column of their own; then the call; then the reply code, and what was replied.
fn print(bytes: &[u8], record: &Record) {
    let bytes: String = bytes.iter().map(|byte| format!("{byte:02x} ")).collect();
    let call = format!("{}{}", char::from(record.letter), numbers(&record.arguments));
    let reply = match &record.reply {
        Reply::Ok => String::new(),
        Reply::Wait { owners } => format!("0: {owners}"),
        Reply::Answered(answers) => {
            format!("1:{}", numbers(&answers.iter().flat_map(|a| [a.code, a.value]).collect::<Vec<_>>()))
        }
        Reply::Ended { code, list } => format!("{code}:{}", numbers(list)),
    };
    println!("{}", format!("{bytes:<54}{call:<16}{reply}").trim_end());
}

fn numbers(numbers: &[u32]) -> String {
    numbers.iter().map(|number| format!(" {number}")).collect()
}

fn main() {
    let journal = serve().expect("no call is refused");
    let mut place = 0;
    while let Some((record, behind)) = next(&journal, place).expect("what was written is read") {
        print(&journal[place..behind], &record);
        place = behind;
    }
}

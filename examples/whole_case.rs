//! Two handouts on one stack: the paper's whole case. Each call is printed with its reply, as in `whole_case.txt`.
//!
//!     tools/build library
//!     cargo run --manifest-path bindings/Cargo.toml --example whole_case

use std::process::ExitCode;

use lending_desk::{Ended, Operated, Refusal, LIST, OBJECTS, WORDS};

const PUSH: u32 = 1;
const POP: u32 = 2;
const TOP: u32 = 3;

/// A book, and the list lent to finish and cancel.
struct Desk {
    book: [u32; WORDS],
    list: [u8; LIST],
}

impl Desk {
    fn set_up(&mut self, kinds: &[u8]) {
        let mut all = [0; OBJECTS]; // objects that aren't named have no kind
        all[..kinds.len()].copy_from_slice(kinds);
        let call = format!("S {}", numbers(kinds));
        print(&call, lending_desk::set_up(&mut self.book, &all).map(|()| "ok".to_string()));
    }

    fn begin(&mut self, handout: u32) {
        let reply = lending_desk::begin(&mut self.book, handout);
        print(&format!("B {handout}"), reply.map(|()| "ok".to_string()));
    }

    fn operate(&mut self, handout: u32, object: u32, operation: u32, key: u32, value: u32) {
        let reply = lending_desk::operate(&mut self.book, handout, object, operation, key, value);
        let reply = reply.map(|operated| match operated {
            Operated::Wait(owners) => format!("wait {} {}", owners.count(), numbers(owners)),
            Operated::Answered { code, value } => format!("answer {code} {value}"),
        });
        print(&format!("I {handout} {object} {operation} {key} {value}"), reply);
    }

    fn finish(&mut self, handout: u32) {
        let reply = lending_desk::finish(&mut self.book, handout, &mut self.list);
        print(&format!("F {handout}"), reply.map(|ended| self.shown(ended)));
    }

    fn cancel(&mut self, handout: u32) {
        let reply = lending_desk::cancel(&mut self.book, handout, &mut self.list);
        print(&format!("C {handout}"), reply.map(|ended| self.shown(ended)));
    }

    /// The reply with the handouts that committed, in order: they stand at the front of the list.
    fn shown(&self, ended: Ended) -> String {
        let (word, count) = match ended {
            Ended::Finished => ("finished", 0),
            Ended::Committed { count } => ("committed", count),
            Ended::Circle { count } => ("circle", count),
            Ended::Cancelled { count } => ("cancelled", count),
        };
        format!("{word} {}", numbers(&self.list[..count])).trim_end().to_string()
    }
}

fn numbers(numbers: impl IntoIterator<Item = impl ToString>) -> String {
    numbers.into_iter().map(|number| number.to_string()).collect::<Vec<_>>().join(" ")
}

fn print(call: &str, reply: Result<String, Refusal>) {
    let reply = reply.unwrap_or_else(|Refusal(number)| format!("refused {number}"));
    println!("{call:<16}{reply}");
}

fn main() -> ExitCode {
    let mut desk = Desk { book: [0; WORDS], list: [0; LIST] };
    desk.set_up(&[1, 2, 3]);
    desk.begin(0);
    desk.begin(1);
    desk.operate(0, 0, PUSH, 7, 0);
    desk.operate(1, 0, PUSH, 9, 0);
    desk.operate(1, 0, TOP, 0, 0);
    desk.finish(1);
    desk.finish(0);
    desk.begin(2);
    desk.operate(2, 0, POP, 0, 0);
    desk.cancel(2);

    // The pop was cancelled: the stack is as the two that committed left it, a row of two words for each item.
    match lending_desk::contents(&desk.book, 0) {
        Ok([7, 0, 9, 0]) => ExitCode::SUCCESS,
        other => {
            eprintln!("whole_case: the stack should hold 7 and 9: {other:?}");
            ExitCode::FAILURE
        }
    }
}

//! The first line in which two outputs differ.

use std::fmt;

#[derive(Clone, Debug, PartialEq, Eq)]
pub struct Difference {
    /// The line's index, from 0.
    pub line: usize,
    printed: String,
    expected: String,
}

impl fmt::Display for Difference {
    fn fmt(&self, f: &mut fmt::Formatter<'_>) -> fmt::Result {
        write!(f, "{} and not {}", self.printed, self.expected)
    }
}

/// None where every byte is the same.
pub fn first(printed: &[u8], expected: &[u8]) -> Option<Difference> {
    let (mut printed, mut expected) = (lines(printed), lines(expected));
    for line in 0.. {
        match (printed.next(), expected.next()) {
            (None, None) => break,
            (printed, expected) if printed == expected => {}
            (printed, expected) => {
                return Some(Difference { line, printed: shown(printed), expected: shown(expected) });
            }
        }
    }
    None
}

/// The lines with their line feeds.
pub fn lines(output: &[u8]) -> impl Iterator<Item = &[u8]> {
    output.split_inclusive(|&byte| byte == b'\n')
}

fn shown(line: Option<&[u8]>) -> String {
    line.map_or("no line".to_string(), |line| format!("\"{}\"", line.escape_ascii()))
}

//! Scripts whose every line is known: its bytes, and the call that it stands for.

use std::collections::BTreeSet;

use reference::call::Call;

/// A line without its line feed.
#[derive(Clone, Debug, PartialEq, Eq)]
pub struct Line {
    pub bytes: Vec<u8>,
    /// None where the line must be `unread`.
    pub call: Option<Call>,
}

impl Line {
    pub fn is_batch(&self) -> bool {
        matches!(self.call, Some(Call::Batch { .. }))
    }
}

#[derive(Clone, Debug, Default, PartialEq, Eq)]
pub struct Script {
    pub lines: Vec<Line>,
    /// Whether the end of the input ends the last line, which is then not empty.
    pub open_end: bool,
    /// The indices of batches that are over a limit or wait as none of their operations does alone.
    pub together: BTreeSet<usize>,
}

impl Script {
    pub fn bytes(&self) -> Vec<u8> {
        self.beginning(self.lines.len())
    }

    /// So many of the lines, or all that there are.
    pub fn beginning(&self, lines: usize) -> Vec<u8> {
        let line = |line: &Line| [&line.bytes[..], b"\n"].concat();
        let mut bytes: Vec<u8> = self.lines.iter().take(lines).flat_map(line).collect();
        if self.open_end && lines >= self.lines.len() {
            bytes.pop();
        }
        bytes
    }

    /// A line as a report shows it.
    pub fn shown(&self, index: usize) -> String {
        self.lines.get(index).map_or("no line".to_string(), |line| line.bytes.escape_ascii().to_string())
    }
}

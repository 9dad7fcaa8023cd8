//! The documents hold: what they link to is there, and so are the paths, functions, laws, theorems and must-fail edits
//! that they name; the promises name every edit; the sessions are what the desk prints, and the README's C is C; the
//! records shown are records. The proved whole case is that of the listing.

use std::collections::BTreeSet;
use std::fs;
use std::io::Write;
use std::os::unix::fs::symlink;
use std::path::{Path, PathBuf};
use std::process::{Command, Stdio};

use comparison::common::{columns, WHOLE_CASE};
use comparison::journal::{JournalFile, Told};
use comparison::program::Program;
use reference::journal;

/// Folders whose paths are written out from the repository's root.
const FOLDERS: [&str; 9] =
    ["crates/", "docs/", "bindings/", "reference/", "comparison/", "bench/", "include/", "examples/", "tools/"];

/// Words that stand for any name in a path.
const PLACEHOLDERS: [&str; 4] = ["CRATE", "LABEL", "FUNCTION", "NAME"];

fn root() -> PathBuf {
    Path::new(env!("CARGO_MANIFEST_DIR")).join("..")
}

struct Document {
    /// Below the root.
    path: String,
    text: String,
}

impl Document {
    fn read(path: &str) -> Document {
        let text = fs::read_to_string(root().join(path)).unwrap_or_else(|error| panic!("{path}: {error}"));
        Document { path: path.to_string(), text }
    }

    /// All of them.
    fn all() -> Vec<Document> {
        let docs = names_in(&root().join("docs")).into_iter().filter(|name| name.ends_with(".md"));
        let docs: Vec<Document> = docs.map(|name| Document::read(&format!("docs/{name}"))).collect();
        assert!(!docs.is_empty());
        [Document::read("README.md")].into_iter().chain(docs).collect()
    }

    /// The lines that aren't in a fenced block.
    fn prose(&self) -> Vec<&str> {
        let mut fenced = false;
        let mut lines = Vec::new();
        for line in self.text.lines() {
            if line.starts_with("```") {
                fenced = !fenced;
            } else if !fenced {
                lines.push(line);
            }
        }
        lines
    }

    /// The rows of its tables.
    fn rows(&self) -> Vec<Row<'_>> {
        let mut head = Vec::new();
        let mut rows = Vec::new();
        for line in self.prose() {
            if !line.starts_with('|') {
                head.clear();
                continue;
            }
            let cells: Vec<&str> = line.trim_matches('|').split('|').map(str::trim).collect();
            if head.is_empty() {
                head = cells;
            } else if !line.starts_with("|---") {
                rows.push(Row { head: head.clone(), cells });
            }
        }
        rows
    }
}

/// A row of a table.
struct Row<'a> {
    head: Vec<&'a str>,
    cells: Vec<&'a str>,
}

impl Row<'_> {
    fn last_head(&self) -> &str {
        self.head[self.head.len() - 1]
    }

    fn last(&self) -> &str {
        self.cells[self.cells.len() - 1]
    }
}

fn names_in(folder: &Path) -> Vec<String> {
    let entries = fs::read_dir(folder).into_iter().flatten().flatten();
    let mut names: Vec<String> = entries.map(|entry| entry.file_name().to_string_lossy().into_owned()).collect();
    names.sort();
    names
}

/// What stands in backticks.
fn quoted(text: &str) -> Vec<&str> {
    text.split('`').skip(1).step_by(2).collect()
}

fn is_word(text: &str, other: &str) -> bool {
    !text.is_empty() && text.chars().all(|c| c.is_alphanumeric() || other.contains(c))
}

// ---- Links and paths

/// The targets of the links.
fn links(line: &str) -> Vec<&str> {
    line.split("](").skip(1).filter_map(|rest| rest.split_once(')')).map(|(target, _)| target).collect()
}

/// A heading as links name it.
fn anchor(heading: &str) -> String {
    let kept = heading.trim_start_matches('#').trim().to_lowercase();
    kept.chars().filter(|&c| c.is_alphanumeric() || " -_".contains(c)).collect::<String>().replace(' ', "-")
}

/// The links of a line, in a document of this path, that lead nowhere.
fn broken_links(document: &str, line: &str) -> Vec<String> {
    let leads = |target: &str| {
        let (path, place) = target.split_once('#').unwrap_or((target, ""));
        let from = root().join(document);
        let file = if path.is_empty() { from } else { from.with_file_name("").join(path) };
        let has_place = || {
            let text = fs::read_to_string(&file).unwrap_or_default();
            text.lines().any(|line| line.starts_with('#') && anchor(line) == place)
        };
        file.exists() && (place.is_empty() || has_place())
    };
    let targets = links(line).into_iter().filter(|target| !target.contains("://"));
    targets.filter(|target| !leads(target)).map(|target| format!("the link to {target} leads nowhere")).collect()
}

/// `a{b,c}d` is `abd` and `acd`.
fn expanded(path: &str) -> Vec<String> {
    match path.split_once('{').and_then(|(front, rest)| Some((front, rest.split_once('}')?))) {
        None => vec![path.to_string()],
        Some((front, (inner, back))) => {
            inner.split(',').flat_map(|middle| expanded(&format!("{front}{middle}{back}"))).collect()
        }
    }
}

/// Whether a path is there; `*` and the placeholders stand for any name.
fn is_there(folder: &Path, path: &str) -> bool {
    let (name, rest) = path.split_once('/').unwrap_or((path, ""));
    if name.is_empty() {
        return folder.exists();
    }
    let pattern = PLACEHOLDERS.iter().fold(name.to_string(), |name, word| name.replace(word, "*"));
    match pattern.split_once('*') {
        None => folder.join(name).exists() && is_there(&folder.join(name), rest),
        Some((front, back)) => names_in(folder)
            .iter()
            .filter(|name| name.starts_with(front) && name.ends_with(back))
            .any(|name| is_there(&folder.join(name), rest)),
    }
}

fn is_crate(name: &str) -> bool {
    is_word(name, "_") && root().join("crates").join(name).is_dir()
}

/// A path within a crate, its ending left out or not, or a must-fail edit of the crate.
fn is_in_crate(name: &str, rest: &str) -> bool {
    let folder = format!("crates/{name}");
    [format!("{folder}/{rest}"), format!("{folder}/{rest}.antt"), format!("{folder}/must-fail/{rest}.edit")]
        .iter()
        .any(|path| is_there(&root(), path))
}

/// The paths that a line names and that aren't there.
fn missing_paths(line: &str) -> Vec<String> {
    let is_missing = |name: &&str| {
        if name.contains(' ') {
            return false;
        }
        if FOLDERS.iter().any(|folder| name.starts_with(folder)) {
            return expanded(name).iter().any(|path| !is_there(&root(), path));
        }
        matches!(name.split_once('/'), Some((first, rest)) if is_crate(first) && !is_in_crate(first, rest))
    };
    quoted(line).into_iter().filter(is_missing).map(|name| format!("{name} isn't there")).collect()
}

// ---- Names

/// Whether code of a crate has the function or constant.
fn has_item(name: &str, item: &str) -> bool {
    let source = root().join("crates").join(name).join("src");
    let texts = names_in(&source).into_iter().map(|file| fs::read_to_string(source.join(file)).unwrap_or_default());
    let starts = ["fn ", "const ", "struct ", "enum "].map(|word| format!("{word}{item}"));
    let ends = |rest: &str| !rest.starts_with(|c: char| c.is_alphanumeric() || c == '_');
    texts.into_iter().any(|text| {
        starts.iter().any(|start| text.match_indices(start.as_str()).any(|(at, _)| ends(&text[at + start.len()..])))
    })
}

/// The functions that a line names, as `crate::function`, and that aren't there.
fn missing_items(line: &str) -> Vec<String> {
    let is_missing = |name: &&str| {
        let (first, item) = name.split_once("::").unwrap_or((name, ""));
        is_word(item, "_") && is_crate(first) && !has_item(first, item)
    };
    quoted(line).into_iter().filter(is_missing).map(|name| format!("there is no {name}")).collect()
}

/// Whether a file of antt declares a name.
fn declares(text: &str, name: &str) -> bool {
    text.lines().any(|line| {
        let words = line.split_whitespace();
        let mut words = words.skip_while(|word| ["pub", "abbrev", "unfoldable", "record", "data"].contains(word));
        words.next() == Some(name)
    })
}

/// The text of all files of antt below a folder.
fn antt_below(folder: &Path) -> String {
    let text = |name: String| match folder.join(&name) {
        path if path.is_dir() && name != "out" => antt_below(&path),
        path if name.ends_with(".antt") => fs::read_to_string(path).unwrap_or_default(),
        _ => String::new(),
    };
    names_in(folder).into_iter().map(text).collect::<Vec<_>>().concat()
}

/// Names of laws and theorems: no paths, and no code.
fn declared_names(cell: &str) -> impl Iterator<Item = &str> {
    quoted(cell).into_iter().filter(|name| is_word(name, "_-₂"))
}

/// Theorems that a table names and no `specs` has.
fn missing_theorems(row: &Row, specs: &str) -> Vec<String> {
    if !["name", "part", "besides"].contains(&row.head[0]) {
        return Vec::new();
    }
    let missing = declared_names(row.cells[0]).filter(|name| !declares(specs, name));
    missing.map(|name| format!("there is no theorem {name}")).collect()
}

/// Laws that a table names and the file in the same row has not.
fn missing_laws(row: &Row) -> Vec<String> {
    if !row.last_head().ends_with("laws") {
        return Vec::new();
    }
    let file = row.cells.iter().flat_map(|cell| quoted(cell)).find(|name| name.ends_with(".antt"));
    let file = file.unwrap_or_else(|| panic!("{:?} names no file", row.cells));
    let text = fs::read_to_string(root().join(file)).unwrap_or_default();
    let missing = declared_names(row.last()).filter(|name| !declares(&text, name));
    missing.map(|name| format!("{file} has no law {name}")).collect()
}

// ---- Must-fail edits

/// The edits that there are, as `crate/label`.
fn edits() -> BTreeSet<String> {
    let crates = root().join("crates");
    let labels = |name: &String| names_in(&crates.join(name).join("must-fail"));
    let of = |name: String| {
        let labels = labels(&name).into_iter().filter_map(|file| file.strip_suffix(".edit").map(str::to_string));
        labels.map(|label| format!("{name}/{label}")).collect::<Vec<_>>()
    };
    names_in(&crates).into_iter().flat_map(of).collect()
}

/// The edits that a document names, there or not: a crate and a word that is no part of it.
fn named_edits(document: &Document) -> BTreeSet<String> {
    let is_edit = |name: &&str| match name.split_once('/') {
        Some((first, label)) => {
            is_crate(first) && is_word(label, "_") && !root().join("crates").join(first).join(label).exists()
        }
        None => false,
    };
    document.prose().into_iter().flat_map(quoted).filter(is_edit).map(str::to_string).collect()
}

/// Where a document that is to name these edits, and no others, does not.
fn unlike_edits(document: &Document, edits: &BTreeSet<String>) -> Vec<String> {
    let named = named_edits(document);
    let unnamed = edits.difference(&named).map(|edit| format!("{edit} isn't named"));
    unnamed.chain(named.difference(edits).map(|edit| format!("there is no edit {edit}"))).collect()
}

// ---- What is shown

/// The commands that a document shows, in order, each with what it prints.
fn sessions(document: &Document) -> Vec<(String, String)> {
    let mut sessions: Vec<(String, String)> = Vec::new();
    let mut shown = false;
    for line in document.prose() {
        match (line.strip_prefix("    $ "), line.strip_prefix("    "), sessions.last_mut()) {
            (Some(command), _, _) => sessions.push((command.to_string(), String::new())),
            (None, Some(line), Some((_, printed))) if shown => *printed += &format!("{line}\n"),
            _ => {}
        }
        shown = line.starts_with("    $ ") || shown && line.starts_with("    ");
    }
    sessions
}

/// Records that a document shows in fenced blocks: bytes in hexadecimal, and the line of a journal as it is printed, with
/// spaces for the tab.
fn shown_records(document: &Document) -> Vec<(Vec<u8>, String)> {
    let fenced = document.text.split("```").skip(1).step_by(2).flat_map(str::lines);
    let rows = fenced.map(|line| line.split("  ").map(str::trim).filter(|cell| !cell.is_empty()).collect::<Vec<_>>());
    let rows = rows.filter(|cells| cells.len() == 3);
    rows.map(|cells| (hexadecimal(cells[0]), format!("{}\t{}", cells[1], cells[2]))).collect()
}

fn hexadecimal(bytes: &str) -> Vec<u8> {
    let byte = |byte| u8::from_str_radix(byte, 16).unwrap_or_else(|_| panic!("{byte} is no byte"));
    bytes.split(' ').map(byte).collect()
}

// ---- Tests

/// Nothing is wrong with any document.
fn assert_holds(check: impl Fn(&Document) -> Vec<String>) {
    let said = |document: &Document| {
        check(document).into_iter().map(|wrong| format!("{}: {wrong}\n", document.path)).collect()
    };
    let wrong: String = Document::all().iter().map(said).collect::<Vec<String>>().concat();
    assert!(wrong.is_empty(), "\n{wrong}");
}

#[test]
fn links_lead_somewhere() {
    assert_holds(|document| document.prose().into_iter().flat_map(|line| broken_links(&document.path, line)).collect());
}

#[test]
fn paths_are_there() {
    assert_holds(|document| document.prose().into_iter().flat_map(missing_paths).collect());
}

#[test]
fn functions_are_there() {
    assert_holds(|document| document.prose().into_iter().flat_map(missing_items).collect());
}

#[test]
fn theorems_and_laws_are_there() {
    let specs = antt_below(&root().join("crates"));
    assert_holds(|document| {
        let rows = document.rows();
        rows.iter().flat_map(|row| [missing_theorems(row, &specs), missing_laws(row)].concat()).collect()
    });
}

#[test]
fn promises_name_every_edit() {
    let edits = edits();
    assert!(!edits.is_empty());
    assert_eq!(unlike_edits(&Document::read("docs/PROMISES.md"), &edits), [""; 0]);
}

/// In a folder that has the desk, and nothing else before.
#[test]
fn sessions_are_what_the_desk_prints() {
    Program::lending_desk();
    let folder = Path::new(env!("CARGO_TARGET_TMPDIR")).join("sessions");
    let _ = fs::remove_dir_all(&folder);
    fs::create_dir_all(&folder).expect("a folder is made");
    symlink(root().canonicalize().expect("it is there").join("desk"), folder.join("desk")).expect("a link is made");
    symlink(root().canonicalize().expect("it is there").join("examples"), folder.join("examples"))
        .expect("a link is made");
    assert!(sessions(&Document::read("README.md")).len() >= 5, "the README has sessions");
    for (command, expected) in Document::all().iter().flat_map(sessions) {
        let output = Command::new("bash").args(["-c", &command]).current_dir(&folder).output().expect("bash starts");
        assert_eq!(String::from_utf8_lossy(&output.stdout), expected, "{command}");
        assert_eq!(String::from_utf8_lossy(&output.stderr), "", "{command}");
    }
}

/// By both implementations.
#[test]
fn shown_records_are_read_and_written() {
    let records = shown_records(&Document::read("docs/JOURNAL.md"));
    assert!(records.len() >= 12, "{records:?}");
    for (bytes, expected) in &records {
        let (record, end) = journal::next(bytes, 0).expect("it is read").expect("a record");
        assert_eq!((journal::line(&record), end), (expected.clone(), bytes.len()));
        assert_eq!(journal::write(&record).as_ref(), Ok(bytes));
    }
    let file = JournalFile::of(&records.iter().flat_map(|(bytes, _)| bytes.clone()).collect::<Vec<_>>());
    let lines: String = records.iter().map(|(_, line)| format!("{line}\n")).collect();
    file.print(&Program::lending_desk()).check(&Told::new(lines.as_bytes(), "")).expect("printed");
}

#[test]
fn shown_numbers_are_in_groups() {
    let document = Document::read("docs/JOURNAL.md");
    let rows = document.rows();
    let numbers: Vec<_> = rows.iter().filter(|row| row.head == ["number", "bytes"]).collect();
    assert!(numbers.len() >= 5);
    for row in numbers {
        let number = row.cells[0].replace(',', "").parse().expect("a number");
        let begin = journal::Record { letter: b'B', arguments: vec![number], said: journal::Said::Ok };
        let groups = hexadecimal(row.last().trim_matches('`'));
        assert_eq!(journal::write(&begin), Ok([b"B", &groups[..]].concat()), "{number}");
    }
}

/// A proved case cannot read a file: it has the listing's columns as two texts.
#[test]
fn proved_case_has_the_listing() {
    let Document { path, text } = Document::read("crates/script/proofs/Cases.antt");
    let (input, output) = columns(WHOLE_CASE);
    for column in [input, output] {
        assert!(text.contains(&format!("= {column:?}\n")), "{path} should have {column:?}");
    }
}

/// The commands for the examples are those in the examples' own heads.
#[test]
fn commands_are_those_of_the_examples() {
    let Document { text: readme, .. } = Document::read("README.md");
    for (example, command) in [("examples/whole_case.c", "cc "), ("examples/whole_case.rs", "cargo run ")] {
        let line = readme.lines().find(|line| line.starts_with(&format!("    {command}")));
        let line = line.unwrap_or_else(|| panic!("the README says no {command}"));
        assert!(Document::read(example).text.contains(line), "{example} does not say{line}");
    }
}

/// The fragment in C, put into a function.
#[test]
fn fragment_is_c() {
    let Document { text, .. } = Document::read("README.md");
    let fragment = text.split("```c\n").nth(1).and_then(|rest| rest.split("```").next()).expect("a fragment in C");
    let program = format!("#include <stdio.h>\n#include \"lending_desk.h\"\nint main(void) {{\n{fragment}}}\n");
    let mut compiler = Command::new("cc");
    compiler.args(["-std=c99", "-Wall", "-Wextra", "-pedantic", "-Werror", "-fsyntax-only", "-x", "c", "-", "-I"]);
    let mut compiler = compiler.arg(root().join("include")).stdin(Stdio::piped()).spawn().expect("cc starts");
    compiler.stdin.take().expect("piped").write_all(program.as_bytes()).expect("cc reads it");
    assert!(compiler.wait().expect("cc ends").success(), "{program}");
}

/// A text that stands in `docs`.
fn document(text: &str) -> Document {
    Document { path: "docs/TEXT.md".to_string(), text: text.to_string() }
}

/// What the checks say of it.
fn said(text: &str) -> Vec<String> {
    let document = document(text);
    let lines = |line: &str| [broken_links(&document.path, line), missing_paths(line), missing_items(line)].concat();
    let rows = document.rows();
    let specs = antt_below(&root().join("crates/store"));
    let rows = rows.iter().flat_map(|row| [missing_theorems(row, &specs), missing_laws(row)].concat());
    document.prose().into_iter().flat_map(lines).chain(rows).collect()
}

#[test]
fn right_texts_are_let_through() {
    for text in [
        "[there](PROMISES.md#how-to-check-one), [up](../README.md), [out](https://example.org/none)",
        "`crates/store/specs/{Store,Layout}.antt`, `crates/*/must-fail`, `crates/CRATE/must-fail/LABEL.edit`, `docs/`",
        "`store/specs/Layout`, `store/dependency_reversed`, `entry_log::append`, `layout::OBJECTS`, `bytes::copy`, \
         `no/such`",
        "```\n[not](looked-at.md) `docs/none`\n```",
        "| subject | laws |\n|---|---|\n| `crates/store/proofs/Laws/Lists.antt` | `length_tabulate` |",
        "| name | promise |\n|---|---|\n| `zeros_sound` (`Theorems.antt`) | |",
    ] {
        assert_eq!(said(text), [""; 0], "{text}");
    }
}

#[test]
fn wrong_texts_are_noticed() {
    for text in [
        "[nowhere](NONE.md)",
        "[no such place](PROMISES.md#nowhere)",
        "[not from here](docs/PROMISES.md)",
        "`crates/store/specs/{Store,None}.antt`",
        "`crates/*/none`",
        "`bench/none.rs`",
        "`store/specs/None`",
        "`store/no_such_edit`",
        "`entry_log::appended`",
        "| subject | laws |\n|---|---|\n| `crates/store/proofs/Laws/Lists.antt` | `length_tabulated` |",
        "| name | promise |\n|---|---|\n| `zeros_unsound` | |",
    ] {
        assert_eq!(said(text).len(), 1, "{text}: {:?}", said(text));
    }
}

#[test]
fn edits_are_compared_both_ways() {
    let edits: BTreeSet<String> = ["entry_log/one", "store/two"].map(str::to_string).into();
    let apart = |text: &str| unlike_edits(&document(text), &edits);
    assert_eq!(apart("`store/two`, `store/specs`, `no/such`, and again `store/two`\n| `entry_log/one` |"), [""; 0]);
    assert_eq!(apart("`store/two`"), ["entry_log/one isn't named"]);
    assert_eq!(apart("```\n`entry_log/one`\n```\n`store/two`"), ["entry_log/one isn't named"]);
    assert_eq!(apart("`entry_log/one`, `store/one`"), ["store/two isn't named", "there is no edit store/one"]);
}

//! Lines of code, specifications and proofs have at most 120 characters.

use std::fs;
use std::path::Path;

const WIDTH: usize = 120;

/// The numbers of the lines that are wider.
fn wide_lines(text: &str) -> Vec<usize> {
    let lines = text.lines().enumerate();
    lines.filter(|(_, line)| line.chars().count() > WIDTH).map(|(i, _)| i + 1).collect()
}

/// The wide lines of the sources in a folder and below it, each with its file.
fn wide_below(folder: &Path) -> Vec<String> {
    let mut found = Vec::new();
    for entry in fs::read_dir(folder).unwrap_or_else(|error| panic!("{}: {error}", folder.display())) {
        let path = entry.expect("an entry of the folder").path();
        if path.is_dir() {
            if !path.ends_with("out") {
                found.extend(wide_below(&path));
            }
        } else if path.extension().map_or(false, |kind| kind == "rt" || kind == "antt") {
            let text = fs::read_to_string(&path).unwrap_or_else(|error| panic!("{}: {error}", path.display()));
            found.extend(wide_lines(&text).into_iter().map(|line| format!("{}:{line}", path.display())));
        }
    }
    found
}

#[test]
fn lines_are_at_most_120_wide() {
    let wide = wide_below(&Path::new(env!("CARGO_MANIFEST_DIR")).join("../crates"));
    assert!(wide.is_empty(), "over {WIDTH} characters: {wide:#?}");
}

#[test]
fn a_wide_line_is_noticed() {
    let text = ["→".repeat(WIDTH), "a".repeat(WIDTH + 1), String::new()].join("\n");
    assert_eq!(wide_lines(&text), [2]);
}

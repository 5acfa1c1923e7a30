//! The page docs/LESSONS.md: its scripts are those of examples/, and its output is what the program
//! prints for them; and README's script in words.

use crate::{printed, run, text};
use std::fs;

const PAGE: &str = include_str!("../../../../docs/LESSONS.md");

const README: &str = include_str!("../../../../README.md");

/// The part of the page under this heading.
fn section(heading: &str) -> &'static str {
    let start = PAGE.find(heading).expect("the page has the heading");
    let section = &PAGE[start + heading.len()..];
    section.split("\n## ").next().unwrap_or_default()
}

/// The lines of all blocks of this kind.
fn blocks(section: &str, kind: &str) -> Vec<String> {
    let mut lines = section.lines();
    let mut found = Vec::new();
    while let Some(line) = lines.next() {
        if let Some(of) = line.strip_prefix("```") {
            let block = lines.by_ref().take_while(|line| *line != "```");
            let block: Vec<String> = block.map(str::to_string).collect();
            if of == kind {
                found.extend(block);
            }
        }
    }
    found
}

#[track_caller]
fn assert_lesson(heading: &str, name: &str) {
    let section = section(heading);
    assert!(section.contains(&format!("`examples/{name}`")), "{name}");
    let file = format!("{}/../../examples/{name}", env!("CARGO_MANIFEST_DIR"));

    let script = fs::read_to_string(&file).expect("there is such an example");
    let calls: Vec<&str> = script
        .lines()
        .filter(|line| !line.is_empty() && !line.starts_with('#'))
        .collect();
    assert_eq!(blocks(section, "calls"), calls, "{name}");

    let output = run(&["--explain", &file], b"");
    assert_eq!(text(&output.stderr), "");
    let printed: Vec<&str> = text(&output.stdout).lines().collect();
    assert_eq!(blocks(section, "text"), printed, "{name}");
}

#[test]
fn late() {
    assert_lesson("## Late", "late.calls");
}

#[test]
fn undo() {
    assert_lesson("## Undo", "undo.calls");
}

#[test]
fn trust() {
    assert_lesson("## Trust", "trust.calls");
}

#[test]
fn the_readme() {
    let example = README.split_once("$ calls --explain <<'END'\n");
    let (_, example) = example.expect("README has a script in words");
    let (script, output) = example.split_once("END\n").expect("it ends");
    let (output, _) = output.split_once("```\n").expect("the block ends");
    assert_eq!(printed(&["--explain"], script), output);
}

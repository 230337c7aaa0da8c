//! What docs/PROMISES.md and docs/PROOF-MAP.md name exists. A name stands in backticks, and:
//!
//! - a path below `crates/` (`.antt` left out) or from the top is a file or a folder. After a path,
//!   names without a folder may be files beside it: `words/specs/Fields`, `Check`;
//! - a name, or a row of names joined by commas or "and", with a file in brackets behind it is
//!   declared in that file: `check_of` (`words/specs/Check`), a later (`Order`) beside the last file
//!   named. In PROMISES (Check) is a file of `specs/` of the section's crate or the row's, (words,
//!   Check) of that crate;
//! - in a table with a column File the names under Theorem are declared in the row's files, and
//!   where a column's head names a file, the column's names are declared there;
//! - in PROMISES the laws under One outcome stand in `proofs/Unique` of the section's crate, the
//!   impostors that letters stand for in `laws/proofs/Impostors`, and the labels under Edits in
//!   `must-fail/` of the section's crate, the row's, or the one before the colon;
//! - a name "of" a path is declared there, and an edit "of" crates stands in each of them:
//!   `RESERVED` of `starts/src/lib.rt`, `divide_by_256` of `mix` and `span`;
//! - every other name is declared in some crate, `mix::fade` in that one, or is a crate's, an
//!   edit's, or one of `WORDS`;
//! - every edit of the tree is named in PROMISES.
//!
//! And the files of PROOF-MAP's reading list have at most `MOST_READ` lines, and the rooms of
//! docs/DECISIONS.md are listed in crates.txt by the crates that it names and by no other.
//!
//! `F_spec` is declared where the function F is. Faults are told all at once, each with its line.

mod reader;
mod tree;

use reader::{names_in, Reader};
use std::collections::BTreeSet;
use std::fs;
use tree::{top, Tree};

fn text_of(document: &str) -> String {
    fs::read_to_string(top().join(document)).expect("a document is read")
}

#[test]
fn what_the_documents_name_exists() {
    let tree = Tree::read();
    let documents = ["docs/PROMISES.md", "docs/PROOF-MAP.md"];
    let faults: Vec<String> = documents
        .iter()
        .flat_map(|name| Reader::read(&tree, name, &text_of(name)).faults)
        .collect();
    assert!(faults.is_empty(), "{} faults\n{}", faults.len(), faults.join("\n"));
}

#[test]
fn every_edit_is_named_in_the_promises() {
    let tree = Tree::read();
    let text = text_of("docs/PROMISES.md");
    let named = Reader::read(&tree, "docs/PROMISES.md", &text).named_edits;
    let words: BTreeSet<String> = names_in(&text).into_iter().map(|name| name.text).collect();
    let alone = |label: &String| tree.edits.iter().filter(|(_, other)| other == label).count() == 1;
    let is_named = |edit: &&(String, String)| {
        named.contains(*edit) || words.contains(&edit.1) && alone(&edit.1)
    };
    let missing: Vec<_> = tree.edits.iter().filter(|edit| !is_named(edit)).collect();
    assert!(missing.is_empty(), "not named: {missing:?}");
}

/// The most lines that a reader of document 01 has to believe.
const MOST_READ: usize = 1_400;

/// The files of a row of the reading list: after a path, names without a folder are files beside it.
fn files_in(row: &str) -> Vec<String> {
    let read = row.split('|').nth(2).expect("the files stand in the second column");
    let mut folder = String::new();
    let mut files = Vec::new();
    for name in names_in(read) {
        if let Some((path, _)) = name.text.rsplit_once('/') {
            folder = path.to_string();
            files.push(name.text);
        } else {
            files.push(format!("{folder}/{}", name.text));
        }
    }
    files
}

/// The lines of a file but for empty ones and those that only bring names in.
fn lines_of(file: &str) -> usize {
    let text = text_of(&format!("crates/{file}.antt"));
    text.lines().filter(|line| !line.is_empty() && !line.starts_with("use ")).count()
}

#[test]
fn what_has_to_be_read_is_short() {
    let text = text_of("docs/PROOF-MAP.md");
    let list = text.split("## How to audit the definitions").nth(1).expect("the reading list");
    let list = list.split("\n## ").next().expect("its section");
    let rows = list.lines().filter(|line| line.starts_with("| ") && !line.starts_with("| |"));
    let files: Vec<String> = rows.flat_map(files_in).collect();
    let lines: usize = files.iter().map(|file| lines_of(file)).sum();
    assert!(files.len() > 30 && lines > 1_000, "a list of {} files, {lines} lines", files.len());
    assert!(lines <= MOST_READ, "{lines} lines");
}

/// The crates that list a crate, in crates.txt's order.
fn listed_by(crates: &str, room: &str) -> Vec<String> {
    let lines = crates.lines().filter(|line| !line.starts_with('#'));
    let crates = lines.filter_map(|line| line.split_once(':'));
    let lists = |below: &str| below.split_whitespace().any(|word| word == room);
    crates.filter(|(_, below)| lists(below)).map(|(name, _)| name.to_string()).collect()
}

#[test]
fn rooms_are_closed() {
    let text = text_of("docs/DECISIONS.md");
    let table = text.split("| Room | Listed by |\n|---|---|\n").nth(1).expect("the rooms");
    let rows: Vec<&str> = table.lines().take_while(|line| line.starts_with('|')).collect();
    assert!(rows.len() > 3, "{} rooms", rows.len());
    let crates = text_of("crates.txt");
    for row in rows {
        let names: Vec<String> = names_in(row).into_iter().map(|name| name.text).collect();
        assert_eq!(listed_by(&crates, &names[0]), names[1..], "the room {}", names[0]);
    }
}

/// A right line and a wrong one.
const LINES: [(&str, &str); 9] = [
    ("`words/specs/Check`, `Fields`", "`words/specs/Chek`"),
    ("`check_of` (`words/specs/Check`)", "`check_of` (`words/specs/Fields`)"),
    (
        "`check_of`, `reserved_at` (`words/specs/Check`)",
        "`layer_of`, `check_of` (`words/specs/Check`)",
    ),
    ("`words/specs/Fields`: `check_of` (`Check`)", "`words/specs/Check`: `check_of` (`Fields`)"),
    ("`check_of`", "`checked_of`"),
    ("`start_spec` (`display/proofs/`)", "`start_spec` (`mix/proofs/`)"),
    ("`mix::fade`", "`span::fade`"),
    ("`RESERVED` of `starts/src/lib.rt`", "`RESERVED` of `order/src/lib.rt`"),
    ("`divide_by_256` of `mix`", "`divide_by_256` of `mix` and `words`"),
];

/// The heads of a table in the section of a crate, a right row and a wrong one.
const TABLES: [(&str, &str, &str, &str); 8] = [
    ("words", "Definition|", "`check_of` (Check)|", "`check_of` (Fields)|"),
    ("words", "Definition|", "`blend_of` (mix, Blend)|", "`blend_of` (mix, Fade)|"),
    ("words", "Of `words/specs/Check`|", "`check_of`|", "`layer_of`|"),
    ("order", "Edits|", "`top_layer_first`|", "`divide_by_256`|"),
    ("words", "Edits|", "mix: `divide_by_256`|", "mix: `top_layer_first`|"),
    (
        "laws",
        "Theorem|File",
        "`split-frame`|`laws/proofs/Split`",
        "`split-frame`|`laws/proofs/Opaque`",
    ),
    ("display", "Call|Impostors", "`write()`|D, N", "`write()`|D, F"),
    ("display", "One outcome|", "`write-unique`|", "`host-unique`|"),
];

/// The check itself, by each rule.
#[test]
fn wrong_lines_are_caught() {
    let tree = Tree::read();
    let table = |krate, heads, row| format!("## `{krate}`\n|{heads}|\n|---|---|\n|{row}|\n");
    let tables = TABLES.map(|(krate, heads, right, wrong)| {
        (table(krate, heads, right), table(krate, heads, wrong))
    });
    let lines = LINES.map(|(right, wrong)| (right.to_string(), wrong.to_string()));
    for (right, wrong) in lines.into_iter().chain(tables) {
        assert_eq!(Reader::read(&tree, "right", &right).faults, Vec::<String>::new());
        let faults = Reader::read(&tree, "wrong", &wrong).faults;
        let line = format!("wrong:{}: ", wrong.lines().count());
        assert!(faults.len() == 1 && faults[0].starts_with(&line), "{wrong}{faults:?}");
    }
    let in_two_lines = "some\ntext `check_of`\n(`words/specs/Fields`)";
    assert_eq!(
        Reader::read(&tree, "wrong", in_two_lines).faults,
        ["wrong:2: `check_of` is not declared in words/specs/Fields"]
    );
}

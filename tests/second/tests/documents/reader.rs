//! A document's names in backticks, each with what it is asked by the place where it stands.

use crate::tree::{is_plain, top, Tree};
use std::collections::BTreeSet;

/// Words in backticks that no crate declares: the language's, the toolchain's, and patterns of
/// names.
const WORDS: [&str; 4] = [
    "requires ensures pub use match loop axiom",
    "std io mathlib wrapping_sub_u32 wrapping_add_u32",
    "min set take drop length replicate eqb ltb leb",
    "CALL-NUMBER CALL-tie CALL-unique CALL-down CALL-fixed CALL-untouched CALL-ground-last F_spec \
     CRATE/proofs/../F/Invariants.antt CRATE/proofs/../F/Answers.antt",
];

fn is_word(text: &str) -> bool {
    WORDS.iter().flat_map(|words| words.split_whitespace()).any(|word| word == text)
}

/// What stands in backticks, in which line of the text, and what follows up to the next.
#[derive(Clone, Debug)]
pub struct Name {
    pub text: String,
    line: usize,
    after: String,
}

pub fn names_in(text: &str) -> Vec<Name> {
    let feeds = |part: &str| part.matches('\n').count();
    let parts: Vec<&str> = text.split('`').collect();
    let mut line = feeds(parts[0]);
    let mut names = Vec::new();
    for pair in parts[1..].chunks(2) {
        let after = pair.get(1).copied().unwrap_or_default();
        names.push(Name { text: pair[0].into(), line, after: after.replace('\n', " ") });
        line += feeds(pair[0]) + feeds(after);
    }
    names
}

/// Names joined by commas or "and", and what follows the last.
fn rows_of(names: &[Name]) -> Vec<&[Name]> {
    let joined = |name: &Name| [", ", " and ", ", and "].contains(&name.after.as_str());
    names.split_inclusive(|name| !joined(name)).collect()
}

fn is_path(text: &str) -> bool {
    text.contains('/') && !text.contains([' ', '='])
}

/// A name of a document with what it stands for where it is a call: `write(register, value)`,
/// `mix::fade`.
fn bare(text: &str) -> &str {
    let text = text.split('(').next().expect("the first part");
    text.rsplit("::").next().expect("the last part")
}

pub struct Reader<'a> {
    tree: &'a Tree,
    document: &'a str,
    line: usize,
    /// The folder of the last path.
    folder: String,
    /// The crate of the section.
    section: Option<String>,
    /// The heads of the table's columns.
    heads: Vec<String>,
    pub named_edits: BTreeSet<(String, String)>,
    pub faults: Vec<String>,
}

impl<'a> Reader<'a> {
    /// What a document names, and its faults.
    pub fn read(tree: &'a Tree, document: &'a str, text: &str) -> Reader<'a> {
        let mut reader = Reader {
            tree,
            document,
            line: 0,
            folder: String::new(),
            section: None,
            heads: Vec::new(),
            named_edits: BTreeSet::new(),
            faults: Vec::new(),
        };
        reader.lines(text);
        reader
    }

    fn fault(&mut self, told: String) {
        self.faults.push(format!("{}:{}: {told}", self.document, self.line));
    }

    /// Tables row by row, other text by paragraphs, so that a name and its file may stand in two
    /// lines.
    fn lines(&mut self, text: &str) {
        let mut paragraph = String::new();
        for (i, line) in text.lines().chain([""]).enumerate() {
            let goes_on = !line.is_empty() && !line.starts_with(['|', '#', '-']);
            if !goes_on {
                self.line = i + 1 - paragraph.matches('\n').count();
                self.text(&paragraph, None);
                paragraph.clear();
            }
            self.line = i + 1;
            if let Some(row) = line.strip_prefix('|') {
                self.table_line(row);
                continue;
            }
            self.heads.clear();
            if let Some(head) = line.strip_prefix("## ") {
                let name = names_in(head).into_iter().next().map(|name| name.text);
                self.section = name.filter(|name| self.tree.crates.contains(name));
            }
            paragraph += line;
            paragraph.push('\n');
        }
    }

    /// The first line of a table has the heads of its columns.
    fn table_line(&mut self, row: &str) {
        let cells = row.trim_end().trim_end_matches('|').split('|').map(str::trim);
        let cells: Vec<&str> = cells.collect();
        if self.heads.is_empty() {
            self.heads = cells.iter().map(|cell| cell.to_string()).collect();
            self.text(row, None);
        } else {
            self.row(&cells);
        }
    }

    fn row(&mut self, cells: &[&str]) {
        let heads = self.heads.clone();
        let column =
            |name: &str| heads.iter().position(|head| head == name).and_then(|i| cells.get(i));
        let krate = names_in(cells[0]).first().and_then(|name| {
            let krate = name.text.split("::").next().filter(|_| name.text.contains("::"))?;
            self.tree.crates.contains(krate).then(|| krate.to_string())
        });
        let krate = krate.or(self.section.clone());
        for (head, cell) in heads.iter().zip(cells) {
            self.text(cell, krate.as_deref());
            let asked = names_in(head).into_iter().find(|name| is_path(&name.text));
            if let Some(file) = asked {
                self.declared(cell, &[file.text]);
            }
        }
        if let (Some(theorems), Some(files)) = (column("Theorem"), column("File")) {
            let files: Vec<String> =
                names_in(files).iter().map(|file| self.path_of(&file.text)).collect();
            self.declared(theorems, &files);
        }
        if let (Some(laws), Some(krate)) = (column("One outcome"), &krate) {
            self.declared(laws, &[format!("{krate}/proofs/Unique")]);
        }
        if let (Some(impostors), Some(calls)) = (column("Impostors"), column("Call")) {
            self.impostors(impostors, calls);
        }
        if let Some(edits) = column("Edits") {
            self.edits(edits, krate.as_deref());
        }
    }

    /// A path as it is written, or a file beside the last one.
    fn path_of(&self, text: &str) -> String {
        let text = text.trim_end_matches('/');
        if is_path(text) {
            text.into()
        } else {
            format!("{}/{text}", self.folder)
        }
    }

    /// The plain names of a cell are declared in one of the files.
    fn declared(&mut self, cell: &str, files: &[String]) {
        let names = names_in(cell).into_iter();
        for name in names.filter(|name| is_plain(&name.text) && !is_word(&name.text)) {
            if !files.iter().any(|file| self.tree.declares(file, &name.text)) {
                self.fault(format!("`{}` is not declared in {}", name.text, files.join(", ")));
            }
        }
    }

    /// Paths, names with their file, and names that are declared somewhere.
    fn text(&mut self, text: &str, krate: Option<&str>) {
        let names = names_in(text);
        let rows = rows_of(&names);
        let first = self.line;
        for (i, row) in rows.iter().enumerate() {
            for name in *row {
                self.line = first + name.line;
                self.name(&name.text);
            }
            let next = rows.get(i + 1).copied().unwrap_or_default();
            let after = row.last().map_or("", |name| &name.after);
            match after {
                " (" if next.last().is_some_and(|file| file.after.starts_with(')')) => {
                    let files = self.files(next);
                    self.row_declared(row, &files);
                }
                " of " if next.first().is_some_and(|file| is_path(&file.text)) => {
                    self.row_declared(row, &[next[0].text.clone()]);
                }
                " of " => self.row_of_edits(row, next),
                _ => {
                    if let Some(file) = spec_file(after, krate) {
                        self.row_declared(row, &[file]);
                    }
                }
            }
        }
    }

    /// Where the names are edits, each stands in each of the crates that follow.
    fn row_of_edits(&mut self, row: &[Name], next: &[Name]) {
        let crates: Vec<&String> = next
            .iter()
            .map(|name| &name.text)
            .take_while(|name| self.tree.crates.contains(*name))
            .collect();
        for edit in row.iter().filter(|edit| self.tree.is_edit(&edit.text)) {
            for &krate in &crates {
                if !self.tree.edits.contains(&(krate.clone(), edit.text.clone())) {
                    self.fault(format!("`{}` is no edit of {krate}", edit.text));
                }
            }
        }
    }

    /// The paths of a row of files, each beside the one before it where it has no folder.
    fn files(&mut self, row: &[Name]) -> Vec<String> {
        let mut files = Vec::new();
        for file in row {
            let path = self.path_of(&file.text);
            if !self.tree.has(&path) {
                // Words in brackets that are no file.
                return Vec::new();
            }
            if is_path(&file.text) {
                self.enter(&path);
            }
            files.push(path);
        }
        files
    }

    /// Files without a folder stand beside this one from now on.
    fn enter(&mut self, path: &str) {
        self.folder = path.rsplit_once('/').expect("a path").0.to_string();
    }

    /// Each plain name of a row is declared in one of the files, where there is any.
    fn row_declared(&mut self, row: &[Name], files: &[String]) {
        let names = row.iter().map(|name| bare(&name.text));
        for name in names.filter(|name| is_plain(name) && !is_word(name)) {
            if !files.is_empty() && !files.iter().any(|file| self.tree.declares(file, name)) {
                self.fault(format!("`{name}` is not declared in {}", files.join(", ")));
            }
        }
    }

    /// A path exists, a plain name is declared somewhere.
    fn name(&mut self, text: &str) {
        if is_word(text) {
            return;
        }
        if is_path(text) {
            if self.tree.has(text) {
                self.enter(text.trim_end_matches('/'));
            } else if !self.is_elsewhere(text) {
                self.fault(format!("`{text}` is no file"));
            }
            return;
        }
        let name = bare(text);
        let owner = text.split_once("::").map(|(krate, _)| krate);
        let known = match owner.filter(|krate| self.tree.crates.contains(*krate)) {
            Some(krate) => self.tree.declares(&format!("{krate}/src"), name),
            None => {
                self.tree.names.contains(name)
                    || self.tree.crates.contains(name)
                    || self.tree.is_edit(name)
                    || self.tree.has(&self.path_of(name))
            }
        };
        if is_plain(name) && !known {
            self.fault(format!("`{text}` is declared nowhere"));
        }
    }

    /// A path from the top, or one that some crate has: `must-fail/`.
    fn is_elsewhere(&self, path: &str) -> bool {
        let in_crate = |krate: &String| self.tree.has(&format!("{krate}/{path}"));
        top().join(path).exists() || self.tree.crates.iter().any(in_crate)
    }

    /// D, F and N stand for three theorems of a call.
    fn impostors(&mut self, cell: &str, calls: &str) {
        let call = match names_in(calls).first().map(|name| bare(&name.text).to_string()) {
            Some(call) if call == "spoonwing_frame" => "host".into(),
            Some(call) if call == "spoonwing_mend" => "mend".into(),
            Some(call) if call == "run_line" => "line".into(),
            Some(call) => call.replace('_', "-"),
            None => return,
        };
        let letters = cell.split(';').next().expect("the first part").split(", ");
        for (letter, ending) in [("D", "down"), ("F", "fixed"), ("N", "untouched")] {
            let theorem = format!("{call}-{ending}");
            let is_there = self.tree.declares("laws/proofs/Impostors", &theorem);
            if letters.clone().any(|part| part == letter) && !is_there {
                self.fault(format!("{letter}: `{theorem}` is not in laws/proofs/Impostors"));
            }
        }
    }

    /// Labels of the row's crate, or of the crate before the colon.
    fn edits(&mut self, cell: &str, krate: Option<&str>) {
        for part in cell.split(';') {
            let before = part.split('`').next().expect("the first part").trim();
            let other = before.strip_suffix(':').filter(|name| self.tree.crates.contains(*name));
            for name in names_in(part) {
                let label = name.text;
                let Some(krate) = other.or(krate) else { continue };
                if !self.tree.is_edit(&label) {
                    // A call whose edits these are; other words were asked for already.
                    continue;
                }
                let edit = (krate.to_string(), label);
                if !self.tree.edits.contains(&edit) {
                    self.fault(format!("`{}` is no edit of {krate}", edit.1));
                }
                self.named_edits.insert(edit);
            }
        }
    }
}

/// "(Check)" and "(words, Check)" behind a name of PROMISES.
fn spec_file(after: &str, krate: Option<&str>) -> Option<String> {
    let inside = after.strip_prefix(" (")?.split(')').next()?;
    let (krate, file) = match inside.split_once(", ") {
        Some((krate, file)) => (krate, file),
        None => (krate?, inside),
    };
    let is_file = file.chars().all(char::is_alphanumeric) && file.starts_with(char::is_uppercase);
    (is_file && krate.chars().all(char::is_alphanumeric)).then(|| format!("{krate}/specs/{file}"))
}

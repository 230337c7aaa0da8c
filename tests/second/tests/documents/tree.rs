//! The crates and the tests as they stand: which file declares which name.

use std::collections::{BTreeMap, BTreeSet};
use std::fs;
use std::path::{Path, PathBuf};

pub fn top() -> PathBuf {
    Path::new(env!("CARGO_MANIFEST_DIR")).join("../..")
}

/// The names that each file declares, by its path below `crates/`, or from the top for the tests;
/// the crates, and their edits.
pub struct Tree {
    files: BTreeMap<String, BTreeSet<String>>,
    pub crates: BTreeSet<String>,
    pub edits: BTreeSet<(String, String)>,
    /// All names.
    pub names: BTreeSet<String>,
}

impl Tree {
    pub fn read() -> Tree {
        let mut tree = Tree {
            files: BTreeMap::new(),
            crates: BTreeSet::new(),
            edits: BTreeSet::new(),
            names: BTreeSet::new(),
        };
        tree.add(&top().join("crates"), "");
        let edits = tree.files.keys().filter_map(|path| path.strip_suffix(".edit"));
        let parts = edits.filter_map(|path| path.split_once("/must-fail/"));
        tree.edits = parts.map(|(krate, label)| (krate.into(), label.into())).collect();
        tree.crates =
            tree.files.keys().filter_map(|path| path.split('/').next()).map(Into::into).collect();
        tree.add(&top().join("tests/second/tests"), "tests/second/tests/");
        tree.names = tree.files.values().flatten().cloned().collect();
        assert!(tree.files.len() > 100 && tree.edits.len() > 10, "the crates are there");
        tree
    }

    /// The files of a folder, whose place ends in a slash.
    fn add(&mut self, folder: &Path, place: &str) {
        for entry in fs::read_dir(folder).expect("a folder is read") {
            let path = entry.expect("it is there").path();
            let name = path.file_name().and_then(|name| name.to_str()).expect("plain names");
            if path.is_dir() {
                // What the toolchain makes of a crate is not the crate.
                if name != "out" {
                    self.add(&path, &format!("{place}{name}/"));
                }
                continue;
            }
            let text = fs::read(&path).expect("a file is read");
            let text = String::from_utf8_lossy(&text);
            let declared: fn(&str) -> Vec<String> = match name.rsplit('.').next() {
                Some("antt") => antt_names,
                Some("rt" | "rs") => code_names,
                _ => |_| Vec::new(),
            };
            self.files.insert(format!("{place}{name}"), text.lines().flat_map(declared).collect());
        }
    }

    /// The file of a path as the documents write it, or the files of that folder.
    fn at<'a>(&'a self, path: &'a str) -> impl Iterator<Item = &'a BTreeSet<String>> {
        let path = path.trim_end_matches('/');
        let is_at = move |file: &str| match file.strip_prefix(path) {
            Some(rest) => rest.is_empty() || rest == ".antt" || rest.starts_with('/'),
            None => false,
        };
        self.files.iter().filter(move |(file, _)| is_at(file)).map(|(_, names)| names)
    }

    pub fn has(&self, path: &str) -> bool {
        self.at(path).next().is_some()
    }

    /// Whether a file, or a file of a folder, declares a name.
    pub fn declares(&self, path: &str, name: &str) -> bool {
        if self.at(path).any(|names| names.contains(name)) {
            return true;
        }
        let code = format!("{}/src", path.split('/').next().expect("a crate"));
        name.ends_with("_spec") && self.at(&code).any(|names| names.contains(name))
    }

    pub fn is_edit(&self, label: &str) -> bool {
        self.edits.iter().any(|(_, other)| other == label)
    }
}

/// What a line of antt declares: `pub put_answer : ..`, `pub record Ready ..`, `low high : ℕ`.
fn antt_names(line: &str) -> Vec<String> {
    let mut line = line.trim_start();
    while let Some(rest) =
        ["pub ", "abbrev ", "unfoldable "].iter().find_map(|word| line.strip_prefix(word))
    {
        line = rest;
    }
    let typed = |line: &str| {
        let names: Vec<String> = line.split_once(" : ")?.0.split(' ').map(String::from).collect();
        names.iter().all(|name| is_plain(name)).then_some(names)
    };
    let named = ["record ", "data ", "mod "].iter().find_map(|word| line.strip_prefix(word));
    match named {
        Some(rest) => rest.split([' ', ';', '.']).take(1).map(String::from).collect(),
        None if line.starts_with("--") => Vec::new(),
        None => typed(line).unwrap_or_default(),
    }
}

/// What a line of code declares: a constant, a struct or a module, a field or a parameter, a
/// function and the proof that it meets its contract.
fn code_names(line: &str) -> Vec<String> {
    let line = line.trim_start();
    if line.starts_with("//") {
        return Vec::new();
    }
    let words: Vec<&str> = line.split([' ', '(', ';', '<', ',']).collect();
    let typed = words.iter().filter_map(|word| word.strip_suffix(':'));
    let mut names: Vec<String> = typed.map(String::from).collect();
    for pair in words.windows(2) {
        let name = pair[1].trim_end_matches(':');
        match pair[0] {
            "fn" => names.extend([name.into(), format!("{name}_spec")]),
            "const" | "struct" | "mod" => names.push(name.into()),
            _ => {}
        }
    }
    names
}

/// A name as one declares it: no code, no path.
pub fn is_plain(text: &str) -> bool {
    let mut letters = text.chars();
    letters.next().is_some_and(char::is_alphabetic)
        && letters.all(|c| c.is_alphanumeric() || "_-'→".contains(c))
}

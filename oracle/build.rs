//! Lays the published text of the Rust down for the compiler.
//!
//! The text is read from the folder that `VITAMIN_SRC` names. It is changed by the edits of `patches/` alone; modules that the
//! publication leaves out are those of `absent/`, where every function ends the run. With the feature `wrong`, each edit of
//! `wrong/` makes one more copy of the walk, or of the reading of a sheet, with that one mistake in it, and with the feature
//! `wrong-runs` one more copy of the listing of runs. An edit whose text does not stand where it must, as often as it must, stops
//! the build.

use std::env;
use std::fmt::Write as _;
use std::fs;
use std::path::{Path, PathBuf};

/// The published files, by their own paths.
const PUBLISHED: [&str; 6] = [
    "crates/hdl-ast/src/lib.rs",
    "crates/elaborate/src/da/mod.rs",
    "crates/elaborate/src/da/expr_effect.rs",
    "crates/elaborate/src/da/loops.rs",
    "crates/elaborate/src/da/reads.rs",
    "crates/elaborate/src/da/writes.rs",
];

/// Modules of hdl-ast that the publication leaves out.
const ABSENT: [&str; 5] = ["case_inside", "range_rules", "sysfn", "value_rules", "walk"];

/// The files of the second reading, which wrong readings are copies of.
const READING: [&str; 3] = ["src/reading/mod.rs", "src/reading/kinds.rs", "src/reading/tables.rs"];

/// The files of the listing of runs, which wrong listings are copies of.
const LISTING: [&str; 5] =
    ["src/runs/mod.rs", "src/runs/expressions.rs", "src/runs/lists.rs", "src/runs/statements.rs", "src/runs/view.rs"];

/// One change of a text: what stands there, what is to stand there, and how often it stands there.
struct Hunk {
    old: Vec<String>,
    new: Vec<String>,
    times: usize,
}

struct Edit {
    name: String,
    title: String,
    file: String,
    hunks: Vec<Hunk>,
}

/// The edits of a file. Empty lines stand between them. An edit is `name: title`, a line `file: ..` unless it is the file of the edit
/// before, and hunks of `old: ..` and `new: ..` lines, with `times: N` where the text stands more than once. Several `old:` lines, or
/// `new:` lines, are the lines of one text.
fn read_edits(path: &Path) -> Vec<Edit> {
    println!("cargo:rerun-if-changed={}", path.display());
    let text = fs::read_to_string(path).unwrap_or_else(|e| panic!("{}: {e}", path.display()));
    let mut edits: Vec<Edit> = Vec::new();
    for block in text.trim_end().split("\n\n") {
        let mut lines = block.lines();
        let (name, title) = parted(lines.next().expect("an edit"));
        let file = edits.last().map_or(String::new(), |before| before.file.clone());
        let mut edit = Edit { name, title, file, hunks: Vec::new() };
        for line in lines {
            edit.add(line);
        }
        edits.push(edit);
    }
    edits
}

/// A key, and what stands after it and one space.
fn parted(line: &str) -> (String, String) {
    let (key, rest) = line.split_once(':').unwrap_or_else(|| panic!("no key: {line}"));
    (key.to_string(), rest.strip_prefix(' ').unwrap_or(rest).to_string())
}

impl Edit {
    fn add(&mut self, line: &str) {
        let (key, rest) = parted(line);
        match key.as_str() {
            "file" => self.file = rest,
            "old" => match self.hunks.last_mut() {
                Some(hunk) if hunk.new.is_empty() => hunk.old.push(rest),
                _ => self.hunks.push(Hunk { old: vec![rest], new: Vec::new(), times: 1 }),
            },
            "new" => self.hunks.last_mut().expect("old before new").new.push(rest),
            "times" => self.hunks.last_mut().expect("old before times").times = rest.parse().expect("a count"),
            _ => panic!("{}: {line}", self.name),
        }
    }
}

/// The edits of a folder, in the order of its files' names.
fn edits_of(folder: &Path) -> Vec<Edit> {
    println!("cargo:rerun-if-changed={}", folder.display());
    let mut paths: Vec<PathBuf> = fs::read_dir(folder)
        .unwrap_or_else(|e| panic!("{}: {e}", folder.display()))
        .map(|entry| entry.expect("an entry").path())
        .filter(|path| path.extension().is_some_and(|e| e == "edits"))
        .collect();
    paths.sort();
    paths.iter().flat_map(|path| read_edits(path)).collect()
}

fn apply(text: &str, edit: &Edit) -> String {
    assert!(!edit.hunks.is_empty(), "the edit {} changes nothing", edit.name);
    let mut text = text.to_string();
    for hunk in &edit.hunks {
        assert!(!hunk.new.is_empty(), "the edit {} does not say what is to stand there", edit.name);
        let (old, new) = (hunk.old.join("\n"), hunk.new.join("\n"));
        let found = text.matches(&old).count();
        assert!(
            found == hunk.times,
            "the edit {} finds its text {found} times in {}, and it must stand there {} times: {}",
            edit.name,
            edit.file,
            hunk.times,
            old
        );
        text = text.replace(&old, &new);
    }
    text
}

/// Writes these texts, each by its path, under a folder; those that the edit is for, as the edit has them.
fn lay_down(folder: &Path, texts: &[(String, String)], edit: Option<&Edit>) {
    for (path, text) in texts {
        let to = folder.join(path);
        fs::create_dir_all(to.parent().expect("a folder")).expect("a folder");
        let text = match edit {
            Some(edit) if edit.file == *path => apply(text, edit),
            _ => text.clone(),
        };
        fs::write(&to, text).unwrap_or_else(|e| panic!("{}: {e}", to.display()));
    }
}

/// The module of a walk: the text of `da`, and the call that asks it.
fn walk_module(out: &mut String, name: &str, folder: &Path) {
    let file = folder.join("crates/elaborate/src/da/mod.rs");
    writeln!(
        out,
        "#[allow(unused, clippy::all)] pub mod {name} {{ use crate::hdl_ast; use crate::hdl_ast as ast; \
         #[path = {file:?}] pub mod da; crate::asking::asked_by!(); }}"
    )
    .expect("written");
}

/// The module of a copy of one of our own, from its first file.
fn copied_module(out: &mut String, name: &str, file: &Path) {
    writeln!(out, "#[allow(unused)] #[path = {file:?}] pub mod {name};").expect("written");
}

/// Our own files by their paths.
fn own(here: &Path, paths: &[&str]) -> Vec<(String, String)> {
    paths.iter().map(|path| (path.to_string(), fs::read_to_string(here.join(path)).expect("a file of ours"))).collect()
}

fn is_of_listing(edit: &Edit) -> bool {
    LISTING.contains(&edit.file.as_str())
}

/// The copies of walks and readings with one mistake each, and the lists of them.
fn wrong_modules(out: &mut String, here: &Path, built: &Path, da: &[(String, String)]) {
    let reading = own(here, &READING);
    let mut walks = String::new();
    let mut readings = String::new();
    for edit in edits_of(&here.join("wrong")).into_iter().filter(|edit| !is_of_listing(edit)) {
        let module = format!("wrong_{}", edit.name);
        let folder = built.join(&module);
        let entry = format!("({:?}, {:?}, {module}", edit.name, edit.title);
        if READING.contains(&edit.file.as_str()) {
            lay_down(&folder, &reading, Some(&edit));
            copied_module(out, &module, &folder.join(READING[0]));
            writeln!(readings, "{entry}::load, {module}::held),").expect("written");
        } else {
            assert!(da.iter().any(|(path, _)| *path == edit.file), "{}: no such file: {}", edit.name, edit.file);
            lay_down(&folder, da, Some(&edit));
            walk_module(out, &module, &folder);
            writeln!(walks, "{entry}::asked),").expect("written");
        }
    }
    writeln!(out, "pub static WRONG_WALKS: &[(&str, &str, crate::wrong::Walk)] = &[{walks}];").expect("written");
    writeln!(out, "pub static WRONG_READINGS: &[(&str, &str, crate::wrong::Load, crate::wrong::Held)] = &[{readings}];")
        .expect("written");
}

/// The copies of the listing with one mistake each, and the list of them.
fn wrong_listings(out: &mut String, here: &Path, built: &Path) {
    let listing = own(here, &LISTING);
    let mut listings = String::new();
    for edit in edits_of(&here.join("wrong")).into_iter().filter(is_of_listing) {
        let module = format!("wrong_{}", edit.name);
        let folder = built.join(&module);
        lay_down(&folder, &listing, Some(&edit));
        copied_module(out, &module, &folder.join(LISTING[0]));
        writeln!(listings, "({:?}, {:?}, {module}::listed, {module}::sampled),", edit.name, edit.title).expect("written");
    }
    writeln!(out, "pub static WRONG_LISTINGS: &[crate::wrong_runs::Wrong] = &[{listings}];").expect("written");
}

/// The published texts by their paths, patched.
fn published(source: &Path, patches: &[Edit]) -> Vec<(String, String)> {
    let mut texts = Vec::new();
    for path in PUBLISHED {
        let from = source.join(path);
        println!("cargo:rerun-if-changed={}", from.display());
        let text = fs::read_to_string(&from).unwrap_or_else(|e| panic!("{}: {e} (VITAMIN_SRC names the folder)", from.display()));
        let mine = patches.iter().filter(|patch| patch.file == path);
        texts.push((path.to_string(), mine.fold(text, |text, patch| apply(&text, patch))));
    }
    texts
}

/// What stands for the modules that the publication leaves out, by their paths.
fn absent(here: &Path) -> Vec<(String, String)> {
    let mut texts = Vec::new();
    for name in ABSENT {
        let path = here.join(format!("absent/{name}.rs"));
        println!("cargo:rerun-if-changed={}", path.display());
        texts.push((format!("crates/hdl-ast/src/{name}.rs"), fs::read_to_string(&path).expect("an absent module")));
    }
    texts
}

fn main() {
    println!("cargo:rerun-if-env-changed=VITAMIN_SRC");
    let here = PathBuf::from(env::var("CARGO_MANIFEST_DIR").expect("set by cargo"));
    let source = env::var("VITAMIN_SRC").map_or_else(|_| here.join("../../shared/docs/src"), PathBuf::from);
    let built = PathBuf::from(env::var("OUT_DIR").expect("set by cargo"));
    let patches = edits_of(&here.join("patches"));
    for patch in &patches {
        assert!(PUBLISHED.contains(&patch.file.as_str()), "{}: no such file: {}", patch.name, patch.file);
    }
    let texts = published(&source, &patches);
    let right = built.join("right");
    lay_down(&right, &texts, None);
    lay_down(&right, &absent(&here), None);
    let mut out = String::new();
    writeln!(out, "#[allow(unused, clippy::all)] #[path = {:?}] pub mod hdl_ast;", right.join("crates/hdl-ast/src/lib.rs"))
        .expect("written");
    walk_module(&mut out, "right", &right);
    if env::var("CARGO_FEATURE_WRONG").is_ok() {
        READING.iter().for_each(|path| println!("cargo:rerun-if-changed={path}"));
        let da: Vec<(String, String)> = texts.into_iter().filter(|(path, _)| path.contains("/da/")).collect();
        wrong_modules(&mut out, &here, &built, &da);
    }
    if env::var("CARGO_FEATURE_WRONG_RUNS").is_ok() {
        LISTING.iter().for_each(|path| println!("cargo:rerun-if-changed={path}"));
        wrong_listings(&mut out, &here, &built);
    }
    fs::write(built.join("published.rs"), out).expect("written");
}

//! The joint facts of the files `Strength.antt` and `AllOrders.antt`: rows, each with the complete list of its runs, and sheets, each with
//! the row at which a premise first fails.

pub mod evaluate;
pub mod parse;
pub mod write;

use crate::path::{Ending, Event, Order, Run, Table, Truth, Way};
use crate::reading::kinds;
use crate::sheet::Row;
use evaluate::{Files, Origin, Tree, Value};
use std::io;
use std::process::Command;

/// A file by its path, the order that it lists runs in, and the files whose names it uses, those that are looked at first before the others.
pub struct File {
    pub path: &'static str,
    pub order: Order,
    uses: &'static [usize],
}

pub const FILES: [File; 4] = [
    File { path: "crates/paths/proofs/Strength.antt", order: Order::Row, uses: &[] },
    File { path: "crates/stmt_paths/proofs/Strength.antt", order: Order::Row, uses: &[0] },
    File { path: "crates/paths/proofs/AllOrders.antt", order: Order::Free, uses: &[0] },
    File { path: "crates/stmt_paths/proofs/AllOrders.antt", order: Order::Free, uses: &[1, 2, 0] },
];

/// How many of them are of row order, which revisions before free order have alone.
const OF_ROW_ORDER: usize = 2;

/// A row, what it is listed as and in which order, whole or its first events alone, and the list that is expected.
pub struct Case {
    pub way: Way,
    pub order: Order,
    pub rows: Vec<Row>,
    pub extent: Option<usize>,
    pub expected: Vec<Run>,
    pub from: Origin,
}

/// A sheet, with the row at which a premise first fails.
pub struct Sheet {
    pub rows: Vec<Row>,
    pub fails: Option<usize>,
}

pub struct Facts {
    pub texts: Vec<String>,
    pub cases: Vec<Case>,
    pub sheets: Vec<Sheet>,
    pub local: usize,
    pub marks: Vec<bool>,
    files: Files,
}

/// The texts of the files as they stand.
pub fn present() -> io::Result<Vec<String>> {
    FILES.iter().map(|file| std::fs::read_to_string(format!("../{}", file.path))).collect()
}

/// The texts of those of row order as of a revision.
pub fn as_of(revision: &str) -> io::Result<Vec<String>> {
    let text = |file: &File| {
        let output = Command::new("git").args(["-C", "..", "show", &format!("{revision}:{}", file.path)]).output()?;
        if !output.status.success() {
            return Err(io::Error::other(String::from_utf8_lossy(&output.stderr).into_owned()));
        }
        String::from_utf8(output.stdout).map_err(io::Error::other)
    };
    FILES[..OF_ROW_ORDER].iter().map(text).collect()
}

impl Facts {
    pub fn read(texts: Vec<String>) -> Facts {
        let files = Files::new(texts.clone(), FILES.map(|file| file.uses).to_vec());
        let cases: Vec<Case> =
            (0..files.sources.len()).flat_map(|file| files.value(file, "cases").list()).map(|case| case_of(&case)).collect();
        let sheets: Vec<Sheet> = files.value(1, "sheets").list().iter().map(sheet_of).collect();
        let local = files.value(0, "x").number();
        let rows = cases.iter().flat_map(|case| &case.rows).chain(sheets.iter().flat_map(|sheet| &sheet.rows));
        let names = rows.map(|row| row.side as usize).max().unwrap_or(0) + 1;
        let is_marked = |n| files.applied(files.value(1, "marks"), Value::Number(n)).made().0 == "true";
        let marks = (0..names).map(is_marked).collect();
        Facts { texts, cases, sheets, local, marks, files }
    }

    pub fn table<'a>(&'a self, rows: &'a [Row]) -> Table<'a> {
        Table { rows, local: self.local, marks: &self.marks }
    }

    /// A case as its file has it, without its list.
    pub fn title(&self, case: &Case) -> &str {
        self.texts[case.from.file][case.from.begin..case.from.last].trim_end()
    }

    /// Whether the name at the head of a case takes runs, and not only their events.
    fn takes_runs(&self, from: &Origin) -> bool {
        let of = self.files.seen_from(from.file).find_map(|file| self.files.sources[file].type_of(&from.head)).unwrap_or("");
        of.rsplit(" → ").nth(1) == Some("List Run")
    }
}

/// The rows of a tree, in preorder.
fn flattened(tree: &Tree, rows: &mut Vec<Row>) {
    let kind = kinds::numbered(tree.word.as_bytes()).unwrap_or_else(|| panic!("{} is no word of a kind", tree.word));
    let here = rows.len();
    rows.push(Row { kind, side: tree.side as u32, lo: 8, hi: 9, end: here });
    tree.children.iter().for_each(|child| flattened(child, rows));
    rows[here].end = rows.len();
}

fn rows_of(value: &Value) -> Vec<Row> {
    let mut rows = Vec::new();
    flattened(&value.row(), &mut rows);
    rows
}

/// A statement's case says how many rounds at most, an expression's in which way it is evaluated.
fn case_of(value: &Value) -> Case {
    let record = value.record();
    let way = match record.fields.get("way") {
        Some(way) => way_of(way),
        None => Way::Statement(value.field("most").number()),
    };
    let extent = match value.field("extent").made() {
        ("up_to", [events]) => Some(events.number()),
        _ => None,
    };
    let expected = value.field("expected").list().iter().map(run_of).collect();
    let from = record.from.clone().expect("a case is written as an application");
    Case { way, order: FILES[from.file].order, rows: rows_of(&value.field("what")), extent, expected, from }
}

fn way_of(value: &Value) -> Way {
    match value.made() {
        ("as_value", _) => Way::Value,
        ("as_target", _) => Way::Target,
        ("as_truth", [truth]) => Way::Truth(match truth.made().0 {
            "is_true" => Truth::True,
            "is_false" => Truth::False,
            "is_unknown" => Truth::Unknown,
            other => panic!("{other} is no truth"),
        }),
        (other, _) => panic!("{other} is no way to evaluate"),
    }
}

fn run_of(value: &Value) -> Run {
    let ending = match value.field("1").made().0 {
        "falls" => Ending::Falls,
        "stops" => Ending::Stops,
        "leaves" => Ending::Leaves,
        "again" => Ending::Again,
        other => panic!("{other} is no ending"),
    };
    Run { events: value.field("0").list().iter().map(event_of).collect(), ending }
}

fn event_of(value: &Value) -> Event {
    match value.made() {
        ("read", _) => Event::Read,
        ("write", _) => Event::Write,
        ("outside", _) => Event::Outside,
        ("choice", [number]) => Event::Choice(number.number()),
        (other, _) => panic!("{other} is no event"),
    }
}

fn sheet_of(value: &Value) -> Sheet {
    let fails = match value.field("1").made() {
        ("at_row", [row]) => Some(row.number()),
        _ => None,
    };
    Sheet { rows: rows_of(&value.field("0")), fails }
}

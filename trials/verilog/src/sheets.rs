//! Which sheets are asked, and which of them are written.

use oracle::frames;
use oracle::generate::Generator;
use oracle::parallel;
use oracle::path::{marks, Table};
use oracle::premises::first_failing;
use oracle::reading;
use oracle::runs::view::View;
use oracle::sheet::Sheet;
use std::fs::{self, File};
use std::io::{self, BufReader, BufWriter, Write};
use std::path::Path;

/// The most rows of a sheet; `first` in `runs.sv` has room for them.
pub const ROWS: usize = 200;

/// For each sheet that is to be written, how many of the generator's numbers are looked at, and in how many of them for one of its plan.
const NUMBERS: usize = 90;
const PLANNED: usize = 30;

/// What is asked of a table of rows, with the marks of its names.
pub fn with_table<R>(sheet: &Sheet, asked: impl FnOnce(Table) -> R) -> R {
    asked(Table { rows: &sheet.rows, local: sheet.local, marks: &marks(&sheet.names) })
}

/// A fork, and the forms that are not modelled: each counts as a read.
const OUTSIDE: [&str; 12] = [
    "fork",
    "randstmt",
    "trigger",
    "waitfork",
    "concurrent",
    "passign",
    "deassign",
    "force",
    "release",
    "deferred",
    "cover",
    "error",
];

/// Whether a row is there that may read when it is reached: no run of a sheet without one could fail. The arguments of a task, and those
/// of a call that writes, are not evaluated.
fn may_read(view: &View, i: usize) -> bool {
    match (view.word(i), view.side(i)) {
        ("call", 1) => false,
        ("task", side) => side % 4 >= 2,
        ("opaque", _) => true,
        ("ident" | "call", _) if view.begins(i) => true,
        (word, _) if OUTSIDE.contains(&word) => true,
        ("nonblocking", _) => may_read(view, view.children(i)[3]),
        _ => view.children(i).into_iter().any(|child| may_read(view, child)),
    }
}

/// A good sheet with start 0 that is not too long and may read.
pub fn fitting(generator: &Generator, number: usize) -> Option<Numbered> {
    if Generator::is_damaged(number) {
        return None;
    }
    let bytes = generator.sheet(number).bytes;
    if bytes.split(|byte| *byte == 10).filter(|line| line.starts_with(b"row=")).count() > ROWS {
        return None;
    }
    let sheet = reading::load(&bytes).expect("a good sheet");
    let fits = !sheet.start && with_table(&sheet, |table| may_read(&View(table), 0));
    fits.then_some(Numbered { number, bytes, sheet })
}

/// Whether the premises of the acceptance rule hold.
pub fn is_covered(sheet: &Sheet) -> bool {
    with_table(sheet, |table| first_failing(table).is_none())
}

/// The generator's numbers for so many sheets; other seeds begin at other places of its plan.
fn numbers(generator: &Generator, count: usize, seed: u64) -> Vec<usize> {
    let from = (seed as usize % 64) * (generator.whole_plan() / 64 / 6 * 6);
    let is_grown = |number: &usize| generator.plan_number(*number).is_none();
    (from..from + count * NUMBERS).filter(|number| *number < from + count * PLANNED || is_grown(number)).collect()
}

/// A sheet of the generator, with its number there.
pub struct Numbered {
    pub number: usize,
    pub bytes: Vec<u8>,
    pub sheet: Sheet,
}

/// Puts sheets into a folder: their frames, and their numbers.
pub fn keep(folder: &Path, sheets: &[Numbered]) -> io::Result<()> {
    let mut out = BufWriter::new(File::create(folder.join("sheets"))?);
    for sheet in sheets {
        frames::write(&mut out, &sheet.bytes)?;
    }
    out.flush()?;
    let numbers: String = sheets.iter().map(|sheet| format!("{}\n", sheet.number)).collect();
    fs::write(folder.join("numbers"), numbers)
}

/// The sheets of a folder.
pub fn kept(folder: &Path) -> io::Result<Vec<Numbered>> {
    let frames = frames::read_all(&mut BufReader::new(File::open(folder.join("sheets"))?))?;
    let numbers = fs::read_to_string(folder.join("numbers"))?;
    let read = |(bytes, number): (Vec<u8>, &str)| {
        let sheet = reading::load(&bytes).expect("a good sheet");
        Numbered { number: number.parse().expect("a number"), bytes, sheet }
    };
    Ok(frames.into_iter().zip(numbers.lines()).map(read).collect())
}

/// Puts the sheets to ask about into a folder.
pub fn candidates(count: usize, seed: u64, folder: &Path) -> io::Result<()> {
    let generator = Generator::new(seed);
    let numbers = numbers(&generator, count, seed);
    let found: Vec<Option<Numbered>> = parallel::each(&numbers, |number| fitting(&generator, *number));
    keep(folder, &found.into_iter().flatten().collect::<Vec<_>>())
}

//! The sheets that are written, of those that the product was asked about.

use crate::files;
use crate::sheets::{self, is_covered, with_table, Numbered};
use crate::write;
use oracle::generate::Generator;
use oracle::reading::kinds::{Side, KINDS};
use std::collections::{BTreeMap, BTreeSet};
use std::fs;
use std::io;
use std::path::Path;

#[derive(Default)]
struct Tally {
    asked: usize,
    accepted: usize,
    covered: usize,
    left_out: BTreeMap<&'static str, usize>,
}

fn is_accepted(answer: &str) -> bool {
    answer.starts_with("answer=falls;") || answer.starts_with("answer=jumps;")
}

impl Tally {
    /// Whether a sheet is one that can be run.
    fn takes(&mut self, sheet: &Numbered, answer: &str) -> bool {
        self.asked += 1;
        if !is_accepted(answer) {
            return false;
        }
        self.accepted += 1;
        if !is_covered(&sheet.sheet) {
            return false;
        }
        self.covered += 1;
        match with_table(&sheet.sheet, |table| write::task(table, 0)) {
            Ok(_) => true,
            Err(form) => {
                *self.left_out.entry(form).or_default() += 1;
                false
            }
        }
    }

    fn print(&self) {
        println!("{:>8}  good sheets asked: start 0, at most {} rows, with a row that may read", self.asked, sheets::ROWS);
        println!("{:>8}  accepted by the product", self.accepted);
        println!("{:>8}  of these covered by the premises", self.covered);
        for (form, count) in &self.left_out {
            println!("{count:>8}  of these left out: {form}");
        }
    }
}

/// So many of these: half of them those that grew at random and have the most rows, as far as there are so many, and then those of the plan
/// in their order.
fn chosen(generator: &Generator, count: usize, sheets: Vec<Numbered>) -> Vec<Numbered> {
    let (mut planned, mut grown): (Vec<Numbered>, Vec<Numbered>) =
        sheets.into_iter().partition(|sheet| generator.plan_number(sheet.number).is_some());
    grown.sort_by_key(|sheet| std::cmp::Reverse(sheet.sheet.rows.len()));
    planned.truncate(count - grown.len().min(count / 2));
    grown.truncate(count - planned.len());
    println!("{:>8}  written: {} that grew at random, {} of the plan", grown.len() + planned.len(), grown.len(), planned.len());
    grown.extend(planned);
    grown
}

/// How long the sheets are, and how many pairs of a kind and a side stand in them.
fn print_forms(sheets: &[Numbered]) {
    let mut lengths: Vec<usize> = sheets.iter().map(|sheet| sheet.sheet.rows.len()).collect();
    lengths.sort_unstable();
    let at = |part: usize| lengths.get(lengths.len() * part / 100).copied().unwrap_or(0);
    println!("{:>8}  rows in the median, {} in the ninetieth of a hundred", at(50), at(90));
    let side = |kind: usize, side: u32| if matches!(KINDS[kind].side, Side::Name) { 0 } else { side };
    let rows = sheets.iter().flat_map(|sheet| &sheet.sheet.rows);
    let pairs: BTreeSet<(usize, u32)> = rows.map(|row| (row.kind, side(row.kind, row.side))).collect();
    let all: u32 = KINDS.iter().map(|kind| if let Side::UpTo(most) = kind.side { most + 1 } else { 1 }).sum();
    println!("{:>8}  of {all} pairs of a kind and a side stand in them", pairs.len());
}

/// Writes so many sheets of a folder's that the product accepts, whose answers stand in a file, into a folder of their own.
pub fn write_accepted(count: usize, seed: u64, from: &Path, answers: &Path, to: &Path) -> io::Result<()> {
    let answers = fs::read_to_string(answers)?;
    let mut tally = Tally::default();
    let all = sheets::kept(from)?;
    assert_eq!(all.len(), answers.lines().count(), "an answer for each sheet");
    let taken = all.into_iter().zip(answers.lines()).filter(|(sheet, answer)| tally.takes(sheet, answer));
    let taken: Vec<Numbered> = taken.map(|(sheet, _)| sheet).collect();
    tally.print();
    let chosen = chosen(&Generator::new(seed), count, taken);
    assert_eq!(chosen.len(), count, "too few sheets for the trial");
    print_forms(&chosen);
    write_all(&chosen, seed, to)
}

/// Writes sheets, all of which can be written.
pub fn write_all(sheets: &[Numbered], seed: u64, to: &Path) -> io::Result<()> {
    files::cleared(to)?;
    let task = |(number, sheet): (usize, &Numbered)| with_table(&sheet.sheet, |table| write::task(table, number));
    let tasks: Result<Vec<String>, &str> = sheets.iter().enumerate().map(task).collect();
    sheets::keep(to, sheets)?;
    files::write(to, &tasks.expect("sheets that can be written"), seed)
}

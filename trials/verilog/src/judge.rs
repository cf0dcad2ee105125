//! What the runs of accepted sheets tell: none may read the local unwritten.

use crate::files::file_of;
use crate::follow::{is_path, Order};
use crate::lists::RUNS;
use crate::logs::{self, End, Run, What};
use crate::sheets::{self, with_table, Numbered};
use oracle::sheet::Sheet;
use std::collections::BTreeSet;
use std::io;
use std::path::Path;

/// How many sheets that fail are printed.
const PRINTED: usize = 10;

/// Whether a run reads the local unwritten.
pub fn reads_unwritten(run: &Run) -> bool {
    run.events.iter().any(|event| event.what == What::Read { written: false })
}

/// Whether a run's log has a read before any write.
fn reads_early(run: &Run) -> bool {
    let is_write = |what: &What| *what == What::Write;
    run.events.iter().map(|event| event.what).take_while(|what| !is_write(what)).any(|what| matches!(what, What::Read { .. }))
}

/// What is wrong with a run.
fn fault_of(sheet: &Sheet, run: &Run) -> Option<&'static str> {
    let is_path = || with_table(sheet, |table| is_path(table, run, Order::Any));
    match run.end {
        _ if reads_unwritten(run) => Some("reads the local unwritten"),
        _ if reads_early(run) => Some("logs a read before any write"),
        End::Wrong => Some("does not end"),
        _ => (!is_path()).then_some("is no path"),
    }
}

/// What is wrong with the runs of a sheet.
fn fault(sheet: &Sheet, runs: &[&Run]) -> Option<String> {
    let found = runs.iter().find_map(|run| fault_of(sheet, run).map(|fault| format!("has a run that {fault}: {}", run.line)));
    found.or_else(|| (runs.len() != RUNS).then(|| format!("has {} runs in the logs", runs.len())))
}

#[derive(Default)]
struct Tally {
    reads: usize,
    writes: usize,
    truths: [usize; 3],
    labels: usize,
    jumps: [usize; 2],
    rounds: usize,
    waits: usize,
    reading: BTreeSet<usize>,
    unknown: BTreeSet<usize>,
    out_of_row_order: usize,
}

impl Tally {
    fn add(&mut self, sheet: &Sheet, run: &Run) {
        self.out_of_row_order += usize::from(!with_table(sheet, |table| is_path(table, run, Order::Rows)));
        self.waits += usize::from(run.end == End::Waits);
        for event in &run.events {
            match event.what {
                What::Read { .. } => {
                    self.reads += 1;
                    self.reading.insert(run.sheet);
                }
                What::Write => self.writes += 1,
                What::Truth(truth) => {
                    self.truths[truth] += 1;
                    if truth == 2 {
                        self.unknown.insert(run.sheet);
                    }
                }
                What::Label { .. } => self.labels += 1,
                What::Jump(to) => self.jumps[to] += 1,
                What::Rounds(_) | What::Round => self.rounds += 1,
                What::Scrutinee | What::Default { .. } => {}
            }
        }
    }

    fn print(&self, runs: usize) {
        println!(
            "{runs:>8}  runs, of which {} end at a wait, and {} are no path in row order",
            self.waits, self.out_of_row_order
        );
        println!("{:>8}  reads, in {} sheets", self.reads, self.reading.len());
        println!("{:>8}  writes", self.writes);
        let [no, yes, unknown] = self.truths;
        println!(
            "{:>8}  truths: {no} false, {yes} true, {unknown} unknown, in {} sheets",
            no + yes + unknown,
            self.unknown.len()
        );
        println!("{:>8}  labels compared", self.labels);
        println!("{:>8}  jumps out of a loop, {} out of a round", self.jumps[0], self.jumps[1]);
        println!("{:>8}  counts of a repeat, and rounds of a forever", self.rounds);
    }

    /// Whether the runs did what they are made for.
    fn is_plausible(&self, sheets: usize) -> bool {
        let few =
            [self.out_of_row_order, self.reads, self.writes, self.labels, self.jumps[0], self.jumps[1], self.rounds, self.waits];
        let all = few.iter().chain(&self.truths).all(|count| *count > 0);
        all && self.reading.len() * 2 > sheets && self.unknown.len() * 10 > sheets
    }
}

/// The runs of each sheet.
pub fn by_sheet<'a>(sheets: &[Numbered], runs: &'a [Run]) -> Vec<Vec<&'a Run>> {
    let mut found = vec![Vec::new(); sheets.len()];
    for run in runs {
        found[run.sheet].push(run);
    }
    found
}

/// Judges the runs of a folder's sheets; the last line says how many sheets passed.
pub fn judge(folder: &Path) -> io::Result<()> {
    let sheets = sheets::kept(folder)?;
    let runs = logs::runs(folder)?;
    let mut tally = Tally::default();
    runs.iter().for_each(|run| tally.add(&sheets[run.sheet].sheet, run));
    tally.print(runs.len());
    let mut failed = 0;
    for (number, runs) in by_sheet(&sheets, &runs).iter().enumerate() {
        if let Some(fault) = fault(&sheets[number].sheet, runs) {
            failed += 1;
            if failed <= PRINTED {
                println!("the sheet {} ({} in {}) {fault}", sheets[number].number, number, file_of(number));
            }
        }
    }
    let passed = sheets.len() - failed;
    if !tally.is_plausible(sheets.len()) {
        println!("failed: the runs do not have what they are made for");
        failed += 1;
    }
    println!("{passed} passed, {failed} failed");
    Ok(())
}

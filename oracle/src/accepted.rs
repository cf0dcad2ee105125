//! Accepted sheets, of which no run may read the local before it is written.

use crate::answer::Answer;
use crate::facts::write::run_text;
use crate::generate::Generator;
use crate::judge;
use crate::parallel;
use crate::path::{marks, Event, Order, Run, Table};
use crate::premises::first_failing;
use crate::random::Random;
use crate::reading;
use crate::runs;
use crate::sheet::Sheet;

/// A listing of so many runs of row 0 as a statement, with at most so many rounds of each loop.
pub type Sampled = fn(Table, Order, usize, usize, Random) -> Vec<Run>;

/// The orders that runs are looked at in, each with its name, and a sample in each.
const ORDERS: [(Order, &str); 2] = [(Order::Row, "row order"), (Order::Free, "free order")];
type Samples = [Vec<Run>; 2];

/// How many runs of a sheet are looked at in each order, and how many rounds of a loop.
const RUNS: usize = 12;
const ROUNDS: usize = 3;

/// How many sheets are made at a time.
const PART: usize = 20_000;

/// How many sheets that fail are printed.
const PRINTED: usize = 5;

/// A number of the generator: a damaged sheet, one with start 1 or one that the Rust does not answer in time; one that is given up;
/// an accepted one that a premise does not hold of; or one of those that the acceptance rule speaks of.
enum Found {
    Unasked,
    GivenUp,
    Uncovered,
    Covered(Sheet),
}

fn found(generator: &Generator, number: usize) -> Found {
    if Generator::is_damaged(number) {
        return Found::Unasked;
    }
    let sheet = match reading::load(&generator.sheet(number).bytes) {
        Ok(sheet) if !sheet.start => sheet,
        _ => return Found::Unasked,
    };
    match judge::walked(&sheet) {
        None | Some(Answer::Refused(_)) => Found::Unasked,
        Some(Answer::GivesUp { .. }) => Found::GivenUp,
        Some(Answer::Falls(_) | Answer::Jumps) if is_covered(&sheet) => Found::Covered(sheet),
        Some(Answer::Falls(_) | Answer::Jumps) => Found::Uncovered,
    }
}

fn is_covered(sheet: &Sheet) -> bool {
    first_failing(Table { rows: &sheet.rows, local: sheet.local, marks: &marks(&sheet.names) }).is_none()
}

/// A sample of the runs of a sheet in an order, always the same of a number and a seed.
fn sample(sampled: Sampled, sheet: &Sheet, order: Order, number: usize, seed: u64) -> Vec<Run> {
    let table = Table { rows: &sheet.rows, local: sheet.local, marks: &marks(&sheet.names) };
    sampled(table, order, ROUNDS, RUNS, Random::new(seed, number as u64))
}

fn is_read(event: &Event) -> bool {
    matches!(event, Event::Read | Event::Outside)
}

/// Whether a run reads, or goes where nothing is modelled, before it writes.
fn is_early(run: &Run) -> bool {
    run.events.iter().find(|event| !matches!(event, Event::Choice(_))).is_some_and(is_read)
}

/// Whether a listing has such a run in its sample of a sheet.
pub fn reads_early(sampled: Sampled, sheet: &Sheet, order: Order, number: usize, seed: u64) -> bool {
    sample(sampled, sheet, order, number, seed).iter().any(is_early)
}

/// Looks at the sheets of a seed, in their order, until the acceptance rule speaks of so many of them.
fn look<R: Send>(count: usize, seed: u64, at: impl Fn(usize, &Found) -> R + Sync, mut told: impl FnMut(usize, Found, R)) {
    let generator = Generator::new(seed);
    let looked_at = |number: &usize| {
        let found = found(&generator, *number);
        let result = at(*number, &found);
        (found, result)
    };
    let mut covered = 0;
    for from in (0..).step_by(PART) {
        let numbers: Vec<usize> = (from..from + PART).collect();
        for (number, (found, result)) in numbers.iter().zip(parallel::each(&numbers, looked_at)) {
            if covered == count {
                return;
            }
            covered += usize::from(matches!(found, Found::Covered(_)));
            told(*number, found, result);
        }
    }
}

/// The first so many sheets of a seed that the acceptance rule speaks of, with their numbers.
pub fn covered(count: usize, seed: u64) -> Vec<(usize, Sheet)> {
    let mut sheets = Vec::new();
    let keep = |number, found, ()| {
        if let Found::Covered(sheet) = found {
            sheets.push((number, sheet));
        }
    };
    look(count, seed, |_, _| (), keep);
    sheets
}

#[derive(Default)]
struct Tally {
    asked: usize,
    accepted: usize,
    covered: usize,
    /// In each of the orders.
    runs: [usize; 2],
    reads: [usize; 2],
    failed: usize,
}

impl Tally {
    fn add(&mut self, number: usize, found: &Found, samples: &Samples) {
        self.asked += usize::from(!matches!(found, Found::Unasked));
        self.accepted += usize::from(matches!(found, Found::Uncovered | Found::Covered(_)));
        self.covered += usize::from(matches!(found, Found::Covered(_)));
        for (i, sample) in samples.iter().enumerate() {
            self.runs[i] += sample.len();
            self.reads[i] += sample.iter().flat_map(|run| &run.events).filter(|event| is_read(event)).count();
        }
        let early =
            ORDERS.iter().zip(samples).find_map(|((_, name), sample)| Some((name, sample.iter().find(|run| is_early(run))?)));
        if let Some((name, run)) = early {
            self.failed += 1;
            if self.failed <= PRINTED {
                println!("sheet {number} reads too early in {name}: {}", run_text(run));
            }
        }
    }

    fn print(&self) {
        println!("{:>9}  good sheets with start 0", self.asked);
        println!("{:>9}  accepted by the Rust", self.accepted);
        println!("{:>9}  of these covered by the premises", self.covered);
        for (i, (_, name)) in ORDERS.iter().enumerate() {
            println!("{:>9}  runs of these in {name}, with {} reads", self.runs[i], self.reads[i]);
        }
        println!("{} passed, {} failed", self.covered - self.failed, self.failed);
    }
}

/// So many sheets that the acceptance rule speaks of, each with samples of its runs over three truths; the last line says how many passed.
pub fn run(count: usize, seed: u64) -> bool {
    let mut tally = Tally::default();
    let at = |number, found: &Found| match found {
        Found::Covered(sheet) => ORDERS.map(|(order, _)| sample(runs::sampled, sheet, order, number, seed)),
        _ => Samples::default(),
    };
    look(count, seed, at, |number, found, samples| tally.add(number, &found, &samples));
    tally.print();
    tally.failed == 0
}

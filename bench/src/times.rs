//! Times: in one process, every part in turn, round after round; the median of the rounds.

use crate::parts::*;
use crate::sheets::Case;
use std::hint::black_box;
use std::time::{Duration, Instant};

/// Rounds on one sheet go on for so long, but are not fewer or more than these.
const BUDGET: Duration = Duration::from_millis(700);
const ROUNDS: std::ops::RangeInclusive<usize> = 5..=1001;

/// Small sheets are taken several at once, since a clock's own time tells beside theirs: a batch has about so many rows.
const BATCH_ROWS: usize = 1000;

/// What was measured of each part in each round, in nanoseconds of one call.
struct Samples {
    batch: usize,
    of: [Vec<f64>; PARTS.len()],
}

impl Samples {
    /// A part called as often as a batch is large, with the results.
    fn timed<R>(&mut self, part: Part, mut call: impl FnMut() -> R) -> Vec<R> {
        let mut results = Vec::with_capacity(self.batch);
        let before = Instant::now();
        for _ in 0..self.batch {
            results.push(black_box(call()));
        }
        let spent = before.elapsed();
        self.of[part as usize].push(spent.as_nanos() as f64 / self.batch as f64);
        results
    }

    fn rust(&mut self, case: &Case) {
        drop(self.timed(Part::ReadPlain, || rust_read_plain(black_box(&case.bytes))));
        let sheets = self.timed(Part::Read, || rust_read(black_box(&case.bytes)));
        let mut at = sheets.iter();
        let trees = self.timed(Part::Tree, || rust_tree(at.next().expect("a sheet")));
        let mut at = trees.iter();
        self.timed(Part::Walk, || rust_walk(&sheets[0], at.next().expect("a tree")));
        let mut pairs = sheets.into_iter().zip(trees);
        self.timed(Part::Drop, || {
            let (sheet, tree) = pairs.next().expect("a sheet and its tree");
            rust_drop(sheet, tree);
        });
    }

    fn ours(&mut self, case: &Case, lent: &mut Lent) {
        let records = self.timed(Part::Load, || our_load(black_box(&case.bytes), lent));
        self.timed(Part::Ask, || our_ask(black_box(&records[0]), lent));
        self.timed(Part::Verdict, || our_verdict(black_box(&case.bytes), lent));
    }

    fn medians(self) -> Costs {
        let mut costs = Costs::default();
        for (part, mut samples) in PARTS.into_iter().zip(self.of) {
            samples.sort_by(f64::total_cmp);
            if let Some(median) = samples.get(samples.len() / 2) {
                costs.set(part, *median);
            }
        }
        costs
    }
}

/// The median of each part's times on a sheet; the Rust's only where it answers.
pub fn medians(case: &Case, rust_answers: bool) -> Costs {
    let mut lent = Lent::new();
    let mut samples = Samples { batch: (BATCH_ROWS / case.rows).max(1), of: Default::default() };
    let begin = Instant::now();
    for round in 1..=*ROUNDS.end() {
        if rust_answers {
            samples.rust(case);
        }
        samples.ours(case, &mut lent);
        if round >= *ROUNDS.start() && begin.elapsed() > BUDGET {
            break;
        }
    }
    samples.medians()
}

//! The lists of the joint facts, compared with those of the second reading.

use crate::facts::write::run_text;
use crate::facts::{self, Case, Facts, FILES};
use crate::path::{Ending, Order, Run, Table, Truths, Way};
use crate::premises::first_failing;
use crate::runs;
use std::collections::BTreeMap;
use std::io;

/// A listing of all runs of row 0.
pub type Listed = fn(Table, Way, Truths, Order) -> Vec<Run>;

/// "May stop anywhere": the first events of each run, where a case asks for no more of them.
fn shortened(extent: Option<usize>, mut runs: Vec<Run>) -> Vec<Run> {
    if let Some(events) = extent {
        for run in &mut runs {
            run.events.truncate(events);
            run.ending = Ending::Stops;
        }
    }
    runs
}

/// What a listing has of a case: in free order sorted, and each run once.
pub fn list_by(listed: Listed, facts: &Facts, case: &Case, truths: Truths, order: Order) -> Vec<Run> {
    let mut runs = shortened(case.extent, listed(facts.table(&case.rows), case.way, truths, order));
    if order == Order::Free {
        runs.sort();
        runs.dedup();
    }
    runs
}

/// The second reading's list of a case in its file's order.
fn right_list(facts: &Facts, case: &Case, truths: Truths) -> Vec<Run> {
    list_by(runs::listed, facts, case, truths, case.order)
}

/// How many passed and how many failed.
#[derive(Default)]
struct Tally {
    passed: usize,
    failed: usize,
}

impl Tally {
    fn add(&mut self, good: bool, told: impl FnOnce()) {
        if good {
            self.passed += 1;
        } else {
            self.failed += 1;
            told();
        }
    }

    fn print(&self) -> bool {
        println!("{} passed, {} failed", self.passed, self.failed);
        self.failed == 0
    }
}

fn print_list(whose: &str, runs: &[Run]) {
    println!("  {whose}:");
    runs.iter().for_each(|run| println!("    {}", run_text(run)));
}

/// A case whose lists differ, with both.
fn print_differing(facts: &Facts, case: &Case, listed: &[Run]) {
    println!("{}: {}", FILES[case.from.file].path, facts.title(case));
    print_list("the file", &case.expected);
    print_list("the second reading", listed);
}

fn print_sizes(facts: &Facts) {
    for (number, file) in FILES[..facts.texts.len()].iter().enumerate() {
        let cases: Vec<&Case> = facts.cases.iter().filter(|case| case.from.file == number).collect();
        let runs: usize = cases.iter().map(|case| case.expected.len()).sum();
        println!("{}: {} rows with {runs} runs", file.path, cases.len());
    }
    println!("{}: {} sheets with the first row at which a premise fails", FILES[1].path, facts.sheets.len());
}

/// That each list is the second reading's over these truths.
fn check_lists(tally: &mut Tally, facts: &Facts, truths: Truths) {
    for case in &facts.cases {
        let listed = right_list(facts, case, truths);
        tally.add(listed == case.expected, || print_differing(facts, case, &listed));
    }
}

/// That each run of a list stands in another.
fn check_among(tally: &mut Tally, title: &str, runs: &[Run], among: &[Run]) {
    let missing: Vec<Run> = runs.iter().filter(|run| !among.contains(run)).cloned().collect();
    tally.add(missing.is_empty(), || {
        println!("{title}");
        print_list("missing", &missing);
    });
}

/// Each list against the second reading's over three truths, each run over two among those over three, each run in row order among those
/// in free order, and the premises; the last line says how many passed.
pub fn check() -> io::Result<bool> {
    let facts = Facts::read(facts::present()?);
    print_sizes(&facts);
    let mut tally = Tally::default();
    check_lists(&mut tally, &facts, Truths::Three);
    for case in &facts.cases {
        let [two, three] = [Truths::Two, Truths::Three].map(|truths| right_list(&facts, case, truths));
        check_among(&mut tally, facts.title(case), &two, &three);
        let [row, free] = [Order::Row, Order::Free].map(|order| list_by(runs::listed, &facts, case, Truths::Three, order));
        check_among(&mut tally, facts.title(case), &row, &free);
    }
    for (number, sheet) in facts.sheets.iter().enumerate() {
        let fails = first_failing(facts.table(&sheet.rows));
        tally.add(fails == sheet.fails, || println!("sheet {number}: {:?}, and {fails:?} by the second reading", sheet.fails));
    }
    Ok(tally.print())
}

/// The files of row order of a revision: each list is the second reading's over two truths, and each of its rows stands in the present
/// files of row order, with every run of its list in the present list.
pub fn before(revision: &str) -> io::Result<bool> {
    let then = Facts::read(facts::as_of(revision)?);
    let now = Facts::read(facts::present()?);
    print_sizes(&then);
    let mut tally = Tally::default();
    check_lists(&mut tally, &then, Truths::Two);
    for case in &then.cases {
        let same = |other: &&Case| {
            (other.way, other.order, other.extent, &other.rows) == (case.way, case.order, case.extent, &case.rows)
        };
        match now.cases.iter().find(same) {
            Some(other) => check_among(&mut tally, then.title(case), &case.expected, &other.expected),
            None => tally.add(false, || println!("{}\n  missing with all its runs", then.title(case))),
        }
    }
    Ok(tally.print())
}

/// The lists that differ from the second reading's over three truths, or all, written anew: that of a family of rows where it is one
/// for all of them.
pub fn write(all: bool) -> io::Result<bool> {
    let facts = Facts::read(facts::present()?);
    let mut places: BTreeMap<_, Vec<(&Case, Vec<Run>)>> = BTreeMap::new();
    for case in &facts.cases {
        places.entry(&case.from).or_default().push((case, right_list(&facts, case, Truths::Three)));
    }
    let differs = |cases: &[(&Case, Vec<Run>)]| cases.iter().any(|(case, listed)| case.expected != *listed);
    let agree = |cases: &[(&Case, Vec<Run>)]| cases.iter().all(|(_, listed)| *listed == cases[0].1);
    let lists: Vec<_> =
        places.iter().filter(|(_, c)| (all || differs(c)) && agree(c)).map(|(from, c)| (*from, &c[0].1)).collect();
    println!("{} lists written anew", lists.len());
    let texts = facts.with_lists(lists);
    for ((file, text), before) in FILES.iter().zip(&texts).zip(&facts.texts) {
        if text != before {
            std::fs::write(format!("../{}", file.path), text)?;
        }
    }
    let mut tally = Tally::default();
    check_lists(&mut tally, &Facts::read(texts), Truths::Three);
    Ok(tally.print())
}

//! Known mistakes of the walk: sheets that only a mistaken walk accepts, some run of which must read the local unwritten.

use crate::choose::write_all;
use crate::follow::{is_path, Order};
use crate::judge::{by_sheet, reads_unwritten};
use crate::logs::{self, Run};
use crate::sheets::{self, fitting, is_covered, with_table, Numbered};
use crate::write;
use oracle::answer::Answer;
use oracle::fill::Way;
use oracle::generate::Generator;
use oracle::parallel;
use oracle::sheet::Sheet;
use oracle::tree::tree;
use oracle::wrong::Walk;
use oracle::{right, WRONG_WALKS};
use std::collections::BTreeMap;
use std::fs;
use std::io;
use std::path::Path;

/// Those that are tried, by their names in the oracle's list.
const NAMES: [&str; 35] = [
    // Operands in another order than that of rows.
    "join_left_first",
    // Operators, outcomes, conditionals.
    "join_loses_reads",
    "join_writes_first",
    "and_as_any_operator",
    "outcome_false_and",
    "outcome_not_is_not_flipped",
    "conditional_second_arm_lost",
    "call_inert_mentions",
    // Where arms meet.
    "if_else_from_true_side",
    "if_then_from_false_side",
    "if_then_only",
    "if_without_else_jumps",
    "merge_by_or",
    "trap_jumps_win",
    "trap_case_without_default",
    // Labels and scrutinees.
    "case_write_on_true",
    "case_labels_not_asked",
    "case_first_label_only",
    // Loops, rounds and jumps.
    "rounds_once_not_asked",
    "rounds_escape_not_asked",
    "escape_not_by_disable",
    "trap_step_after_body",
    "for_step_not_walked",
    "while_body_from_false_side",
    "repeat_body_from_true_side",
    "for_jumps",
    // Assignments.
    "blocking_any_target_written",
    "blocking_event_not_asked",
    "nonblocking_writes_at_once",
    // Timing, tasks and the rest.
    "delay_first_value_only",
    "event_not_asked",
    "wait_not_asked",
    "wait_body_not_walked",
    "task_inert_writes",
    "trap_quiet_fork",
];

/// How many sheets a mistake is tried on, at most, how many of the generator's numbers they are looked for in, and the seed of all that is
/// drawn: the table is always the same.
const TRIED: usize = 60;
const NUMBERS: usize = 60_000;
const SEED: u64 = 1;

/// A mistake's title, and the walk with it.
fn named(name: &str) -> (&'static str, Walk) {
    let found = WRONG_WALKS.iter().find(|wrong| wrong.0 == name);
    found.map(|(_, title, walk)| (*title, *walk)).unwrap_or_else(|| panic!("no mistake {name}"))
}

/// A sheet that can be run and that the right walk gives up on, with the mistakes that accept it.
fn told(generator: &Generator, number: usize, walks: &[Walk]) -> Option<(Numbered, Vec<usize>)> {
    let found = fitting(generator, number)?;
    let Sheet { start, sole, .. } = found.sheet;
    let tree = tree(&found.sheet, Way::Mixed);
    if !matches!(right::asked(&tree, start, sole), Some(Answer::GivesUp { .. })) || !is_covered(&found.sheet) {
        return None;
    }
    with_table(&found.sheet, |table| write::task(table, 0)).ok()?;
    let accepts = |walk: Walk| matches!(walk(&tree, start, sole), Some(Answer::Falls(_) | Answer::Jumps));
    let mistakes: Vec<usize> = (0..walks.len()).filter(|i| accepts(walks[*i])).collect();
    (!mistakes.is_empty()).then_some((found, mistakes))
}

/// Writes the sheets of each mistake, and a list that says which are whose.
pub fn write(to: &Path) -> io::Result<()> {
    let generator = Generator::new(SEED);
    let walks = NAMES.map(|name| named(name).1);
    let numbers: Vec<usize> = (0..NUMBERS).collect();
    let found = parallel::each(&numbers, |number| told(&generator, *number, &walks));
    let mut of: Vec<Vec<usize>> = vec![Vec::new(); NAMES.len()];
    let mut sheets = Vec::new();
    for (sheet, mistakes) in found.into_iter().flatten() {
        let wanted: Vec<usize> = mistakes.into_iter().filter(|mistake| of[*mistake].len() < TRIED).collect();
        wanted.iter().for_each(|mistake| of[*mistake].push(sheets.len()));
        if !wanted.is_empty() {
            sheets.push(sheet);
        }
    }
    write_all(&sheets, SEED, to)?;
    let line =
        |(name, of): (&&str, &Vec<usize>)| of.iter().fold(name.to_string(), |line, sheet| format!("{line} {sheet}")) + "\n";
    fs::write(to.join("mistakes"), NAMES.iter().zip(&of).map(line).collect::<String>())
}

/// What the runs of a sheet show: whether one reads unwritten, whether one that is a path in row order does, and whether one is no path.
#[derive(Clone, Copy, Default)]
struct Shown {
    at_all: bool,
    in_row_order: bool,
    faulty: bool,
}

fn shown(sheet: &Sheet, runs: &[&Run]) -> Shown {
    let is = |run: &Run, order| with_table(sheet, |table| is_path(table, run, order));
    let unwritten: Vec<&&Run> = runs.iter().filter(|run| reads_unwritten(run)).collect();
    Shown {
        at_all: !unwritten.is_empty(),
        in_row_order: unwritten.iter().any(|run| is(run, Order::Rows)),
        faulty: runs.is_empty() || runs.iter().any(|run| !is(run, Order::Any)),
    }
}

/// Prints the table of mistakes: how many sheets each was tried on, how many of them show it, how many of these only in an order that is
/// not that of rows, and the first. One that no run shows has failed, and so has one with a run that is no path.
pub fn seen(folder: &Path) -> io::Result<()> {
    let sheets = sheets::kept(folder)?;
    let runs = logs::runs(folder)?;
    let shown: Vec<Shown> = by_sheet(&sheets, &runs).iter().zip(&sheets).map(|(runs, of)| shown(&of.sheet, runs)).collect();
    let lines = fs::read_to_string(folder.join("mistakes"))?;
    let of: BTreeMap<&str, Vec<usize>> = lines.lines().map(listed).collect();
    let mut passed = 0;
    println!("| mistake | what is wrong | tried | shown | only out of row order | first |\n|---|---|---:|---:|---:|---:|");
    for name in NAMES {
        let tried = &of[name];
        let showing: Vec<usize> = tried.iter().copied().filter(|sheet| shown[*sheet].at_all).collect();
        let out_of_order = showing.iter().filter(|sheet| !shown[**sheet].in_row_order).count();
        let first = showing.first().map_or("none".to_string(), |sheet| sheets[*sheet].number.to_string());
        let title = named(name).0.replace('|', "\\|");
        println!("| `{name}` | {title} | {} | {} | {out_of_order} | {first} |", tried.len(), showing.len());
        passed += usize::from(!showing.is_empty() && !tried.iter().any(|sheet| shown[*sheet].faulty));
    }
    println!("{passed} passed, {} failed", NAMES.len() - passed);
    Ok(())
}

/// A mistake's name and its sheets.
fn listed(line: &str) -> (&str, Vec<usize>) {
    let (name, sheets) = line.split_once(' ').unwrap_or((line, ""));
    (name, sheets.split_whitespace().map(|sheet| sheet.parse().expect("a number")).collect())
}

//! What was measured, as tables in Markdown.

use crate::heap::{Heap, Heaps};
use crate::parts::{Costs, Part, PARTS};
use crate::sheets::{Case, Family};
use crate::stack::Stacks;

/// All that was measured of a sheet.
pub struct Measured {
    pub case: Case,
    /// Nothing where valgrind is not at hand.
    pub instructions: Option<Costs>,
    pub times: Costs,
    pub heaps: Heaps,
    pub stacks: Stacks,
}

/// A number with its thousands apart, or a dash where nothing was measured.
pub fn whole(number: Option<f64>) -> String {
    let Some(number) = number else {
        return "-".to_string();
    };
    let digits = format!("{number:.0}");
    let mut out = String::new();
    for (i, digit) in digits.chars().enumerate() {
        if i > 0 && (digits.len() - i) % 3 == 0 {
            out.push(',');
        }
        out.push(digit);
    }
    out
}

fn count(number: usize) -> String {
    whole(Some(number as f64))
}

/// Nanoseconds, as microseconds.
fn micros(nanos: Option<f64>) -> String {
    match nanos.map(|nanos| nanos / 1000.0) {
        None => "-".to_string(),
        Some(micros) if micros < 100.0 => format!("{micros:.2}"),
        micros => whole(micros),
    }
}

pub fn ratio(ratio: Option<f64>) -> String {
    ratio.map_or("-".to_string(), |ratio| format!("{ratio:.2}"))
}

/// A column of numbers is put to the right.
fn rule(lines: &[Vec<String>], column: usize) -> &'static str {
    let is_number = |cell: &String| cell == "-" || cell.starts_with(|first: char| first.is_ascii_digit());
    if lines.iter().all(|line| is_number(&line[column])) {
        "---:"
    } else {
        "---"
    }
}

pub fn print(title: &str, head: &[&str], lines: &[Vec<String>]) {
    let rules: Vec<&str> = (0..head.len()).map(|column| rule(lines, column)).collect();
    println!("\n## {title}\n\n| {} |\n|{}|", head.join(" | "), rules.join("|"));
    for line in lines {
        assert_eq!(line.len(), head.len());
        println!("| {} |", line.join(" | "));
    }
}

/// A line for each sheet of nested &&, or for each other.
fn lines(measured: &[Measured], of: fn(&Case) -> bool, line: impl Fn(&Measured) -> Vec<String>) -> Vec<Vec<String>> {
    let wanted = measured.iter().filter(|one| of(&one.case));
    wanted.map(|one| [vec![one.case.name.clone(), count(one.case.rows)], line(one)].concat()).collect()
}

fn is_curve(case: &Case) -> bool {
    case.family == Family::And
}

fn is_not_curve(case: &Case) -> bool {
    case.family != Family::And
}

/// Every part and the three ratios.
fn costs(costs: &Costs, shown: fn(Option<f64>) -> String) -> Vec<String> {
    let parts = PARTS.iter().map(|part| shown(costs.of(*part)));
    let wholes = [costs.whole_ratio(Part::Read), costs.whole_ratio(Part::ReadPlain), costs.walk_ratio()];
    parts.chain(wholes.map(ratio)).collect()
}

const PART_COLUMNS: [&str; 13] = [
    "sheet",
    "rows",
    "Rust: read",
    "read, plain",
    "tree",
    "da_stmt",
    "drop",
    "this: load",
    "ask",
    "verdict",
    "load+ask / Rust",
    "load+ask / Rust, plain",
    "ask / da_stmt",
];

pub fn print_sheets(cases: &[Case]) {
    let mut seen = Vec::new();
    let line = |case: &Case| vec![case.name.clone(), count(case.rows), count(case.bytes.len()), case.about.to_string()];
    let first = cases.iter().filter(|case| {
        let new = case.family == Family::Puzzle || !seen.contains(&case.family);
        seen.push(case.family);
        new
    });
    let lines: Vec<Vec<String>> = first.map(line).collect();
    print("Sheets, the first of each kind", &["sheet", "rows", "bytes", "what it is"], &lines);
}

pub fn print_instructions(measured: &[Measured]) {
    let of = |one: &Measured| costs(one.instructions.as_ref().unwrap_or(&Costs::default()), whole);
    print("Instructions", &PART_COLUMNS, &lines(measured, is_not_curve, of));
}

pub fn print_times(measured: &[Measured]) {
    print("Times in microseconds, medians", &PART_COLUMNS, &lines(measured, is_not_curve, |one| costs(&one.times, micros)));
}

pub fn print_curve(measured: &[Measured]) {
    let head = [
        "sheet",
        "rows",
        "instructions: da_stmt",
        "load",
        "ask",
        "ask / row",
        "microseconds: da_stmt",
        "load",
        "ask",
        "stack: ask",
    ];
    let line = |one: &Measured| {
        let counted = one.instructions.clone().unwrap_or_default();
        let each = counted.of(Part::Ask).map(|cost| cost / one.case.rows as f64);
        let parts = [Part::Walk, Part::Load, Part::Ask];
        let (counts, times) = (parts.map(|part| whole(counted.of(part))), parts.map(|part| micros(one.times.of(part))));
        [&counts[..], &[whole(each)], &times, &[count(one.stacks.ask)]].concat()
    };
    print("Nested &&", &head, &lines(measured, is_curve, line));
}

pub fn print_heap(measured: &[Measured]) {
    let head = [
        "sheet",
        "rows",
        "Rust: peak bytes",
        "blocks",
        "bytes in all",
        "plain: peak bytes",
        "blocks",
        "bytes in all",
        "this: blocks",
    ];
    let of = |heap: Option<Heap>| {
        let numbers = heap.map(|heap| [heap.peak, heap.blocks, heap.total]);
        numbers.map_or(["-".to_string(), "-".to_string(), "-".to_string()], |numbers| numbers.map(count))
    };
    let line = |one: &Measured| {
        let rust = one.heaps.rust;
        [&of(rust.map(|both| both.0))[..], &of(rust.map(|both| both.1)), &[count(one.heaps.ours.blocks)]].concat()
    };
    print("Heap", &head, &lines(measured, is_not_curve, line));
}

pub fn print_stack(measured: &[Measured]) {
    let head = ["sheet", "rows", "Rust", "this: load", "ask", "verdict"];
    let line = |one: &Measured| {
        let stacks = &one.stacks;
        vec![stacks.rust.map_or("-".to_string(), count), count(stacks.load), count(stacks.ask), count(stacks.verdict)]
    };
    print("Stack in bytes", &head, &lines(measured, is_not_curve, line));
}

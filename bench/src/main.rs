//! Measures the proved checker beside the Rust that it replaces. See README.md beside this crate.

mod callgrind;
mod forms;
mod heap;
mod mix;
mod parts;
mod plain;
mod puzzles;
mod sheets;
mod stack;
mod tables;
mod targets;
mod times;

use callgrind::Side;
use oracle::generate::Generator;
use oracle::reading;
use parts::{Lent, Part, OURS};
use sheets::{Case, Family};
use std::path::Path;
use tables::Measured;

/// Nested && are counted up to here for the Rust: it takes 2.6 to the n, and callgrind is fifty times slower.
const MOST_COUNTED: usize = 12;

/// So many sheets of the oracle's generator are read both ways. A third are damaged, of which the first few thousand have children that do
/// not fit.
const GENERATED: usize = 30_000;

/// Whether the Rust answers each sheet. Where it does not, it is asked no more about longer ones of the family. Both sides must agree.
fn answered(cases: &[Case]) -> Vec<bool> {
    let mut lent = Lent::new();
    let mut too_long = false;
    let mut answered = Vec::new();
    for case in cases {
        let ours = parts::our_whole(&case.bytes, &mut lent);
        let rust = if too_long { None } else { parts::rust_whole(&case.bytes, parts::rust_read) };
        assert!(rust.is_none_or(|rust| rust == ours), "{}: {rust:?} and {ours:?}", case.name);
        assert!(rust.is_some() || case.family == Family::And, "{}: the Rust takes too long", case.name);
        too_long = too_long || rust.is_none();
        answered.push(rust.is_some());
    }
    answered
}

/// Both readings of a sheet must give the same: the number of its refusal, if it is refused.
fn read_alike(bytes: &[u8], what: &str) -> Option<u32> {
    let read = plain::load(bytes);
    assert_eq!(read, reading::load(bytes), "{what}");
    read.err().map(|refused| refused.number)
}

fn check_readings(cases: &[Case]) {
    for case in cases {
        assert_eq!(read_alike(&case.bytes, &case.name), None, "{} is refused", case.name);
    }
    let generator = Generator::new(1);
    let read = |i: usize| read_alike(&generator.sheet(i).bytes, &format!("generated {i}"));
    let refused: Vec<u32> = (0..GENERATED).filter_map(read).collect();
    assert!((1..=10).all(|number| refused.contains(&number)), "a refusal that no sheet gets");
    println!(
        "The plain reading equals the oracle's on all {} sheets and on {GENERATED} generated ones; {} of these are refused, with every \
         number from 1 to 10.\n",
        cases.len(),
        refused.len()
    );
}

fn measured(case: Case, answered: bool, painted: &mut stack::Painted) -> Measured {
    let side = if answered && case.nested <= MOST_COUNTED { Side::Both } else { Side::Ours };
    let instructions = callgrind::at_hand().then(|| callgrind::instructions(&case, side));
    Measured {
        instructions,
        times: times::medians(&case, answered),
        heaps: heap::heaps(&case, answered),
        stacks: stack::stacks(painted, &case, answered),
        case,
    }
}

fn run() {
    let cases = sheets::all();
    check_readings(&cases);
    let answered = answered(&cases);
    let by_both = answered.iter().filter(|one| **one).count();
    println!(
        "Both sides give the same answer on {by_both} of the {} sheets; on the others the Rust takes too long.\n",
        cases.len()
    );
    println!(
        "{} and {} numbers are lent. They are not cleared between calls: a load itself writes zeros into what it does not use.",
        definite_assignment::ROW_NUMBERS,
        definite_assignment::NAME_NUMBERS
    );
    if !callgrind::at_hand() {
        println!("\nValgrind is not at hand: no instructions are counted, and the targets are judged by times.");
    }
    tables::print_sheets(&cases);
    let mut painted = stack::Painted::new();
    let all: Vec<Measured> =
        cases.into_iter().zip(answered).map(|(case, answered)| measured(case, answered, &mut painted)).collect();
    if callgrind::at_hand() {
        tables::print_instructions(&all);
    }
    tables::print_times(&all);
    tables::print_curve(&all);
    tables::print_heap(&all);
    tables::print_stack(&all);
    println!("\nA call of nothing at all: {}.", painted.depth(|| ()));
    targets::print(&all);
}

fn write_sheets(folder: &Path) -> std::io::Result<()> {
    std::fs::create_dir_all(folder)?;
    for case in sheets::all() {
        std::fs::write(folder.join(&case.name), &case.bytes)?;
    }
    Ok(())
}

fn our_part(call: &str) -> Part {
    OURS.into_iter().find(|part| part.symbol() == format!("our_{call}")).unwrap_or_else(|| panic!("no call {call}"))
}

const USAGE: &str = "usage: bench                 measures everything and prints the tables
       bench ours SHEET [load|ask|verdict]   this library's instructions on a sheet, or those of one call
       bench sheets FOLDER   writes the sheets, each by its name
       bench parts FILE both|ours   calls every part once on a sheet in a file: what runs under callgrind";

fn main() -> std::io::Result<()> {
    let args: Vec<String> = std::env::args().skip(1).collect();
    let words: Vec<&str> = args.iter().map(String::as_str).collect();
    match words[..] {
        [] => run(),
        ["ours", name] => callgrind::print_ours(&sheets::named(name), None),
        ["ours", name, call] => callgrind::print_ours(&sheets::named(name), Some(our_part(call))),
        ["sheets", folder] => write_sheets(folder.as_ref())?,
        ["parts", file, side] => callgrind::call_parts(&std::fs::read(file)?, Side::named(side).expect("a side")),
        _ => {
            eprintln!("{USAGE}");
            std::process::exit(1);
        }
    }
    Ok(())
}

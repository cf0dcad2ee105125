//! Sheets and states from a seed, answered by the checker's programs and by the oracle, and compared line by line.

use crate::damage_states;
use crate::frames;
use crate::generate::Generator;
use crate::judge::{self, Input, TOO_LONG};
use crate::parallel;
use crate::reading;
use crate::reading::kinds::{Kind, Side, KINDS};
use std::collections::{BTreeMap, BTreeSet};
use std::fs;
use std::io::{self, BufWriter, Read};
use std::path::PathBuf;
use std::process::{Command, Stdio};
use std::thread;

/// How many are made, answered and compared at a time.
const PART: usize = 20_000;

/// How many differing ones are kept.
const KEPT: usize = 20;

/// One of the checker's programs, which reads frames and writes a line for each.
fn program_lines(program: &str, frames: &[Vec<u8>]) -> Vec<String> {
    let mut child =
        Command::new(program).stdin(Stdio::piped()).stdout(Stdio::piped()).spawn().unwrap_or_else(|e| panic!("{program}: {e}"));
    let mut to = BufWriter::new(child.stdin.take().expect("its input"));
    let mut from = child.stdout.take().expect("its output");
    let mut text = String::new();
    thread::scope(|scope| {
        scope.spawn(move || frames.iter().all(|frame| frames::write(&mut to, frame).is_ok()));
        from.read_to_string(&mut text).expect("lines of text");
    });
    assert!(child.wait().expect("a program that ended").success(), "{program} ended badly");
    let lines: Vec<String> = text.lines().map(str::to_string).collect();
    assert_eq!(lines.len(), frames.len(), "{program} wrote as many lines as it read frames");
    lines
}

/// What a line says without its place: the answer, or the reason of a give-up or refusal.
pub fn outcome(line: &str) -> String {
    let of = |key: &str| line.split(';').find_map(|part| part.split_once(key)).map_or("", |(_, value)| value);
    let answer = of("answer=");
    match answer {
        "falls" => format!("falls {}", of("state=")),
        "giveup" | "refused" => format!("{answer} {}", of("reason=")),
        _ => answer.to_string(),
    }
}

fn is_name(kind: usize) -> bool {
    KINDS[kind].side == Side::Name
}

/// How many kinds there are, each side counted by itself.
fn kinds_and_sides() -> usize {
    let sides = |kind: &Kind| match kind.side {
        Side::UpTo(most) => most as usize + 1,
        Side::Name => 1,
    };
    KINDS.iter().map(sides).sum()
}

#[derive(Default)]
struct Tally {
    passed: usize,
    failed: usize,
    too_long: usize,
    /// How often the oracle had each outcome, and from where.
    outcomes: BTreeMap<String, usize>,
    origins: BTreeMap<String, usize>,
    /// The kinds of rows of good sheets, with their sides; which name a row names does not count.
    kinds: BTreeSet<(usize, u32)>,
}

impl Tally {
    fn keep(&self, folder: &PathBuf, number: usize, frame: &[u8], lines: &str) -> io::Result<()> {
        if self.failed > KEPT {
            return Ok(());
        }
        fs::create_dir_all(folder)?;
        fs::write(folder.join(format!("{number}.input")), frame)?;
        fs::write(folder.join(format!("{number}.lines")), lines)
    }

    fn add(&mut self, input: Input, number: usize, frame: &[u8], origin: &str, ours: &str, theirs: &str) -> io::Result<()> {
        *self.outcomes.entry(outcome(theirs)).or_default() += 1;
        *self.origins.entry(origin.to_string()).or_default() += 1;
        if let (Input::Sheets, Ok(sheet)) = (input, reading::load(frame)) {
            self.kinds.extend(sheet.rows.iter().map(|row| (row.kind, if is_name(row.kind) { 0 } else { row.side })));
        }
        if theirs == TOO_LONG {
            self.too_long += 1;
            return Ok(());
        }
        // What is not damaged is a good sheet, or the generator is wrong.
        let refused = theirs.contains("answer=refused");
        if ours == theirs && (origin.starts_with("damaged") || !refused) {
            self.passed += 1;
            return Ok(());
        }
        self.failed += 1;
        let folder = PathBuf::from(format!("target/differing/{}", input.word()));
        self.keep(&folder, number, frame, &format!("{origin}\nchecker {ours}\noracle  {theirs}\n"))
    }

    fn print(&self) {
        for (what, count) in self.origins.iter().chain(&self.outcomes) {
            println!("{count:>9}  {what}");
        }
    }
}

/// Compares what a program of the checker says of these inputs with what the oracle says.
fn compare(input: Input, program: &str, count: usize, made: impl Fn(usize) -> (Vec<u8>, String) + Sync) -> io::Result<Tally> {
    let mut tally = Tally::default();
    for from in (0..count).step_by(PART) {
        let numbers: Vec<usize> = (from..count.min(from + PART)).collect();
        let (frames, origins): (Vec<Vec<u8>>, Vec<String>) = parallel::each(&numbers, |number| made(*number)).into_iter().unzip();
        let ours = program_lines(program, &frames);
        let theirs = judge::lines(input, &frames);
        for (i, number) in numbers.iter().enumerate() {
            tally.add(input, *number, &frames[i], &origins[i], &ours[i], &theirs[i])?;
        }
    }
    Ok(tally)
}

/// So many sheets, or the whole plan and what comes with it, through `batch`, and a tenth as many states through `ask_cases`; the last line
/// says how many passed.
pub fn run(batch: &str, ask_cases: &str, count: Option<usize>, seed: u64) -> io::Result<bool> {
    let generator = Generator::new(seed);
    let count = count.unwrap_or(generator.whole_plan());
    println!("{count} sheets of seed {seed}; the plan has {}", generator.planned());
    let sheets = compare(Input::Sheets, batch, count, |i| {
        let made = generator.sheet(i);
        (made.bytes, made.origin)
    })?;
    sheets.print();
    println!("{:>9}  kinds of rows with their sides, of {}", sheets.kinds.len(), kinds_and_sides());
    let states = count.div_ceil(10);
    println!("{states} states of seed {seed}");
    let states = compare(Input::States, ask_cases, states, |i| damage_states::made(&generator, seed, i))?;
    states.print();
    let (passed, failed) = (sheets.passed + states.passed, sheets.failed + states.failed);
    println!("{} not compared, since {TOO_LONG}", sheets.too_long + states.too_long);
    println!("{passed} passed, {failed} failed");
    Ok(failed == 0)
}

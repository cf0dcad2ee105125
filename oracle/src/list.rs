//! The fixed lists that the gate replays: chosen from a seed so that small inputs tell every known mistake, outcome, kind and side.

use crate::compare::outcome;
use crate::frames;
use crate::generate::Generator;
use crate::judge::{self, Input, TOO_LONG};
use crate::parallel;
use crate::random::Random;
use crate::reading::kinds::KINDS;
use crate::reading::{self, tables::children_of};
use crate::sheet::Sheet;
use crate::wrong::{self, Wrong};
use crate::{damage_states, states};
use std::collections::{BTreeMap, BTreeSet};
use std::fs;
use std::io::{self, BufReader};
use std::path::Path;

/// How many are looked at beside the plan, and the longest of them that is taken for what it tells.
const LOOKED_AT: usize = 200_000;
const LONGEST: usize = 2_000;

/// How often each mistake is to be told.
const TELLING: usize = 4;

/// How many sheets and states a list takes at least.
const SHEETS: usize = 3_200;
const STATES: usize = 1_000;

/// An input that may be taken, with what it tells and shows.
struct Candidate {
    number: usize,
    size: usize,
    tells: Vec<usize>,
    shows: Vec<String>,
}

/// What a sheet's rows show beside its outcome: kinds, sides, and which kind stands in which.
fn shown(sheet: &Sheet, outcome: &str) -> Vec<String> {
    let mut shows: BTreeSet<String> = BTreeSet::new();
    for (i, row) in sheet.rows.iter().enumerate() {
        let word = KINDS[row.kind].word;
        shows.insert(format!("{word} in {outcome}"));
        if word != "seg" && word != "decl" {
            shows.insert(format!("{word} with side {}", row.side));
        }
        for (place, child) in children_of(&sheet.rows, i).iter().enumerate() {
            shows.insert(format!("{} in place {} of {word}", KINDS[sheet.rows[*child].kind].word, place.min(4)));
        }
    }
    shows.into_iter().collect()
}

fn looked_at(generator: &Generator, wrongs: &[Wrong], number: usize) -> Option<Candidate> {
    if number >= LOOKED_AT && generator.plan_number(number).is_none() {
        return None;
    }
    let made = generator.sheet(number);
    if made.bytes.len() > LONGEST {
        return None;
    }
    let read = reading::load(&made.bytes);
    let outcome = match &read {
        Ok(sheet) => outcome(&judge::walked(sheet)?.line()),
        Err(refused) => format!("refused {}", refused.number),
    };
    let mut shows = vec![format!("{} {outcome}", made.origin)];
    match &read {
        Ok(sheet) => {
            shows.extend(shown(sheet, &outcome));
            shows.push(format!("start {} sole {} {outcome}", sheet.start, sheet.sole));
        }
        // Each of the smallest is taken.
        Err(_) if made.origin == "damaged misfit" => shows.push(format!("misfit {number}")),
        Err(_) => {}
    }
    let tells = wrong::told_by_sheet(wrongs, &made.bytes);
    Some(Candidate { number, size: made.bytes.len(), tells, shows })
}

/// The smallest candidates that tell each mistake and show each feature often enough, then others at random, to this many.
fn chosen(candidates: Vec<Option<Candidate>>, enough: usize, seed: u64) -> Vec<usize> {
    let mut candidates: Vec<Candidate> = candidates.into_iter().flatten().collect();
    candidates.sort_by_key(|candidate| (candidate.size, candidate.number));
    let mut told: BTreeMap<usize, usize> = BTreeMap::new();
    let mut seen: BTreeMap<String, usize> = BTreeMap::new();
    let mut taken: BTreeSet<usize> = BTreeSet::new();
    for candidate in &candidates {
        let tells = candidate.tells.iter().any(|mistake| told.get(mistake).copied().unwrap_or(0) < TELLING);
        let shows = candidate.shows.iter().any(|feature| seen.get(feature).copied().unwrap_or(0) < 1);
        if tells || shows {
            taken.insert(candidate.number);
            candidate.tells.iter().for_each(|mistake| *told.entry(*mistake).or_default() += 1);
            candidate.shows.iter().for_each(|feature| *seen.entry(feature.clone()).or_default() += 1);
        }
    }
    println!("{} taken for what they tell or show", taken.len());
    let mut random = Random::new(seed, u64::MAX);
    while taken.len() < enough {
        taken.insert(candidates[random.below(candidates.len())].number);
    }
    taken.into_iter().collect()
}

/// The frames of a program's input, with the lines of its output; a broken last frame is left out.
fn stored(folder: &Path) -> io::Result<Vec<(Vec<u8>, String)>> {
    let mut from = BufReader::new(fs::File::open(folder.join("stdin"))?);
    let text = fs::read_to_string(folder.join("stdout"))?;
    let mut found = Vec::new();
    for line in text.lines() {
        match frames::read(&mut from) {
            Ok(Some(frame)) => found.push((frame, line.to_string())),
            _ => break,
        }
    }
    Ok(found)
}

/// Writes a program's input and output: frames with their lines, and what ends the input.
fn write(folder: &Path, of: &[(Vec<u8>, String)], ending: (&str, &str)) -> io::Result<()> {
    let mut stdin = Vec::new();
    let mut stdout = String::new();
    for (frame, line) in of {
        frames::write(&mut stdin, frame)?;
        stdout.push_str(line);
        stdout.push('\n');
    }
    stdin.extend(ending.0.as_bytes());
    stdout.push_str(ending.1);
    fs::write(folder.join("stdin"), stdin)?;
    fs::write(folder.join("stdout"), stdout)
}

/// Frames with the oracle's lines. What the Rust does not answer in time has no place in a list.
fn judged(input: Input, frames: Vec<Vec<u8>>) -> Vec<(Vec<u8>, String)> {
    let lines = judge::lines(input, &frames);
    frames.into_iter().zip(lines).filter(|(_, line)| line != TOO_LONG).collect()
}

/// How many of these lines the oracle gives as well; the others it takes too long for.
fn agreed(input: Input, worked: &[(Vec<u8>, String)]) -> usize {
    let frames: Vec<Vec<u8>> = worked.iter().map(|(frame, _)| frame.clone()).collect();
    let lines = judge::lines(input, &frames);
    for ((_, worked), line) in worked.iter().zip(&lines) {
        assert!(line == worked || line == TOO_LONG, "worked out as {worked}, and the oracle says {line}");
    }
    lines.iter().filter(|line| *line != TOO_LONG).count()
}

/// The sheets that were worked out by hand stand first in `batch`'s input, and stay.
const WORKED_SHEETS: usize = 1430;

/// Long ones, which are not taken for what they tell.
fn long_sheets(generator: &Generator, random: &mut Random, count: usize) -> Vec<Vec<u8>> {
    let mut found = Vec::new();
    while found.len() < count {
        let made = generator.sheet(random.below(LOOKED_AT));
        if made.bytes.len() > LONGEST && made.bytes.len() < 40_000 {
            found.push(made.bytes);
        }
    }
    found
}

/// Makes `batch`'s input and output anew: the worked sheets, the chosen ones, some long ones, and a frame that ends before its size.
pub fn sheets(folder: &Path, seed: u64) -> io::Result<()> {
    let mut list = stored(folder)?;
    list.truncate(WORKED_SHEETS);
    println!("{} of {WORKED_SHEETS} worked sheets agree with the oracle", agreed(Input::Sheets, &list));
    let generator = Generator::new(seed);
    let wrongs = wrong::all();
    let numbers: Vec<usize> = (0..generator.whole_plan()).collect();
    let found = parallel::each(&numbers, |number| looked_at(&generator, &wrongs, *number));
    let mut frames: Vec<Vec<u8>> = chosen(found, SHEETS, seed).iter().map(|i| generator.sheet(*i).bytes).collect();
    frames.extend(long_sheets(&generator, &mut Random::new(seed, u64::MAX - 1), 40));
    list.extend(judged(Input::Sheets, frames));
    let broken = format!("broken frame {}: the input ends before its size\n", list.len() + 1);
    println!("{} sheets", list.len());
    write(folder, &list, ("9\nsheet=1\n", &broken))
}

/// The states that were worked out by hand: a line each, the state's text, ` => `, and the answer's line.
fn worked_states(path: &Path) -> io::Result<Vec<(Vec<u8>, String)>> {
    let text = fs::read_to_string(path)?;
    let lines = text.lines().filter(|line| !line.is_empty() && !line.starts_with('#'));
    Ok(lines
        .map(|line| {
            let (state, answer) = line.split_once(" => ").unwrap_or_else(|| panic!("no answer: {line}"));
            let (title, _) = states::read(state.as_bytes());
            (state.as_bytes().to_vec(), format!("{title}: {answer}"))
        })
        .collect())
}

/// Makes the input and output of `ask_cases` anew: the worked states, and the chosen ones.
pub fn states(folder: &Path, worked: &Path, seed: u64) -> io::Result<()> {
    let mut list = worked_states(worked)?;
    println!("{} of {} worked states agree with the oracle", agreed(Input::States, &list), list.len());
    let generator = Generator::new(seed);
    let wrongs = wrong::all();
    let numbers: Vec<usize> = (0..LOOKED_AT / 4).collect();
    let found = parallel::each(&numbers, |number| {
        let (frame, origin) = damage_states::made(&generator, seed, *number);
        if frame.len() > LONGEST {
            return None;
        }
        let (_, state) = states::read(&frame);
        let outcome = match reading::held(&state) {
            Ok(sheet) => outcome(&judge::walked(&sheet)?.line()),
            Err(refused) => format!("refused {} at {}", refused.number, refused.place.min(9)),
        };
        let tells = wrong::told_by_state(&wrongs, &frame);
        Some(Candidate { number: *number, size: frame.len(), tells, shows: vec![format!("{origin} {outcome}")] })
    });
    let frames = chosen(found, STATES, seed).iter().map(|i| damage_states::made(&generator, seed, *i).0).collect();
    list.extend(judged(Input::States, frames));
    println!("{} states", list.len());
    write(folder, &list, ("", ""))
}

/// The table of known mistakes: how many sheets of `batch` and states of `ask_cases` tell each from the right one, and the first.
pub fn notice(batch: &Path, ask_cases: &Path) -> io::Result<bool> {
    let wrongs = wrong::all();
    let told_sheets = parallel::each(&stored(batch)?, |(frame, _)| wrong::told_by_sheet(&wrongs, frame));
    let told_states = parallel::each(&stored(ask_cases)?, |(frame, _)| wrong::told_by_state(&wrongs, frame));
    println!("| mistake | what is wrong | sheets | first | states |\n|---|---|---|---|---|");
    let mut noticed = 0;
    for (i, wrong) in wrongs.iter().enumerate() {
        let telling: Vec<usize> = (0..told_sheets.len()).filter(|n| told_sheets[*n].contains(&i)).collect();
        let of_states = told_states.iter().filter(|told| told.contains(&i)).count();
        let first = telling.first().map_or("".to_string(), |n| (n + 1).to_string());
        println!("| {} | {} | {} | {first} | {of_states} |", wrong.name, wrong.title.replace('|', "\\|"), telling.len());
        noticed += usize::from(!telling.is_empty() || of_states > 0);
    }
    println!();
    println!("{noticed} passed, {} failed", wrongs.len() - noticed);
    Ok(noticed == wrongs.len())
}

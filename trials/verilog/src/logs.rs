//! What the simulator logs of runs.

use std::fs;
use std::io;
use std::path::Path;

/// What happened at a row.
#[derive(Clone, Copy, PartialEq, Eq, Debug)]
pub enum What {
    Read { written: bool },
    Write,
    Truth(usize),
    Scrutinee,
    Label { matches: bool },
    Default { taken: bool },
    Rounds(usize),
    Round,
    Jump(usize),
}

#[derive(Clone, Copy, PartialEq, Eq, Debug)]
pub struct Event {
    pub row: usize,
    pub what: What,
}

/// How a run ended: at the end of its task, at a wait whose condition was not true, or not as it must.
#[derive(Clone, Copy, PartialEq, Eq, Debug)]
pub enum End {
    Over,
    Waits,
    Wrong,
}

#[derive(Clone, Debug)]
pub struct Run {
    pub sheet: usize,
    pub number: usize,
    pub events: Vec<Event>,
    pub end: End,
    pub line: String,
}

fn event(word: &str) -> Option<Event> {
    let (kind, rest) = word.split_at_checked(1)?;
    let (row, value) = rest.split_once('=').unwrap_or((rest, "0"));
    let (row, unwritten) = row.strip_suffix('!').map_or((row, false), |row| (row, true));
    let value: usize = value.parse().ok()?;
    let what = match kind {
        "r" => What::Read { written: !unwritten },
        "w" => What::Write,
        "t" => What::Truth(value),
        "s" => What::Scrutinee,
        "l" => What::Label { matches: value == 1 },
        "d" => What::Default { taken: value == 1 },
        "n" => What::Rounds(value),
        "m" => What::Round,
        "j" => What::Jump(value),
        _ => return None,
    };
    Some(Event { row: row.parse().ok()?, what })
}

/// The run of a line: the sheet's number, the run's, what happened, and how it ended.
fn run(line: &str) -> Option<Run> {
    let mut words = line.split(' ');
    let sheet = words.next()?.parse().ok()?;
    let number = words.next()?.parse().ok()?;
    let (mut events, mut end) = (Vec::new(), End::Wrong);
    for word in words {
        match word {
            "end" => end = End::Over,
            "waits" => end = End::Waits,
            _ => match event(word) {
                Some(event) => events.push(event),
                None => return Some(Run { sheet, number, events, end: End::Wrong, line: line.to_string() }),
            },
        }
    }
    Some(Run { sheet, number, events, end, line: line.to_string() })
}

/// The runs that the logs of a folder have.
pub fn runs(folder: &Path) -> io::Result<Vec<Run>> {
    let mut found = Vec::new();
    for entry in fs::read_dir(folder)? {
        let path = entry?.path();
        if path.extension().is_some_and(|extension| extension == "log") {
            found.extend(fs::read_to_string(path)?.lines().filter_map(run));
        }
    }
    found.sort_by_key(|run| (run.sheet, run.number));
    Ok(found)
}

//! Lists of runs as the files have them, and the files with some of their lists written anew.

use super::evaluate::Origin;
use super::Facts;
use crate::path::{Ending, Event, Run};

/// Lines stay below so many characters, unless a single run is longer.
const WIDTH: usize = 160;

fn event_text(event: &Event) -> String {
    match event {
        Event::Read => "read".to_string(),
        Event::Write => "write".to_string(),
        Event::Outside => "outside".to_string(),
        Event::Choice(number) => format!("choice {number}"),
    }
}

/// The events of a run, as a list.
fn events_text(run: &Run) -> String {
    run.events.iter().map(|event| event_text(event) + " ∷ ").collect::<String>() + "[]"
}

/// A run as a pair of its events and its ending.
pub fn run_text(run: &Run) -> String {
    let ending = match run.ending {
        Ending::Falls => "falls",
        Ending::Stops => "stops",
        Ending::Leaves => "leaves",
        Ending::Again => "again",
    };
    format!("({}, {ending})", events_text(run))
}

/// The lines of a list: its runs, a line each, with what stands before and after them.
struct Layout {
    runs: Vec<String>,
    falling: bool,
}

impl Layout {
    /// Where the list is one of runs, all of which fall, it is written by their events.
    fn new(runs: &[Run], takes_runs: bool) -> Layout {
        let falling = takes_runs && runs.iter().all(|run| run.ending == Ending::Falls);
        let text = |run: &Run| match (takes_runs && !falling, run.events.is_empty()) {
            (true, _) => run_text(run),
            (false, true) => events_text(run),
            (false, false) => format!("({})", events_text(run)),
        };
        Layout { runs: runs.iter().map(text).collect(), falling }
    }

    /// All of it, with this after the word `fall` and after each run.
    fn joined(&self, between: &str) -> String {
        if self.runs.is_empty() {
            return "[]".to_string();
        }
        let runs: String = self.runs.iter().map(|run| format!("{run} ∷{between}")).collect();
        if self.falling {
            return format!("(fall{between}({runs}[]))");
        }
        format!("({runs}[])")
    }
}

/// A list in the place of an application's last argument: on its line, on a line of its own, or one run to a line.
fn put(text: &str, from: &Origin, list: &Layout) -> (usize, String) {
    let start = text[..from.last].trim_end().len();
    let before = text[..start].lines().next_back().unwrap_or("").chars().count();
    let after = text[from.end..].lines().next().unwrap_or("").chars().count();
    let line = list.joined(" ");
    let length = line.chars().count() + after;
    let written = if before + 1 + length < WIDTH {
        format!(" {line}")
    } else if 4 + length < WIDTH {
        format!("\n    {line}")
    } else {
        format!("\n    {}", list.joined("\n    "))
    };
    (start, written)
}

impl Facts {
    /// The texts with these lists in the place of those that stand there.
    pub fn with_lists(&self, mut lists: Vec<(&Origin, &Vec<Run>)>) -> Vec<String> {
        let mut texts = self.texts.clone();
        lists.sort_by_key(|(from, _)| (from.file, from.begin));
        for (from, runs) in lists.into_iter().rev() {
            let text = &mut texts[from.file];
            let (start, written) = put(text, from, &Layout::new(runs, self.takes_runs(from)));
            text.replace_range(start..from.end, &written);
        }
        texts
    }
}

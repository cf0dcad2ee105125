//! Checks answers: for each NAME it loads NAME.sheet, asks, and prints what the player is told, with the words of NAME.v that a give-up
//! points at. usage: check NAME..

use definite_assignment::{ask, lengths_agree, load, name, Answer, Record, NAME_NUMBERS, ROW_NUMBERS};
use std::{env, fs, io};

const REASONS: [&str; 10] = [
    "",
    "time can advance, and others may write it",
    "it is read before any write",
    "the event on this assignment refers to it",
    "only a part of it is written",
    "a fork gives no order",
    "the task that is called reads it",
    "the task that is called may read it",
    "the event control refers to it",
    "this form is not modelled",
];

/// The words that a span points at, as far as the text goes.
fn words(text: &[u8], lo: usize, hi: usize) -> String {
    let hi = hi.min(text.len());
    String::from_utf8_lossy(&text[lo.min(hi)..hi]).into_owned()
}

fn told(path: &str, answer: Answer) -> io::Result<String> {
    Ok(match answer {
        Answer::Falls { written: true } => "accepted, and written at the end".to_string(),
        Answer::Falls { written: false } => "accepted, not always written at the end".to_string(),
        Answer::Jumps => "accepted, and no path comes to the end".to_string(),
        Answer::GivesUp { reason, lo, hi } => {
            let text = fs::read(format!("{path}.v"))?;
            format!("{}, in `{}` at {lo} to {hi}", REASONS[reason], words(&text, lo, hi))
        }
        Answer::Refused(refusal) => format!("refused with {}, place {}", refusal.number, refusal.place),
    })
}

/// The text of the local, a part of the sheet.
fn local<'a>(sheet: &'a [u8], record: &Record, names: &[u32]) -> String {
    name(sheet, record, names, record.local).map_or(String::new(), |text| String::from_utf8_lossy(text).into_owned())
}

fn check(path: &str, rows: &mut [u32], names: &mut [u32]) -> io::Result<()> {
    let sheet = fs::read(format!("{path}.sheet"))?;
    match load(&sheet, rows, names) {
        Err(refusal) => println!("{path}: refused with {}, line {}", refusal.number, refusal.place),
        Ok(record) => println!("{path}: {}: {}", local(&sheet, &record, names), told(path, ask(&record, rows, names))?),
    }
    Ok(())
}

fn main() -> io::Result<()> {
    assert!(lengths_agree(), "the crate is not of this archive");
    let (mut rows, mut names) = ([0; ROW_NUMBERS], [0; NAME_NUMBERS]);
    for path in env::args().skip(1) {
        check(&path, &mut rows, &mut names)?;
    }
    Ok(())
}

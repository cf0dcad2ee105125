//! The oracle's answers: a sheet or a state is read, its tree is built, and the published `da_stmt` is asked.

use crate::answer::Answer;
use crate::fill::WAYS;
use crate::frames;
use crate::parallel;
use crate::reading;
use crate::right;
use crate::sheet::Sheet;
use crate::states;
use crate::tree::tree;
use std::io;

/// The line of an input that the Rust does not answer in time.
pub const TOO_LONG: &str = "the Rust takes too long";

/// What a frame holds.
#[derive(Clone, Copy, PartialEq, Eq)]
pub enum Input {
    Sheets,
    States,
}

impl Input {
    pub fn word(self) -> &'static str {
        match self {
            Input::Sheets => "sheets",
            Input::States => "states",
        }
    }

    pub fn named(word: &str) -> Option<Input> {
        [Input::Sheets, Input::States].into_iter().find(|input| input.word() == word)
    }
}

/// The answer of `da_stmt` on a sheet's tree: one, in whatever way the tree is filled. Nothing where one of them takes too long.
pub fn walked(sheet: &Sheet) -> Option<Answer> {
    let mut answers = Vec::new();
    for way in WAYS {
        answers.push(right::asked(&tree(sheet, way), sheet.start, sheet.sole)?);
    }
    assert!(answers.iter().all(|a| *a == answers[0]), "the answer depends on what a sheet drops: {answers:?}");
    Some(answers[0])
}

fn line(input: Input, frame: &[u8]) -> String {
    let (before, read) = match input {
        Input::Sheets => (String::new(), reading::load(frame)),
        Input::States => {
            let (title, state) = states::read(frame);
            (format!("{title}: "), reading::held(&state))
        }
    };
    match read.map_or_else(|refused| Some(Answer::Refused(refused)), |sheet| walked(&sheet)) {
        Some(answer) => format!("{before}{}", answer.line()),
        None => TOO_LONG.to_string(),
    }
}

/// A line for each frame.
pub fn lines(input: Input, frames: &[Vec<u8>]) -> Vec<String> {
    parallel::each(frames, |frame| line(input, frame))
}

/// Prints the lines of the frames on standard input.
pub fn print(input: Input) -> io::Result<()> {
    let frames = frames::read_all(&mut io::stdin().lock())?;
    for line in lines(input, &frames) {
        println!("{line}");
    }
    Ok(())
}

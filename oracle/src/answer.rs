//! An answer, and its line as the checker prints it.

use crate::sheet::Refused;

#[derive(Clone, Copy, PartialEq, Eq, Debug)]
pub enum Answer {
    Falls(bool),
    Jumps,
    GivesUp { reason: u32, lo: u32, hi: u32 },
    Refused(Refused),
}

impl Answer {
    /// "answer is falls, jumps, giveup or refused; state is written, 0 unless falls; a refusal prints its number as reason, its place
    /// as lo. Unused is 0."
    pub fn line(self) -> String {
        let (word, state, reason, lo, hi) = match self {
            Answer::Falls(written) => ("falls", u32::from(written), 0, 0, 0),
            Answer::Jumps => ("jumps", 0, 0, 0, 0),
            Answer::GivesUp { reason, lo, hi } => ("giveup", 0, reason, lo, hi),
            Answer::Refused(refused) => ("refused", 0, refused.number, refused.place as u32, 0),
        };
        format!("answer={word};state={state};reason={reason};lo={lo};hi={hi}")
    }
}

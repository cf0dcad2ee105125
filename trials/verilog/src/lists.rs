//! The choices of a run, drawn.

use oracle::random::Random;

/// How many choices a run has; after them every truth is unknown, no label matches, and no forever goes on.
pub const CHOICES: usize = 64;

/// How many runs a sheet has.
pub const RUNS: usize = 8;

/// How often, of ten, a choice is false, true and unknown: the first three runs of a sheet have the first three of these, and the others any.
const LEANINGS: [[usize; 3]; 6] = [[1, 8, 1], [8, 1, 1], [1, 2, 7], [4, 4, 2], [3, 4, 3], [2, 6, 2]];

/// The choices of a sheet's run, as a number in hexadecimal digits, the first choice lowest.
pub fn drawn(random: &mut Random, run: usize) -> String {
    let leaning = if run < 3 { LEANINGS[run] } else { *random.pick(&LEANINGS) };
    let mut digits: Vec<String> =
        (0..CHOICES / 2).map(|_| format!("{:x}", choice(random, leaning) + 4 * choice(random, leaning))).collect();
    digits.reverse();
    digits.concat()
}

fn choice(random: &mut Random, [no, yes, _]: [usize; 3]) -> usize {
    match random.below(10) {
        n if n < no => 0,
        n if n < no + yes => 1,
        _ => 2,
    }
}

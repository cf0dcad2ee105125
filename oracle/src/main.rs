//! The oracle's commands. See README.md beside this crate.

use oracle::judge::{self, Input};
#[cfg(feature = "wrong")]
use oracle::list;
#[cfg(feature = "wrong-runs")]
use oracle::wrong_runs;
use oracle::{accepted, compare, generate, listing};
use std::io;

fn number<T: std::str::FromStr>(word: &str) -> T {
    word.parse().unwrap_or_else(|_| panic!("{word} is no number"))
}

fn input(word: &str) -> Input {
    Input::named(word).unwrap_or_else(|| panic!("{word} is neither sheets nor states"))
}

const USAGE: &str = "usage: oracle judge sheets|states < FRAMES          the oracle's line for each
       oracle generate SEED FROM TO                  sheets of a seed, as frames
       oracle compare BATCH ASK_CASES COUNT|all SEED the checker's programs against the oracle; all: with the whole plan
       oracle runs                                   the lists of the joint facts against the second reading of paths
       oracle runs write [all]                       the lists that differ, or all, written anew
       oracle runs before REV                        the lists of a revision, over two truths
       oracle runs sheets [COUNT [SEED]]             the runs of accepted sheets, none of which may read too early
with the feature `wrong-runs`:
       oracle runs notice [COUNT]                    which known mistakes of listing the joint facts and those sheets notice
and with the feature `wrong`:
       oracle list sheets FOLDER SEED                the list of batch, in its folder
       oracle list states FOLDER WORKED SEED         the list of ask_cases
       oracle notice BATCH_FOLDER ASK_CASES_FOLDER   which known mistakes the lists notice";

/// How many accepted sheets are looked at, and by how many the known mistakes are tried, unless it is said.
const SHEETS: usize = 100_000;
#[cfg(feature = "wrong-runs")]
const TRIED: usize = 20_000;

fn main() -> io::Result<()> {
    let args: Vec<String> = std::env::args().skip(1).collect();
    let words: Vec<&str> = args.iter().map(String::as_str).collect();
    let good = match words[..] {
        ["judge", of] => judge::print(input(of)).map(|()| true),
        ["generate", seed, from, to] => generate::print(number(seed), number(from)..number(to)).map(|()| true),
        ["compare", batch, ask_cases, "all", seed] => compare::run(batch, ask_cases, None, number(seed)),
        ["compare", batch, ask_cases, count, seed] => compare::run(batch, ask_cases, Some(number(count)), number(seed)),
        ["runs"] => listing::check(),
        ["runs", "write"] => listing::write(false),
        ["runs", "write", "all"] => listing::write(true),
        ["runs", "sheets"] => Ok(accepted::run(SHEETS, 1)),
        ["runs", "sheets", count] => Ok(accepted::run(number(count), 1)),
        ["runs", "sheets", count, seed] => Ok(accepted::run(number(count), number(seed))),
        ["runs", "before", revision] => listing::before(revision),
        #[cfg(feature = "wrong-runs")]
        ["runs", "notice"] => wrong_runs::notice(TRIED),
        #[cfg(feature = "wrong-runs")]
        ["runs", "notice", count] => wrong_runs::notice(number(count)),
        #[cfg(feature = "wrong")]
        ["list", "sheets", folder, seed] => list::sheets(folder.as_ref(), number(seed)).map(|()| true),
        #[cfg(feature = "wrong")]
        ["list", "states", folder, worked, seed] => list::states(folder.as_ref(), worked.as_ref(), number(seed)).map(|()| true),
        #[cfg(feature = "wrong")]
        ["notice", batch, ask_cases] => list::notice(batch.as_ref(), ask_cases.as_ref()),
        _ => {
            eprintln!("{USAGE}");
            Ok(false)
        }
    };
    std::process::exit(i32::from(!good?));
}

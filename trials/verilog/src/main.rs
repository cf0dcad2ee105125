//! The commands of the trial on a simulator. See README.md beside this crate.

mod choose;
mod files;
mod follow;
mod judge;
mod lists;
mod logs;
#[cfg(feature = "wrong")]
mod mistakes;
mod sheets;
mod write;

use std::io;
use std::path::Path;

const USAGE: &str = "usage: verilog candidates COUNT SEED FOLDER            sheets to ask the product about
       verilog write COUNT SEED FOLDER ANSWERS TO    those that it accepts, as SystemVerilog
       verilog judge FOLDER                          what the logs of their runs tell
and with the feature `wrong`:
       verilog mistakes TO                           sheets that only a known-wrong walk accepts, as SystemVerilog
       verilog seen FOLDER                           which known mistakes the logs of their runs show";

fn number<T: std::str::FromStr>(word: &str) -> T {
    word.parse().unwrap_or_else(|_| panic!("{word} is no number"))
}

fn main() -> io::Result<()> {
    let args: Vec<String> = std::env::args().skip(1).collect();
    let words: Vec<&str> = args.iter().map(String::as_str).collect();
    match words[..] {
        ["candidates", count, seed, folder] => sheets::candidates(number(count), number(seed), Path::new(folder)),
        ["write", count, seed, from, answers, to] => {
            choose::write_accepted(number(count), number(seed), Path::new(from), Path::new(answers), Path::new(to))
        }
        #[cfg(feature = "wrong")]
        ["mistakes", to] => mistakes::write(Path::new(to)),
        #[cfg(feature = "wrong")]
        ["seen", folder] => mistakes::seen(Path::new(folder)),
        ["judge", folder] => judge::judge(Path::new(folder)),
        _ => {
            eprintln!("{USAGE}");
            std::process::exit(2)
        }
    }
}

//! Files of many sheets each, for the simulator.

use crate::lists::{drawn, RUNS};
use oracle::random::Random;
use std::fs;
use std::io;
use std::path::Path;

/// How many sheets a file has.
const PART: usize = 200;

/// Removes what an earlier trial left in a folder, and makes it.
pub fn cleared(folder: &Path) -> io::Result<()> {
    match fs::remove_dir_all(folder) {
        Err(error) if error.kind() != io::ErrorKind::NotFound => Err(error),
        _ => fs::create_dir_all(folder),
    }
}

/// The runs of a sheet's task, one after the other.
fn runs(number: usize, random: &mut Random) -> String {
    let run = |run: usize| format!("{run}: start({number}, {run}, 128'h{});\n", drawn(random, run));
    let starts: String = (0..RUNS).map(run).collect();
    format!(
        "task runs_{number};\ninteger run;\nfor (run = 0; run < {RUNS}; run = run + 1) begin : one_{number}\ncase (run)\n{starts}endcase\n\
         fork\nbegin\nsheet_{number};\n$write(\" end\");\ndisable one_{number};\nend\nbegin\nwatch;\ndisable one_{number};\nend\njoin\n\
         end\nendtask\n"
    )
}

/// A file of these tasks, the first of which has this number.
fn part(tasks: &[String], first: usize, seed: u64) -> String {
    let mut text = include_str!("runs.sv").to_string();
    let mut calls = String::new();
    for (number, task) in (first..).zip(tasks) {
        text += task;
        text += &runs(number, &mut Random::new(seed, number as u64));
        calls += &format!("runs_{number};\n");
    }
    text + &format!(
        "initial begin\nnowhere = $fopen(\"/dev/null\", \"w\");\n{calls}$write(\"\\nover\\n\");\n$finish;\nend\nendmodule\n"
    )
}

/// Writes tasks, in the order of their numbers.
pub fn write(folder: &Path, tasks: &[String], seed: u64) -> io::Result<()> {
    for (number, tasks) in tasks.chunks(PART).enumerate() {
        fs::write(folder.join(format!("part-{number:03}.sv")), part(tasks, number * PART, seed))?;
    }
    Ok(())
}

/// The file that a sheet stands in.
pub fn file_of(number: usize) -> String {
    format!("part-{:03}.sv", number / PART)
}

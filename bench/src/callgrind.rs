//! Instructions, told by callgrind: this driver runs itself under valgrind, once for each sheet, and calls every part once.

use crate::parts::*;
use crate::plain;
use crate::sheets::Case;
use definite_assignment as ours;
use oracle::fill::Way;
use oracle::{reading, right, tree};
use std::fs;
use std::hint::black_box;
use std::path::{Path, PathBuf};
use std::process::{Command, Stdio};

/// Which side a run under callgrind measures.
#[derive(Clone, Copy, PartialEq, Eq, Debug)]
pub enum Side {
    Both,
    Ours,
}

impl Side {
    pub fn word(self) -> &'static str {
        match self {
            Side::Both => "both",
            Side::Ours => "ours",
        }
    }

    pub fn named(word: &str) -> Option<Side> {
        [Side::Both, Side::Ours].into_iter().find(|side| side.word() == word)
    }
}

pub fn at_hand() -> bool {
    Command::new("valgrind").arg("--version").stdout(Stdio::null()).stderr(Stdio::null()).status().is_ok_and(|s| s.success())
}

/// Whatever happens only once in a process, such as the first allocation or the keys of hash maps, happens here. The parts' own
/// functions are not called, so that callgrind counts none of it for them.
fn warm(bytes: &[u8], side: Side, lent: &mut Lent) {
    if side == Side::Both {
        black_box(plain::load(bytes)).expect("a good sheet");
        let sheet = reading::load(bytes).expect("a good sheet");
        black_box(right::asked(&tree::tree(&sheet, Way::WithoutLocal), sheet.start, sheet.sole));
    }
    let record = ours::load(bytes, &mut lent.rows, &mut lent.names).expect("a good sheet");
    black_box(ours::ask(&record, &lent.rows, &lent.names));
}

/// Calls every part once; this is what runs under callgrind.
pub fn call_parts(bytes: &[u8], side: Side) {
    let mut lent = Lent::new();
    warm(bytes, side, &mut lent);
    if side == Side::Both {
        let sheet = rust_read(bytes);
        drop(rust_read_plain(bytes));
        let tree = rust_tree(&sheet);
        black_box(rust_walk(&sheet, &tree));
        rust_drop(sheet, tree);
    }
    black_box(our_whole(bytes, &mut lent));
}

/// Where a sheet, or the counts of it, are put down, beside the driver in its target folder.
fn file(case: &Case, ending: &str) -> PathBuf {
    let driver = std::env::current_exe().expect("the driver");
    let folder = driver.ancestors().nth(2).expect("the target folder").join("callgrind");
    fs::create_dir_all(&folder).expect("a folder");
    folder.join(format!("{}.{ending}", case.name))
}

/// Valgrind counts `rep stosb` and `rep movsb` once for each byte. With these thresholds the C library clears and copies large blocks as
/// it does smaller ones, by vectors.
const BY_VECTORS: &str = "glibc.cpu.x86_rep_stosb_threshold=1000000:glibc.cpu.x86_rep_movsb_threshold=1000000";

/// Counts within these parts alone, so that what is put down is theirs.
fn count(case: &Case, side: Side, parts: &[Part], out: &Path) {
    let driver = std::env::current_exe().expect("the driver");
    let sheet = file(case, "sheet");
    fs::write(&sheet, &case.bytes).expect("written");
    let done = Command::new("valgrind")
        .env("GLIBC_TUNABLES", BY_VECTORS)
        .args(["--tool=callgrind", "--compress-strings=no", "--compress-pos=no"])
        .args(parts.iter().map(|part| format!("--toggle-collect={}", part.symbol())))
        .arg(format!("--callgrind-out-file={}", out.display()))
        .arg(driver)
        .arg("parts")
        .arg(sheet)
        .arg(side.word())
        .output()
        .expect("valgrind runs");
    assert!(done.status.success(), "{}: {}", case.name, String::from_utf8_lossy(&done.stderr));
}

/// The cost of all calls of a function, with what it calls: after `cfn=NAME` and `calls=..` stands a line with a place and the cost.
fn inclusive(text: &str, function: &str) -> Option<f64> {
    let called = format!("cfn={function}");
    let mut found = None;
    let mut lines = text.lines();
    while let Some(line) = lines.next() {
        if line != called {
            continue;
        }
        let calls = lines.next().expect("calls");
        assert!(calls.starts_with("calls=1 "), "{function} is called once: {calls}");
        let cost = lines.next().and_then(|line| line.split(' ').nth(1)).expect("a cost");
        assert!(found.is_none(), "{function} is called from one place");
        found = Some(cost.parse().expect("a number"));
    }
    found
}

/// The instructions of each of these parts on a sheet.
fn counted(case: &Case, side: Side, parts: &[Part]) -> Costs {
    let out = file(case, "out");
    count(case, side, parts, &out);
    let text = fs::read_to_string(&out).expect("callgrind's counts");
    let mut costs = Costs::default();
    for part in parts {
        costs.set(*part, inclusive(&text, part.symbol()).unwrap_or_else(|| panic!("{}: no {part:?}", case.name)));
    }
    costs
}

pub fn instructions(case: &Case, side: Side) -> Costs {
    counted(case, side, if side == Side::Both { &PARTS } else { &OURS })
}

/// Prints the instructions of this library on a sheet, or of one of its calls, and how to look closer.
pub fn print_ours(case: &Case, only: Option<Part>) {
    let parts = only.map_or(OURS.to_vec(), |part| vec![part]);
    let costs = counted(case, Side::Ours, &parts);
    for part in parts {
        println!("{} {}", part.symbol(), costs.of(part).expect("measured"));
    }
    println!("callgrind_annotate {}", file(case, "out").display());
}

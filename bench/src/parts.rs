//! The parts that are measured, each a function of its own that is not inlined, so that callgrind tells their costs apart by name.

use crate::plain;
use definite_assignment as ours;
use oracle::answer::Answer;
use oracle::asking::Tree;
use oracle::fill::Way;
use oracle::sheet::Sheet;
use oracle::{reading, right, tree};

#[derive(Clone, Copy, PartialEq, Eq, Debug)]
pub enum Part {
    Read,
    ReadPlain,
    Tree,
    Walk,
    Drop,
    Load,
    Ask,
    Verdict,
}

pub const PARTS: [Part; 8] =
    [Part::Read, Part::ReadPlain, Part::Tree, Part::Walk, Part::Drop, Part::Load, Part::Ask, Part::Verdict];

pub const OURS: [Part; 3] = [Part::Load, Part::Ask, Part::Verdict];

impl Part {
    pub fn symbol(self) -> &'static str {
        match self {
            Part::Read => "rust_read",
            Part::ReadPlain => "rust_read_plain",
            Part::Tree => "rust_tree",
            Part::Walk => "rust_walk",
            Part::Drop => "rust_drop",
            Part::Load => "our_load",
            Part::Ask => "our_ask",
            Part::Verdict => "our_verdict",
        }
    }
}

#[no_mangle]
#[inline(never)]
pub fn rust_read(bytes: &[u8]) -> Sheet {
    reading::load(bytes).expect("a good sheet")
}

#[no_mangle]
#[inline(never)]
pub fn rust_read_plain(bytes: &[u8]) -> Sheet {
    plain::load(bytes).expect("a good sheet")
}

#[no_mangle]
#[inline(never)]
pub fn rust_tree(sheet: &Sheet) -> Tree {
    tree::tree(sheet, Way::WithoutLocal)
}

/// `da_stmt` on a built tree; nothing where it takes too long.
#[no_mangle]
#[inline(never)]
pub fn rust_walk(sheet: &Sheet, tree: &Tree) -> Option<Answer> {
    right::asked(tree, sheet.start, sheet.sole)
}

#[no_mangle]
#[inline(never)]
pub fn rust_drop(sheet: Sheet, tree: Tree) {
    drop(tree);
    drop(sheet);
}

/// The two tables that a caller lends, long enough for every sheet.
pub struct Lent {
    pub rows: Vec<u32>,
    pub names: Vec<u32>,
}

impl Lent {
    pub fn new() -> Lent {
        Lent { rows: vec![0; ours::ROW_NUMBERS], names: vec![0; ours::NAME_NUMBERS] }
    }
}

#[no_mangle]
#[inline(never)]
pub fn our_load(bytes: &[u8], lent: &mut Lent) -> ours::Record {
    ours::load(bytes, &mut lent.rows, &mut lent.names).expect("a good sheet")
}

#[no_mangle]
#[inline(never)]
pub fn our_ask(record: &ours::Record, lent: &Lent) -> ours::Answer {
    ours::ask(record, &lent.rows, &lent.names)
}

#[no_mangle]
#[inline(never)]
pub fn our_verdict(bytes: &[u8], lent: &mut Lent) -> ours::Answer {
    ours::verdict(bytes, &mut lent.rows, &mut lent.names)
}

/// This library's answer in the oracle's words.
pub fn in_oracle_words(answer: ours::Answer) -> Answer {
    match answer {
        ours::Answer::Falls { written } => Answer::Falls(written),
        ours::Answer::Jumps => Answer::Jumps,
        ours::Answer::GivesUp { reason, lo, hi } => Answer::GivesUp { reason: reason as u32, lo: lo as u32, hi: hi as u32 },
        ours::Answer::Refused(refused) => {
            Answer::Refused(oracle::sheet::Refused { number: refused.number as u32, place: refused.place })
        }
    }
}

/// The whole of the Rust, with the oracle's reading or the plain one.
pub fn rust_whole(bytes: &[u8], read: fn(&[u8]) -> Sheet) -> Option<Answer> {
    let sheet = read(bytes);
    let tree = rust_tree(&sheet);
    let answer = rust_walk(&sheet, &tree);
    rust_drop(sheet, tree);
    answer
}

/// Everything of this library, each call once.
pub fn our_whole(bytes: &[u8], lent: &mut Lent) -> Answer {
    let record = our_load(bytes, lent);
    let asked = our_ask(&record, lent);
    assert_eq!(our_verdict(bytes, lent), asked, "both calls in one");
    in_oracle_words(asked)
}

/// What each part costs on one sheet, in instructions or in nanoseconds. Nothing where it was not measured.
#[derive(Clone, Default)]
pub struct Costs([Option<f64>; PARTS.len()]);

impl Costs {
    pub fn set(&mut self, part: Part, cost: f64) {
        self.0[part as usize] = Some(cost);
    }

    pub fn of(&self, part: Part) -> Option<f64> {
        self.0[part as usize]
    }

    fn sum(&self, parts: &[Part]) -> Option<f64> {
        parts.iter().map(|part| self.of(*part)).sum()
    }

    /// The Rust as a whole, with this reading.
    pub fn rust(&self, reading: Part) -> Option<f64> {
        self.sum(&[reading, Part::Tree, Part::Walk, Part::Drop])
    }

    /// This library as a whole.
    pub fn ours(&self) -> Option<f64> {
        self.sum(&[Part::Load, Part::Ask])
    }

    /// load and ask, to the whole of the Rust with this reading.
    pub fn whole_ratio(&self, reading: Part) -> Option<f64> {
        Some(self.ours()? / self.rust(reading)?)
    }

    /// ask, to `da_stmt` on a built tree.
    pub fn walk_ratio(&self) -> Option<f64> {
        Some(self.of(Part::Ask)? / self.of(Part::Walk)?)
    }
}

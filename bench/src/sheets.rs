//! The sheets that are measured. Each is always the same.

use crate::forms::*;
use crate::mix::Mix;
use crate::puzzles;
use oracle::generate::draft::{Draft, Node, Spans};

/// Sheets of one shape, which may be compared with each other.
#[derive(Clone, Copy, PartialEq, Eq, Debug)]
pub enum Family {
    Mixed,
    Unwritten,
    Block,
    Nested,
    Shared,
    Loops,
    Steps,
    Puzzle,
    And,
}

pub struct Case {
    pub name: String,
    pub family: Family,
    pub about: &'static str,
    pub rows: usize,
    /// How many && are nested, in the family that is about them.
    pub nested: usize,
    pub bytes: Vec<u8>,
}

/// The deepest that a row may stand.
const DEPTH: usize = 100;

/// The sizes of a family that is measured at one size and at its half.
const PAIR: [usize; 2] = [1000, 2000];

fn made(name: String, family: Family, about: &'static str, sole: u32, root: Node) -> Case {
    let rows = root.rows();
    assert!(root.depth() <= DEPTH && rows <= 2000, "{name} has {rows} rows, {} deep", root.depth());
    let names = NAMES.iter().map(|name| name.as_bytes().to_vec()).collect();
    let draft = Draft { names, local: number(LOCAL) as usize, start: 0, sole, spans: Spans::Apart, root };
    Case { name, family, about, rows, nested: 0, bytes: draft.text() }
}

/// A block of these statements, with null statements up to so many rows.
fn filled(mut stmts: Vec<Node>, rows: usize) -> Node {
    let used = 1 + stmts.iter().map(Node::rows).sum::<usize>();
    stmts.resize_with(stmts.len() + rows - used, null);
    block(stmts)
}

/// Statements after these until a few tries in turn have been too long.
fn mixed(mut stmts: Vec<Node>, mut mix: Mix, rows: usize) -> Node {
    let mut left = rows - 1 - stmts.iter().map(Node::rows).sum::<usize>();
    let mut tries = 0;
    while tries < 20 {
        let stmt = mix.stmt(3);
        tries += 1;
        if stmt.rows() <= left {
            left -= stmt.rows();
            stmts.push(stmt);
            tries = 0;
        }
    }
    filled(stmts, rows)
}

fn mixed_sheet(rows: usize) -> Case {
    let about = "assignments, ifs, cases, loops, calls and delays; the local is written first and read in many places";
    let root = mixed(vec![blocking(LOCAL, lit())], Mix::new(1, true), rows);
    made(format!("mixed-{rows}"), Family::Mixed, about, 1, root)
}

fn unwritten_sheet(rows: usize) -> Case {
    let about = "the same mix; the local is written within branches and conditions only, so nothing may be skipped";
    made(format!("unwritten-{rows}"), Family::Unwritten, about, 1, mixed(vec![], Mix::new(2, false), rows))
}

fn block_sheet(rows: usize) -> Case {
    let about = "one block of assignments, none of which names the local";
    let kinds = [blocking("y", lit()), blocking("t", ident("d")), blocking("y", binary(ident("a"), ident("b")))];
    let mut left = rows - 1;
    let mut stmts = Vec::new();
    for stmt in kinds.iter().cycle() {
        if stmt.rows() > left {
            break;
        }
        left -= stmt.rows();
        stmts.push(stmt.clone());
    }
    made(format!("block-{rows}"), Family::Block, about, 1, filled(stmts, rows))
}

/// A statement within so many others.
fn wrapped(innermost: Node, levels: usize, wrap: fn(Node, usize) -> Node) -> Node {
    (0..levels).fold(innermost, wrap)
}

/// A block of writes of the local, each wrapped so often that its rows stand as deep as they may, or as often as there is room for.
fn deep(rows: usize, wrap: fn(Node, usize) -> Node) -> Node {
    let write = blocking(LOCAL, lit());
    let deepest = DEPTH - 1 - write.depth();
    let mut left = rows - 1;
    let mut stmts = Vec::new();
    while let Some(stmt) = (0..=deepest).rev().map(|levels| wrapped(write.clone(), levels, wrap)).find(|stmt| stmt.rows() <= left)
    {
        left -= stmt.rows();
        stmts.push(stmt);
    }
    filled(stmts, rows)
}

fn if_or_block(stmt: Node, level: usize) -> Node {
    match level % 2 {
        0 => if_then(ident("c"), stmt),
        _ => block(vec![stmt]),
    }
}

fn nested_sheet(rows: usize) -> Case {
    let about = "ifs and blocks in turn, 100 rows deep, around a write";
    made(format!("nested-{rows}"), Family::Nested, about, 1, deep(rows, if_or_block))
}

fn shared_sheet(rows: usize) -> Case {
    let about = "the same with sole=0: whether time can advance is asked too";
    made(format!("shared-{rows}"), Family::Shared, about, 0, deep(rows, if_or_block))
}

fn loops_sheet(rows: usize) -> Case {
    let about = "while loops that run at least once, 100 rows deep, around a write: what may leave each is asked too";
    let root = deep(rows, |stmt, _| while_loop(ONCE, ident("c"), stmt));
    made(format!("loops-{rows}"), Family::Loops, about, 1, root)
}

fn steps_sheet() -> Case {
    let about = "for loops, each in the step of the one around it: of all nestings tried, the one that takes most stack";
    made("steps".to_string(), Family::Steps, about, 1, wrapped(null(), DEPTH - 1, |stmt, _| for_step(stmt)))
}

/// `if ((((c && w(x)) && x) && x) ..) y = x;`. Where the rows of `w(x)` would stand too deep, `c` is `(1 && 1) ..`.
fn and_sheet(nested: usize) -> Case {
    let write = writing_call("w");
    let below = nested.saturating_sub(DEPTH - 1 - write.depth());
    let innermost = if below == 0 { ident("c") } else { (0..below).fold(lit(), |left, _| and(left, lit())) };
    let written = and(innermost, write);
    let cond = (below + 1..nested).fold(written, |left, _| and(left, ident(LOCAL)));
    let root = if_then(cond, blocking("y", ident(LOCAL)));
    Case { nested, ..made(format!("and-{nested}"), Family::And, "if ((((c && w(x)) && x) && x) ..) y = x;", 1, root) }
}

/// How many && are nested in the sheets of the curve.
const CURVE: [usize; 16] = [2, 4, 8, 12, 16, 24, 32, 40, 48, 49, 56, 64, 72, 80, 88, 98];

pub fn all() -> Vec<Case> {
    let mut cases: Vec<Case> = [10, 100, 500, 1000, 2000].map(mixed_sheet).into();
    cases.extend(PAIR.map(unwritten_sheet));
    cases.extend(PAIR.map(block_sheet));
    cases.extend(PAIR.map(nested_sheet));
    cases.extend(PAIR.map(shared_sheet));
    cases.extend(PAIR.map(loops_sheet));
    cases.push(steps_sheet());
    for (name, about, root) in puzzles::all() {
        cases.push(made(name.to_string(), Family::Puzzle, about, 1, root));
    }
    cases.extend(CURVE.map(and_sheet));
    cases
}

pub fn named(name: &str) -> Case {
    all().into_iter().find(|case| case.name == name).unwrap_or_else(|| panic!("no sheet {name}"))
}

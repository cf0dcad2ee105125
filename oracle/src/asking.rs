//! `da_stmt` asked of a tree: the three callbacks from the side numbers, and its answer in document 01's numbers.

use crate::hdl_ast::{HierPath, Stmt};
use std::cell::Cell;
use std::collections::HashMap;
use std::panic::{catch_unwind, resume_unwind, AssertUnwindSafe};

/// A call, task or loop, told by the address of what it owns: spans may repeat, and this address stays when the tree is put together.
pub type Address = usize;

/// The statement that a sheet's rows stand for, with the side numbers of its calls, tasks and loops.
pub struct Tree {
    pub stmt: Stmt,
    pub local: String,
    pub calls: HashMap<Address, u32>,
    pub tasks: HashMap<Address, u32>,
    pub loops: HashMap<Address, u32>,
    /// How often a walk has asked what a call does.
    pub questions: Cell<u64>,
}

/// A call's own path, by where its segments are kept. The tree keeps room for one where there is none.
pub fn path_address(path: &HierPath) -> Address {
    assert!(path.segments.capacity() > 0, "a path of a call without an address");
    path.segments.as_ptr() as Address
}

/// A loop, by where its body is kept.
pub fn loop_address(stmt: &Stmt) -> Address {
    match stmt {
        Stmt::For { body, .. } | Stmt::While { body, .. } | Stmt::Repeat { body, .. } | Stmt::Forever { body, .. } => {
            std::ptr::from_ref(&**body) as Address
        }
        _ => panic!("asked whether a statement that is no loop runs once"),
    }
}

/// On nested && the Rust takes about 2.6 to the n, and asks what a call does at each step of it. So many questions are a second or two.
const MOST_QUESTIONS: u64 = 30_000_000;

/// What a walk that asks more often is ended with.
struct TooLong;

impl Tree {
    /// What a call or task does to the local.
    pub fn effect(&self, path: &HierPath, name: &str) -> u32 {
        assert_eq!(name, self.local, "asked about a name that is not the local");
        self.questions.set(self.questions.get() + 1);
        if self.questions.get() > MOST_QUESTIONS {
            resume_unwind(Box::new(TooLong));
        }
        let address = path_address(path);
        self.calls.get(&address).or_else(|| self.tasks.get(&address)).expect("a call or task of the sheet") % 4
    }

    pub fn suspends(&self, path: &HierPath) -> bool {
        self.tasks[&path_address(path)] >= 4
    }

    pub fn runs_once(&self, stmt: &Stmt) -> bool {
        self.loops[&loop_address(stmt)] == 1
    }

    /// The result of a walk of this tree, or nothing where it takes too long.
    pub fn limited<R>(&self, walk: impl FnOnce() -> R) -> Option<R> {
        self.questions.set(0);
        match catch_unwind(AssertUnwindSafe(walk)) {
            Ok(result) => Some(result),
            Err(payload) if payload.is::<TooLong>() => None,
            Err(payload) => resume_unwind(payload),
        }
    }
}

/// Document 01's reasons, by the words that the Rust gives up with.
const REASONS: [(u32, &str); 9] = [
    (1, "time can advance here, and the flattened net is shared with a same-named block-local in another block — that block can write it before this one reads it again"),
    (2, "it is read here before any write on this path"),
    (3, "the event control on this assignment reads it before any write on this path"),
    (4, "this assignment writes only PART of it (a select), so the rest is still unwritten"),
    (5, "a `fork` references it, and concurrent arms give no order in which a write precedes a read"),
    (6, "this call reads it (an `input` actual) before any write on this path"),
    (7, "this call could not be proven to leave it alone (an unresolved callee, a hierarchical or named-argument call, or a body that may reach the flattened net)"),
    (8, "this event control reads it before any write on this path"),
    (9, "this statement form is not modelled by the walk, and it references the local before any write on this path"),
];

pub fn reason(what: &str) -> u32 {
    let known = REASONS.iter().find(|(_, words)| *words == what);
    known.unwrap_or_else(|| panic!("a give-up that document 01 does not list: {what}")).0
}

/// The call of one copy of `da_stmt`: its types are its own, so each copy has this beside it.
macro_rules! asked_by {
    () => {
        pub fn asked(tree: &crate::asking::Tree, start: bool, sole: bool) -> Option<crate::answer::Answer> {
            use crate::answer::Answer;
            use da::{CallEffect, DaOut};
            let effect = |path: &ast::HierPath, _: &[ast::Expr], name: &str| match tree.effect(path, name) {
                0 => CallEffect::Inert,
                1 => CallEffect::Writes,
                2 => CallEffect::Reads,
                _ => CallEffect::Unknown,
            };
            let suspends = |path: &ast::HierPath| tree.suspends(path);
            let once = |stmt: &ast::Stmt| tree.runs_once(stmt);
            let ctx = da::DaCtx { out_writes: &effect, suspends: &suspends, loop_once: &once, sole };
            tree.limited(|| match da::da_stmt(&tree.stmt, start, &tree.local, &ctx) {
                Ok(DaOut::Falls(written)) => Answer::Falls(written),
                Ok(DaOut::Jumps) => Answer::Jumps,
                Err(stop) => Answer::GivesUp { reason: crate::asking::reason(stop.what), lo: stop.span.lo, hi: stop.span.hi },
            })
        }
    };
}
pub(crate) use asked_by;

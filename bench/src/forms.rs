//! The forms of statements and expressions that sheets are put together from, by the words of their kinds.

use oracle::generate::draft::{leaf, node, Node};

/// The names of every sheet, in byte order.
pub const NAMES: [&str; 23] = [
    "$break$1", "a", "b", "c", "clk", "d", "en", "err", "fb", "i", "mode", "n", "next", "poly", "q", "req", "rst", "sum", "t",
    "valid", "w", "x", "y",
];

/// The name whose reads and writes are asked about.
pub const LOCAL: &str = "x";

pub fn number(name: &str) -> u32 {
    NAMES.iter().position(|known| *known == name).unwrap_or_else(|| panic!("no name {name}")) as u32
}

fn path(name: &str) -> Node {
    node("path", 0, vec![node("seg", number(name), vec![])])
}

pub fn lit() -> Node {
    leaf("lit")
}

pub fn ident(name: &str) -> Node {
    node("ident", 0, vec![path(name)])
}

/// Any operator that always evaluates both its operands.
pub fn binary(left: Node, right: Node) -> Node {
    node("binary", 0, vec![left, right])
}

pub fn and(left: Node, right: Node) -> Node {
    node("binary", 1, vec![left, right])
}

pub fn or(left: Node, right: Node) -> Node {
    node("binary", 2, vec![left, right])
}

pub fn not(operand: Node) -> Node {
    node("unary", 1, vec![operand])
}

/// Any other unary operator.
pub fn unary(operand: Node) -> Node {
    node("unary", 0, vec![operand])
}

pub fn ternary(cond: Node, then: Node, other: Node) -> Node {
    node("ternary", 0, vec![cond, then, other])
}

pub fn bitsel(base: Node, index: Node) -> Node {
    node("bitsel", 0, vec![base, index])
}

pub fn concat(parts: Vec<Node>) -> Node {
    node("concat", 0, parts)
}

/// What a call or task does to the local: nothing, write it, or read it.
pub const INERT: u32 = 0;
pub const WRITES: u32 = 1;
pub const READS: u32 = 2;

pub fn call(name: &str, effect: u32, args: Vec<Node>) -> Node {
    node("call", effect, [vec![path(name)], args].concat())
}

/// A call that writes the local through its argument.
pub fn writing_call(name: &str) -> Node {
    call(name, WRITES, vec![ident(LOCAL)])
}

pub fn task(name: &str, effect: u32, args: Vec<Node>) -> Node {
    node("task", effect, [vec![path(name)], args].concat())
}

pub fn systask(args: Vec<Node>) -> Node {
    node("systask", 0, args)
}

fn target(name: &str) -> Node {
    node("lident", 0, vec![path(name)])
}

pub fn blocking(name: &str, value: Node) -> Node {
    node("blocking", 0, vec![leaf("none"), leaf("none"), target(name), value])
}

pub fn nonblocking(name: &str, value: Node) -> Node {
    node("nonblocking", 0, vec![leaf("none"), leaf("none"), target(name), value])
}

fn delay() -> Node {
    node("delay", 0, vec![lit()])
}

/// `name = #1 value;`
pub fn delayed(name: &str, value: Node) -> Node {
    node("blocking", 0, vec![delay(), leaf("none"), target(name), value])
}

/// `#1 stmt`
pub fn after_delay(stmt: Node) -> Node {
    node("delayctrl", 0, vec![delay(), stmt])
}

/// `@(posedge name) stmt`
pub fn at_edge(name: &str, stmt: Node) -> Node {
    let event = node("event", 0, vec![ident(name), leaf("none")]);
    node("eventctrl", 0, vec![node("list", 0, vec![event]), stmt])
}

pub fn if_then(cond: Node, then: Node) -> Node {
    node("if", 0, vec![cond, then, leaf("none")])
}

pub fn if_else(cond: Node, then: Node, other: Node) -> Node {
    node("if", 0, vec![cond, then, other])
}

pub fn block(stmts: Vec<Node>) -> Node {
    node("block", 0, stmts)
}

pub fn case(scrutinee: Node, arms: Vec<Node>) -> Node {
    node("case", 0, [vec![scrutinee], arms].concat())
}

/// An arm with this many labels, all of them numbers.
pub fn arm(labels: usize, stmt: Node) -> Node {
    node("match", 0, [vec![stmt], vec![lit(); labels]].concat())
}

pub fn default(stmt: Node) -> Node {
    node("default", 0, vec![stmt])
}

/// `for (name = 0; name < 8; name = name + 1) body`, which always runs at least once.
pub fn for_loop(name: &str, body: Node) -> Node {
    let init = blocking(name, lit());
    let step = blocking(name, binary(ident(name), lit()));
    node("for", ONCE, vec![init, binary(ident(name), lit()), step, body])
}

/// `for (;; step)` without a body.
pub fn for_step(step: Node) -> Node {
    node("for", ONCE, vec![null(), lit(), step, null()])
}

/// Whether a loop always runs at least once.
pub const MAYBE: u32 = 0;
pub const ONCE: u32 = 1;

pub fn while_loop(runs: u32, cond: Node, body: Node) -> Node {
    node("while", runs, vec![cond, body])
}

pub fn repeat_loop(count: Node, body: Node) -> Node {
    node("repeat", MAYBE, vec![count, body])
}

/// `break;`, as the parser has it.
pub fn break_loop() -> Node {
    node("disable", 0, vec![path("$break$1")])
}

pub fn return_none() -> Node {
    node("return", 0, vec![leaf("none")])
}

pub fn null() -> Node {
    leaf("null")
}

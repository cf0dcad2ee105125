//! Sheets at random: trees grown along the table of kinds, with kinds, mentions and sizes weighted anew for each sheet.

use super::draft::{is_jump, kind_of, leaf, node, Draft, Node, Spans};
use crate::random::Random;
use crate::reading::kinds::{is_of, Class, Item, Side, KINDS};
use std::collections::BTreeSet;

/// The deepest row that may still hold a path with a segment.
const DEEPEST: usize = 98;

struct Grower<'a> {
    random: &'a mut Random,
    names: usize,
    local: usize,
    /// The names of loop jumps.
    jumps: Vec<usize>,
    weights: [usize; KINDS.len()],
    /// Of a hundred paths, how many begin with the local.
    mention: usize,
    /// How many rows are still wanted.
    left: usize,
}

/// Kinds that end a branch, for when enough rows are there, and those of them that hold nothing.
const SMALL: [&str; 12] =
    ["null", "disable", "return", "systask", "task", "lit", "ident", "lident", "star", "default", "match", "block"];
const TINY: [&str; 6] = ["null", "systask", "lit", "lerror", "star", "block"];

impl Grower<'_> {
    fn seg(&mut self, name: usize) -> Node {
        node("seg", name as u32, vec![])
    }

    fn name(&mut self) -> usize {
        self.random.below(self.names)
    }

    /// A path whose first segment is the local as often as this sheet wants.
    fn path(&mut self) -> Node {
        let count = *self.random.pick(&[1, 1, 1, 1, 1, 1, 2, 2, 3, 0]);
        let mut segments = Vec::new();
        for i in 0..count {
            let local = i == 0 && self.random.percent(self.mention);
            let name = if local { self.local } else { self.name() };
            segments.push(self.seg(name));
        }
        self.left = self.left.saturating_sub(1 + segments.len());
        node("path", 0, segments)
    }

    /// The path of a disable: most often a loop jump, where a name for it is there.
    fn target(&mut self) -> Node {
        if self.jumps.is_empty() || self.random.percent(25) {
            return self.path();
        }
        let jump = *self.random.pick(&self.jumps);
        let jump = self.seg(jump);
        if self.random.percent(90) {
            return node("path", 0, vec![jump]);
        }
        let other = self.name();
        let other = self.seg(other);
        node("path", 0, if self.random.percent(50) { vec![jump, other] } else { vec![other, jump] })
    }

    fn side(&mut self, kind: usize) -> u32 {
        match KINDS[kind].side {
            Side::UpTo(most) => self.random.below(most as usize + 1) as u32,
            Side::Name => self.name() as u32,
        }
    }

    /// The kinds of a class to choose from, fewer where a branch is to end.
    fn open_kinds(&self, class: Class, depth: usize) -> Vec<usize> {
        let all: Vec<usize> = (0..KINDS.len()).filter(|kind| is_of(*kind, class)).collect();
        let words: &[&str] = match depth {
            _ if depth > DEEPEST => &TINY,
            _ if depth == DEEPEST || self.left == 0 => &SMALL,
            _ => return all,
        };
        let few: Vec<usize> = all.iter().copied().filter(|kind| words.contains(&KINDS[*kind].word)).collect();
        if few.is_empty() {
            all
        } else {
            few
        }
    }

    fn kind(&mut self, class: Class, depth: usize) -> usize {
        let open = self.open_kinds(class, depth);
        let all: usize = open.iter().map(|kind| self.weights[*kind]).sum();
        if all == 0 {
            return *self.random.pick(&open);
        }
        let mut at = self.random.below(all);
        let chosen = open.iter().find(|kind| {
            let here = at < self.weights[**kind];
            at = at.wrapping_sub(self.weights[**kind]);
            here
        });
        *chosen.expect("below the sum of the weights")
    }

    fn grow(&mut self, class: Class, depth: usize) -> Node {
        if class == Class::Path {
            return self.path();
        }
        let kind = self.kind(class, depth);
        self.grow_kind(kind, depth)
    }

    fn grow_kind(&mut self, kind: usize, depth: usize) -> Node {
        self.left = self.left.saturating_sub(1);
        let side = self.side(kind);
        if KINDS[kind].word == "disable" {
            return Node { kind, side, children: vec![self.target()] };
        }
        let mut children = Vec::new();
        for item in KINDS[kind].children {
            match *item {
                Item::One(class) => children.push(self.grow(class, depth + 1)),
                Item::Maybe(class) => {
                    let absent = self.left == 0 || depth >= DEEPEST || self.random.percent(55);
                    children.push(if absent { leaf("none") } else { self.grow(class, depth + 1) });
                }
                Item::Any(class) => {
                    let most = if self.left == 0 || depth >= DEEPEST { 0 } else { 4 };
                    for _ in 0..self.random.between(0, most) {
                        children.push(self.grow(class, depth + 1));
                    }
                }
            }
        }
        Node { kind, side, children }
    }

    /// A block that goes on until its rows are there.
    fn long_block(&mut self) -> Node {
        let mut children = Vec::new();
        while self.random.percent(20) {
            children.push(self.grow(Class::Decl, 2));
        }
        while self.left > 0 {
            children.push(self.grow(Class::S, 2));
        }
        node("block", 0, children)
    }

    /// Rows within rows, to this depth, each with as little beside it as its kind allows.
    fn deep(&mut self, class: Class, depth: usize, deepest: usize) -> Node {
        if depth >= deepest {
            self.left = 0;
            return self.grow(class, depth);
        }
        let kind = self.kind(class, depth);
        let side = self.side(kind);
        let nests = |class: &Class| matches!(class, Class::S | Class::E | Class::L | Class::Arm);
        let mut children = Vec::new();
        let mut went = false;
        for item in KINDS[kind].children {
            let (Item::One(of) | Item::Maybe(of) | Item::Any(of)) = *item;
            if !went && nests(&of) && self.random.percent(70) {
                went = true;
                children.push(self.deep(of, depth + 1, deepest));
            } else if let Item::One(of) = *item {
                self.left = 0;
                children.push(self.grow(of, depth + 1));
            } else if let Item::Maybe(_) = *item {
                children.push(leaf("none"));
            }
        }
        self.left = 1;
        Node { kind, side, children }
    }

    /// Operators that stop early, nested to the left or to the right, with calls that write and reads among them.
    fn chain(&mut self, length: usize) -> Node {
        let mut whole = self.operand();
        for _ in 0..length {
            let other = self.operand();
            let side = *self.random.pick(&[1, 1, 1, 2, 2, 0]);
            let pair = if self.random.percent(80) { vec![whole, other] } else { vec![other, whole] };
            whole = node("binary", side, pair);
            if self.random.percent(10) {
                whole = node("unary", 1, vec![whole]);
            }
        }
        whole
    }

    fn operand(&mut self) -> Node {
        if self.random.percent(30) {
            let side = self.random.below(4) as u32;
            let path = self.path();
            let arg = self.seg(self.local);
            let read = node("ident", 0, vec![node("path", 0, vec![arg])]);
            return node("call", side, vec![path, read]);
        }
        node("ident", 0, vec![self.path()])
    }
}

/// Names for a sheet: some that begin as loop jumps do, some that nearly do, some at the limits, in byte order.
fn names(random: &mut Random) -> Vec<Vec<u8>> {
    const POOL: [&str; 24] = [
        "$break$1",
        "$break$",
        "$continue$2",
        "$continue$",
        "$break",
        "$continue",
        "$breaks$1",
        "$Break$1",
        "a$break$1",
        "x$continue$",
        "a",
        "b",
        "c",
        "f",
        "g",
        "w",
        "x",
        "y",
        "x.y",
        "!",
        "~",
        "=",
        "name=",
        "A",
    ];
    let count = match random.below(10) {
        0 => random.between(1, 2),
        1 => random.between(20, 500),
        _ => random.between(3, 12),
    };
    let mut found: BTreeSet<Vec<u8>> = BTreeSet::new();
    while found.len() < count {
        if random.percent(70) && found.len() < POOL.len() {
            found.insert(random.pick(&POOL).as_bytes().to_vec());
        } else {
            let size = *random.pick(&[1, 2, 3, 5, 8, 63, 64]);
            found.insert((0..size).map(|_| random.between(33, 126) as u8).collect());
        }
    }
    found.into_iter().collect()
}

/// Weights for the kinds: some out, some often.
fn weights(random: &mut Random) -> [usize; KINDS.len()] {
    let mut weights = [0; KINDS.len()];
    for weight in &mut weights {
        *weight = *random.pick(&[0, 1, 1, 2, 4]);
    }
    for word in ["blocking", "block", "if", "ident", "lident", "call", "binary", "lit", "list", "match"] {
        weights[kind_of(word)] += random.below(6);
    }
    // Forms that end most walks are rare, or no later row is ever looked at.
    for word in ["randstmt", "trigger", "waitfork", "passign", "deassign", "force", "release", "cover", "error", "opaque", "fork"]
    {
        weights[kind_of(word)] = usize::from(random.percent(8));
    }
    weights
}

fn rows_wanted(random: &mut Random) -> usize {
    match random.below(100) {
        0..=39 => random.between(1, 12),
        40..=79 => random.between(12, 60),
        80..=95 => random.between(60, 300),
        _ => random.between(300, 1700),
    }
}

fn grown(random: &mut Random, names: &[Vec<u8>], local: usize) -> Node {
    let weights = weights(random);
    let mention = *random.pick(&[0, 2, 2, 5, 5, 10, 20, 40, 70]);
    let left = rows_wanted(random);
    let jumps = (0..names.len()).filter(|i| is_jump(&names[*i])).collect();
    let form = random.below(20);
    let mut grower = Grower { random, names: names.len(), local, jumps, weights, mention, left };
    match form {
        0 => {
            let deepest = grower.random.between(50, 100);
            grower.left = 1;
            grower.deep(Class::S, 1, deepest)
        }
        1 => {
            let length = grower.random.between(1, 13);
            let cond = grower.chain(length);
            let then = grower.grow(Class::S, 2);
            let after = grower.grow(Class::S, 2);
            node("if", 0, vec![cond, then, after])
        }
        2..=12 => grower.long_block(),
        _ => grower.grow(Class::S, 1),
    }
}

/// A sheet that every check passes.
pub fn sheet(random: &mut Random) -> Draft {
    loop {
        let names = names(random);
        let local = random.below(names.len());
        let root = grown(random, &names, local);
        let spans = match random.below(20) {
            0 => Spans::Zero,
            1..=2 => Spans::Repeating(random.next()),
            3..=5 => Spans::Any(random.next()),
            _ => Spans::Apart,
        };
        let start = u32::from(random.percent(25));
        let sole = u32::from(random.percent(60));
        let draft = Draft { names, local, start, sole, spans, root };
        if draft.root.rows() <= 2000 && draft.root.depth() <= 100 && draft.text().len() <= 65_536 {
            return draft;
        }
    }
}

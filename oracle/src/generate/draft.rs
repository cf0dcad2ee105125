//! Sheets before they are text: a tree of rows with its names.

use crate::random::Random;
use crate::reading::kinds::{numbered, KINDS};

/// A row and the rows that stand in it.
#[derive(Clone, PartialEq, Eq, Debug)]
pub struct Node {
    pub kind: usize,
    pub side: u32,
    pub children: Vec<Node>,
}

pub fn kind_of(word: &str) -> usize {
    numbered(word.as_bytes()).unwrap_or_else(|| panic!("no kind {word}"))
}

pub fn node(word: &str, side: u32, children: Vec<Node>) -> Node {
    Node { kind: kind_of(word), side, children }
}

pub fn leaf(word: &str) -> Node {
    node(word, 0, Vec::new())
}

impl Node {
    pub fn rows(&self) -> usize {
        1 + self.children.iter().map(Node::rows).sum::<usize>()
    }

    pub fn depth(&self) -> usize {
        1 + self.children.iter().map(Node::depth).max().unwrap_or(0)
    }

    /// The node with this row number.
    pub fn at_mut(&mut self, mut row: usize) -> &mut Node {
        let mut node = self;
        while row > 0 {
            row -= 1;
            let mut child = 0;
            while row >= node.children[child].rows() {
                row -= node.children[child].rows();
                child += 1;
            }
            node = &mut node.children[child];
        }
        node
    }
}

/// "1 if it begins `$break$` or `$continue$`."
pub fn is_jump(name: &[u8]) -> bool {
    name.starts_with(b"$break$") || name.starts_with(b"$continue$")
}

/// What the rows of a sheet carry as lo and hi.
#[derive(Clone, Copy, PartialEq, Eq, Debug)]
pub enum Spans {
    /// No two rows have a number in common.
    Apart,
    Zero,
    /// Few numbers, so that spans repeat.
    Repeating(u64),
    /// Any number, the largest among them.
    Any(u64),
}

impl Spans {
    fn of_rows(self, count: usize) -> Vec<(u32, u32)> {
        match self {
            Spans::Apart => (0..count as u32).map(|i| (2 * i + 1, 2 * i + 2)).collect(),
            Spans::Zero => vec![(0, 0); count],
            Spans::Repeating(seed) => {
                let mut random = Random::new(seed, 0);
                (0..count).map(|_| (random.below(3) as u32, random.below(3) as u32)).collect()
            }
            Spans::Any(seed) => {
                let mut random = Random::new(seed, 0);
                let mut any = || match random.below(8) {
                    0 => u32::MAX,
                    1 => 0,
                    _ => random.next() as u32,
                };
                (0..count).map(|_| (any(), any())).collect()
            }
        }
    }
}

#[derive(Clone, Debug)]
pub struct Draft {
    pub names: Vec<Vec<u8>>,
    pub local: usize,
    pub start: u32,
    pub sole: u32,
    pub spans: Spans,
    pub root: Node,
}

/// Puts the rows of a node in preorder: kind, side and end of each.
fn put_rows(lines: &mut Vec<(usize, u32, usize)>, node: &Node) {
    let row = lines.len();
    lines.push((node.kind, node.side, 0));
    for child in &node.children {
        put_rows(lines, child);
    }
    lines[row].2 = lines.len();
}

impl Draft {
    /// The sheet, line by line.
    pub fn text(&self) -> Vec<u8> {
        let mut out = format!("sheet=1\nnames={}\n", self.names.len()).into_bytes();
        for name in &self.names {
            out.extend(b"name=");
            out.extend(name);
            out.push(10);
        }
        let mut rows = Vec::new();
        put_rows(&mut rows, &self.root);
        let header = format!("local={}\nstart={}\nsole={}\nrows={}\n", self.local, self.start, self.sole, rows.len());
        out.extend(header.as_bytes());
        for ((kind, side, end), (lo, hi)) in rows.iter().zip(self.spans.of_rows(rows.len())) {
            out.extend(format!("row={} {side} {lo} {hi} {end}\n", KINDS[*kind].word).as_bytes());
        }
        out
    }
}

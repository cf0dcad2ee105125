//! What the sentences on paths ask about a row: its kind, its side, the names of its path, and whether it refers to the local.

use crate::path::Table;
use crate::reading::kinds::KINDS;
use crate::reading::tables::children_of;

pub struct View<'a>(pub Table<'a>);

impl View<'_> {
    pub fn word(&self, i: usize) -> &'static str {
        KINDS[self.0.rows[i].kind].word
    }

    pub fn side(&self, i: usize) -> u32 {
        self.0.rows[i].side
    }

    pub fn children(&self, i: usize) -> Vec<usize> {
        children_of(self.0.rows, i)
    }

    /// The name numbers of the path that is the first child of a row.
    pub fn segments(&self, i: usize) -> Vec<usize> {
        self.children(i + 1).into_iter().map(|segment| self.side(segment) as usize).collect()
    }

    /// A path "beginning with the local".
    pub fn begins(&self, i: usize) -> bool {
        self.segments(i).first() == Some(&self.0.local)
    }

    /// "The plain local is an lident whose path is one segment, the local."
    pub fn is_plain_local(&self, i: usize) -> bool {
        self.word(i) == "lident" && self.segments(i) == [self.0.local]
    }

    /// "A loop jump, a disable whose path is one segment with jump mark 1."
    pub fn is_loop_jump(&self, i: usize) -> bool {
        matches!(self.segments(i)[..], [name] if self.0.marks[name])
    }

    /// "To refer is to be or hold an ident, call or lident whose path begins with the local, or an opaque row."
    pub fn refers(&self, i: usize) -> bool {
        (i..self.0.rows[i].end).any(|row| match self.word(row) {
            "ident" | "call" | "lident" => self.begins(row),
            word => word == "opaque",
        })
    }
}

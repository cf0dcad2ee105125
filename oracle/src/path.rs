//! What a path tells, and what may be asked of its listing: plain data, for every listing of runs.

use crate::sheet::Row;

/// "The list of the reads and writes named here, all writes whole"; a fork or unmodelled form, which "counts as a read", is told apart
/// from one. Choices are those that Paper 6 numbers.
#[derive(Clone, Copy, PartialEq, Eq, PartialOrd, Ord, Hash, Debug)]
pub enum Event {
    Read,
    Write,
    Outside,
    Choice(usize),
}

/// How a run ends: before what stands after it, at a return or where nothing goes on, or by a loop jump that no loop has caught yet, out of
/// the loop or only out of its round.
#[derive(Clone, Copy, PartialEq, Eq, PartialOrd, Ord, Hash, Debug)]
pub enum Ending {
    Falls,
    Stops,
    Leaves,
    Again,
}

/// Runs are sorted by their events, then by how they end, each in the order in which it is declared here.
#[derive(Clone, PartialEq, Eq, PartialOrd, Ord, Hash, Debug)]
pub struct Run {
    pub events: Vec<Event>,
    pub ending: Ending,
}

/// "A truth is 0 false, 1 true, 2 unknown."
#[derive(Clone, Copy, PartialEq, Eq, Hash, Debug)]
pub enum Truth {
    False = 0,
    True = 1,
    Unknown = 2,
}

/// Those of document 01, "freely true or false", or with Paper 2's: "From here a condition may be unknown".
#[derive(Clone, Copy, PartialEq, Eq, Debug)]
pub enum Truths {
    Two,
    Three,
}

/// The order in which a path evaluates children of which none waits for another.
#[derive(Clone, Copy, PartialEq, Eq, Hash, Debug)]
pub enum Order {
    /// "Everything else evaluates its children in row order."
    Row,
    /// Free order, as docs/DECISIONS.md, 115 has it: "An order is a permutation of whole children."
    Free,
}

/// What row 0 is listed as: an expression whose truth is not asked, the target of an assignment, an expression whose truth is asked and
/// comes out so, or a statement with at most so many rounds of each loop, beside the one that a loop with side 1 always runs.
#[derive(Clone, Copy, PartialEq, Eq, Hash, Debug)]
pub enum Way {
    Value,
    Target,
    Truth(Truth),
    Statement(usize),
}

/// Rows, the number of the local's name, and whether each name has jump mark 1.
#[derive(Clone, Copy)]
pub struct Table<'a> {
    pub rows: &'a [Row],
    pub local: usize,
    pub marks: &'a [bool],
}

/// "Jump mark: 1 if it begins `$break$` or `$continue$`."
pub fn marks(names: &[String]) -> Vec<bool> {
    names.iter().map(|name| name.starts_with("$break$") || name.starts_with("$continue$")).collect()
}

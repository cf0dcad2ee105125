//! What sheets and lent tables say, and refusals: plain data, for every reading of them.

#[derive(Clone, Copy, PartialEq, Eq, Debug)]
pub struct Row {
    pub kind: usize,
    pub side: u32,
    pub lo: u32,
    pub hi: u32,
    pub end: usize,
}

/// What a sheet says: its names, local, start and sole, and its rows.
#[derive(Clone, PartialEq, Eq, Debug)]
pub struct Sheet {
    pub names: Vec<String>,
    pub local: usize,
    pub start: bool,
    pub sole: bool,
    pub rows: Vec<Row>,
}

/// A record and two tables, whoever wrote them.
#[derive(Clone, PartialEq, Eq, Debug)]
pub struct State {
    pub names: u64,
    pub rows: u64,
    pub local: u64,
    pub start: u64,
    pub sole: u64,
    pub row_table: Vec<u32>,
    pub name_table: Vec<u32>,
}

/// A refusal, with its number and place: "a line number from 1", or in asking "the row", or 0.
#[derive(Clone, Copy, PartialEq, Eq, Debug)]
pub struct Refused {
    pub number: u32,
    pub place: usize,
}

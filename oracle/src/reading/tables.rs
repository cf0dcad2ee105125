//! What document 01 asks of rows: refusals 5 and 6 of a row's own numbers, 7 and 8 of ends and depth, 9 of children.

use super::kinds::{fit, is_of, Class, Side, KINDS};
use crate::sheet::Row;

/// A refusal's number and the row that it is for.
pub type Fault = (u32, usize);

/// 6: "side number not allowed for the kind"; a name number is below the count of names.
pub fn side_allowed(kind: usize, side: u32, names: usize) -> bool {
    match KINDS[kind].side {
        Side::UpTo(most) => side <= most,
        Side::Name => (side as usize) < names,
    }
}

/// "The row it stands in: the last earlier row whose end is above this number."
fn stands_in(rows: &[Row], i: usize) -> Option<usize> {
    (0..i).rev().find(|earlier| rows[*earlier].end > i)
}

/// 7: "wrong end", and 8: "a row deeper than 100", in row order, 7 before 8.
pub fn ends(rows: &[Row]) -> Option<Fault> {
    let mut depth = vec![1; rows.len()];
    for (i, row) in rows.iter().enumerate() {
        if i == 0 {
            if row.end != rows.len() {
                return Some((7, 0));
            }
            continue;
        }
        let outer = stands_in(rows, i).expect("row 0 ends after every row");
        if row.end <= i || row.end > rows[outer].end {
            return Some((7, i));
        }
        depth[i] = depth[outer] + 1;
        if depth[i] > 100 {
            return Some((8, i));
        }
    }
    None
}

/// The rows that stand directly in a row, where ends are right.
pub fn children_of(rows: &[Row], i: usize) -> Vec<usize> {
    let mut found = Vec::new();
    let mut child = i + 1;
    while child < rows[i].end {
        found.push(child);
        child = rows[child].end;
    }
    found
}

/// 9: "children that don't fit the kind; row 0 not a statement", in row order.
pub fn children(rows: &[Row]) -> Option<Fault> {
    for (i, row) in rows.iter().enumerate() {
        let kinds: Vec<usize> = children_of(rows, i).iter().map(|child| rows[*child].kind).collect();
        if !fit(KINDS[row.kind].children, &kinds) || (i == 0 && !is_of(row.kind, Class::S)) {
            return Some((9, i));
        }
    }
    None
}

//! The premises of the acceptance rule (demand 3) on rows, read a second time, with document 01's words for them.

use crate::path::Table;
use crate::runs::view::View;

/// Where a row stands: in the body of a loop, and under an init or step.
#[derive(Clone, Copy)]
struct Place {
    in_body: bool,
    in_header: bool,
}

/// The first row, in row order, at which a premise fails.
pub fn first_failing(table: Table) -> Option<usize> {
    let view = View(table);
    let mut places = vec![Place { in_body: false, in_header: false }; table.rows.len()];
    for i in 0..table.rows.len() {
        for (number, child) in view.children(i).into_iter().enumerate() {
            places[child] = place(view.word(i), number, places[i]);
        }
        if !holds(&view, i, places[i]) {
            return Some(i);
        }
    }
    None
}

/// The place of a row's child. A loop's body is its last child; a for's init and step are its first and third.
fn place(word: &str, number: usize, outer: Place) -> Place {
    let is_body = matches!((word, number), ("for", 3) | ("while" | "repeat", 1) | ("forever", 0));
    let is_header = matches!((word, number), ("for", 0 | 2));
    Place { in_body: outer.in_body || is_body, in_header: outer.in_header || is_header }
}

/// The premises that speak of a row of this kind.
fn holds(view: &View, i: usize, place: Place) -> bool {
    let quiet = |child: usize| !view.refers(child);
    let children = view.children(i);
    match view.word(i) {
        // Disables "are only loop jumps in loop bodies"; "a disable under an init or step, at any depth, breaks its premise".
        "disable" => view.is_loop_jump(i) && place.in_body && !place.in_header,
        // "No inner declaration names the local"; "an inner declaration is a decl".
        "decl" => view.side(i) as usize != view.0.local,
        // "Nonblocking timing", which is "delay and intra", never refers to it, and its target is the plain local or doesn't either.
        "nonblocking" => quiet(children[0]) && quiet(children[1]) && (view.is_plain_local(children[2]) || quiet(children[2])),
        // An "iff" never refers to it.
        "event" => quiet(children[1]),
        _ => true,
    }
}

//! Whether a logged run is a path of its sheet, in the order that the simulator takes.
//!
//! What document 01 evaluates in row order, and IEEE 1800 leaves open, is taken in any order here, each child as a whole: operands of an
//! operator that is neither && nor ||, parts, arguments, selects, the values of a delay, events, both arms after an unknown condition; and
//! of an assignment the right side, delay, event and selects, all before the write. Of a nonblocking one the right side is evaluated, and
//! each of the others or not. Labels are compared in row order up to the first that matches. All else is in turn.

mod expressions;
mod statements;

use crate::logs::{End, Event, Run, What};
use oracle::path::Table;
use oracle::runs::view::View;
use std::collections::BTreeSet;

/// How many of a run's events are told, in each way to read them.
type Told = BTreeSet<usize>;

/// Where a statement may have come to, by how it ends.
#[derive(Default)]
struct Ends {
    falls: Told,
    stops: Told,
    leaves: Told,
    again: Told,
}

/// The order of what IEEE 1800 leaves open.
#[derive(Clone, Copy, PartialEq, Eq)]
pub enum Order {
    Any,
    Rows,
}

struct Follower<'a> {
    view: View<'a>,
    events: &'a [Event],
    order: Order,
}

/// Whether the run is a whole path: it comes to its end, to a return, or where nothing goes on.
pub fn is_path(table: Table, run: &Run, order: Order) -> bool {
    let follower = Follower { view: View(table), events: &run.events, order };
    let ends = follower.statement(0, Told::from([0]));
    let all = run.events.len();
    match run.end {
        End::Over => ends.falls.contains(&all) || ends.stops.contains(&all),
        End::Waits => ends.stops.contains(&all),
        End::Wrong => false,
    }
}

impl Follower<'_> {
    /// After one more event: this one, at this row.
    fn event(&self, told: &Told, row: usize, what: impl Fn(What) -> bool) -> Told {
        let next = |at: &&usize| self.events.get(**at).is_some_and(|event| event.row == row && what(event.what));
        told.iter().filter(next).map(|at| at + 1).collect()
    }

    fn read(&self, told: &Told, row: usize) -> Told {
        self.event(told, row, |what| matches!(what, What::Read { .. }))
    }

    fn write(&self, told: &Told, row: usize) -> Told {
        self.event(told, row, |what| what == What::Write)
    }
}

/// One or the other.
fn either(mut one: Told, other: Told) -> Told {
    one.extend(other);
    one
}

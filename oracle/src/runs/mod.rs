//! The runs of a row, listed: document 01, "How a path runs", with Paper 2's third truth, Paper 6's numbers of choices and free order
//! (docs/DECISIONS.md, 115), read a second time. It is written from these alone, so that the definitions that the acceptance rule speaks
//! of can be compared with another reading.

mod expressions;
mod lists;
mod statements;
pub mod view;

use crate::path::{Order, Run, Table, Truth, Truths, Way};
use crate::random::Random;
use lists::Lists;
use view::View;

/// Lists the runs of rows, by their numbers.
pub struct Lister<'a> {
    view: View<'a>,
    truths: Truths,
    order: Order,
    /// How many rounds of a loop are listed at most, beside the one that a loop with side 1 always runs.
    rounds: usize,
    lists: Lists,
}

impl<'a> Lister<'a> {
    /// All runs.
    pub fn whole(table: Table<'a>, truths: Truths, order: Order, rounds: usize) -> Lister<'a> {
        Lister { view: View(table), truths, order, rounds, lists: Lists::whole() }
    }

    /// Over three truths, wherever there are more than so many, so many of them.
    pub fn sampled(table: Table<'a>, order: Order, rounds: usize, most: usize, random: Random) -> Lister<'a> {
        Lister { view: View(table), truths: Truths::Three, order, rounds, lists: Lists::sampled(most, random) }
    }

    /// Of children that document 01 evaluates in row order: in that order, or in any.
    fn ordered(&self, lists: impl IntoIterator<Item = Vec<Run>>) -> Vec<Run> {
        match self.order {
            Order::Row => self.lists.in_turn(lists),
            Order::Free => self.lists.in_any_order(lists.into_iter().collect()),
        }
    }

    /// Those of an expression whose truth is asked and comes out so.
    pub fn asked(&self, i: usize, truth: Truth) -> Vec<Run> {
        let outcomes = self.outcomes(i);
        match truth {
            Truth::True => outcomes.is_true,
            Truth::False => outcomes.is_false,
            Truth::Unknown => outcomes.is_unknown,
        }
    }
}

/// All runs of row 0.
pub fn listed(table: Table, way: Way, truths: Truths, order: Order) -> Vec<Run> {
    let lister = |rounds| Lister::whole(table, truths, order, rounds);
    match way {
        Way::Value => lister(0).value(0),
        Way::Target => lister(0).store(0),
        Way::Truth(truth) => lister(0).asked(0, truth),
        Way::Statement(rounds) => lister(rounds).statement(0),
    }
}

/// So many runs of row 0 as a statement, over three truths.
pub fn sampled(table: Table, order: Order, rounds: usize, most: usize, random: Random) -> Vec<Run> {
    Lister::sampled(table, order, rounds, most, random).statement(0)
}

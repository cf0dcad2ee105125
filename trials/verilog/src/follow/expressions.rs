//! Expressions and targets, followed.

use super::{either, Follower, Order, Told};
use crate::logs::What;

/// A part of something that is taken in any order.
#[derive(Clone, Copy)]
pub struct Part {
    pub row: usize,
    /// Whether it may be left out.
    pub may_lack: bool,
}

impl Follower<'_> {
    /// An expression, a row of expressions or a target, whose truth is not asked.
    pub(super) fn value(&self, i: usize, told: &Told) -> Told {
        if told.is_empty() {
            return Told::new();
        }
        let at = self.view.children(i);
        match (self.view.word(i), self.view.side(i)) {
            ("ident", _) if self.view.begins(i) => self.read(told, i),
            ("opaque", _) => self.read(told, i),
            ("call", 1) => self.write(told, i),
            // The read of a call's own path stands for the path.
            ("path", _) if i > 0 && self.is_read_by_its_path(i - 1) => self.read(told, i - 1),
            ("ternary", _) => self.conditional(&at, told),
            ("binary" | "unary", 1 | 2) => self.outcomes(i, told).into_iter().fold(Told::new(), either),
            _ => self.in_any_order(&at, told),
        }
    }

    fn is_read_by_its_path(&self, i: usize) -> bool {
        self.view.word(i) == "call" && self.view.begins(i)
    }

    fn in_any_order(&self, rows: &[usize], told: &Told) -> Told {
        let parts: Vec<Part> = rows.iter().map(|row| Part { row: *row, may_lack: false }).collect();
        self.parts(&parts, told)
    }

    /// Parts in any order, or one after the other, by which of them are taken.
    pub(super) fn parts(&self, parts: &[Part], told: &Told) -> Told {
        let parts: Vec<&Part> = parts.iter().filter(|part| self.tells(part.row)).collect();
        let mut after = vec![Told::new(); 1 << parts.len()];
        after[0] = told.clone();
        for taken in 0..after.len() {
            let is_next = |number: usize| match self.order {
                Order::Any => taken & (1 << number) == 0,
                Order::Rows => taken < 1 << number,
            };
            for (number, part) in parts.iter().enumerate().filter(|(number, _)| is_next(*number)) {
                let more = self.value(part.row, &after[taken]);
                after[taken | 1 << number].extend(more);
            }
        }
        let is_enough =
            |taken: &usize| parts.iter().enumerate().all(|(number, part)| part.may_lack || taken & (1 << number) != 0);
        (0..after.len()).filter(is_enough).flat_map(|taken| after[taken].clone()).collect()
    }

    /// Whether a row has an event whenever it is evaluated; all others have none.
    fn tells(&self, i: usize) -> bool {
        match (self.view.word(i), self.view.side(i)) {
            ("ident" | "call", _) if self.view.begins(i) => true,
            ("opaque" | "ternary", _) | ("call", 1) | ("binary" | "unary", 1 | 2) => true,
            ("path", _) => i > 0 && self.is_read_by_its_path(i - 1),
            _ => self.view.children(i).into_iter().any(|child| self.tells(child)),
        }
    }

    fn conditional(&self, at: &[usize], told: &Told) -> Told {
        let [no, yes, unknown] = self.outcomes(at[0], told);
        let one = either(self.value(at[1], &yes), self.value(at[2], &no));
        either(one, self.in_any_order(&at[1..], &unknown))
    }

    /// An expression whose truth is asked, by how it comes out: false, true, unknown.
    pub(super) fn outcomes(&self, i: usize, told: &Told) -> [Told; 3] {
        let at = self.view.children(i);
        match (self.view.word(i), self.view.side(i)) {
            ("binary", side @ (1 | 2)) => self.short(at[0], at[1], side == 1, told),
            ("unary", 1) => {
                let [no, yes, unknown] = self.outcomes(at[0], told);
                [yes, no, unknown]
            }
            ("paren", _) => self.outcomes(at[0], told),
            _ => {
                let value = self.value(i, told);
                [0, 1, 2].map(|truth| self.event(&value, i, |what| what == What::Truth(truth)))
            }
        }
    }

    /// && or ||. A left that is false, or true, settles it; after an unknown one only a right that is the same does.
    fn short(&self, left: usize, right: usize, is_and: bool, told: &Told) -> [Told; 3] {
        let sides = |[no, yes, unknown]: [Told; 3]| if is_and { (no, yes, unknown) } else { (yes, no, unknown) };
        let (settled, open, unknown) = sides(self.outcomes(left, told));
        let (settled_after_open, open_after_open, unknown_after_open) = sides(self.outcomes(right, &open));
        let (settled_after_unknown, open_after_unknown, unknown_after_unknown) = sides(self.outcomes(right, &unknown));
        let settled = either(either(settled, settled_after_open), settled_after_unknown);
        let unknown = either(either(unknown_after_open, open_after_unknown), unknown_after_unknown);
        if is_and {
            [settled, open_after_open, unknown]
        } else {
            [open_after_open, settled, unknown]
        }
    }
}
